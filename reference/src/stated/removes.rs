//! Runs with Removes (document 02, W5), worked out by hand: the calls in the
//! numbers of a list with their answers, what Backlog gives along them, two of
//! them as sheets with their histories, one with its images, which Removes are
//! refused, and which bytes of a Remove are taken.

use super::images::ByteAt;
use super::lists::{delete, insert, moves, steps, told, waits, Turn};
use super::relaxed::{counted, empty, end, entry, filed, processor, refused, relaxed, Counted};

/// Every run.
pub fn runs() -> Vec<Counted> {
    let mut all = Vec::new();
    for (processors, p, q) in [(2, 0, 1), (2, 1, 0), (4, 3, 1), (16, 15, 7), (16, 0, 15)] {
        all.extend(alone(processors, p, q));
        all.extend(against_each_other(processors, p, q));
    }
    for (processors, p, q) in [(2, 0, 1), (2, 1, 0), (16, 9, 15)] {
        all.extend(against_walks(processors, p, q));
        all.extend(beside_others(processors, p, q));
    }
    all
}

fn alone(processors: u32, p: u32, q: u32) -> [Counted; 5] {
    let one = format!("{q} takes back what {p} filed, and finds it no more");
    let one_spans = [(0, 9, 0), (10, 14, 1), (15, 33, 0)];
    let keys = format!("{q} looks for other keys than that of {p}, and then for that");
    let keys_spans = [(0, 9, 0), (10, 32, 1), (33, 45, 0)];
    let early = format!("{q} begins before {p} links, before it answers, and after it");
    let early_spans = [(0, 17, 0), (18, 25, 1), (26, 38, 0)];
    let coming = format!("{q} looks for a ticket that {p} gets later");
    let coming_spans = [(0, 10, 0), (11, 21, 1), (22, 34, 0)];
    let two = format!("{q} takes back what {p} filed on two levels");
    let two_spans = [(0, 16, 0), (17, 22, 1), (23, 44, 0)];
    let small = [processors, 1, 1];
    [
        counted(one, small, taken_back(p, q), &one_spans),
        counted(keys, small, other_keys(p, q), &keys_spans),
        counted(early, small, too_early(p, q), &early_spans),
        counted(coming, small, a_ticket_to_come(p, q), &coming_spans),
        counted(two, [processors, 1, 2], two_levels(p, q), &two_spans),
    ]
}

fn against_each_other(processors: u32, p: u32, q: u32) -> [Counted; 2] {
    let both = format!("{p} and {q} have both tested the stamp");
    let both_spans = [(0, 9, 0), (10, 18, 1), (19, 37, 0)];
    let later = format!("{p} begins when {q} has marked");
    let later_spans = [(0, 9, 0), (10, 14, 1), (15, 32, 0)];
    let small = [processors, 1, 1];
    [
        counted(both, small, two_removes(p, q), &both_spans),
        counted(later, small, after_the_mark(p, q), &later_spans),
    ]
}

fn against_walks(processors: u32, p: u32, q: u32) -> [Counted; 4] {
    let small = [processors, 1, 1];
    let first = format!("{p} marks before the walk of {q}");
    let second = format!("the walk of {p} marks before {q}");
    let (before_d, before_l) = (before_a_walk(p, q), before_a_relaxed_walk(p, q));
    let (after_d, after_l) = (after_a_walk(p, q), after_a_relaxed_walk(p, q));
    let span = |marked: u32, last: u32| [(0, 9, 0), (10, marked - 1, 1), (marked, last, 0)];
    [
        counted(first.clone(), small, before_d, &span(18, 32)),
        counted(first + ", Relaxed", small, before_l, &span(17, 31)),
        counted(second.clone(), small, after_d, &span(18, 31)),
        counted(second + ", Relaxed", small, after_l, &span(17, 30)),
    ]
}

fn beside_others(processors: u32, p: u32, q: u32) -> [Counted; 4] {
    let [passed, at_g2] = [left_out(p, q), waits_at_g2(p, q)];
    let [back, on] = [led_back(p, q), read_on(p, q)];
    let passed_spans = [
        (0, 9, 0),
        (10, 20, 1),
        (21, 25, 2),
        (26, 32, 1),
        (33, 59, 0),
    ];
    let g2_spans = [(0, 9, 0), (10, 14, 1), (15, 40, 0), (41, 41, 1)];
    let back_spans = [
        (0, 9, 0),
        (10, 20, 1),
        (21, 27, 2),
        (28, 43, 1),
        (44, 56, 0),
    ];
    let on_spans = [(0, 9, 0), (10, 22, 1), (23, 25, 0), (26, 39, 1)];
    let two = [processors, 2, 1];
    let words = |text: &str| format!("{q} beside {p}: {text}");
    [
        counted(words("left out by a walk"), two, passed, &passed_spans),
        counted(words("waits at G2"), two, at_g2, &g2_spans),
        counted(words("led back to the head"), two, back, &back_spans),
        counted(words("reads on past a new entry"), two, on, &on_spans),
    ]
}

/// The begin of a Remove, whose fifth number is not looked at.
fn remove(p: u32, [due, ticket]: [u32; 2], time: u32) -> Vec<Turn> {
    vec![([5, p, due, ticket, 9], [0, time, 0, 0, time])]
}

/// A step that answers N.
fn not_there(p: u32, [due, ticket]: [u32; 2], time: u32) -> Vec<Turn> {
    steps(p, [8, due, ticket, 0], time, time)
}

/// p files due minute 7 and item 40, answered at 10. A Remove of q begins at 11,
/// searches (12), reads (13), tests (14) and marks at 15. Its removal takes 12
/// steps, and the entry is taken back at 27. A Delete_Min of p finds nothing at
/// 29, another Remove of q comes to the tail at 32, and then the node is taken
/// again.
pub fn taken_back(p: u32, q: u32) -> Vec<Turn> {
    let (key, entry) = ([7, 1], [7, 40, 1]);
    [
        filed(p, 7),
        remove(q, key, 11),
        refused([5, q, 7, 1, 0], 33, 11),
        moves(q, 12, 14),
        told(q, 4, entry, 15),
        moves(q, 16, 26),
        refused([1, p, 8, 41, 1], 37, 26),
        told(q, 7, entry, 27),
        refused([3, q, 0, 0, 0], 34, 27),
        delete(p, 28),
        empty(p, 29),
        remove(q, key, 30),
        moves(q, 31, 31),
        not_there(q, key, 32),
        insert(p, [8, 41, 1], 33),
    ]
    .concat()
}

/// p's entry has due minute 7 and ticket 1. A later ticket is looked for behind it
/// (13), where the tail is (14); an earlier due minute in front of it, where it is
/// another key (17). At last q finds it and takes it back.
fn other_keys(p: u32, q: u32) -> Vec<Turn> {
    let entry = [7, 40, 1];
    [
        filed(p, 7),
        remove(q, [7, 2], 11),
        moves(q, 12, 13),
        not_there(q, [7, 2], 14),
        remove(q, [6, 1], 15),
        moves(q, 16, 16),
        not_there(q, [6, 1], 17),
        remove(q, [8, 1], 18),
        moves(q, 19, 20),
        not_there(q, [8, 1], 21),
        remove(q, [7, 999_999], 22),
        moves(q, 23, 24),
        not_there(q, [7, 999_999], 25),
        remove(q, [0, 999_999], 26),
        moves(q, 27, 27),
        not_there(q, [0, 999_999], 28),
        remove(q, [7, 1], 29),
        moves(q, 30, 32),
        told(q, 4, entry, 33),
        moves(q, 34, 44),
        told(q, 7, entry, 45),
    ]
    .concat()
}

/// The first Remove of q finds the tail, since p has not linked its node, which it
/// does at 10 (I2). The second finds the key without a stamp (16). The third
/// begins at 17, before p answers at 18, and finds the stamp too late (21). The
/// fourth marks.
fn too_early(p: u32, q: u32) -> Vec<Turn> {
    let (key, entry) = ([7, 1], [7, 40, 1]);
    [
        insert(p, [7, 40, 1], 1),
        remove(q, key, 2),
        moves(q, 3, 3),
        not_there(q, key, 4),
        moves(p, 5, 12),
        remove(q, key, 13),
        moves(q, 14, 15),
        not_there(q, key, 16),
        remove(q, key, 17),
        told(p, 5, entry, 18),
        moves(q, 19, 20),
        not_there(q, key, 21),
        remove(q, key, 22),
        moves(q, 23, 25),
        told(q, 4, entry, 26),
        moves(q, 27, 37),
        told(q, 7, entry, 38),
    ]
    .concat()
}

/// The clock is 1 when q begins to look for ticket 2, which p's Insert gets. It is
/// answered at 11, after that begin. With the same due minute and ticket 1 there is
/// none.
fn a_ticket_to_come(p: u32, q: u32) -> Vec<Turn> {
    let (key, entry) = ([7, 2], [7, 40, 2]);
    [
        remove(q, key, 1),
        insert(p, [7, 40, 1], 2),
        moves(p, 3, 10),
        told(p, 5, entry, 11),
        moves(q, 12, 13),
        not_there(q, key, 14),
        remove(q, [7, 1], 15),
        moves(q, 16, 16),
        not_there(q, [7, 1], 17),
        remove(q, key, 18),
        moves(q, 19, 21),
        told(q, 4, entry, 22),
        moves(q, 23, 33),
        told(q, 7, entry, 34),
    ]
    .concat()
}

/// An Insert on two levels is answered at 17. The Remove searches both (19, 20),
/// and so does its removal (24, 25); it unlinks level 2 up to 34 and level 1 up to
/// 42.
fn two_levels(p: u32, q: u32) -> Vec<Turn> {
    let entry = [3, 9, 1];
    [
        insert(p, [3, 9, 2], 1),
        moves(p, 2, 16),
        told(p, 5, entry, 17),
        remove(q, [3, 1], 18),
        moves(q, 19, 22),
        told(q, 4, entry, 23),
        moves(q, 24, 43),
        told(q, 7, entry, 44),
    ]
    .concat()
}

/// Both stand before the mark (X3): q from 15 on, p from 18 on. q marks at 19 and
/// takes the entry back at 31; p, which began before that, keeps the node from
/// being taken until it finds the mark at 32. A later Remove finds the tail.
fn two_removes(p: u32, q: u32) -> Vec<Turn> {
    let (key, entry) = ([7, 1], [7, 40, 1]);
    [
        filed(p, 7),
        remove(q, key, 11),
        remove(p, key, 12),
        moves(q, 13, 15),
        moves(p, 16, 18),
        told(q, 4, entry, 19),
        moves(q, 20, 30),
        told(q, 7, entry, 31),
        refused([1, q, 8, 41, 1], 37, 31),
        not_there(p, key, 32),
        remove(q, key, 33),
        moves(q, 34, 34),
        not_there(q, key, 35),
        insert(q, [8, 41, 1], 36),
        moves(q, 37, 37),
    ]
    .concat()
}

/// q has marked at 15. p's Remove finds the node, which is still linked, and its
/// mark (20).
fn after_the_mark(p: u32, q: u32) -> Vec<Turn> {
    let (key, entry) = ([7, 1], [7, 40, 1]);
    [
        filed(p, 7),
        remove(q, key, 11),
        moves(q, 12, 14),
        told(q, 4, entry, 15),
        remove(p, key, 16),
        moves(p, 17, 19),
        not_there(p, key, 20),
        moves(q, 21, 31),
        told(q, 7, entry, 32),
    ]
    .concat()
}

/// The Delete_Min of q has tested the stamp (13) when p marks (18): it finds the
/// mark (19), and behind it nothing (20).
fn before_a_walk(p: u32, q: u32) -> Vec<Turn> {
    let entry = [7, 40, 1];
    [
        filed(p, 7),
        delete(q, 11),
        moves(q, 12, 13),
        remove(p, [7, 1], 14),
        moves(p, 15, 17),
        told(p, 4, entry, 18),
        moves(q, 19, 19),
        empty(q, 20),
        moves(p, 21, 31),
        told(p, 7, entry, 32),
    ]
    .concat()
}

/// The same with a Relaxed one, which stands before its mark from 12 on.
fn before_a_relaxed_walk(p: u32, q: u32) -> Vec<Turn> {
    let entry = [7, 40, 1];
    [
        filed(p, 7),
        relaxed(q, 11),
        moves(q, 12, 12),
        remove(p, [7, 1], 13),
        moves(p, 14, 16),
        told(p, 4, entry, 17),
        moves(q, 18, 18),
        empty(q, 19),
        moves(p, 20, 30),
        told(p, 7, entry, 31),
    ]
    .concat()
}

/// The Remove of q stands before its mark from 14 on. The Delete_Min of p marks at
/// 18, q finds the mark at 19, and p hands the entry out.
fn after_a_walk(p: u32, q: u32) -> Vec<Turn> {
    let (key, entry) = ([7, 1], [7, 40, 1]);
    [
        filed(p, 7),
        remove(q, key, 11),
        moves(q, 12, 14),
        delete(p, 15),
        moves(p, 16, 17),
        told(p, 4, entry, 18),
        not_there(q, key, 19),
        moves(p, 20, 30),
        told(p, 6, entry, 31),
    ]
    .concat()
}

/// The same with a Relaxed one.
fn after_a_relaxed_walk(p: u32, q: u32) -> Vec<Turn> {
    let (key, entry) = ([7, 1], [7, 40, 1]);
    [
        filed(p, 7),
        remove(q, key, 11),
        moves(q, 12, 14),
        relaxed(p, 15),
        moves(p, 16, 16),
        told(p, 4, entry, 17),
        not_there(q, key, 18),
        moves(p, 19, 29),
        told(p, 6, entry, 30),
    ]
    .concat()
}

/// Of two entries q marks the first at 26. The Delete_Min of p finds that mark at
/// 30, marks the second at 33 and takes the first node's lock at 38 (G2), and its
/// own at 40 (L2). q takes the head's lock at 44 and waits for that of its own
/// node at 46 (L2), until p gives it back at 50 (L6).
fn left_out(p: u32, q: u32) -> Vec<Turn> {
    let (first, second) = ([5, 40, 1], [6, 41, 11]);
    [
        filed(p, 5),
        insert(p, [6, 41, 1], 11),
        moves(p, 12, 20),
        told(p, 5, second, 21),
        remove(q, [5, 1], 22),
        moves(q, 23, 25),
        told(q, 4, first, 26),
        delete(p, 27),
        moves(p, 28, 32),
        told(p, 4, second, 33),
        moves(p, 34, 40),
        moves(q, 41, 45),
        waits(q, p, 46),
        moves(p, 47, 50),
        moves(q, 51, 56),
        told(q, 7, first, 57),
        moves(p, 58, 58),
        told(p, 6, second, 59),
    ]
    .concat()
}

/// q has marked at 15 and stands before the head's lock from 18 on (G2). p takes
/// that at 22, links an entry in front at 26 and gives the lock back at 27. q takes
/// it at 28, gives it up at 30 (G4) and takes that of the new node.
fn waits_at_g2(p: u32, q: u32) -> Vec<Turn> {
    let (entry, new) = ([7, 40, 1], [3, 9, 19]);
    [
        filed(p, 7),
        remove(q, [7, 1], 11),
        moves(q, 12, 14),
        told(q, 4, entry, 15),
        moves(q, 16, 18),
        insert(p, [3, 9, 1], 19),
        moves(p, 20, 22),
        waits(q, p, 23),
        moves(p, 24, 27),
        moves(q, 28, 38),
        told(q, 7, entry, 39),
        moves(p, 40, 40),
        told(p, 5, new, 41),
    ]
    .concat()
}

/// q looks for the second of two entries and stands at the first from 24 on (X1).
/// p hands that out at 40: it leads back to the head, to which q moves at 41, and
/// then finds its key at 42.
fn led_back(p: u32, q: u32) -> Vec<Turn> {
    let (first, second) = ([5, 40, 1], [6, 41, 11]);
    [
        filed(p, 5),
        insert(p, [6, 41, 1], 11),
        moves(p, 12, 20),
        told(p, 5, second, 21),
        remove(q, [6, 11], 22),
        moves(q, 23, 24),
        delete(p, 25),
        moves(p, 26, 27),
        told(p, 4, first, 28),
        moves(p, 29, 39),
        told(p, 6, first, 40),
        moves(q, 41, 43),
        told(q, 4, second, 44),
        moves(q, 45, 55),
        told(q, 7, second, 56),
    ]
    .concat()
}

/// q has searched for the entry and stands at the head from 12 on (X1). p links
/// another in front of it at 19; q moves to that at 20 and finds its key at 21.
fn read_on(p: u32, q: u32) -> Vec<Turn> {
    let (entry, new) = ([6, 40, 1], [5, 41, 13]);
    [
        filed(p, 6),
        remove(q, [6, 1], 11),
        moves(q, 12, 12),
        insert(p, [5, 41, 1], 13),
        moves(p, 14, 19),
        moves(q, 20, 22),
        told(q, 4, entry, 23),
        moves(p, 24, 25),
        told(p, 5, new, 26),
        moves(q, 27, 38),
        told(q, 7, entry, 39),
    ]
    .concat()
}

/// The first run, of 0 and 1, as a sheet.
pub const SHEET: &str = "\
Q      2      1      1      0
I      0      7     40      1
S      0      9      0      0
X      1      7      1      0
X      1      7      1      0
S      1     15      0      0
I      0      8     41      1
S      1      2      0      0
D      0      0      0      0
S      0      1      0      0
X      1      7      1      0
S      1      2      0      0
I      0      8     41      1
";

/// What it prints.
pub const HISTORY: &str = "\
I      1      0      7     40      1
A     10      0      7     40      1
X     11      1      7      1      0
R     11      1     33      0      0
M     15      1      7     40      1
R     26      0     37      0      0
U     27      1      7     40      1
R     27      1     34      0      0
D     28      0      0      0      0
E     29      0      0      0      0
X     30      1      7      1      0
N     32      1      7      1      0
I     33      0      8     41      1
";

/// A sheet whose X lines are refused or find nothing.
pub const REFUSED: &str = "\
Q      2      1      1      0
X      2      7      1      0
X      21000000      0      0
X      01000000      1      0
X      0      7      0      0
X      0      71000000      0
X      09999999      1      0
X      0      79999999      0
X      0 999999 999999      0
X      0      0      0      0
X      0      7      1      0
X      1      0      1      0
S      0      3      0      0
S      1      2      0      0
S      1      1      0      0
";

/// What it prints.
pub const REFUSED_HISTORY: &str = "\
R      0      2     32      0      0
R      0      2     32      0      0
R      0      0     38      0      0
R      0      0     38      0      0
R      0      0     38      0      0
R      0      0     38      0      0
R      0      0     38      0      0
X      1      0 999999 999999      0
R      1      0     33      0      0
R      1      0     33      0      0
X      2      1      0      1      0
N      4      0 999999 999999      0
R      4      0     34      0      0
N      6      1      0      1      0
R      6      1     34      0      0
";

/// Processor, due minute and ticket of Removes, and what refuses each where
/// processor 0 is busy and 1 is idle; there is no processor 2. 38 comes last.
pub const REFUSED_CALLS: [([u32; 3], u32); 16] = [
    ([2, 7, 1], 32),
    ([2, 1_000_000, 0], 32),
    ([u32::MAX, 7, 0], 32),
    ([0, 7, 1], 33),
    ([0, 7, 0], 33),
    ([0, 7, 1_000_000], 33),
    ([0, 1_000_000, 1], 33),
    ([1, 1_000_000, 1], 38),
    ([1, 1_000_000, 0], 38),
    ([1, 1_000_000, 1_000_000], 38),
    ([1, u32::MAX, 1], 38),
    ([1, 0, 0], 38),
    ([1, 999_999, 0], 38),
    ([1, 0, 1_000_000], 38),
    ([1, 999_999, 1_000_000], 38),
    ([1, 7, u32::MAX], 38),
];

/// Due minutes and tickets that are taken there, at whatever time.
pub const TAKEN_KEYS: [[u32; 2]; 6] = [
    [0, 1],
    [999_999, 1],
    [0, 999_999],
    [999_999, 999_999],
    [7, 1],
    [7, 2],
];

/// A processor with its begin, tag, node and level of its place, and the due
/// minute and ticket that it looks for.
fn looking(begin: u8, stage: [u8; 3], [due, ticket]: [u8; 2]) -> Vec<u8> {
    let mut bytes = processor(begin, 0, stage);
    (bytes[18], bytes[22]) = (due, ticket);
    bytes
}

/// A processor in the removal of what its Remove has marked.
fn taking_back(begin: u8, own: u8, stage: [u8; 3]) -> Vec<u8> {
    let mut bytes = processor(begin, own, stage);
    bytes[17] = 1;
    bytes
}

/// The first run, of 0 and 1: the image at these times. At 11 the Remove has begun
/// (tag 29), at 12 it is about to read (30), at 13 to test (31), at 14 to mark
/// (32); at 15 it has marked and searches (14, with the job), at 26 it is about to
/// take back (26); at 27 it has; at 30 another has begun, and ends at 32.
pub fn images() -> Vec<(u32, Vec<u8>)> {
    let idle = processor(0, 0, [0, 0, 0]);
    let first = |stage: [u8; 3]| looking(11, stage, [7, 1]);
    let linked = entry(2, 40, [0, 0], [1, 10], [1, 0]);
    let marked = entry(2, 40, [0, 2], [1, 10], [1, 0]);
    let unlinked = entry(0, 40, [0, 2], [1, 10], [1, 0]);
    let retired = entry(0, 40, [0, 2], [1, 10], [2, 27]);
    let image = |time: u8, second: &[u8], head: u8, node: &[u8]| {
        let front = [2, 1, 1, time, 0, 0, 0];
        let bytes = [&front, &idle[..], second, &end(head, 0), node, &end(2, 0)].concat();
        (u32::from(time), bytes)
    };
    vec![
        image(11, &first([29, 0, 1]), 1, &linked),
        image(12, &first([30, 0, 1]), 1, &linked),
        image(13, &first([31, 1, 1]), 1, &linked),
        image(14, &first([32, 1, 1]), 1, &linked),
        image(15, &taking_back(11, 1, [14, 0, 1]), 1, &marked),
        image(26, &taking_back(11, 1, [26, 0, 0]), 2, &unlinked),
        image(27, &idle, 2, &retired),
        image(30, &looking(30, [29, 0, 1], [7, 1]), 2, &retired),
        image(32, &idle, 2, &retired),
    ]
}

/// The due minute and the ticket of the begins below: 66,051 and 855,567, whose
/// bytes all differ.
pub const BEGUN_KEY: [u32; 2] = [0x0001_0203, 0x000d_0e0f];

/// Fresh queues and the begin of a Remove by their last processor: sizes, and all
/// that differs from the fresh image.
pub const BEGUN: [([u8; 3], [ByteAt; 10]); 5] = [
    ([1, 1, 1], begun(7, 1)),
    ([2, 3, 2], begun(33, 2)),
    ([16, 1, 8], begun(397, 8)),
    ([1, 200, 1], begun(7, 1)),
    ([16, 200, 8], begun(397, 8)),
];

/// Clock, begin, tag, level, due minute and ticket of a processor that starts
/// here.
const fn begun(start: usize, levels: u8) -> [ByteAt; 10] {
    [
        (3, 1),
        (start, 1),
        (start + 5, 29),
        (start + 7, levels),
        (start + 18, 3),
        (start + 19, 2),
        (start + 20, 1),
        (start + 22, 15),
        (start + 23, 14),
        (start + 24, 13),
    ]
}

/// The last processor of a fresh queue replaced: sizes, where it starts, its own
/// node, its tag, node, level and node of G3, its job, its due minute and ticket,
/// and whether the calls take it.
pub type Stored = ([u8; 3], usize, u8, [u8; 4], u8, [u32; 2], bool);

const ONE: [u8; 3] = [1, 1, 1];
const SMALL: [u8; 3] = [2, 3, 2];
const LARGE: [u8; 3] = [16, 200, 8];

/// Removes up to their mark: the place, the key, and a job, which they have not.
pub const LOOKING: [Stored; 52] = [
    (ONE, 7, 0, [29, 0, 1, 0], 0, [0, 1], true),
    (ONE, 7, 2, [29, 2, 1, 0], 0, [0, 1], true),
    (ONE, 7, 3, [29, 2, 1, 0], 0, [0, 1], false),
    (ONE, 7, 0, [29, 3, 1, 0], 0, [0, 1], false),
    (ONE, 7, 0, [29, 0, 0, 0], 0, [0, 1], false),
    (ONE, 7, 0, [29, 0, 2, 0], 0, [0, 1], false),
    (ONE, 7, 0, [29, 0, 1, 1], 0, [0, 1], false),
    (ONE, 7, 0, [29, 0, 1, 0], 0, [999_999, 999_999], true),
    (ONE, 7, 0, [29, 0, 1, 0], 0, [1_000_000, 1], false),
    (ONE, 7, 0, [29, 0, 1, 0], 0, [u32::MAX, 1], false),
    (ONE, 7, 0, [29, 0, 1, 0], 0, [0, 0], false),
    (ONE, 7, 0, [29, 0, 1, 0], 0, [0, 1_000_000], false),
    (ONE, 7, 0, [29, 0, 1, 0], 0, [0, u32::MAX], false),
    (ONE, 7, 0, [29, 0, 1, 0], 1, [0, 1], false),
    (ONE, 7, 0, [29, 0, 1, 0], 2, [0, 1], false),
    (ONE, 7, 0, [30, 0, 1, 0], 0, [0, 1], true),
    (ONE, 7, 0, [30, 2, 1, 0], 0, [7, 999_999], true),
    (ONE, 7, 0, [30, 3, 1, 0], 0, [0, 1], false),
    (ONE, 7, 0, [30, 0, 2, 0], 0, [0, 1], false),
    (ONE, 7, 0, [30, 0, 1, 0], 0, [1_000_000, 1], false),
    (ONE, 7, 0, [30, 0, 1, 0], 0, [0, 0], false),
    (ONE, 7, 0, [30, 0, 1, 0], 0, [0, 1_000_000], false),
    (ONE, 7, 0, [30, 0, 1, 0], 1, [0, 1], false),
    (ONE, 7, 0, [31, 0, 1, 0], 0, [0, 1], true),
    (ONE, 7, 0, [31, 2, 1, 0], 0, [7, 999_999], true),
    (ONE, 7, 0, [31, 3, 1, 0], 0, [0, 1], false),
    (ONE, 7, 0, [31, 0, 0, 0], 0, [0, 1], false),
    (ONE, 7, 0, [31, 1, 1, 0], 0, [1_000_000, 1], false),
    (ONE, 7, 0, [31, 1, 1, 0], 0, [0, 0], false),
    (ONE, 7, 0, [31, 1, 1, 0], 0, [0, 1_000_000], false),
    (ONE, 7, 0, [31, 1, 1, 0], 1, [0, 1], false),
    (ONE, 7, 0, [32, 1, 1, 0], 0, [0, 1], true),
    (ONE, 7, 0, [32, 1, 1, 0], 0, [999_999, 999_999], true),
    (ONE, 7, 0, [32, 0, 1, 0], 0, [0, 1], false),
    (ONE, 7, 0, [32, 2, 1, 0], 0, [0, 1], false),
    (ONE, 7, 0, [32, 1, 2, 0], 0, [0, 1], false),
    (ONE, 7, 0, [32, 1, 1, 1], 0, [0, 1], false),
    (ONE, 7, 0, [32, 1, 1, 0], 0, [1_000_000, 1], false),
    (ONE, 7, 0, [32, 1, 1, 0], 0, [0, 0], false),
    (ONE, 7, 0, [32, 1, 1, 0], 0, [0, 1_000_000], false),
    (ONE, 7, 0, [32, 1, 1, 0], 1, [0, 1], false),
    (ONE, 7, 0, [33, 1, 1, 0], 0, [0, 1], false),
    (SMALL, 33, 4, [29, 4, 2, 0], 0, [7, 1], true),
    (SMALL, 33, 4, [30, 0, 3, 0], 0, [7, 1], false),
    (SMALL, 33, 0, [31, 5, 2, 0], 0, [7, 1], false),
    (SMALL, 33, 0, [32, 3, 2, 0], 0, [7, 1], true),
    (SMALL, 33, 0, [32, 4, 2, 0], 0, [7, 1], false),
    (LARGE, 397, 201, [29, 201, 8, 0], 0, [7, 1], true),
    (LARGE, 397, 0, [30, 202, 8, 0], 0, [7, 1], false),
    (LARGE, 397, 0, [31, 0, 9, 0], 0, [7, 1], false),
    (LARGE, 397, 0, [32, 200, 8, 0], 0, [7, 1], true),
    (LARGE, 397, 0, [32, 201, 8, 0], 0, [7, 1], false),
];

/// The stages of a removal with each job, which have no key, and the others, which
/// have neither.
pub const REMOVING: [Stored; 44] = [
    (ONE, 7, 1, [14, 0, 1, 0], 0, [0, 0], true),
    (ONE, 7, 1, [14, 0, 1, 0], 1, [0, 0], true),
    (ONE, 7, 1, [14, 0, 1, 0], 2, [0, 0], false),
    (ONE, 7, 1, [14, 0, 1, 0], 255, [0, 0], false),
    (ONE, 7, 1, [14, 0, 1, 0], 1, [7, 0], false),
    (ONE, 7, 1, [14, 0, 1, 0], 1, [0, 1], false),
    (ONE, 7, 1, [14, 0, 1, 0], 0, [0, 1], false),
    (ONE, 7, 0, [14, 0, 1, 0], 1, [0, 0], false),
    (ONE, 7, 2, [14, 0, 1, 0], 1, [0, 0], false),
    (ONE, 7, 1, [15, 0, 0, 0], 1, [0, 0], true),
    (ONE, 7, 1, [15, 0, 1, 0], 1, [0, 0], false),
    (ONE, 7, 1, [16, 0, 1, 0], 1, [0, 0], true),
    (ONE, 7, 1, [17, 2, 1, 0], 1, [0, 0], true),
    (ONE, 7, 1, [18, 1, 1, 0], 1, [0, 0], true),
    (ONE, 7, 1, [19, 0, 1, 2], 1, [0, 0], true),
    (ONE, 7, 1, [19, 0, 1, 3], 1, [0, 0], false),
    (ONE, 7, 1, [20, 0, 1, 0], 1, [0, 0], true),
    (ONE, 7, 1, [21, 0, 1, 0], 1, [0, 0], true),
    (ONE, 7, 1, [22, 0, 1, 0], 1, [0, 0], true),
    (ONE, 7, 1, [23, 0, 1, 0], 1, [0, 0], true),
    (ONE, 7, 1, [24, 0, 1, 0], 1, [0, 0], true),
    (ONE, 7, 1, [25, 0, 0, 0], 1, [0, 0], true),
    (ONE, 7, 1, [26, 0, 0, 0], 1, [0, 0], true),
    (ONE, 7, 1, [26, 0, 0, 0], 2, [0, 0], false),
    (ONE, 7, 1, [26, 0, 0, 0], 1, [7, 1], false),
    (ONE, 7, 0, [0, 0, 0, 0], 1, [0, 0], false),
    (ONE, 7, 0, [0, 0, 0, 0], 0, [1, 0], false),
    (ONE, 7, 0, [0, 0, 0, 0], 0, [0, 1], false),
    (ONE, 7, 1, [1, 0, 1, 0], 1, [0, 0], false),
    (ONE, 7, 1, [5, 0, 1, 0], 1, [0, 0], false),
    (ONE, 7, 1, [8, 0, 1, 0], 0, [7, 1], false),
    (ONE, 7, 1, [9, 0, 0, 0], 1, [0, 0], false),
    (ONE, 7, 1, [10, 0, 0, 0], 1, [0, 0], false),
    (ONE, 7, 0, [11, 0, 1, 0], 1, [0, 0], false),
    (ONE, 7, 0, [11, 0, 1, 0], 0, [7, 1], false),
    (ONE, 7, 0, [13, 1, 1, 0], 1, [0, 0], false),
    (ONE, 7, 0, [27, 0, 1, 0], 1, [0, 0], false),
    (ONE, 7, 0, [28, 1, 1, 0], 1, [0, 0], false),
    (ONE, 7, 0, [28, 1, 1, 0], 0, [7, 1], false),
    (SMALL, 33, 3, [19, 4, 2, 4], 1, [0, 0], true),
    (SMALL, 33, 4, [19, 4, 2, 4], 1, [0, 0], false),
    (SMALL, 33, 3, [24, 4, 3, 0], 1, [0, 0], false),
    (LARGE, 397, 200, [26, 0, 0, 0], 1, [0, 0], true),
    (LARGE, 397, 201, [26, 0, 0, 0], 1, [0, 0], false),
];

/// The 26 bytes of such a processor, whose begin and saved nodes are 0.
pub fn stored_bytes(stored: &Stored) -> Vec<u8> {
    let &(_, _, own, stage, job, [due, ticket], _) = stored;
    let mut bytes = vec![0, 0, 0, 0, own];
    bytes.extend(stage);
    bytes.extend([0; 8]);
    bytes.push(job);
    bytes.extend(due.to_le_bytes());
    bytes.extend(ticket.to_le_bytes());
    bytes
}
