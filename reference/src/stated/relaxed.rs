//! Runs with Relaxed Delete_Mins (document 02, W3), worked out by hand: the calls
//! in the numbers of a list with their answers, what Backlog gives along them, and
//! one of them as a sheet with its history and with its images.

use super::lists::{delete, insert, moves, steps, told, waits, Turn};
use super::waiting::Run;

/// From a time to a time: what Backlog gives.
pub type Span = (u32, u32, u32);

/// What is stated for a time; the spans follow one another.
pub fn stated(spans: &[Span], time: u32) -> u32 {
    let within = |span: &&Span| span.0 <= time && time <= span.1;
    spans.iter().find(within).expect("the time is stated").2
}

/// A run with what Backlog gives before its first call and after each.
pub type Counted = (Run, Vec<Span>);

pub(super) fn counted(what: String, sizes: [u32; 3], turns: Vec<Turn>, spans: &[Span]) -> Counted {
    (Run { what, sizes, turns }, spans.to_vec())
}

/// Every run.
pub fn runs() -> Vec<Counted> {
    let mut all = Vec::new();
    for (processors, p, q) in [(2, 0, 1), (2, 1, 0), (4, 3, 1), (16, 15, 7), (16, 0, 15)] {
        all.extend(unanswered(processors, p, q));
    }
    for (processors, p, q) in [(2, 0, 1), (2, 1, 0), (16, 9, 15)] {
        all.extend(walking_on(processors, p, q));
    }
    for (processors, p, q, r) in [(3, 0, 1, 2), (3, 2, 1, 0), (16, 5, 15, 10)] {
        all.extend(side_by_side(processors, p, q, r));
    }
    all
}

fn unanswered(processors: u32, p: u32, q: u32) -> [Counted; 2] {
    let about = format!("{q} marks what {p} is about to answer, and again");
    let spans = [(0, 36, 0), (37, 39, 1), (40, 54, 0)];
    let half = format!("{q} marks what {p} has linked on one level of two");
    [
        counted(about, [processors, 1, 1], before_its_answer(p, q), &spans),
        counted(half, [processors, 1, 2], half_linked(p, q), &[(0, 44, 0)]),
    ]
}

fn walking_on(processors: u32, p: u32, q: u32) -> [Counted; 2] {
    let back = format!("{q} is led back to the head");
    let back_spans = [(0, 9, 0), (10, 14, 1), (15, 31, 0)];
    let past = format!("{q} walks past what {p} has marked");
    let past_spans = [
        (0, 9, 0),
        (10, 20, 1),
        (21, 24, 2),
        (25, 29, 1),
        (30, 55, 0),
    ];
    [
        counted(back, [processors, 1, 1], led_back(p, q), &back_spans),
        counted(past, [processors, 2, 1], past_a_mark(p, q), &past_spans),
    ]
}

fn side_by_side(processors: u32, p: u32, q: u32, r: u32) -> [Counted; 3] {
    let one = format!("{q} finds nothing, and {r} marks what {p} has not answered");
    let two = format!("{r} marks what {p} answered, before what {q} links behind it");
    let three = format!("{r} marks what {q} links in front, and {p} what it answered");
    let one_turns = past_the_unanswered(p, q, r);
    let two_spans = [(0, 9, 0), (10, 20, 1), (21, 26, 0)];
    let three_spans = [(0, 9, 0), (10, 25, 1), (26, 26, 0)];
    let (two_turns, three_turns) = (the_answered_first(p, q, r), the_unanswered_first(p, q, r));
    [
        counted(one, [processors, 1, 1], one_turns, &[(0, 29, 0)]),
        counted(two, [processors, 2, 1], two_turns, &two_spans),
        counted(three, [processors, 2, 1], three_turns, &three_spans),
    ]
}

/// The begin of a Relaxed Delete_Min, whose further numbers are not looked at.
pub(super) fn relaxed(p: u32, time: u32) -> Vec<Turn> {
    vec![([4, p, 9, 9, 9], [0, time, 0, 0, time])]
}

pub(super) fn empty(p: u32, time: u32) -> Vec<Turn> {
    steps(p, [3, 0, 0, 0], time, time)
}

/// A call that is refused with this number at this time.
pub(super) fn refused(call: [u32; 5], number: u32, clock: u32) -> Vec<Turn> {
    vec![(call, [number, 0, 0, 0, clock])]
}

/// An Insert of p with due minute 7 and item 42 has linked its node at 7 (I2).
/// q marks the entry at 10 and waits for the node lock, which p gives back at 15
/// (I4). q hands the entry out at 26, p answers at 27. In between p, which began
/// before the hand-out, keeps the node from being taken; then q takes it. Its
/// entry, answered at 37, is taken by a Relaxed one of p, and the next finds
/// nothing.
pub fn before_its_answer(p: u32, q: u32) -> Vec<Turn> {
    let (first, second) = ([7, 42, 1], [8, 43, 28]);
    [
        insert(p, [7, 42, 1], 1),
        moves(p, 2, 7),
        refused([4, p, 0, 0, 0], 33, 7),
        relaxed(q, 8),
        refused([4, q, 0, 0, 0], 33, 8),
        moves(q, 9, 9),
        told(q, 4, first, 10),
        moves(q, 11, 11),
        waits(q, p, 12),
        moves(p, 13, 13),
        waits(q, p, 14),
        moves(p, 15, 15),
        moves(q, 16, 25),
        told(q, 6, first, 26),
        refused([1, q, 8, 43, 1], 37, 26),
        told(p, 5, first, 27),
        insert(q, [8, 43, 1], 28),
        moves(q, 29, 36),
        told(q, 5, second, 37),
        relaxed(p, 38),
        moves(p, 39, 39),
        told(p, 4, second, 40),
        moves(p, 41, 51),
        told(p, 6, second, 52),
        relaxed(p, 53),
        refused([4, 16, 0, 0, 0], 32, 53),
        empty(p, 54),
    ]
    .concat()
}

/// An Insert of p on two levels has linked its node on level 1 at 8. q marks the
/// entry at 11 and waits for the node lock while p links level 2, up to 24 (I4).
/// Then q unlinks level 2, up to 33 (L6), and level 1, and hands out at 43.
fn half_linked(p: u32, q: u32) -> Vec<Turn> {
    let entry = [3, 9, 1];
    [
        insert(p, [3, 9, 2], 1),
        moves(p, 2, 8),
        relaxed(q, 9),
        moves(q, 10, 10),
        told(q, 4, entry, 11),
        moves(q, 12, 13),
        waits(q, p, 14),
        moves(p, 15, 17),
        waits(q, p, 18),
        moves(p, 19, 22),
        waits(q, p, 23),
        moves(p, 24, 24),
        moves(q, 25, 42),
        told(q, 6, entry, 43),
        told(p, 5, entry, 44),
    ]
    .concat()
}

/// p files an entry with item 40, answered at 10.
pub(super) fn filed(p: u32, due: u32) -> Vec<Turn> {
    [
        insert(p, [due, 40, 1], 1),
        moves(p, 2, 9),
        told(p, 5, [due, 40, 1], 10),
    ]
    .concat()
}

/// q stands at the entry's node (RW3) from 12 on. p marks it at 15 and hands it
/// out at 27: the node leads back to the head. q finds the mark at 28, is led to
/// the head at 29, reads on there, and finds nothing at 30.
fn led_back(p: u32, q: u32) -> Vec<Turn> {
    [
        filed(p, 5),
        relaxed(q, 11),
        moves(q, 12, 12),
        relaxed(p, 13),
        moves(p, 14, 14),
        told(p, 4, [5, 40, 1], 15),
        moves(p, 16, 26),
        told(p, 6, [5, 40, 1], 27),
        refused([1, p, 5, 40, 1], 37, 27),
        moves(q, 28, 29),
        refused([1, p, 5, 40, 1], 37, 29),
        empty(q, 30),
        insert(p, [5, 40, 1], 31),
    ]
    .concat()
}

/// p files a second entry, answered at 21, and marks the first at 25 with an
/// ordinary Delete_Min. q comes to the first (RW3) at 27, finds the mark at 28,
/// and marks the second at 30.
fn past_a_mark(p: u32, q: u32) -> Vec<Turn> {
    let (first, second) = ([5, 40, 1], [6, 41, 11]);
    [
        filed(p, 5),
        insert(p, [6, 41, 1], 11),
        moves(p, 12, 20),
        told(p, 5, second, 21),
        delete(p, 22),
        moves(p, 23, 24),
        told(p, 4, first, 25),
        relaxed(q, 26),
        moves(q, 27, 29),
        told(q, 4, second, 30),
        // q searches past the first node, which is still linked
        moves(q, 31, 42),
        told(q, 6, second, 43),
        moves(p, 44, 54),
        told(p, 6, first, 55),
    ]
    .concat()
}

/// p's Insert stands before its answer (I5) from 9 on. The ordinary Delete_Min of
/// q passes its node, at 13 (W2), and finds nothing at 14. The Relaxed one of r
/// marks the entry at 16, need not wait, and hands it out at 28; p answers at 29.
fn past_the_unanswered(p: u32, q: u32, r: u32) -> Vec<Turn> {
    let entry = [7, 42, 1];
    [
        insert(p, [7, 42, 1], 1),
        moves(p, 2, 9),
        delete(q, 10),
        relaxed(r, 11),
        moves(q, 12, 13),
        empty(q, 14),
        moves(r, 15, 15),
        told(r, 4, entry, 16),
        moves(r, 17, 27),
        told(r, 6, entry, 28),
        told(p, 5, entry, 29),
    ]
    .concat()
}

/// p's entry is answered at 10, that of q is linked behind it at 18 (I2) and not
/// answered. r marks the first at 21; the next Relaxed one, of p, marks the
/// second at 26.
fn the_answered_first(p: u32, q: u32, r: u32) -> Vec<Turn> {
    [
        filed(p, 5),
        insert(q, [6, 41, 1], 11),
        moves(q, 12, 18),
        relaxed(r, 19),
        moves(r, 20, 20),
        told(r, 4, [5, 40, 1], 21),
        relaxed(p, 22),
        moves(p, 23, 25),
        told(p, 4, [6, 41, 11], 26),
    ]
    .concat()
}

/// p's entry is answered at 10, that of q is linked in front of it at 17 (I2) and
/// not answered. r marks that one at 20, though the other is answered. The
/// ordinary Delete_Min of p passes it at 23 (W2) and marks the other at 26.
fn the_unanswered_first(p: u32, q: u32, r: u32) -> Vec<Turn> {
    [
        filed(p, 6),
        insert(q, [5, 41, 1], 11),
        moves(q, 12, 17),
        relaxed(r, 18),
        moves(r, 19, 19),
        told(r, 4, [5, 41, 11], 20),
        delete(p, 21),
        moves(p, 22, 25),
        told(p, 4, [6, 40, 1], 26),
    ]
    .concat()
}

/// The first run, of 0 and 1, as a sheet.
pub const SHEET: &str = "\
Q      2      1      1      0
I      0      7     42      1
S      0      6      0      0
L      0      0      0      0
L      1      0      0      0
L      1      0      0      0
S      1      4      0      0
S      0      1      0      0
S      1      1      0      0
S      0      1      0      0
S      1     11      0      0
I      1      8     43      1
S      0      1      0      0
I      1      8     43      1
S      1      9      0      0
L      0      0      0      0
S      0     14      0      0
L      0      0      0      0
L     16      0      0      0
S      0      1      0      0
";

/// What it prints: the first entry's A line comes behind its T line.
pub const HISTORY: &str = "\
I      1      0      7     42      1
R      7      0     33      0      0
L      8      1      0      0      0
R      8      1     33      0      0
M     10      1      7     42      1
T     26      1      7     42      1
R     26      1     37      0      0
A     27      0      7     42      1
I     28      1      8     43      1
A     37      1      8     43     28
L     38      0      0      0      0
M     40      0      8     43     28
T     52      0      8     43     28
L     53      0      0      0      0
R     53     16     32      0      0
E     54      0      0      0      0
";

/// A sheet whose L lines are refused or find nothing.
pub const REFUSED: &str = "\
Q      2      1      1      0
L      2      0      0      0
L9999999      0      0      0
L      0      0      0      0
L      0      0      0      0
D      0      0      0      0
I      0      7     42      1
S      0      2      0      0
I      0      7     42      1
L      0      0      0      0
L      1      0      0      0
S      1      1      0      0
";

/// What it prints.
pub const REFUSED_HISTORY: &str = "\
R      0      2     32      0      0
R      09999999     32      0      0
L      1      0      0      0      0
R      1      0     33      0      0
R      1      0     33      0      0
R      1      0     33      0      0
E      2      0      0      0      0
R      2      0     34      0      0
I      3      0      7     42      1
R      3      0     33      0      0
L      4      1      0      0      0
E      5      1      0      0      0
";

/// A processor with its begin, own node, tag, and node and level of its place.
pub(super) fn processor(begin: u8, own: u8, [tag, node, level]: [u8; 3]) -> Vec<u8> {
    let mut bytes = vec![begin, 0, 0, 0, own, tag, node, level];
    bytes.resize(26, 0);
    bytes
}

/// The entry's node, with due minute 7 and ticket 1: where level 1 leads, its item,
/// node lock and mark, stamp, and use.
pub(super) fn entry(
    forward: u8,
    item: u8,
    locks: [u8; 2],
    stamp: [u8; 2],
    usage: [u8; 2],
) -> Vec<u8> {
    let mut bytes = vec![forward, 2, 2, 2, 2, 2, 2, 2];
    bytes.extend([0; 8]);
    bytes.extend(locks);
    bytes.extend([stamp[0], stamp[1], 0, 0, 0]);
    bytes.extend([7, 0, 0, 0, 1, 0, 0, 0, item, 0, 0, 0, 1]);
    bytes.extend([usage[0], usage[1], 0, 0, 0]);
    bytes
}

/// The head or the tail: where level 1 leads, and who holds its lock.
pub(super) fn end(forward: u8, lock: u8) -> Vec<u8> {
    let mut bytes = vec![forward, 2, 2, 2, 2, 2, 2, 2, lock];
    bytes.resize(35, 0);
    bytes.extend([1, 0, 0, 0, 0, 0]);
    bytes
}

/// The first run, of 0 and 1: the image at these times. At 8 the Relaxed
/// Delete_Min has begun (tag 27), at 9 it is about to mark (28), at 10 it has
/// marked; at 26 the entry is handed out and its Insert is at I5 (10); at 27 that
/// has stamped the retired node.
pub fn images() -> Vec<(u32, Vec<u8>)> {
    let (inserting, at_i5) = (processor(1, 1, [8, 0, 1]), processor(1, 1, [10, 0, 0]));
    let relaxed = |own: u8, stage: [u8; 3]| processor(8, own, stage);
    let idle = processor(0, 0, [0, 0, 0]);
    let (linked, marked) = (
        entry(2, 42, [1, 0], [0, 0], [1, 0]),
        entry(2, 42, [1, 2], [0, 0], [1, 0]),
    );
    let (retired, stamped) = (
        entry(0, 42, [0, 2], [0, 0], [2, 26]),
        entry(0, 42, [0, 2], [1, 27], [2, 26]),
    );
    let image = |time: u8, first: &[u8], second: &[u8], head: Vec<u8>, node: &[u8]| {
        let front = [2, 1, 1, time, 0, 0, 0];
        let bytes = [&front, first, second, &head, node, &end(2, 0)].concat();
        (u32::from(time), bytes)
    };
    vec![
        image(8, &inserting, &relaxed(0, [27, 0, 1]), end(1, 1), &linked),
        image(9, &inserting, &relaxed(0, [28, 1, 1]), end(1, 1), &linked),
        image(10, &inserting, &relaxed(1, [14, 0, 1]), end(1, 1), &marked),
        image(26, &at_i5, &idle, end(2, 0), &retired),
        image(27, &idle, &idle, end(2, 0), &stamped),
    ]
}
