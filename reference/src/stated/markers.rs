//! Markers (document 02, W6): the bytes of each kind of node, how long an area
//! must be, and what is told along some runs.

use super::records::record;
use super::rows::{Table, TABLES};
use crate::calls::Call;
use crate::queue::{Queue, Use, NODE_SLOTS};

/// A kind of node: its use, its mark, and its marker's byte if it is told of.
type Kind = (Use, u8, Option<u8>);

/// Of queues for so many processors or more.
const KINDS: [(u8, Kind); 16] = [
    (1, (Use::Never, 0, None)),
    (1, (Use::Never, 1, None)),
    (1, (Use::InUse, 0, Some(255))),
    (1, (Use::InUse, 1, Some(0))),
    (1, (Use::Retired(0), 0, None)),
    (1, (Use::Retired(0), 1, None)),
    (2, (Use::Never, 2, None)),
    (2, (Use::InUse, 2, Some(1))),
    (2, (Use::Retired(0), 2, None)),
    (16, (Use::Never, 16, None)),
    (16, (Use::InUse, 3, Some(2))),
    (16, (Use::InUse, 8, Some(7))),
    (16, (Use::InUse, 9, Some(8))),
    (16, (Use::InUse, 15, Some(14))),
    (16, (Use::InUse, 16, Some(15))),
    (16, (Use::Retired(0), 16, None)),
];

/// The entry of this node is not marked.
const UNMARKED: Kind = (Use::InUse, 0, Some(255));

/// A record with what markers write for it.
pub struct Told {
    /// What was put where.
    pub what: String,
    /// The record, which passes check 21.
    pub queue: Queue,
    /// Two bytes for each node that is told of.
    pub bytes: Vec<u8>,
}

fn put(queue: &mut Queue, number: usize, (usage, mark, _): Kind) {
    let node = &mut queue.nodes[number];
    (node.state, node.mark) = (usage, mark);
}

/// The bytes of the unmarked nodes from one to another.
fn unmarked(from: usize, to: usize) -> Vec<u8> {
    (from..=to).flat_map(|number| [number as u8, 255]).collect()
}

/// The bytes of a node of this kind.
fn alone(number: usize, kind: Kind) -> Vec<u8> {
    kind.2
        .map_or(Vec::new(), |marker| vec![number as u8, marker])
}

/// Records with what is told of them: `kinds`, `never_told` and `other_marks`.
pub fn records() -> Vec<Told> {
    let mut all: Vec<Told> = TABLES.iter().flat_map(kinds).collect();
    all.extend(TABLES.iter().flat_map(never_told));
    all.extend(other_marks());
    all
}

/// On the record of a table, in which no node is in use: each kind at the first
/// node, at one in the middle and at the last, with a stamp and without, alone
/// and where all the others are in use and unmarked.
fn kinds(table: &Table) -> Vec<Told> {
    let base = record(table);
    let last = usize::from(base.node_count);
    let mut full = base.clone();
    (1..=last).for_each(|number| put(&mut full, number, UNMARKED));
    let mut all = Vec::new();
    let mut add = |start: &Queue, number: usize, kind: Kind, bytes: Vec<u8>| {
        for stamp in [None, Some(0)] {
            let mut queue = start.clone();
            put(&mut queue, number, kind);
            queue.nodes[number].stamp = stamp;
            let (sizes, filling) = (table.sizes, table.filling);
            let what = format!("{sizes:?} {filling:?}, node {number} {kind:?} {stamp:?}");
            let bytes = bytes.clone();
            all.push(Told { what, queue, bytes });
        }
    };
    for (least, kind) in KINDS {
        if least > base.processor_count {
            continue;
        }
        for number in [1, last / 2 + 1, last] {
            let own = alone(number, kind);
            add(&base, number, kind, own.clone());
            let among = [unmarked(1, number - 1), own, unmarked(number + 1, last)];
            add(&full, number, kind, among.concat());
        }
    }
    all
}

/// The head, the tail and the slots past it.
fn never_told(table: &Table) -> Vec<Told> {
    let base = record(table);
    let (sizes, last) = (table.sizes, usize::from(base.node_count));
    let mut all = Vec::new();
    let mut add = |from: usize, to: usize, mark: u8| {
        let mut queue = base.clone();
        (from..to).for_each(|number| put(&mut queue, number, (Use::InUse, mark, None)));
        all.push(Told {
            what: format!("{sizes:?}, slots {from} to {to} with the mark {mark}"),
            queue,
            bytes: Vec::new(),
        });
    };
    for mark in [0, 1, sizes[0]] {
        add(0, 1, mark);
        add(last + 1, last + 2, mark);
        add(last + 2, NODE_SLOTS, mark);
    }
    all
}

/// Three nodes between a head and a tail that are marked too, and 200 nodes.
fn other_marks() -> [Told; 2] {
    let mut three = record(&TABLES[2]);
    for (number, mark) in [(0, 1), (1, 2), (2, 0), (3, 1), (4, 2)] {
        put(&mut three, number, (Use::InUse, mark, None));
    }
    let mut many = record(&TABLES[4]);
    let mut bytes = Vec::new();
    for number in 1..=200 {
        let mark = number % 17;
        put(&mut many, usize::from(number), (Use::InUse, mark, None));
        bytes.extend([number, if mark == 0 { 255 } else { mark - 1 }]);
    }
    assert_eq!(bytes[..8], [1, 0, 2, 1, 3, 2, 4, 3]);
    assert_eq!(bytes[30..36], [16, 15, 17, 255, 18, 0]);
    assert_eq!(bytes[396..], [199, 11, 200, 12]);
    [
        Told {
            what: "three nodes".to_string(),
            queue: three,
            bytes: vec![1, 1, 2, 255, 3, 0],
        },
        Told {
            what: "200 nodes".to_string(),
            queue: many,
            bytes,
        },
    ]
}

/// How many nodes are in use, lengths of areas that are enough for them, and
/// lengths that are not.
pub const ROOMS: [(usize, &[usize], &[usize]); 6] = [
    (0, &[0, 1, 2, 3, 400], &[]),
    (1, &[2, 3, 4, 400, 401], &[0, 1]),
    (2, &[4, 5, 6, 400], &[0, 1, 2, 3]),
    (3, &[6, 7, 8, 255, 256, 400], &[0, 1, 3, 4, 5]),
    (199, &[398, 399, 400, 401], &[0, 1, 199, 255, 256, 396, 397]),
    (
        200,
        &[400, 401, 402, 512, 65_536],
        &[0, 1, 200, 255, 256, 398, 399],
    ),
];

/// The areas for so many nodes in use.
pub fn rooms(nodes: usize) -> (&'static [usize], &'static [usize]) {
    let row = ROOMS.iter().find(|row| row.0 == nodes);
    row.map(|row| (row.1, row.2)).expect("the table has it")
}

/// From a time to a time: what is told, and what the mark of node 1 holds.
pub type Span = (u32, u32, &'static [u8], u8);

/// A run on a fresh queue with one node and one level: for how many processors,
/// its calls, each of which takes its time, and what is told before the first
/// and after each.
pub struct Run {
    /// What happens in it.
    pub what: &'static str,
    /// P.
    pub processors: u32,
    /// The calls.
    pub calls: Vec<Call>,
    /// From 0 to the time of the last call.
    pub spans: &'static [Span],
}

/// The printed run by its only processor, the same by the last of sixteen, one
/// with two processors, in which the node is marked by each in turn, one in which
/// Relaxed Delete_Mins mark it, and one in which a Remove does.
pub fn runs() -> [Run; 5] {
    [
        Run {
            what: "the printed run",
            processors: 1,
            calls: printed_by(0),
            spans: &[
                (0, 0, &[], 0),
                (1, 13, &[1, 255], 0),
                (14, 25, &[1, 0], 1),
                (26, 28, &[], 1),
            ],
        },
        Run {
            what: "the printed run by processor 15",
            processors: 16,
            calls: printed_by(15),
            spans: &[
                (0, 0, &[], 0),
                (1, 13, &[1, 255], 0),
                (14, 25, &[1, 15], 16),
                (26, 28, &[], 16),
            ],
        },
        Run {
            what: "marked by 1, passed over by 0, filled in by 0 and marked by it",
            processors: 2,
            calls: marked_in_turn(),
            spans: &[
                (0, 0, &[], 0),
                (1, 14, &[1, 255], 0),
                (15, 30, &[1, 1], 2),
                (31, 31, &[], 2),
                (32, 44, &[1, 255], 0),
                (45, 56, &[1, 0], 1),
                (57, 57, &[], 1),
            ],
        },
        relaxed(),
        removed(),
    ]
}

fn removed() -> Run {
    Run {
        what: "taken back by 1, passed over by 0, filled in by 0",
        processors: 2,
        calls: taken_back(),
        spans: &[
            (0, 0, &[], 0),
            (1, 14, &[1, 255], 0),
            (15, 31, &[1, 1], 2),
            (32, 32, &[], 2),
            (33, 33, &[1, 255], 0),
        ],
    }
}

fn relaxed() -> Run {
    Run {
        what: "marked by 1 before 0 answers, filled in by 1 and marked by 0",
        processors: 2,
        calls: marked_before_its_answer(),
        spans: &[
            (0, 0, &[], 0),
            (1, 9, &[1, 255], 0),
            (10, 25, &[1, 1], 2),
            (26, 27, &[], 2),
            (28, 39, &[1, 255], 0),
            (40, 51, &[1, 0], 1),
            (52, 54, &[], 1),
        ],
    }
}

fn insert(processor: u64) -> Call {
    Call::Insert {
        processor,
        due: 7,
        item: 42,
        height: 1,
    }
}

fn delete(processor: u64) -> Call {
    Call::DeleteMin { processor }
}

fn steps(processor: u64, count: usize) -> Vec<Call> {
    vec![Call::Step { processor }; count]
}

/// Insert at 1, answered at 10; Delete_Min at 11, marked at 14, handed out at
/// 26; Delete_Min at 27, EMPTY at 28.
fn printed_by(p: u64) -> Vec<Call> {
    let mut calls = vec![insert(p)];
    calls.extend(steps(p, 9));
    calls.push(delete(p));
    calls.extend(steps(p, 15));
    calls.extend([delete(p), Call::Step { processor: p }]);
    calls
}

/// Insert by 0 at 1, answered at 10. Delete_Min by 1 at 11, which tests the
/// stamp at 13; Delete_Min by 0 at 14. 1 marks at 15; 0 finds the mark at 18 and
/// answers EMPTY at 19; 1 hands out at 31. Insert by 0 at 32, answered at 41;
/// Delete_Min by 0 at 42, marked at 45, handed out at 57.
fn marked_in_turn() -> Vec<Call> {
    let mut calls = vec![insert(0)];
    calls.extend(steps(0, 9));
    calls.push(delete(1));
    calls.extend(steps(1, 2));
    calls.push(delete(0));
    calls.extend(steps(1, 1));
    calls.extend(steps(0, 4));
    calls.extend(steps(1, 12));
    calls.push(insert(0));
    calls.extend(steps(0, 9));
    calls.push(delete(0));
    calls.extend(steps(0, 15));
    calls
}

/// Insert by 0 at 1, linked at 7; Relaxed Delete_Min by 1 at 8, marked at 10,
/// which waits at 12 and 14 for the node lock and hands out at 26; the Insert
/// answers at 27. Insert by 1 at 28, answered at 37; Relaxed Delete_Min by 0 at
/// 38, marked at 40, handed out at 52; another at 53, EMPTY at 54.
fn marked_before_its_answer() -> Vec<Call> {
    let relaxed = |processor: u64| Call::Relaxed { processor };
    let mut calls = vec![insert(0)];
    calls.extend(steps(0, 6));
    calls.push(relaxed(1));
    calls.extend(steps(1, 4));
    calls.extend(steps(0, 1));
    calls.extend(steps(1, 1));
    calls.extend(steps(0, 1));
    calls.extend(steps(1, 11));
    calls.extend(steps(0, 1));
    calls.push(insert(1));
    calls.extend(steps(1, 9));
    calls.push(relaxed(0));
    calls.extend(steps(0, 14));
    calls.push(relaxed(0));
    calls.extend(steps(0, 1));
    calls
}

/// Insert by 0 at 1, answered at 10; Remove by 1 at 11, marked at 15; Remove by 0
/// at 16, which finds the mark at 20; 1 takes the entry back at 32. Insert by 0 at
/// 33.
fn taken_back() -> Vec<Call> {
    let remove = |processor: u64| Call::Remove {
        processor,
        due: 7,
        ticket: 1,
    };
    let mut calls = vec![insert(0)];
    calls.extend(steps(0, 9));
    calls.push(remove(1));
    calls.extend(steps(1, 4));
    calls.push(remove(0));
    calls.extend(steps(0, 4));
    calls.extend(steps(1, 12));
    calls.push(insert(0));
    calls
}
