//! Backlog (document 02, W2): which nodes it counts, and what it gives along
//! the printed run.

use super::records::record;
use super::rows::TABLES;
use crate::calls::Call;
use crate::queue::{Queue, Use};

/// A kind of node: its use, its stamp, its mark (1 is processor 0's), and 1 if
/// Backlog counts it.
type Kind = (Use, Option<u32>, u8, u32);

const KINDS: [Kind; 12] = [
    (Use::Never, None, 0, 0),
    (Use::Never, None, 1, 0),
    (Use::Never, Some(0), 0, 0),
    (Use::Never, Some(0), 1, 0),
    (Use::InUse, None, 0, 0),
    (Use::InUse, None, 1, 0),
    (Use::InUse, Some(0), 0, 1),
    (Use::InUse, Some(0), 1, 0),
    (Use::Retired(0), None, 0, 0),
    (Use::Retired(0), None, 1, 0),
    (Use::Retired(0), Some(0), 0, 0),
    (Use::Retired(0), Some(0), 1, 0),
];

/// The entry of this node is answered and not marked.
const PENDING: Kind = (Use::InUse, Some(0), 0, 1);

/// The Insert of this node's entry has not answered.
const UNANSWERED: Kind = (Use::InUse, None, 0, 0);

/// A record with what Backlog gives for it.
pub struct Counted {
    /// What was put where.
    pub what: String,
    /// The record, which passes check 21.
    pub queue: Queue,
    /// The count.
    pub count: u32,
}

fn put(queue: &mut Queue, number: usize, (usage, stamp, mark, _): Kind) {
    let node = &mut queue.nodes[number];
    (node.state, node.stamp, node.mark) = (usage, stamp, mark);
}

/// On the record of each table, in which no node is in use: each kind, and one
/// with the last processor's mark, at the first node, at one in the middle and
/// at the last, alone and where all the others count; and what never counts, the
/// head, the tail and the slots past it.
pub fn records() -> Vec<Counted> {
    let mut all = Vec::new();
    for table in &TABLES {
        let base = record(table);
        let last = usize::from(base.node_count);
        let mut full = base.clone();
        (1..=last).for_each(|number| put(&mut full, number, PENDING));
        let mut add = |queue: Queue, count: u32, words: String| {
            let what = format!("{:?} {:?}, {words}", table.sizes, table.filling);
            all.push(Counted { what, queue, count });
        };
        let by_the_last: Kind = (Use::InUse, Some(0), table.sizes[0], 0);
        for kind in KINDS.into_iter().chain([by_the_last]) {
            for number in [1, last / 2 + 1, last] {
                let mut queue = base.clone();
                put(&mut queue, number, kind);
                add(queue, kind.3, format!("node {number} alone {kind:?}"));
                let mut queue = full.clone();
                put(&mut queue, number, kind);
                let words = format!("all counted but node {number} {kind:?}");
                add(queue, last as u32 - 1 + kind.3, words);
            }
        }
        for number in [0, last + 1] {
            let mut queue = base.clone();
            put(&mut queue, number, UNANSWERED);
            add(queue, 0, format!("node {number} in use"));
        }
        let mut queue = base.clone();
        (last + 2..queue.nodes.len()).for_each(|number| put(&mut queue, number, PENDING));
        add(queue, 0, "the slots past the tail".to_string());
    }
    all
}

/// What Backlog gives in the printed run: from a time to a time, the count.
pub const PRINTED: [(u32, u32, u32); 3] = [(0, 9, 0), (10, 13, 1), (14, 28, 0)];

/// The printed run's calls, 28 of them; the clock is 0 before the first.
pub fn printed() -> Vec<Call> {
    let insert = Call::Insert {
        processor: 0,
        due: 7,
        item: 42,
        height: 1,
    };
    let delete = Call::DeleteMin { processor: 0 };
    let step = Call::Step { processor: 0 };
    let mut calls = vec![insert];
    calls.extend([step; 9]);
    calls.push(delete);
    calls.extend([step; 15]);
    calls.extend([delete, step]);
    calls
}
