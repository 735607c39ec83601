//! Steps at a lock (document 02, W1), on records that check 21 takes and, most
//! of them, no run leads to: whom each waits for, and what it takes.

use super::records::record;
use super::rows::{Filling, Table};
use crate::queue::{Job, Operation, Place, Queue, Stage, JOBS};

/// A step with what it gives and leaves.
pub struct Case {
    /// What was put where.
    pub what: String,
    /// Which step it is.
    pub at: At,
    /// The record, which passes check 21.
    pub queue: Queue,
    /// The caller.
    pub processor: u32,
    /// Code and three values of the step.
    pub reply: [u32; 4],
    /// The record afterwards.
    pub after: Queue,
}

/// Where the caller stands, with node and level of its place.
#[derive(Clone, Copy, PartialEq, Eq, Debug)]
pub enum At {
    /// G2 of an Insert.
    InsertG2(u8, u8),
    /// G2 of a removal.
    RemovalG2(u8, u8),
    /// L1.
    L1,
    /// L2.
    L2(u8, u8),
}

use At::{InsertG2, RemovalG2, L1, L2};

/// The caller, its own node, where it stands, and code and values of its step
/// while every lock of the table is held.
type Row = (u32, u8, At, [u32; 4]);

/// What the locks of a queue hold, and steps on it.
struct Locks {
    sizes: [u8; 3],
    clock: u32,
    /// A node, what its locks hold from level 1 up, and what its node lock
    /// holds. Nodes that are left out have free locks.
    held: &'static [(usize, &'static [u8], u8)],
    /// The height of every own node, and what every processor has saved for
    /// that level: where L1 goes on.
    seek: (u8, u8),
    rows: &'static [Row],
}

/// A lock holds one more than the number of its processor. In a node the locks
/// of the levels and the node lock differ as far as there are processors, and so
/// do the locks of two nodes at a level.
const TABLES: [Locks; 5] = [
    // one processor, which waits for itself
    Locks {
        sizes: [1, 1, 1],
        clock: 30,
        held: &[(0, &[1], 1), (1, &[1], 1), (2, &[1], 1)],
        seek: (1, 0),
        rows: &[
            (0, 1, InsertG2(0, 1), [2, 0, 0, 0]),
            (0, 1, InsertG2(2, 1), [2, 0, 0, 0]),
            (0, 1, RemovalG2(0, 1), [2, 0, 0, 0]),
            (0, 1, L1, [2, 0, 0, 0]),
            (0, 1, L2(0, 1), [2, 0, 0, 0]),
        ],
    },
    Locks {
        sizes: [2, 2, 2],
        clock: 255,
        held: &[
            (0, &[1, 2], 2),
            (1, &[1, 1], 2),
            (2, &[2, 2], 1),
            (3, &[2, 1], 1),
        ],
        seek: (1, 3),
        rows: &[
            (1, 1, InsertG2(0, 1), [2, 0, 0, 0]),
            (0, 1, InsertG2(0, 2), [2, 1, 0, 0]),
            (0, 1, InsertG2(3, 1), [2, 1, 0, 0]),
            (0, 2, RemovalG2(2, 2), [2, 1, 0, 0]),
            (1, 2, RemovalG2(1, 2), [2, 0, 0, 0]),
            (0, 1, L1, [2, 1, 0, 0]),
            (1, 2, L1, [2, 0, 0, 0]),
            (0, 2, L2(1, 1), [2, 1, 0, 0]),
            (1, 1, L2(2, 2), [2, 0, 0, 0]),
        ],
    },
    Locks {
        sizes: [4, 3, 3],
        clock: 30,
        held: &[
            (0, &[1, 2, 3], 4),
            (1, &[2, 3, 4], 1),
            (2, &[3, 4, 1], 2),
            (3, &[4, 1, 2], 3),
            (4, &[1, 3, 2], 4),
        ],
        seek: (2, 1),
        rows: &[
            (1, 1, InsertG2(0, 3), [2, 2, 0, 0]),
            (0, 2, InsertG2(1, 3), [2, 3, 0, 0]),
            (1, 3, InsertG2(2, 2), [2, 3, 0, 0]),
            (0, 3, RemovalG2(3, 1), [2, 3, 0, 0]),
            (3, 1, RemovalG2(2, 1), [2, 2, 0, 0]),
            (2, 2, RemovalG2(3, 2), [2, 0, 0, 0]),
            (0, 1, L1, [2, 0, 0, 0]),
            (3, 1, L1, [2, 0, 0, 0]),
            (0, 3, L1, [2, 2, 0, 0]),
            (3, 2, L1, [2, 1, 0, 0]),
            (1, 1, L2(0, 3), [2, 3, 0, 0]),
            (0, 3, L2(2, 1), [2, 3, 0, 0]),
            (2, 2, L2(3, 2), [2, 3, 0, 0]),
            (3, 3, L2(1, 2), [2, 0, 0, 0]),
        ],
    },
    Locks {
        sizes: [16, 3, 3],
        clock: 65_535,
        held: &[
            (0, &[5, 6, 7], 8),
            (1, &[9, 10, 11], 12),
            (2, &[13, 14, 15], 16),
            (3, &[1, 2, 3], 4),
            (4, &[16, 12, 8], 4),
        ],
        seek: (3, 2),
        rows: &[
            (0, 1, InsertG2(0, 1), [2, 4, 0, 0]),
            (15, 2, InsertG2(0, 2), [2, 5, 0, 0]),
            (4, 3, InsertG2(0, 1), [2, 4, 0, 0]),
            (7, 1, InsertG2(2, 3), [2, 14, 0, 0]),
            (9, 3, InsertG2(4, 1), [2, 15, 0, 0]),
            (2, 2, RemovalG2(1, 1), [2, 8, 0, 0]),
            (14, 2, RemovalG2(1, 3), [2, 10, 0, 0]),
            (11, 1, RemovalG2(3, 1), [2, 0, 0, 0]),
            (6, 3, RemovalG2(2, 2), [2, 13, 0, 0]),
            (0, 2, L1, [2, 15, 0, 0]),
            (15, 2, L1, [2, 15, 0, 0]),
            (13, 1, L1, [2, 11, 0, 0]),
            (8, 3, L1, [2, 3, 0, 0]),
            (3, 2, L2(0, 1), [2, 12, 0, 0]),
            (10, 2, L2(1, 3), [2, 14, 0, 0]),
            (15, 3, L2(2, 2), [2, 1, 0, 0]),
            (0, 1, L2(3, 2), [2, 9, 0, 0]),
            (12, 3, L2(0, 1), [2, 0, 0, 0]),
        ],
    },
    Locks {
        sizes: [16, 200, 8],
        clock: 999_998,
        held: &[
            (0, &[1, 2, 3, 4, 5, 6, 7, 8], 9),
            (199, &[16, 15, 14, 13, 12, 11, 10, 9], 2),
            (200, &[9, 10, 11, 12, 13, 14, 15, 16], 1),
            (201, &[8, 7, 6, 5, 4, 3, 2, 1], 16),
        ],
        seek: (8, 201),
        rows: &[
            (0, 200, InsertG2(199, 1), [2, 15, 0, 0]),
            (7, 1, InsertG2(0, 8), [2, 7, 0, 0]),
            (3, 199, RemovalG2(200, 8), [2, 15, 0, 0]),
            (1, 200, RemovalG2(201, 4), [2, 4, 0, 0]),
            (15, 200, L1, [2, 0, 0, 0]),
            (9, 199, L1, [2, 1, 0, 0]),
            (2, 200, L2(199, 8), [2, 15, 0, 0]),
            (5, 199, L2(0, 1), [2, 15, 0, 0]),
            (14, 199, L2(200, 8), [2, 8, 0, 0]),
        ],
    },
];

/// Each step while every lock is held, while its lock alone is held, while every
/// lock but its own is held, and while none is. In the first two it waits, in
/// the others it takes the lock: all that counts is the lock that it asks for.
/// The steps of a removal are those of a Delete_Min, and then those of a Remove
/// (document 02, W5).
pub fn cases() -> Vec<Case> {
    let with_rows = |table: &'static Locks| table.rows.iter().map(move |row| (table, row));
    let each = |job: Job| {
        let of_job = move |row: &Row| job == Job::HandOut || !matches!(row.2, InsertG2(..));
        let all = TABLES.iter().flat_map(with_rows);
        let some = all.filter(move |(_, row)| of_job(row));
        some.flat_map(move |(table, row)| {
            [(true, true), (true, false), (false, true), (false, false)]
                .map(|(held, others)| case(table, row, job, held, others))
        })
    };
    JOBS.into_iter().flat_map(each).collect()
}

/// A step whose lock is held or free, and so are all the others.
fn case(table: &Locks, row: &Row, job: Job, held: bool, others: bool) -> Case {
    let &(processor, own, at, waits) = row;
    let mut queue = empty(table);
    if others {
        hold_all(table, &mut queue);
    }
    *lock(&mut queue, own, at) = if held { waits[1] as u8 + 1 } else { 0 };
    let caller = &mut queue.processors[processor as usize];
    (caller.own, caller.stage) = (own, stage(at, job));
    let mut after = queue.clone();
    after.clock += 1;
    if !held {
        *lock(&mut after, own, at) = processor as u8 + 1;
        after.processors[processor as usize].stage = next(table, at, job);
    }
    let words = |held: bool| if held { "held" } else { "free" };
    let sizes = table.sizes;
    Case {
        what: format!(
            "{sizes:?}: {processor} with node {own} at {at:?}, {job:?}, its lock {}, all others {}",
            words(held),
            words(others)
        ),
        at,
        queue,
        processor,
        reply: if held { waits } else { [1, 0, 0, 0] },
        after,
    }
}

/// All idle, with free locks and the table's height and saved nodes. Levels past
/// L hold what no processor has.
fn empty(table: &Locks) -> Queue {
    let mut queue = record(&Table {
        sizes: table.sizes,
        clock: table.clock,
        filling: Filling::Least,
        whole: &[],
        parts: &[],
    });
    let (height, saved) = table.seek;
    let [p, n, l] = table.sizes.map(usize::from);
    for node in &mut queue.nodes[..n + 2] {
        node.height = height;
        node.level_locks[l..].fill(255);
    }
    for processor in &mut queue.processors[..p] {
        processor.saved[usize::from(height) - 1] = saved;
    }
    queue
}

fn hold_all(table: &Locks, queue: &mut Queue) {
    for (number, levels, node_lock) in table.held {
        let node = &mut queue.nodes[*number];
        node.level_locks[..levels.len()].copy_from_slice(levels);
        node.node_lock = *node_lock;
    }
}

/// The lock that the step asks for.
fn lock(queue: &mut Queue, own: u8, at: At) -> &mut u8 {
    let (node, level) = match at {
        InsertG2(node, level) | RemovalG2(node, level) => (node, level),
        L2(_, level) => (own, level),
        L1 => return &mut queue.nodes[usize::from(own)].node_lock,
    };
    &mut queue.nodes[usize::from(node)].level_locks[usize::from(level) - 1]
}

fn stage(at: At, job: Job) -> Stage {
    let removal = Operation::Removal(job);
    match at {
        InsertG2(node, level) => Stage::G2Lock(Operation::Insert, Place { node, level }),
        RemovalG2(node, level) => Stage::G2Lock(removal, Place { node, level }),
        L1 => Stage::L1LockNode(job),
        L2(node, level) => Stage::L2LockOwn(job, Place { node, level }),
    }
}

/// The stage after the lock is taken.
fn next(table: &Locks, at: At, job: Job) -> Stage {
    let (level, node) = table.seek;
    let removal = Operation::Removal(job);
    match at {
        InsertG2(node, level) => Stage::G3Reread(Operation::Insert, Place { node, level }),
        RemovalG2(node, level) => Stage::G3Reread(removal, Place { node, level }),
        L1 => Stage::G1Read(removal, Place { node, level }),
        L2(node, level) => Stage::L3Unlink(job, Place { node, level }),
    }
}
