//! Steps of a Relaxed walk (document 02, W3) on records that check 21 takes and,
//! most of them, no run leads to: what each gives and leaves. The numbers of each
//! are written by hand.

use super::records::record;
use super::rows::{Filling, Table};
use crate::queue::{Job, Operation, Place, Queue, Stage, Use};

/// A step with what it gives and leaves.
pub struct Case {
    /// Who stands where.
    pub what: String,
    /// The record, which passes check 21.
    pub queue: Queue,
    /// The caller.
    pub processor: u32,
    /// Code and three values of the step.
    pub reply: [u32; 4],
    /// The record afterwards.
    pub after: Queue,
}

/// A stage with its place: node and level.
#[derive(Clone, Copy, Debug)]
enum At {
    RW1(u8, u8),
    RW3(u8, u8),
}

/// What a step does.
#[derive(Clone, Copy, Debug)]
enum Does {
    /// It goes to this stage.
    Goes(At),
    /// It finds nothing.
    Ends,
    /// It marks its node, with this due minute, item and ticket.
    Marks(u8, [u32; 3]),
}

use At::{RW1, RW3};
use Does::{Ends, Goes, Marks};

/// Where the caller stands, and what its step does. On level 1 the head leads to
/// node 1, that back to the head, node 2 to the tail, node 3 to itself and the
/// tail to node 2; on level 2 all lead elsewhere, and the walk does not look.
/// Node 2 is marked; the others are not, and 3 is stamped and retired.
const STEPS: [(At, Does); 16] = [
    (RW1(0, 1), Goes(RW3(1, 1))),
    (RW1(0, 2), Goes(RW3(1, 1))),
    (RW1(1, 1), Goes(RW1(0, 1))),
    (RW1(1, 2), Goes(RW1(0, 1))),
    (RW1(2, 1), Ends),
    (RW1(2, 2), Ends),
    (RW1(3, 1), Goes(RW3(3, 1))),
    (RW1(3, 2), Goes(RW3(3, 1))),
    (RW1(4, 1), Goes(RW3(2, 1))),
    (RW1(4, 2), Goes(RW3(2, 1))),
    (RW3(1, 1), Marks(1, [5, 15, 3])),
    (RW3(1, 2), Marks(1, [5, 15, 3])),
    (RW3(2, 1), Goes(RW1(2, 1))),
    (RW3(2, 2), Goes(RW1(2, 2))),
    (RW3(3, 1), Marks(3, [9, 0, 30])),
    (RW3(3, 2), Marks(3, [9, 0, 30])),
];

/// The record with all idle.
fn base() -> Queue {
    let mut queue = record(&Table {
        sizes: [3, 3, 2],
        clock: 30,
        filling: Filling::Least,
        whole: &[],
        parts: &[],
    });
    for (number, forward) in [
        (0, [1, 3]),
        (1, [0, 2]),
        (2, [4, 0]),
        (3, [3, 4]),
        (4, [2, 1]),
    ] {
        queue.nodes[number].forward[..2].copy_from_slice(&forward);
    }
    let [_, one, two, three, ..] = &mut queue.nodes;
    (one.due, one.item, one.ticket, one.state) = (5, 15, 3, Use::InUse);
    (two.mark, two.stamp, two.state) = (3, Some(10), Use::InUse);
    (three.due, three.item, three.ticket) = (9, 0, 30);
    (three.stamp, three.state) = (Some(30), Use::Retired(7));
    queue
}

fn stage(at: At) -> Stage {
    match at {
        RW1(node, level) => Stage::RW1Read(Place { node, level }),
        RW3(node, level) => Stage::RW3Mark(Place { node, level }),
    }
}

/// Each step by each processor, with different begins and own nodes, which no
/// such stage has.
pub fn cases() -> Vec<Case> {
    let mut all = Vec::new();
    for (at, does) in STEPS {
        for (p, begin, own) in [(0, 20, 0), (1, 30, 4), (2, 1, 2)] {
            all.push(case(at, does, p, begin, own));
        }
    }
    all
}

fn case(at: At, does: Does, p: usize, begin: u32, own: u8) -> Case {
    let mut queue = base();
    let caller = &mut queue.processors[p];
    (caller.begin, caller.own, caller.stage) = (begin, own, stage(at));
    caller.saved[..2].copy_from_slice(&[2, 4]);
    let mut after = queue.clone();
    after.clock = 31;
    let caller = &mut after.processors[p];
    let reply = match does {
        Goes(to) => {
            caller.stage = stage(to);
            [1, 0, 0, 0]
        }
        Ends => {
            (caller.begin, caller.own, caller.stage) = (0, 0, Stage::Idle);
            caller.saved[..2].fill(0);
            [3, 0, 0, 0]
        }
        Marks(node, [due, item, ticket]) => {
            let head = Place { node: 0, level: 2 };
            let removal = Operation::Removal(Job::HandOut);
            (caller.own, caller.stage) = (node, Stage::Search(removal, head));
            after.nodes[usize::from(node)].mark = p as u8 + 1;
            [4, due, item, ticket]
        }
    };
    Case {
        what: format!("{p} at {at:?}, begun at {begin}, {does:?}"),
        queue,
        processor: p as u32,
        reply,
        after,
    }
}
