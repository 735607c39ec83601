//! Steps of a Remove (document 02, W5) on records that check 21 takes and, most of
//! them, no run leads to: what each gives and leaves. The numbers of each are
//! written by hand.

use super::records::record;
use super::rows::{Filling, Table};
use super::walks::Case;
use crate::queue::{Job, Operation, Place, Queue, Stage, Use, Wanted};

/// A stage with its place: node and level; L1 and L8 have none.
#[derive(Clone, Copy, Debug)]
enum At {
    XS(u8, u8),
    X1(u8, u8),
    X2(u8, u8),
    X3(u8, u8),
    Search(u8, u8),
    L1,
    L8,
}

/// What a step does.
#[derive(Clone, Copy, Debug)]
enum Does {
    /// It goes to this stage.
    Goes(At),
    /// It saves this node for this level and goes to this stage.
    Saves(u8, usize, At),
    /// It answers N.
    Ends,
    /// It marks its node, with this due minute, item and ticket.
    Marks(u8, [u32; 3]),
    /// It takes its own node back, with this due minute, item and ticket.
    TakesBack([u32; 3]),
}

use At::{Search, L1, L8, X1, X2, X3, XS};
use Does::{Ends, Goes, Marks, Saves, TakesBack};

/// Where the caller stands, its begin, the due minute and ticket that it looks
/// for, and what its step does.
type Step = (At, u32, [u32; 2], Does);

/// On level 2 the head leads to node 3, that to the tail, node 1 to the tail, node
/// 2 to node 1, node 4 to node 2 and the tail to node 3. In the order of keys come
/// nodes 1 (5, 3), 2 (5, 9), 4 (7, 20) and 3 (9, 30).
const SEARCHES: [Step; 18] = [
    (XS(0, 2), 20, [5, 9], Saves(0, 2, XS(0, 1))),
    (XS(0, 2), 20, [9, 30], Saves(0, 2, XS(0, 1))),
    (XS(0, 2), 20, [9, 31], Goes(XS(3, 2))),
    (XS(0, 2), 20, [10, 1], Goes(XS(3, 2))),
    (XS(0, 2), 20, [8, 999_999], Saves(0, 2, XS(0, 1))),
    (XS(3, 2), 20, [9, 31], Saves(3, 2, XS(3, 1))),
    (XS(3, 2), 20, [999_999, 999_999], Saves(3, 2, XS(3, 1))),
    (XS(2, 2), 20, [5, 9], Goes(XS(1, 2))),
    (XS(5, 2), 20, [10, 5], Goes(XS(3, 2))),
    (XS(0, 1), 20, [5, 9], Goes(XS(1, 1))),
    (XS(0, 1), 20, [6, 1], Goes(XS(1, 1))),
    (XS(0, 1), 20, [5, 3], Saves(0, 1, X1(0, 1))),
    (XS(0, 1), 20, [5, 2], Saves(0, 1, X1(0, 1))),
    (XS(0, 1), 20, [0, 999_999], Saves(0, 1, X1(0, 1))),
    (XS(1, 1), 20, [5, 9], Saves(1, 1, X1(1, 1))),
    (XS(2, 1), 20, [6, 1], Saves(2, 1, X1(2, 1))),
    (XS(3, 1), 20, [9, 31], Goes(XS(0, 1))),
    (XS(5, 1), 20, [5, 9], Saves(5, 1, X1(5, 1))),
];

/// On level 1 the head leads to node 1, that to node 2, that to the tail, node 3
/// back to the head, node 4 to node 3 and the tail to node 2. A read looks at that
/// level, whichever the place has.
const READS: [Step; 24] = [
    (X1(0, 1), 20, [5, 3], Goes(X2(1, 1))),
    (X1(0, 2), 20, [5, 3], Goes(X2(1, 1))),
    (X1(0, 1), 20, [5, 9], Goes(X1(1, 1))),
    (X1(0, 2), 20, [9, 30], Goes(X1(1, 1))),
    (X1(0, 1), 20, [6, 1], Goes(X1(1, 1))),
    (X1(0, 1), 20, [5, 2], Ends),
    (X1(0, 1), 20, [4, 3], Ends),
    (X1(0, 2), 20, [0, 999_999], Ends),
    (X1(1, 1), 20, [5, 9], Goes(X2(2, 1))),
    (X1(1, 2), 20, [5, 9], Goes(X2(2, 1))),
    (X1(1, 1), 20, [5, 8], Ends),
    (X1(1, 1), 20, [5, 10], Goes(X1(2, 1))),
    (X1(1, 1), 20, [9, 9], Goes(X1(2, 1))),
    (X1(2, 1), 20, [5, 10], Ends),
    (X1(2, 2), 20, [999_999, 999_999], Ends),
    (X1(2, 1), 20, [0, 1], Ends),
    (X1(3, 1), 20, [9, 31], Goes(X1(0, 1))),
    (X1(3, 2), 20, [0, 1], Goes(X1(0, 1))),
    (X1(4, 1), 20, [9, 30], Goes(X2(3, 1))),
    (X1(4, 1), 20, [9, 29], Ends),
    (X1(4, 1), 20, [8, 30], Ends),
    (X1(4, 2), 20, [9, 31], Goes(X1(3, 1))),
    (X1(5, 1), 20, [5, 9], Goes(X2(2, 1))),
    (X1(5, 2), 20, [7, 20], Goes(X1(2, 1))),
];

/// Node 1 is stamped at 10, node 2 at 12, node 3 at 5; node 4 has no stamp, nor
/// have the head and the tail. The key is not looked at once more.
const TESTS: [Step; 17] = [
    (X2(1, 1), 20, [5, 3], Goes(X3(1, 1))),
    (X2(1, 2), 20, [5, 3], Goes(X3(1, 2))),
    (X2(1, 1), 11, [5, 3], Goes(X3(1, 1))),
    (X2(1, 1), 10, [5, 3], Ends),
    (X2(1, 1), 9, [5, 3], Ends),
    (X2(1, 1), 0, [5, 3], Ends),
    (X2(1, 2), 30, [77, 999_999], Goes(X3(1, 2))),
    (X2(2, 1), 13, [5, 9], Goes(X3(2, 1))),
    (X2(2, 1), 12, [5, 9], Ends),
    (X2(3, 1), 6, [9, 30], Goes(X3(3, 1))),
    (X2(3, 2), 5, [9, 30], Ends),
    (X2(4, 1), 30, [7, 20], Ends),
    (X2(4, 2), 1, [7, 20], Ends),
    (X2(0, 1), 30, [5, 3], Ends),
    (X2(0, 2), 0, [5, 3], Ends),
    (X2(5, 1), 30, [5, 3], Ends),
    (X2(5, 2), 1, [999_999, 1], Ends),
];

/// Node 2 is marked by processor 2, the others by nobody; 3 is retired. Neither
/// stamp nor key is looked at once more: N tells the key that is carried, and M
/// that of the node.
const MARKS: [Step; 10] = [
    (X3(1, 1), 20, [5, 3], Marks(1, [5, 15, 3])),
    (X3(1, 2), 20, [5, 3], Marks(1, [5, 15, 3])),
    (X3(1, 1), 0, [77, 1], Marks(1, [5, 15, 3])),
    (X3(2, 1), 20, [5, 9], Ends),
    (X3(2, 2), 20, [5, 9], Ends),
    (X3(2, 1), 0, [77, 999_999], Ends),
    (X3(3, 1), 20, [9, 30], Marks(3, [9, 0, 30])),
    (X3(3, 2), 5, [9, 30], Marks(3, [9, 0, 30])),
    (X3(4, 1), 20, [7, 20], Marks(4, [7, 17, 20])),
    (X3(4, 2), 30, [7, 20], Marks(4, [7, 17, 20])),
];

/// After the mark, with node 4 as the own one: the Search for its key, the end of
/// it, and the end of the removal. No key is carried any more.
const REMOVALS: [Step; 5] = [
    (Search(0, 2), 20, [0, 0], Saves(0, 2, Search(0, 1))),
    (Search(0, 1), 20, [0, 0], Goes(Search(1, 1))),
    (Search(1, 1), 20, [0, 0], Goes(Search(2, 1))),
    (Search(2, 1), 20, [0, 0], Saves(2, 1, L1)),
    (L8, 20, [0, 0], TakesBack([7, 17, 20])),
];

/// The record with all idle.
fn base() -> Queue {
    let mut queue = record(&Table {
        sizes: [3, 4, 2],
        clock: 30,
        filling: Filling::Least,
        whole: &[],
        parts: &[],
    });
    for (number, forward) in [
        (0, [1, 3]),
        (1, [2, 5]),
        (2, [5, 1]),
        (3, [0, 5]),
        (4, [3, 2]),
        (5, [2, 3]),
    ] {
        queue.nodes[number].forward[..2].copy_from_slice(&forward);
    }
    let [_, one, two, three, four, ..] = &mut queue.nodes;
    (one.due, one.item, one.ticket, one.state) = (5, 15, 3, Use::InUse);
    (two.due, two.item, two.ticket, two.state) = (5, 16, 9, Use::InUse);
    (three.due, three.item, three.ticket) = (9, 0, 30);
    (four.due, four.item, four.ticket, four.state) = (7, 17, 20, Use::InUse);
    (one.stamp, two.stamp, three.stamp) = (Some(10), Some(12), Some(5));
    (two.mark, three.state) = (3, Use::Retired(7));
    queue
}

fn stage(at: At, wanted: Wanted) -> Stage {
    let place = |node: u8, level: u8| Place { node, level };
    match at {
        XS(node, level) => Stage::XSearch(wanted, place(node, level)),
        X1(node, level) => Stage::X1Read(wanted, place(node, level)),
        X2(node, level) => Stage::X2Test(wanted, place(node, level)),
        X3(node, level) => Stage::X3Mark(wanted, place(node, level)),
        Search(node, level) => Stage::Search(Operation::Removal(Job::TakeBack), place(node, level)),
        L1 => Stage::L1LockNode(Job::TakeBack),
        L8 => Stage::L8Retire(Job::TakeBack),
    }
}

/// Each step by each processor, with different own nodes where the stage has none.
pub fn cases() -> Vec<Case> {
    let tables: [&[Step]; 5] = [&SEARCHES, &READS, &TESTS, &MARKS, &REMOVALS];
    let mut all = Vec::new();
    for step in tables.into_iter().flatten() {
        for (p, own) in [(0, 0), (1, 5), (2, 2)] {
            let own = match step.0 {
                Search(..) | L1 | L8 => 4,
                _ => own,
            };
            all.push(case(step, p, own));
        }
    }
    all
}

fn case(&(at, begin, [due, ticket], does): &Step, p: usize, own: u8) -> Case {
    let wanted = Wanted { due, ticket };
    let mut queue = base();
    let caller = &mut queue.processors[p];
    (caller.begin, caller.own, caller.stage) = (begin, own, stage(at, wanted));
    caller.saved[..2].copy_from_slice(&[2, 5]);
    let mut after = queue.clone();
    after.clock = 31;
    Case {
        what: format!("{p} at {at:?}, begun at {begin}, looks for {due} {ticket}, {does:?}"),
        reply: make(&mut after, p, wanted, does),
        queue,
        processor: p as u32,
        after,
    }
}

/// Puts what the step of p leaves, and gives code and values of its answer.
fn make(after: &mut Queue, p: usize, wanted: Wanted, does: Does) -> [u32; 4] {
    let caller = &mut after.processors[p];
    let own = usize::from(caller.own);
    match does {
        Goes(to) => caller.stage = stage(to, wanted),
        Saves(node, level, to) => {
            (caller.stage, caller.saved[level - 1]) = (stage(to, wanted), node);
        }
        Marks(node, _) => {
            (caller.own, caller.stage) = (node, stage(Search(0, 2), wanted));
            after.nodes[usize::from(node)].mark = p as u8 + 1;
        }
        Ends | TakesBack(_) => {
            (caller.begin, caller.own, caller.stage) = (0, 0, Stage::Idle);
            caller.saved[..2].fill(0);
        }
    }
    match does {
        Goes(_) | Saves(..) => [1, 0, 0, 0],
        Marks(_, [due, item, ticket]) => [4, due, item, ticket],
        Ends => [8, wanted.due, wanted.ticket, 0],
        TakesBack([due, item, ticket]) => {
            after.nodes[own].state = Use::Retired(31);
            [7, due, item, ticket]
        }
    }
}
