//! Conjuncts about locks, and about what the holder of a lock knows.

use super::{Conjunct, View};
use crate::claims::Claim;
use crate::locks::Lock;
use crate::queue::{named, slot, Place, Stage, HEAD};
use crate::stages::holder;

pub(super) const CONJUNCTS: &[Conjunct] = &[
    ("HoldsPlace", holds_place),
    ("HoldsOwn", holds_own),
    ("HoldsNode", holds_node),
    ("NodeLockHeld", node_lock_held),
    ("LevelLockHeld", level_lock_held),
    ("I1After", i1_after),
    ("I2After", i2_after),
    ("I2Own", i2_own),
    ("L2Next", l2_next),
    ("L3Next", l3_next),
    ("L4Same", l4_same),
    ("L4After", l4_after),
];

/// From G3 to the freeing of it, the place's lock is held by the processor.
fn holds_place(view: &View) -> bool {
    view.busy().all(|(number, _, p)| match p.place {
        Some(a) if p.holds_place => view.node(a.node).level_locks[slot(a.level)] == holder(number),
        _ => true,
    })
}

/// At L3, L4 and L5 the own node's lock at the level is held by the processor.
fn holds_own(view: &View) -> bool {
    view.busy().all(|(number, _, p)| match p.place {
        Some(a) if p.holds_own => view.node(p.own).level_locks[slot(a.level)] == holder(number),
        _ => true,
    })
}

/// An Insert up to I4, and a remover after L1 up to L7, holds its own node
/// lock.
fn holds_node(view: &View) -> bool {
    view.busy()
        .all(|(number, _, p)| !p.holds_node || view.node(p.own).node_lock == holder(number))
}

/// A held node lock is held by a processor whose stage says so.
fn node_lock_held(view: &View) -> bool {
    (HEAD..=view.queue.tail()).all(|n| free_or_claimed(view, Lock::Node(n)))
}

/// A held level lock is held by a processor whose stage says so.
fn level_lock_held(view: &View) -> bool {
    (HEAD..=view.queue.tail()).all(|node| {
        let at = |level| Lock::Level(Place { node, level });
        view.levels().all(|level| free_or_claimed(view, at(level)))
    })
}

fn free_or_claimed(view: &View, lock: Lock) -> bool {
    match named(view.queue.lock(lock)) {
        None => true,
        Some(p) => view.claims[p as usize].holds(lock),
    }
}

/// At I1 the node after the place is after the own node.
fn i1_after(view: &View) -> bool {
    view.busy().all(|(_, processor, p)| match processor.stage {
        Stage::I1PointOwn(a) => leads_past_own(view, p, a),
        _ => true,
    })
}

/// At I2 the node after the place is after the own node.
fn i2_after(view: &View) -> bool {
    view.busy().all(|(_, processor, p)| match processor.stage {
        Stage::I2Link(a) => leads_past_own(view, p, a),
        _ => true,
    })
}

/// At I2 the own forward number is the place's.
fn i2_own(view: &View) -> bool {
    view.busy().all(|(_, processor, p)| match processor.stage {
        Stage::I2Link(a) => leads_as_own(view, p, a),
        _ => true,
    })
}

/// At L2 the place leads to the own node.
fn l2_next(view: &View) -> bool {
    view.busy().all(|(_, processor, p)| match processor.stage {
        Stage::L2LockOwn(_, a) => view.forward(a.node, a.level) == p.own,
        _ => true,
    })
}

/// At L3 the place leads to the own node.
fn l3_next(view: &View) -> bool {
    view.busy().all(|(_, processor, p)| match processor.stage {
        Stage::L3Unlink(_, a) => view.forward(a.node, a.level) == p.own,
        _ => true,
    })
}

/// At L4 the own forward number is the place's.
fn l4_same(view: &View) -> bool {
    view.busy().all(|(_, processor, p)| match processor.stage {
        Stage::L4PointBack(_, a) => leads_as_own(view, p, a),
        _ => true,
    })
}

/// At L4 the node after the place is after the own node.
fn l4_after(view: &View) -> bool {
    view.busy().all(|(_, processor, p)| match processor.stage {
        Stage::L4PointBack(_, a) => leads_past_own(view, p, a),
        _ => true,
    })
}

fn leads_past_own(view: &View, p: &Claim, a: Place) -> bool {
    view.key(view.forward(a.node, a.level)) > view.key(p.own)
}

fn leads_as_own(view: &View, p: &Claim, a: Place) -> bool {
    view.forward(a.node, a.level) == view.forward(p.own, a.level)
}
