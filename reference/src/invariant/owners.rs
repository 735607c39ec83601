//! Conjuncts about operations and their own nodes.

use super::{Conjunct, View};
use crate::claims::{Linked, Role};
use crate::queue::{Stage, Use, FREE, NODE_SLOTS};
use crate::stages::holder;

pub(super) const CONJUNCTS: &[Conjunct] = &[
    ("OneInsert", one_insert),
    ("OneDeleter", one_deleter),
    ("OwnUse", own_use),
    ("InsStamp", ins_stamp),
    ("DelMark", del_mark),
    ("MarkerRemoves", marker_removes),
    ("InsM", ins_m),
    ("LevelInsert", level_insert),
    ("HiInsert", hi_insert),
    ("DelFree", del_free),
    ("DelM", del_m),
    ("L8InsertAtI5", l8_insert_at_i5),
];

/// Different Inserts have different own nodes.
fn one_insert(view: &View) -> bool {
    own_nodes_differ(view, Role::Insert)
}

/// Different removers have different own nodes.
fn one_deleter(view: &View) -> bool {
    own_nodes_differ(view, Role::Delete)
}

fn own_nodes_differ(view: &View, role: Role) -> bool {
    let mut owned = [false; NODE_SLOTS];
    for (_, _, p) in view.of_role(role) {
        if owned[p.own as usize] {
            return false;
        }
        owned[p.own as usize] = true;
    }
    true
}

/// An own node is in use; that of an Insert at I5 may be retired already,
/// then not before the Insert began.
fn own_use(view: &View) -> bool {
    view.busy().all(|(_, processor, p)| {
        matches!(p.role, Role::Walk | Role::Relaxed | Role::Remove)
            || match view.node(p.own).state {
                Use::InUse => true,
                Use::Retired(time) => processor.stage == Stage::I5Stamp && p.begin <= time,
                Use::Never => false,
            }
    })
}

/// The own node of an Insert has no stamp.
fn ins_stamp(view: &View) -> bool {
    view.of_role(Role::Insert)
        .all(|(_, _, p)| view.node(p.own).stamp.is_none())
}

/// The own node of a remover is marked.
fn del_mark(view: &View) -> bool {
    view.of_role(Role::Delete)
        .all(|(_, _, p)| view.node(p.own).is_marked())
}

/// A node in use is marked by a processor exactly if this processor is removing
/// it (document 02, W6).
fn marker_removes(view: &View) -> bool {
    view.entry_nodes().all(|n| {
        view.node(n).state != Use::InUse
            || view.claims.iter().enumerate().all(|(number, p)| {
                let known = number < view.queue.processor_count as usize;
                let removes = known && p.role == Role::Delete && p.own == n;
                removes == (view.node(n).mark == holder(number))
            })
    })
}

/// The own node of an Insert before I5 is linked on just the levels that the
/// stage says.
fn ins_m(view: &View) -> bool {
    view.of_role(Role::Insert).all(|(_, _, p)| match p.linked {
        Linked::Exactly(count) => view.linked_exactly(p.own, count),
        Linked::Height => view.linked_to_height(p.own),
        _ => true,
    })
}

/// From G1 on, the level of an Insert is at most the height of its own node.
fn level_insert(view: &View) -> bool {
    view.of_role(Role::Insert)
        .all(|(_, processor, p)| match (processor.stage, p.place) {
            (Stage::Search(..), _) | (_, None) => true,
            (_, Some(a)) => a.level <= view.node(p.own).height,
        })
}

/// Nobody has seen the own node of an Insert before I5 at a level where it is
/// not linked: it was never linked there in its present use.
fn hi_insert(view: &View) -> bool {
    view.of_role(Role::Insert).all(|(_, processor, p)| {
        processor.stage == Stage::I5Stamp
            || view
                .levels()
                .all(|i| view.on(p.own, i) || view.until(p.own, i) == 0)
    })
}

/// The own node of a remover up to L1 is linked up to its height if its node
/// lock is free.
fn del_free(view: &View) -> bool {
    view.of_role(Role::Delete).all(|(_, _, p)| {
        p.linked != Linked::HeightIfFree
            || view.node(p.own).node_lock != FREE
            || view.linked_to_height(p.own)
    })
}

/// The own node of a remover past L1 is linked on just the levels that the
/// stage says.
fn del_m(view: &View) -> bool {
    view.of_role(Role::Delete).all(|(_, _, p)| match p.linked {
        Linked::Exactly(count) => view.linked_exactly(p.own, count),
        _ => true,
    })
}

/// An Insert whose own node stands before its retirement is at I5.
fn l8_insert_at_i5(view: &View) -> bool {
    view.of_role(Role::Delete).all(|(_, deleter, d)| {
        !matches!(deleter.stage, Stage::L8Retire(_))
            || view
                .of_role(Role::Insert)
                .all(|(_, insert, p)| p.own != d.own || insert.stage == Stage::I5Stamp)
    })
}
