//! Conjuncts about the lists, and about the nodes that operations stand on or
//! have saved.

use super::{Conjunct, View};
use crate::claims::Claim;
use crate::ghost::EVER;
use crate::queue::{slot, Stage, HEAD};

pub(super) const CONJUNCTS: &[Conjunct] = &[
    ("Succ", succ),
    ("PlaceFresh", place_fresh),
    ("PlaceBefore", place_before),
    ("G4Fresh", g4_fresh),
    ("G4Before", g4_before),
    ("W3Stamp", w3_stamp),
    ("XKey", x_key),
    ("X3Stamp", x3_stamp),
    ("SavedFresh", saved_fresh),
    ("SavedBefore", saved_before),
    ("Back", back),
];

/// The forward number of a linked node is the next linked node by key, or the
/// tail. (Keys differ, so there is one such node; it is found by going
/// through the nodes from the last key to the first.)
fn succ(view: &View) -> bool {
    view.levels().all(|i| {
        let mut next = view.queue.tail();
        for &n in view.order[..view.used].iter().rev() {
            if view.on(n, i) {
                if view.forward(n, i) != next {
                    return false;
                }
                next = n;
            }
        }
        view.forward(HEAD, i) == next
    })
}

/// A place is the head or a node that was linked there since the begin.
fn place_fresh(view: &View) -> bool {
    view.busy().all(|(_, _, p)| match p.place {
        Some(a) => view.seen(p.begin, a.node, a.level),
        None => true,
    })
}

/// The place of a search or lock-seek, and of the stages after it, is before
/// the own node; that of a Remove that has not found its key is before the key.
fn place_before(view: &View) -> bool {
    view.busy().all(|(_, _, p)| match p.place {
        Some(a) if p.before_own => view.key(a.node) < view.sought(p),
        _ => true,
    })
}

/// The node that G3 read is the head or was linked there since the begin.
fn g4_fresh(view: &View) -> bool {
    view.busy().all(|(_, processor, p)| match processor.stage {
        Stage::G4Unlock(_, a, b) => view.seen(p.begin, b, a.level),
        _ => true,
    })
}

/// The node that G3 read and G4 goes to is before the own node.
fn g4_before(view: &View) -> bool {
    view.busy().all(|(_, processor, p)| match processor.stage {
        Stage::G4Unlock(_, _, b) => view.key(b) < view.key(p.own),
        _ => true,
    })
}

/// The place at W3 is stamped before the begin. (A Relaxed walk asks no stamp.)
fn w3_stamp(view: &View) -> bool {
    view.busy().all(|(_, processor, p)| match processor.stage {
        Stage::W3Mark(a) => view.node(a.node).stamp.is_some_and(|t| t < p.begin),
        _ => true,
    })
}

/// At X2 and X3 the place is an entry's node with the key that is wanted.
fn x_key(view: &View) -> bool {
    view.busy().all(|(_, processor, _)| match processor.stage {
        Stage::X2Test(wanted, a) | Stage::X3Mark(wanted, a) => view.key(a.node) == wanted.key(),
        _ => true,
    })
}

/// The place at X3 is stamped before the begin.
fn x3_stamp(view: &View) -> bool {
    view.busy().all(|(_, processor, p)| match processor.stage {
        Stage::X3Mark(_, a) => view.node(a.node).stamp.is_some_and(|t| t < p.begin),
        _ => true,
    })
}

/// A saved node of this operation is the head or was linked at its level since
/// the begin.
fn saved_fresh(view: &View) -> bool {
    every_saved(view, |p, saved, j| view.seen(p.begin, saved, j))
}

/// A saved node of this operation is before the own node, or before the key that
/// a Remove searches for.
fn saved_before(view: &View) -> bool {
    every_saved(view, |p, saved, _| view.key(saved) < view.sought(p))
}

fn every_saved(view: &View, holds: impl Fn(&Claim, u8, u8) -> bool) -> bool {
    view.busy().all(|(_, processor, p)| {
        (p.saved_from..=view.queue.level_count).all(|j| holds(p, processor.saved[slot(j)], j))
    })
}

/// A node unlinked from a level since some busy processor began either leads
/// back there, to a node that this processor has seen and that is before it,
/// or its remover is at L4. (Of several such processors the one that began
/// last asks the most, so the others need no look.)
fn back(view: &View) -> bool {
    let Some(first_begin) = view.busy().map(|(_, _, q)| q.begin).min() else {
        return true;
    };
    view.entry_nodes().all(|n| {
        view.levels().all(|i| {
            let until = view.until(n, i);
            if until >= EVER || until < first_begin {
                return true;
            }
            let last_begin = view
                .busy()
                .map(|(_, _, q)| q.begin)
                .filter(|&begin| begin <= until)
                .max();
            match last_begin {
                None => true,
                Some(begin) => {
                    let s = view.forward(n, i);
                    let leads_back = view.seen(begin, s, i) && view.key(s) < view.key(n);
                    leads_back || in_limbo(view, n, i)
                }
            }
        })
    })
}

/// Whether a remover of n is at L4 on this level.
fn in_limbo(view: &View, n: u8, i: u8) -> bool {
    view.busy().any(|(_, processor, p)| {
        p.own == n && matches!(processor.stage, Stage::L4PointBack(_, a) if a.level == i)
    })
}
