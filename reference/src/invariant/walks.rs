//! Conjuncts about walks: no eligible node was left behind.

use super::{Conjunct, View};
use crate::queue::Stage;

pub(super) const CONJUNCTS: &[Conjunct] = &[
    ("WalkW1", walk_w1),
    ("WalkW2", walk_w2),
    ("WalkW3", walk_w3),
];

/// At W1, of a Relaxed walk too, every eligible node is after the place.
fn walk_w1(view: &View) -> bool {
    view.busy().all(|(_, processor, p)| match processor.stage {
        Stage::W1Read(a) | Stage::RW1Read(a) => view
            .entry_nodes()
            .all(|n| view.key(n) > view.key(a.node) || !view.eligible(n, p.begin)),
        _ => true,
    })
}

/// At W2 no eligible node is before the place.
fn walk_w2(view: &View) -> bool {
    view.busy().all(|(_, processor, p)| match processor.stage {
        Stage::W2Compare(a) => none_before(view, a.node, p.begin),
        _ => true,
    })
}

/// At W3, of a Relaxed walk too, no eligible node is before the place.
fn walk_w3(view: &View) -> bool {
    view.busy().all(|(_, processor, p)| match processor.stage {
        Stage::W3Mark(a) | Stage::RW3Mark(a) => none_before(view, a.node, p.begin),
        _ => true,
    })
}

fn none_before(view: &View, place: u8, begin: u32) -> bool {
    view.entry_nodes()
        .all(|n| view.key(n) >= view.key(place) || !view.eligible(n, begin))
}
