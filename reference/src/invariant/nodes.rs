//! Conjuncts about single nodes and their times.

use super::{Conjunct, View};
use crate::ghost::EVER;
use crate::queue::{Use, FREE, HEAD, MAX_NODES};

pub(super) const CONJUNCTS: &[Conjunct] = &[
    ("EndsLinked", ends_linked),
    ("UntilPast", until_past),
    ("UntilDown", until_down),
    ("TicketsDiffer", tickets_differ),
    ("NeverNotLinked", never_not_linked),
    ("RetiredNotLinked", retired_not_linked),
    ("HiRetired", hi_retired),
    ("RetiredMarked", retired_marked),
    ("UnmarkedFree", unmarked_free),
    ("SettledFull", settled_full),
    ("HiLinked", hi_linked),
];

/// The head and the tail are linked at every level.
fn ends_linked(view: &View) -> bool {
    view.levels()
        .all(|i| view.until(HEAD, i) == EVER && view.until(view.queue.tail(), i) == EVER)
}

/// A node that is not linked was unlinked no later than now.
fn until_past(view: &View) -> bool {
    view.entry_nodes().all(|n| {
        view.levels()
            .all(|i| view.on(n, i) || view.until(n, i) <= view.queue.clock)
    })
}

/// Nodes are linked from the bottom up and unlinked from the top down.
fn until_down(view: &View) -> bool {
    view.entry_nodes()
        .all(|n| (2..=view.queue.level_count).all(|i| view.until(n, i) <= view.until(n, i - 1)))
}

/// Two nodes that are not never-used have different tickets.
fn tickets_differ(view: &View) -> bool {
    let mut tickets = [0; MAX_NODES];
    for (ticket, &n) in tickets.iter_mut().zip(&view.order[..view.used]) {
        *ticket = view.node(n).ticket;
    }
    let tickets = &mut tickets[..view.used];
    tickets.sort_unstable();
    tickets.windows(2).all(|pair| pair[0] != pair[1])
}

/// A never-used node has been linked nowhere (and so is seen by nobody:
/// `HiUsed`).
fn never_not_linked(view: &View) -> bool {
    view.entry_nodes()
        .all(|n| view.node(n).state != Use::Never || view.levels().all(|i| view.until(n, i) == 0))
}

/// A retired node is linked nowhere.
fn retired_not_linked(view: &View) -> bool {
    view.entry_nodes().all(|n| match view.node(n).state {
        Use::Retired(_) => view.linked_exactly(n, 0),
        _ => true,
    })
}

/// A node retired at r was unlinked by r, so whoever began after r never saw
/// it linked.
fn hi_retired(view: &View) -> bool {
    view.entry_nodes().all(|n| match view.node(n).state {
        Use::Retired(time) => view.levels().all(|i| view.until(n, i) <= time),
        _ => true,
    })
}

/// A retired node is marked.
fn retired_marked(view: &View) -> bool {
    view.entry_nodes().all(|n| match view.node(n).state {
        Use::Retired(_) => view.node(n).is_marked(),
        _ => true,
    })
}

/// An unmarked node in use whose node lock is free is linked up to its height.
fn unmarked_free(view: &View) -> bool {
    view.entry_nodes().all(|n| {
        let node = view.node(n);
        node.state != Use::InUse
            || node.is_marked()
            || node.node_lock != FREE
            || view.linked_to_height(n)
    })
}

/// An unmarked, stamped node in use is linked up to its height.
fn settled_full(view: &View) -> bool {
    view.entry_nodes().all(|n| {
        let node = view.node(n);
        node.state != Use::InUse
            || node.is_marked()
            || node.stamp.is_none()
            || view.linked_to_height(n)
    })
}

/// Whatever is linked now is seen by every busy processor.
fn hi_linked(view: &View) -> bool {
    view.busy().all(|(_, _, q)| q.begin < EVER)
}
