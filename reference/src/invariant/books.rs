//! Conjuncts that tie the record to the book.

use super::{Conjunct, View};
use crate::book::Open;
use crate::claims::{Claim, Role};
use crate::queue::{Job, Stage, Use};

pub(super) const CONJUNCTS: &[Conjunct] = &[
    ("BookOpen", book_open),
    ("BookEntries", book_entries),
    ("BookRetired", book_retired),
];

/// The book's count is the clock, and what each processor has open is what its
/// stage says.
fn book_open(view: &View) -> bool {
    view.book.count == view.queue.clock
        && view
            .processors()
            .all(|(number, _, p)| view.book.open[number] == open_by_stage(view, p))
}

/// What a processor has open, as its stage says.
fn open_by_stage(view: &View, p: &Claim) -> Open {
    let begin = p.begin;
    let own = view.node(p.own);
    match (p.role, p.wanted) {
        (Role::Idle, _) => Open::Nothing,
        (Role::Insert, _) => Open::Insert(own.ticket),
        (Role::Walk, _) => Open::DeleteMin {
            begin,
            marked: None,
        },
        (Role::Relaxed, _) => Open::Relaxed(begin),
        (Role::Delete, _) if p.job == Job::HandOut => Open::DeleteMin {
            begin,
            marked: Some(own.ticket),
        },
        (Role::Delete | Role::Remove, wanted) => {
            let marked = wanted.is_none();
            let (due, ticket) = wanted.map_or((own.due, own.ticket), |it| (it.due, it.ticket));
            Open::Remove {
                begin,
                due,
                ticket,
                marked,
            }
        }
    }
}

/// Entries not handed out or taken back and nodes in use correspond one to one,
/// with equal due, item, ticket, answer time and mark. (A handed-out entry is
/// struck from the book once it is answered; until then it is `BookRetired`'s. One
/// that is taken back is struck at once.)
fn book_entries(view: &View) -> bool {
    let mut in_use = 0;
    for n in view.entry_nodes() {
        let node = view.node(n);
        if node.state != Use::InUse {
            continue;
        }
        in_use += 1;
        let Some(i) = view.book.find(node.ticket) else {
            return false;
        };
        let written = &view.book.entries[i];
        if written.entry != view.queue.entry(n)
            || written.answered != node.stamp
            || written.marked != node.is_marked()
            || written.handed_out
            || written.taken_back
        {
            return false;
        }
    }
    in_use == view.book.held()
}

/// An Insert at I5 whose own node is retired has its entry in the book, with
/// equal due, item and ticket: handed out, marked and unanswered (document 02,
/// W3). No other handed-out entry is left there.
fn book_retired(view: &View) -> bool {
    let mut retired = 0;
    for (_, processor, p) in view.of_role(Role::Insert) {
        let late = matches!(view.node(p.own).state, Use::Retired(_));
        if processor.stage != Stage::I5Stamp || !late {
            continue;
        }
        retired += 1;
        let Some(i) = view.book.find(view.node(p.own).ticket) else {
            return false;
        };
        let written = &view.book.entries[i];
        let settled = written.handed_out && written.marked && written.answered.is_none();
        if !settled || written.taken_back || written.entry != view.queue.entry(p.own) {
            return false;
        }
    }
    retired + view.book.held() == view.book.entries.len()
}
