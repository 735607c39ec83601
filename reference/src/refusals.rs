//! Which refusal a call must get, told from the calls and their answers alone.
//!
//! The book says nothing about refusals. This does, for queues that are only
//! reached by calls: it counts nodes where the record has them one by one.

use crate::answer::Answer;
use crate::book::{Book, Open};
use crate::calls::{Call, Outcome};
use crate::markers::PAIR;
use crate::queue::{Refusal, MAX_NUMBER};
use crate::schedule::Sizes;
use std::collections::VecDeque;

/// What must be known of a run to tell its refusals.
#[derive(Clone, Debug)]
pub struct Refusals {
    sizes: Sizes,
    never_used: u64,
    /// The times of the retirements whose nodes were not taken again.
    retired: VecDeque<u32>,
    /// How many nodes were taken again.
    pub reused: u64,
}

impl Refusals {
    /// For a queue just made.
    pub fn new(sizes: Sizes) -> Refusals {
        Refusals {
            sizes,
            never_used: sizes.nodes,
            retired: VecDeque::new(),
            reused: 0,
        }
    }

    /// The refusal that the call must get, or none. `book` is the book before
    /// the call.
    pub fn expected(&self, book: &Book, call: &Call) -> Option<Refusal> {
        let processor = match *call {
            Call::Backlog => return None,
            Call::Markers { room } => {
                return (room < PAIR * book.held()).then_some(43);
            }
            Call::Insert { processor, .. } => processor,
            Call::DeleteMin { processor } => processor,
            Call::Relaxed { processor } => processor,
            Call::Remove { processor, .. } => processor,
            Call::Step { processor } => processor,
        };
        if book.count == MAX_NUMBER {
            return Some(31);
        }
        if processor >= self.sizes.processors {
            return Some(32);
        }
        let idle = book.open[processor as usize] == Open::Nothing;
        match *call {
            Call::Step { .. } => idle.then_some(34),
            _ if !idle => Some(33),
            Call::Remove { due, ticket, .. } => {
                let limit = u64::from(MAX_NUMBER);
                (due > limit || ticket == 0 || ticket > limit).then_some(38)
            }
            Call::Insert {
                due, item, height, ..
            } => self.expected_of_insert(book, due, item, height),
            _ => None,
        }
    }

    fn expected_of_insert(&self, book: &Book, due: u64, item: u64, height: u64) -> Option<Refusal> {
        if due > u64::from(MAX_NUMBER) || item > u64::from(MAX_NUMBER) {
            return Some(35);
        }
        if item == 0 {
            return Some(39);
        }
        if height == 0 || height > self.sizes.levels {
            return Some(36);
        }
        if self.never_used > 0 {
            return None;
        }
        match self.retired.front() {
            None => Some(37),
            Some(&retired) => {
                let all_later = book.open.iter().all(|open| match *open {
                    Open::Nothing => true,
                    Open::Insert(begin)
                    | Open::DeleteMin { begin, .. }
                    | Open::Relaxed(begin)
                    | Open::Remove { begin, .. } => begin > retired,
                });
                if all_later {
                    None
                } else {
                    Some(37)
                }
            }
        }
    }

    /// Takes notice of a call. `book` is the book after it.
    pub fn note(&mut self, book: &Book, call: &Call, outcome: &Outcome) {
        match (*call, outcome) {
            (Call::Insert { .. }, Outcome::Began(_)) => {
                if self.never_used > 0 {
                    self.never_used -= 1;
                } else {
                    self.retired.pop_front();
                    self.reused += 1;
                }
            }
            (_, Outcome::Stepped(Answer::HandedOut(_) | Answer::TakenBack(_))) => {
                self.retired.push_back(book.count);
            }
            _ => {}
        }
    }
}
