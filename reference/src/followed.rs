//! A queue with its book and its ghost: what is checked of each call of a run that
//! is written by hand.

use crate::book::Book;
use crate::calls::{Call, Outcome};
use crate::ghost::Ghost;
use crate::invariant::all_broken;
use crate::queue::Queue;

/// A queue that was just made, and what follows it.
pub struct Followed {
    /// The queue.
    pub queue: Queue,
    /// Its book.
    pub book: Book,
    ghost: Ghost,
}

impl Followed {
    /// A fresh queue with its book.
    pub fn new(queue: Queue) -> Followed {
        let (book, ghost) = (Book::new(), Ghost::new(&queue));
        Followed { queue, book, ghost }
    }

    /// Makes a call. In words what is wrong if the book does not take its answer or
    /// a conjunct does not hold.
    pub fn call(&mut self, call: &Call) -> Result<Outcome, String> {
        let was = match *call {
            Call::Step { processor } if processor < u64::from(self.queue.processor_count) => {
                self.queue.processors[processor as usize]
            }
            _ => self.queue.processors[0],
        };
        let outcome = self.queue.call(call);
        self.ghost.follow(&was, call, &outcome, &self.queue);
        self.book
            .enter(call, &outcome)
            .map_err(|fault| format!("{call:?} gave {outcome:?}: {fault}"))?;
        let broken = all_broken(&self.queue, &self.ghost, &self.book);
        if broken.is_empty() {
            Ok(outcome)
        } else {
            Err(format!("{call:?} gave {outcome:?}: {broken:?}"))
        }
    }
}
