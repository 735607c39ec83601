//! One run: a queue, a schedule, and all that watches them.

use crate::book::Book;
use crate::calls::{Call, Outcome};
use crate::ghost::Ghost;
use crate::invariant;
use crate::markers::{lent, Listing, NOBODY, PAIR};
use crate::queue::{fresh, Queue, Stage, MAX_PROCESSORS};
use crate::refusals::Refusals;
use crate::schedule::{Schedule, Sizes};
use crate::tally::Tally;
use crate::waits::Watch;
use std::collections::BTreeSet;

/// Something that takes calls: the queue, or a wrong one.
pub trait Machine {
    /// Makes a call.
    fn call(&mut self, call: &Call) -> Outcome;
    /// The record.
    fn queue(&self) -> &Queue;
}

/// The right one. Its calls leave check 21 out: a run starts fresh, and
/// `Sound` is a conjunct of the invariant.
impl Machine for Queue {
    fn call(&mut self, call: &Call) -> Outcome {
        self.call_inner(call)
    }

    fn queue(&self) -> &Queue {
        self
    }
}

/// A run that went wrong: where, and in which way.
#[derive(Clone, Debug)]
pub struct Failure {
    /// The seed of the schedule.
    pub seed: u64,
    /// The sizes of the queue.
    pub sizes: Sizes,
    /// The number of the call, from 1.
    pub call: u64,
    /// What went wrong.
    pub fault: String,
}

/// A run under way.
pub struct Trial<M: Machine> {
    /// The queue.
    pub machine: M,
    /// The book.
    pub book: Book,
    /// The ghost.
    pub ghost: Ghost,
    /// The count of what happened.
    pub tally: Tally,
    /// The calls made so far, if they are kept.
    pub calls: Vec<Call>,
    schedule: Schedule,
    refusals: Refusals,
    /// The nodes that were stamped after they had been retired, and not taken
    /// again since.
    late: BTreeSet<u8>,
    seed: u64,
    sizes: Sizes,
}

/// How many turns a drain may take: generously, for each processor twice past
/// every node of every level, with a dozen steps more for each. The drain test
/// prints how much of it was used.
pub fn drain_bound(sizes: Sizes) -> u64 {
    sizes.processors * (2 * sizes.levels * (sizes.nodes + 12) + 12)
}

/// A fresh queue of sizes that are in range.
pub fn fresh_of(sizes: Sizes) -> Queue {
    fresh(sizes.processors, sizes.nodes, sizes.levels).expect("the sizes are in range")
}

impl<M: Machine> Trial<M> {
    /// A run of this machine, which is fresh and of these sizes.
    pub fn new(machine: M, seed: u64, sizes: Sizes) -> Trial<M> {
        Trial {
            ghost: Ghost::new(machine.queue()),
            machine,
            book: Book::new(),
            tally: Tally::default(),
            calls: Vec::new(),
            schedule: Schedule::new(seed, sizes),
            refusals: Refusals::new(sizes),
            late: BTreeSet::new(),
            seed,
            sizes,
        }
    }

    /// Makes so many calls of the schedule; each answer goes through the book
    /// and the table of refusals, and so do the backlog and the markers after
    /// each call; a step at a lock is watched; after every `every`-th call the
    /// invariant is looked at.
    pub fn play(&mut self, calls: u64, every: u64) -> Result<(), Failure> {
        for _ in 0..calls {
            let call = self.schedule.next_call();
            let watch = self.watch(&call);
            let outcome = self.make(&call);
            self.check_refusals(&call, &outcome)?;
            self.check_lock(watch, &call, &outcome)?;
            self.enter(&call, &outcome)?;
            self.check_backlog()?;
            self.check_markers()?;
            self.refusals.note(&self.book, &call, &outcome);
            self.tally.reused = self.refusals.reused;
            if self.tally.calls.is_multiple_of(every) {
                self.check_invariant()?;
            }
        }
        Ok(())
    }

    /// Makes so many calls of the schedule, keeps them, and looks at nothing
    /// but the book.
    pub fn play_by_book(&mut self, calls: u64) -> Result<(), Failure> {
        for _ in 0..calls {
            let call = self.schedule.next_call();
            self.calls.push(call);
            let outcome = self.make(&call);
            self.enter(&call, &outcome)?;
        }
        Ok(())
    }

    /// Begins nothing more and lets the busy processors take turns until all
    /// are idle; gives the number of turns. More than `bound` is a failure.
    pub fn drain(&mut self, bound: u64) -> Result<u64, Failure> {
        for turns in 0..=bound {
            let busy = self.schedule.busy();
            if busy.is_empty() {
                return Ok(turns);
            }
            for processor in busy {
                let call = Call::Step { processor };
                self.calls.push(call);
                let outcome = self.make(&call);
                self.enter(&call, &outcome)?;
                self.refusals.note(&self.book, &call, &outcome);
            }
        }
        Err(self.failure("an operation does not end".to_string()))
    }

    fn make(&mut self, call: &Call) -> Outcome {
        let was = match *call {
            Call::Step { processor } if processor < self.sizes.processors => {
                self.machine.queue().processors[processor as usize]
            }
            _ => self.machine.queue().processors[0],
        };
        let outcome = self.machine.call(call);
        self.tally.count(&outcome);
        self.schedule.note(call, &outcome);
        self.ghost
            .follow(&was, call, &outcome, self.machine.queue());
        let queue = self.machine.queue();
        self.tally
            .count_late(&was, call, &outcome, &mut self.late, queue);
        if let (Call::Step { processor }, Outcome::Stepped(answer)) = (*call, &outcome) {
            self.tally.count_rare(&was, processor, answer, queue);
        }
        outcome
    }

    /// What the record asks of a step, if the call is one of a busy processor.
    fn watch(&self, call: &Call) -> Option<Watch> {
        let queue = self.machine.queue();
        match *call {
            Call::Step { processor } if processor < self.sizes.processors => {
                let busy = queue.processors[processor as usize].stage != Stage::Idle;
                busy.then(|| Watch::new(queue, processor as usize))
            }
            _ => None,
        }
    }

    /// A lock is taken, or waited for and its holder named.
    fn check_lock(
        &self,
        watch: Option<Watch>,
        call: &Call,
        outcome: &Outcome,
    ) -> Result<(), Failure> {
        let (Some(watch), Outcome::Stepped(answer)) = (watch, outcome) else {
            return Ok(());
        };
        watch
            .judge(*answer, self.machine.queue())
            .and_then(|()| watch.judge_holder())
            .map_err(|fault| self.failure(format!("{call:?} gave {outcome:?}: {fault}")))
    }

    fn enter(&mut self, call: &Call, outcome: &Outcome) -> Result<(), Failure> {
        match self.book.enter(call, outcome) {
            Ok(()) => Ok(()),
            Err(fault) => Err(self.failure(format!("{call:?} gave {outcome:?}: {fault}"))),
        }
    }

    /// The refusal is the one that the calls before ask for.
    fn check_refusals(&self, call: &Call, outcome: &Outcome) -> Result<(), Failure> {
        let refused = match *outcome {
            Outcome::Refused(number) => Some(number),
            _ => None,
        };
        let expected = self.refusals.expected(&self.book, call);
        if refused != expected {
            let text = format!("{call:?} gave {outcome:?}, but refusal {expected:?} was due");
            return Err(self.failure(text));
        }
        Ok(())
    }

    /// Backlog would give what the book asks for, whether it is called here or
    /// not; and the nodes in use are as many as the entries not handed out.
    fn check_backlog(&mut self) -> Result<(), Failure> {
        let queue = self.machine.queue();
        let (count, used) = (queue.backlog_inner(), queue.in_use());
        if count != self.book.pending() {
            return Err(self.failure(format!("the backlog would be {count}")));
        }
        if used as usize != self.book.held() {
            return Err(self.failure(format!("{used} nodes are in use")));
        }
        self.tally.fewer_than_in_use += u64::from(count < used);
        Ok(())
    }

    /// Markers would give what the book asks for, whether it is called here or
    /// not: with just enough room, with a byte more, and with a byte less.
    fn check_markers(&mut self) -> Result<(), Failure> {
        let enough = PAIR * self.book.held();
        let more = (self.tally.calls % 2) as usize;
        match self.machine.queue().listing(enough + more) {
            Err(number) => return Err(self.failure(format!("markers are refused with {number}"))),
            Ok(listing) => {
                let call = Call::Markers {
                    room: enough + more,
                };
                self.check_listing(&listing)?;
                self.enter(&call, &Outcome::Listed(listing))?;
            }
        }
        let mut short = lent(enough.saturating_sub(1));
        if enough > 0 && self.machine.queue().markers_inner(&mut short) != Err(43) {
            return Err(self.failure("markers are told with too little room".to_string()));
        }
        if short != lent(short.len()) {
            return Err(self.failure("refused markers are written".to_string()));
        }
        Ok(())
    }

    /// The nodes rise, the rest of the area is as it was, and each node in use
    /// has as its marker the processor that the book has delivering its entry.
    fn check_listing(&self, listing: &Listing) -> Result<(), Failure> {
        let mut last = 0;
        for (number, marker) in listing.pairs() {
            if number <= last || u64::from(number) > self.sizes.nodes {
                return Err(self.failure(format!("markers have node {number} behind {last}")));
            }
            last = number;
            let ticket = self.machine.queue().nodes[number as usize].ticket;
            let delivers = |p: &usize| self.book.delivering(*p) == Some(ticket);
            let expected = (0..MAX_PROCESSORS).find(delivers);
            if usize::from(marker) != expected.unwrap_or(usize::from(NOBODY)) {
                return Err(self.failure(format!("node {number} has the marker {marker}")));
            }
        }
        if !listing.leaves_the_rest() {
            return Err(self.failure("markers are written past the nodes".to_string()));
        }
        Ok(())
    }

    fn check_invariant(&mut self) -> Result<(), Failure> {
        self.tally.invariant += 1;
        match invariant::first_broken(self.machine.queue(), &self.ghost, &self.book) {
            None => Ok(()),
            Some(name) => Err(self.failure(format!("conjunct {name} does not hold"))),
        }
    }

    fn failure(&self, fault: String) -> Failure {
        Failure {
            seed: self.seed,
            sizes: self.sizes,
            call: self.tally.calls,
            fault,
        }
    }
}
