//! The calls of a host: their refusals in order, the clock, and the four
//! begins.
//!
//! Each call has an open form, which makes check 21 first, and an inner form
//! without that scan, for runs that look at the record in another way. A
//! refused call changes nothing.

use crate::answer::Answer;
use crate::markers::Listing;
use crate::queue::{
    Node, Operation, Queue, Refusal, Stage, Use, Wanted, FREE, HEAD, MAX_LEVELS, MAX_NUMBER,
    UNMARKED,
};
use crate::stages::{at, holder};

/// A call of a host. Numbers may have any value.
#[derive(Clone, Copy, PartialEq, Eq, Debug)]
pub enum Call {
    /// Begin an Insert.
    Insert {
        /// The calling processor.
        processor: u64,
        /// The due minute.
        due: u64,
        /// The item.
        item: u64,
        /// On how many levels to link.
        height: u64,
    },
    /// Begin a Delete_Min.
    DeleteMin {
        /// The calling processor.
        processor: u64,
    },
    /// Begin a Relaxed Delete_Min (document 02, W3).
    Relaxed {
        /// The calling processor.
        processor: u64,
    },
    /// Begin a Remove (document 02, W5).
    Remove {
        /// The calling processor.
        processor: u64,
        /// The due minute of the entry.
        due: u64,
        /// The ticket of the entry.
        ticket: u64,
    },
    /// One step.
    Step {
        /// The calling processor.
        processor: u64,
    },
    /// Read the backlog.
    Backlog,
    /// Read who has marked which node.
    Markers {
        /// How many bytes the lent area has.
        room: usize,
    },
}

/// What a call gives back.
#[derive(Clone, PartialEq, Eq, Debug)]
pub enum Outcome {
    /// A begin was accepted at this time.
    Began(u32),
    /// A step was accepted.
    Stepped(Answer),
    /// The backlog.
    Count(u32),
    /// How many nodes are in use, and who has marked which.
    Listed(Listing),
    /// The call was refused.
    Refused(Refusal),
}

/// What an Insert is asked to file, its numbers in range.
pub(crate) struct Filing {
    pub due: u32,
    pub item: u32,
    pub height: u8,
}

impl Queue {
    /// Begins an Insert; gives the time. Refused with 21, 31, 32, 33, 35,
    /// 39 (document 02, W10), 36 or 37, the first that holds.
    pub fn begin_insert(
        &mut self,
        processor: u64,
        due: u64,
        item: u64,
        height: u64,
    ) -> Result<u32, Refusal> {
        self.check()?;
        self.begin_insert_inner(processor, due, item, height)
    }

    /// Begins a Delete_Min; gives the time. Refused with 21, 31, 32 or 33.
    pub fn begin_delete_min(&mut self, processor: u64) -> Result<u32, Refusal> {
        self.check()?;
        self.begin_delete_min_inner(processor)
    }

    /// Begins a Relaxed Delete_Min (document 02, W3); gives the time. Refused
    /// with 21, 31, 32 or 33.
    pub fn begin_relaxed(&mut self, processor: u64) -> Result<u32, Refusal> {
        self.check()?;
        self.begin_relaxed_inner(processor)
    }

    /// Begins a Remove of the entry with this due minute and ticket (document
    /// 02, W5); gives the time. Refused with 21, 31, 32, 33 or 38.
    pub fn begin_remove(&mut self, processor: u64, due: u64, ticket: u64) -> Result<u32, Refusal> {
        self.check()?;
        self.begin_remove_inner(processor, due, ticket)
    }

    /// One step of a busy processor. Refused with 21, 31, 32 or 34.
    pub fn step(&mut self, processor: u64) -> Result<Answer, Refusal> {
        self.check()?;
        self.step_inner(processor)
    }

    /// How many nodes are in use, stamped and unmarked (document 02, W2).
    /// Refused with 21 alone.
    pub fn backlog(&self) -> Result<u32, Refusal> {
        self.check()?;
        Ok(self.backlog_inner())
    }

    /// Makes any call in its open form.
    pub fn call(&mut self, call: &Call) -> Outcome {
        match self.check() {
            Err(number) => Outcome::Refused(number),
            Ok(()) => self.call_inner(call),
        }
    }

    /// Makes any call without check 21.
    pub fn call_inner(&mut self, call: &Call) -> Outcome {
        let outcome = match *call {
            Call::Insert {
                processor,
                due,
                item,
                height,
            } => self
                .begin_insert_inner(processor, due, item, height)
                .map(Outcome::Began),
            Call::DeleteMin { processor } => {
                self.begin_delete_min_inner(processor).map(Outcome::Began)
            }
            Call::Relaxed { processor } => self.begin_relaxed_inner(processor).map(Outcome::Began),
            Call::Remove {
                processor,
                due,
                ticket,
            } => self
                .begin_remove_inner(processor, due, ticket)
                .map(Outcome::Began),
            Call::Step { processor } => self.step_inner(processor).map(Outcome::Stepped),
            Call::Backlog => Ok(Outcome::Count(self.backlog_inner())),
            Call::Markers { room } => self.listing(room).map(Outcome::Listed),
        };
        outcome.unwrap_or_else(Outcome::Refused)
    }

    /// As `begin_insert`, without check 21.
    pub fn begin_insert_inner(
        &mut self,
        processor: u64,
        due: u64,
        item: u64,
        height: u64,
    ) -> Result<u32, Refusal> {
        let (p, filing) = self.insert_in_range(processor, due, item, height)?;
        let node = self.choose_node().ok_or(37u32)?;
        Ok(self.fill(p, node, &filing))
    }

    /// As `begin_delete_min`, without check 21.
    pub fn begin_delete_min_inner(&mut self, processor: u64) -> Result<u32, Refusal> {
        self.begin_walk(processor, Stage::W1Read(at(HEAD, 1)))
    }

    /// As `begin_relaxed`, without check 21.
    pub fn begin_relaxed_inner(&mut self, processor: u64) -> Result<u32, Refusal> {
        self.begin_walk(processor, Stage::RW1Read(at(HEAD, 1)))
    }

    /// As `begin_remove`, without check 21.
    pub fn begin_remove_inner(
        &mut self,
        processor: u64,
        due: u64,
        ticket: u64,
    ) -> Result<u32, Refusal> {
        let p = self.idle_caller(processor)?;
        let limit = u64::from(MAX_NUMBER);
        if due > limit || !(1..=limit).contains(&ticket) {
            return Err(38);
        }
        let wanted = Wanted {
            due: due as u32,
            ticket: ticket as u32,
        };
        let start = at(HEAD, self.level_count);
        Ok(self.begin_without_node(p, Stage::XSearch(wanted, start)))
    }

    fn begin_walk(&mut self, processor: u64, first: Stage) -> Result<u32, Refusal> {
        let p = self.idle_caller(processor)?;
        Ok(self.begin_without_node(p, first))
    }

    /// Ticks and starts an operation of processor `p` that takes no node.
    pub(crate) fn begin_without_node(&mut self, p: usize, first: Stage) -> u32 {
        self.clock += 1;
        let caller = &mut self.processors[p];
        caller.begin = self.clock;
        caller.own = 0;
        caller.stage = first;
        self.clock
    }

    /// As `step`, without check 21.
    pub fn step_inner(&mut self, processor: u64) -> Result<Answer, Refusal> {
        let p = self.caller(processor)?;
        if self.processors[p].stage == Stage::Idle {
            return Err(34);
        }
        self.clock += 1;
        Ok(self.run_stage(p))
    }

    pub(crate) fn check(&self) -> Result<(), Refusal> {
        if self.sound() {
            Ok(())
        } else {
            Err(21)
        }
    }

    /// Refusals 31 and 32.
    fn caller(&self, processor: u64) -> Result<usize, Refusal> {
        if self.clock == MAX_NUMBER {
            return Err(31);
        }
        if processor >= u64::from(self.processor_count) {
            return Err(32);
        }
        Ok(processor as usize)
    }

    /// Refusals 31, 32 and 33.
    fn idle_caller(&self, processor: u64) -> Result<usize, Refusal> {
        let p = self.caller(processor)?;
        if self.processors[p].stage != Stage::Idle {
            return Err(33);
        }
        Ok(p)
    }

    /// The refusals of an Insert but 37.
    pub(crate) fn insert_in_range(
        &self,
        processor: u64,
        due: u64,
        item: u64,
        height: u64,
    ) -> Result<(usize, Filing), Refusal> {
        let p = self.idle_caller(processor)?;
        if due > u64::from(MAX_NUMBER) || item > u64::from(MAX_NUMBER) {
            return Err(35);
        }
        if item == 0 {
            return Err(39);
        }
        if height < 1 || height > u64::from(self.level_count) {
            return Err(36);
        }
        let filing = Filing {
            due: due as u32,
            item: item as u32,
            height: height as u8,
        };
        Ok((p, filing))
    }

    /// The lowest never-used node; if there is none, the node retired longest
    /// ago, provided that every busy processor began after its retirement.
    fn choose_node(&self) -> Option<u8> {
        for number in 1..=self.node_count {
            if self.nodes[number as usize].state == Use::Never {
                return Some(number);
            }
        }
        let (number, retired) = self.longest_retired()?;
        if self.busy().all(|processor| processor.begin > retired) {
            Some(number)
        } else {
            None
        }
    }

    /// The node retired longest ago, the lowest number on a tie, and when.
    pub(crate) fn longest_retired(&self) -> Option<(u8, u32)> {
        let mut longest: Option<(u8, u32)> = None;
        for number in 1..=self.node_count {
            if let Use::Retired(time) = self.nodes[number as usize].state {
                match longest {
                    Some((_, earliest)) if earliest <= time => {}
                    _ => longest = Some((number, time)),
                }
            }
        }
        longest
    }

    /// Ticks, fills the node in for processor `p` and starts its Insert.
    pub(crate) fn fill(&mut self, p: usize, number: u8, filing: &Filing) -> u32 {
        self.clock += 1;
        let levels = self.level_count as usize;
        let tail = self.tail();
        let old = self.nodes[number as usize];
        let mut forward: [u8; MAX_LEVELS] = old.forward;
        let mut level_locks: [u8; MAX_LEVELS] = old.level_locks;
        forward[..levels].fill(tail);
        level_locks[..levels].fill(FREE);
        self.nodes[number as usize] = Node {
            forward,
            level_locks,
            node_lock: holder(p),
            mark: UNMARKED,
            stamp: None,
            due: filing.due,
            ticket: self.clock,
            item: filing.item,
            height: filing.height,
            state: Use::InUse,
        };
        let start = at(HEAD, self.level_count);
        let caller = &mut self.processors[p];
        caller.begin = self.clock;
        caller.own = number;
        caller.stage = Stage::Search(Operation::Insert, start);
        self.clock
    }
}
