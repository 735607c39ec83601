//! Random schedules: which call comes next.
//!
//! Processors are held back in the middle of an operation and released late,
//! some run in bursts, some are let on just until they free a lock that another
//! waits for, dues are often equal, and calls that must be refused come in
//! between. A schedule sees what the calls give back and never the record.

use crate::answer::Answer;
use crate::calls::{Call, Outcome};
use crate::markers::PAIR;
use crate::queue::{MAX_LEVELS, MAX_NODES, MAX_NUMBER, MAX_PROCESSORS};
use crate::random::Random;
use std::collections::VecDeque;

/// The greatest number of an entry, and of the clock.
const LIMIT: u64 = MAX_NUMBER as u64;

/// The sizes of a queue.
#[derive(Clone, Copy, PartialEq, Eq, Debug)]
pub struct Sizes {
    /// P, the number of processors.
    pub processors: u64,
    /// N, the number of nodes for entries.
    pub nodes: u64,
    /// L, the number of levels.
    pub levels: u64,
}

impl Sizes {
    /// Few nodes, so that each is used again often.
    pub fn small(random: &mut Random) -> Sizes {
        Sizes {
            processors: random.between(1, 4),
            nodes: random.between(1, 4),
            levels: random.between(1, 3),
        }
    }

    /// A dozen nodes or fewer.
    pub fn middle(random: &mut Random) -> Sizes {
        Sizes {
            processors: random.between(2, 8),
            nodes: random.between(1, 12),
            levels: random.between(1, 4),
        }
    }

    /// Anything up to the greatest sizes, and these too.
    pub fn large(random: &mut Random) -> Sizes {
        if random.one_in(4) {
            return Sizes {
                processors: MAX_PROCESSORS as u64,
                nodes: MAX_NODES as u64,
                levels: MAX_LEVELS as u64,
            };
        }
        Sizes {
            processors: random.between(1, MAX_PROCESSORS as u64),
            nodes: random.between(13, MAX_NODES as u64),
            levels: random.between(1, MAX_LEVELS as u64),
        }
    }
}

/// A schedule in the making.
#[derive(Clone, Debug)]
pub struct Schedule {
    random: Random,
    sizes: Sizes,
    /// Calls made so far.
    made: u64,
    /// How many different dues there are.
    dues: u64,
    /// Of 100 begins, how many are Inserts; drawn anew from time to time.
    inserts: u64,
    /// Of 100 begins of a Delete_Min, how many are Relaxed ones; drawn anew from
    /// time to time, in some schedules always 0.
    relaxed: u64,
    /// Whether any is.
    has_relaxed: bool,
    /// Of 100 begins that are no Inserts, how many are Removes; drawn anew from
    /// time to time, in some schedules always 0.
    removes: u64,
    /// Whether any is.
    has_removes: bool,
    /// One call in so many is made to be refused.
    bad_once_in: u64,
    /// One call in so many holds a processor back.
    hold_once_in: u64,
    /// A processor that runs alone, and for how many calls more.
    burst: (u64, u64),
    /// One that waits and the one that it waits for: they take turns alone
    /// until the first goes on; then the second is held back.
    pair: Option<(u64, u64)>,
    /// So many calls in vain (a wait, 37, EMPTY or N) release whoever is held.
    patience: u64,
    /// Calls in vain since the last release.
    in_vain: u64,
    /// Until which call each processor is held back.
    held_until: [u64; MAX_PROCESSORS],
    /// Which processors are in an operation.
    busy: [bool; MAX_PROCESSORS],
    /// How many begins and steps were accepted.
    clock: u64,
    /// The keys of the entries that have begun and are not handed out or taken
    /// back: due minute and ticket.
    present: Vec<(u64, u64)>,
    /// Keys of entries that were, the last few.
    gone: VecDeque<(u64, u64)>,
    /// What the last Remove looked for.
    wanted: (u64, u64),
}

/// How many keys of entries that are gone are kept.
const GONE: usize = 8;

impl Schedule {
    /// A schedule for a queue of these sizes; equal seeds and equal answers
    /// give equal schedules.
    pub fn new(seed: u64, sizes: Sizes) -> Schedule {
        let mut random = Random::new(seed);
        let dues = random.among(&[1, 2, 3, 3, 8, u64::from(MAX_NUMBER) + 1]);
        let bad_once_in = random.among(&[10, 30, 100]);
        let hold_once_in = random.among(&[10, 40, 200, 1000]);
        let patience = random.among(&[3, 10, 30, 100, 1000]);
        let has_relaxed = !random.one_in(4);
        let has_removes = !random.one_in(4);
        Schedule {
            random,
            sizes,
            made: 0,
            dues,
            inserts: 50,
            relaxed: if has_relaxed { 50 } else { 0 },
            has_relaxed,
            removes: if has_removes { 40 } else { 0 },
            has_removes,
            bad_once_in,
            hold_once_in,
            burst: (0, 0),
            pair: None,
            patience,
            in_vain: 0,
            held_until: [0; MAX_PROCESSORS],
            busy: [false; MAX_PROCESSORS],
            clock: 0,
            present: Vec::new(),
            gone: VecDeque::new(),
            wanted: (0, 1),
        }
    }

    /// The same schedule with few different dues.
    pub fn with_dues(mut self, dues: u64) -> Schedule {
        self.dues = dues;
        self
    }

    /// The next call.
    pub fn next_call(&mut self) -> Call {
        self.made += 1;
        if self.random.one_in(200) {
            self.inserts = self.random.among(&[20, 50, 50, 60, 80]);
            self.relaxed = self.draw_relaxed();
            self.removes = self.draw_removes();
        }
        if self.random.one_in(self.hold_once_in) {
            let p = self.random.below(self.sizes.processors) as usize;
            let time = self.random.among(&[10, 50, 200, 1000, 3000]);
            self.held_until[p] = self.made + self.random.below(time);
        }
        if self.random.one_in(50) {
            return Call::Backlog;
        }
        if self.random.one_in(25) {
            let room = self.room();
            return Call::Markers { room };
        }
        if self.random.one_in(self.bad_once_in) {
            return self.bad_call();
        }
        let processor = self.next_processor();
        if self.busy[processor as usize] {
            Call::Step { processor }
        } else {
            self.begin(processor)
        }
    }

    fn draw_relaxed(&mut self) -> u64 {
        if self.has_relaxed {
            self.random.among(&[10, 50, 50, 90, 100])
        } else {
            0
        }
    }

    fn draw_removes(&mut self) -> u64 {
        if self.has_removes {
            self.random.among(&[10, 30, 30, 50, 80])
        } else {
            0
        }
    }

    /// Takes notice of what a call gave back.
    pub fn note(&mut self, call: &Call, outcome: &Outcome) {
        self.note_vain(outcome);
        self.note_pair(call, outcome);
        self.note_keys(call, outcome);
        match (*call, outcome) {
            (
                Call::Insert { processor, .. }
                | Call::DeleteMin { processor }
                | Call::Relaxed { processor }
                | Call::Remove { processor, .. },
                Outcome::Began(_),
            ) => {
                self.busy[processor as usize] = true;
            }
            (Call::Step { processor }, Outcome::Stepped(answer)) => {
                let goes_on = Answer::Moved == *answer
                    || matches!(answer, Answer::Waits { .. } | Answer::Marked(_));
                self.busy[processor as usize] = goes_on;
            }
            _ => {}
        }
    }

    /// Which entries there are, and which there were.
    fn note_keys(&mut self, call: &Call, outcome: &Outcome) {
        self.clock += u64::from(matches!(outcome, Outcome::Began(_) | Outcome::Stepped(_)));
        match (*call, outcome) {
            (Call::Insert { due, .. }, &Outcome::Began(time)) => {
                self.present.push((due, u64::from(time)));
            }
            (
                Call::Remove {
                    processor,
                    due,
                    ticket,
                },
                Outcome::Began(_),
            ) => {
                self.wanted = (due, ticket);
                self.hold_reader(processor);
            }
            (_, Outcome::Stepped(Answer::HandedOut(entry) | Answer::TakenBack(entry))) => {
                let ticket = u64::from(entry.ticket);
                if let Some(i) = self.present.iter().position(|key| key.1 == ticket) {
                    self.gone.push_back(self.present.swap_remove(i));
                    if self.gone.len() > GONE {
                        self.gone.pop_front();
                    }
                }
            }
            _ => {}
        }
    }

    /// One Remove in three is stopped about where its Search ends, so that others
    /// link and unlink nodes between it and its key.
    fn hold_reader(&mut self, processor: u64) {
        if self.random.one_in(3) {
            let steps = self.sizes.levels + self.random.below(3);
            let held = self.random.among(&[20, 60, 200]);
            self.burst = (processor, steps);
            self.held_until[processor as usize] = self.made + steps + held;
        }
    }

    /// Calls in vain end a burst, and many of them release whoever is held.
    fn note_vain(&mut self, outcome: &Outcome) {
        let vain = matches!(
            outcome,
            Outcome::Stepped(Answer::Waits { .. } | Answer::Empty | Answer::NotThere { .. })
                | Outcome::Refused(37)
        );
        if vain {
            self.burst.1 = 0;
            self.in_vain += 1;
        }
        if self.in_vain > self.patience {
            self.in_vain = 0;
            self.held_until = [0; MAX_PROCESSORS];
        }
    }

    /// One wait in four makes a pair, which ends where the holder waits too.
    fn note_pair(&mut self, call: &Call, outcome: &Outcome) {
        let (Call::Step { processor }, Outcome::Stepped(answer)) = (*call, outcome) else {
            return;
        };
        match (*answer, self.pair) {
            (Answer::Waits { .. }, Some((_, other))) if processor == other => self.pair = None,
            (Answer::Waits { holder }, None) if self.random.one_in(4) => {
                let holder = u64::from(holder);
                let known = holder < self.sizes.processors && holder != processor;
                self.pair = known.then_some((processor, holder));
            }
            (Answer::Moved, Some((waiter, other))) if processor == waiter => {
                self.pair = None;
                self.burst = (waiter, self.random.between(20, 60));
                self.held_until[other as usize] = self.made + self.random.among(&[20, 60, 300]);
            }
            _ => {}
        }
    }

    /// Whose turn it is in a pair, as long as both are busy.
    fn next_of_pair(&mut self) -> Option<u64> {
        let (waiter, other) = self.pair?;
        if !self.busy[waiter as usize] || !self.busy[other as usize] {
            self.pair = None;
            return None;
        }
        Some(if self.made.is_multiple_of(2) {
            waiter
        } else {
            other
        })
    }

    /// The processors that are in an operation.
    pub fn busy(&self) -> Vec<u64> {
        (0..self.sizes.processors)
            .filter(|&p| self.busy[p as usize])
            .collect()
    }

    fn next_processor(&mut self) -> u64 {
        if let Some(processor) = self.next_of_pair() {
            return processor;
        }
        if self.burst.1 > 0 {
            self.burst.1 -= 1;
            return self.burst.0;
        }
        let ready: Vec<u64> = (0..self.sizes.processors)
            .filter(|&p| self.held_until[p as usize] < self.made)
            .collect();
        if ready.is_empty() {
            self.held_until = [0; MAX_PROCESSORS];
            return self.random.below(self.sizes.processors);
        }
        let processor = self.random.among(&ready);
        if self.random.one_in(20) {
            self.burst = (processor, self.random.below(40));
        }
        processor
    }

    fn begin(&mut self, processor: u64) -> Call {
        if self.random.below(100) < self.inserts {
            self.insert(processor)
        } else if self.random.below(100) < self.removes {
            self.remove_or_insert(processor)
        } else {
            self.walk(processor)
        }
    }

    /// A Remove, but where nothing is there to remove mostly an Insert.
    fn remove_or_insert(&mut self, processor: u64) -> Call {
        if self.present.is_empty() && !self.random.one_in(4) {
            self.insert(processor)
        } else {
            self.remove(processor)
        }
    }

    fn remove(&mut self, processor: u64) -> Call {
        let (due, ticket) = self.key();
        Call::Remove {
            processor,
            due,
            ticket,
        }
    }

    /// What a Remove looks for: mostly an entry that is there, marked or not,
    /// answered or not, and often the earliest, which a Delete_Min would take;
    /// what the last Remove looked for; an entry that is gone; one with another
    /// due minute; a ticket still to come; any other.
    fn key(&mut self) -> (u64, u64) {
        let due = self.random.below(self.dues);
        let earliest = self.present.iter().min().copied();
        match (self.random.below(12), earliest) {
            (0..=2, Some(earliest)) => earliest,
            (3..=5, Some(_)) => self.random.among(&self.present),
            (6, Some(_)) => (due, self.random.among(&self.present).1),
            (7 | 8, _) => self.wanted,
            (9, _) if !self.gone.is_empty() => {
                let i = self.random.below(self.gone.len() as u64) as usize;
                self.gone[i]
            }
            (10, _) => (due, self.ticket_to_come()),
            _ => (due, self.random.between(1, self.clock + 1).min(LIMIT)),
        }
    }

    /// A ticket above the clock, mostly one that may be given soon.
    fn ticket_to_come(&mut self) -> u64 {
        let far = self.random.among(&[2, 5, 20, LIMIT]);
        (self.clock + self.random.between(1, far)).min(LIMIT)
    }

    fn walk(&mut self, processor: u64) -> Call {
        if self.random.below(100) < self.relaxed {
            Call::Relaxed { processor }
        } else {
            Call::DeleteMin { processor }
        }
    }

    fn insert(&mut self, processor: u64) -> Call {
        Call::Insert {
            processor,
            due: self.random.below(self.dues),
            item: self.item(),
            height: self.random.between(1, self.sizes.levels),
        }
    }

    /// An item, seldom 0, which is refused.
    fn item(&mut self) -> u64 {
        if self.random.one_in(50) {
            0
        } else {
            self.random.between(1, 99)
        }
    }

    /// A room for markers: just enough, a byte or a node less or more, none, or
    /// enough for all nodes.
    fn room(&mut self) -> usize {
        let enough = PAIR * self.present.len();
        let all = PAIR * self.sizes.nodes as usize;
        let rooms = [
            enough,
            enough,
            enough.saturating_sub(1),
            enough.saturating_sub(PAIR),
            enough + 1,
            enough + PAIR,
            0,
            all,
            all + 100,
        ];
        self.random.among(&rooms)
    }

    /// A call that should be refused, in each way that a caller can earn it.
    fn bad_call(&mut self) -> Call {
        let sizes = self.sizes;
        let far = [sizes.processors, 16, 17, 255, 256, 1_000_000, 1 << 32];
        let stranger = self.random.among(&far).max(sizes.processors);
        let processor = self.random.below(sizes.processors);
        match self.random.below(14) {
            0 => self.insert(stranger),
            1 => self.walk(stranger),
            2 => Call::Step {
                processor: stranger,
            },
            3 => self.remove(stranger),
            4 | 5 => self.begin(processor),
            6 | 7 => match (0..sizes.processors).find(|&p| !self.busy[p as usize]) {
                Some(idle) => Call::Step { processor: idle },
                None => Call::Step { processor },
            },
            8 | 9 => self.bad_remove(processor),
            _ => self.bad_insert(processor),
        }
    }

    /// A number that is too large for a due minute, an item or a ticket.
    fn too_much(&mut self) -> u64 {
        self.random.among(&[LIMIT + 1, LIMIT + 2, 1 << 32])
    }

    /// An Insert with a due minute, an item or a height out of its range, or with
    /// item 0.
    fn bad_insert(&mut self, processor: u64) -> Call {
        let levels = self.sizes.levels;
        let item = self.random.among(&[0, 1, 1, 1]);
        let (due, item, height) = match self.random.below(4) {
            0 => (self.too_much(), item, self.random.between(1, levels + 1)),
            1 => (0, self.too_much(), 1),
            2 => (0, 0, 1),
            _ => (0, item, self.random.among(&[0, levels + 1, 9, 256, 257])),
        };
        Call::Insert {
            processor,
            due,
            item,
            height,
        }
    }

    /// A Remove with a due minute or a ticket out of its range, or with both.
    fn bad_remove(&mut self, processor: u64) -> Call {
        let too_much = self.too_much();
        let bad_ticket = self.random.among(&[0, too_much]);
        let (due, ticket) = if self.random.one_in(2) {
            (too_much, self.random.among(&[1, LIMIT, bad_ticket]))
        } else {
            (self.random.among(&[0, LIMIT, too_much]), bad_ticket)
        };
        Call::Remove {
            processor,
            due,
            ticket,
        }
    }
}
