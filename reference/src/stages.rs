//! What each stage does in its one step.
//!
//! Every function here works at the time that the clock already shows, sets
//! the processor's next stage and gives the answer of the step.

use crate::answer::{Answer, Entry};
use crate::locks::{Attempt, Lock};
use crate::queue::{slot, Job, Node, Operation, Place, Processor, Queue, Stage, Use, Wanted};
use crate::queue::{FREE, HEAD};
use std::cmp::Ordering;

impl Queue {
    /// The step of processor `p`, which is busy.
    pub(crate) fn run_stage(&mut self, p: usize) -> Answer {
        match self.processors[p].stage {
            Stage::Idle => unreachable!("an idle processor is refused with 34"),
            Stage::Search(operation, a) => {
                let on = self.leads_before_own(p, a);
                self.search(p, operation, a, on)
            }
            Stage::G1Read(operation, a) => {
                let on = self.leads_before_own(p, a);
                self.seek_read(p, operation, a, on)
            }
            Stage::G2Lock(operation, a) => self.seek_lock(p, operation, a),
            Stage::G3Reread(operation, a) => {
                let on = self.leads_before_own(p, a);
                self.seek_reread(p, operation, a, on)
            }
            Stage::G4Unlock(operation, a, b) => {
                self.free_lock(a.node, a.level);
                self.go(p, Stage::G2Lock(operation, at(b, a.level)))
            }
            Stage::W1Read(a) => self.walk_read(p, a),
            Stage::W2Compare(a) => self.walk_compare(p, a),
            Stage::W3Mark(a) => self.walk_mark(p, a, Stage::W1Read(a)),
            Stage::RW1Read(a) => self.relaxed_read(p, a),
            Stage::RW3Mark(a) => self.walk_mark(p, a, Stage::RW1Read(a)),
            Stage::XSearch(wanted, a) => {
                let on = self.key(self.after(a)) < wanted.key();
                self.remove_search(p, wanted, a, on)
            }
            Stage::X1Read(wanted, a) => self.remove_read(p, wanted, a),
            Stage::X2Test(wanted, a) => self.remove_test(p, wanted, a),
            Stage::X3Mark(wanted, a) => self.remove_mark(p, wanted, a),
            stage => self.run_linking(p, stage),
        }
    }

    /// The step at a stage of an Insert or a removal after its Search and outside
    /// its Lock-seeks.
    fn run_linking(&mut self, p: usize, stage: Stage) -> Answer {
        match stage {
            Stage::I1PointOwn(a) => {
                self.set_forward(self.own(p), a.level, self.after(a));
                self.go(p, Stage::I2Link(a))
            }
            Stage::I2Link(a) => {
                self.set_forward(a.node, a.level, self.own(p));
                self.go(p, Stage::I3Unlock(a))
            }
            Stage::I3Unlock(a) => self.insert_unlock(p, a),
            Stage::I4UnlockNode => {
                self.own_node(p).node_lock = FREE;
                self.go(p, Stage::I5Stamp)
            }
            Stage::I5Stamp => self.stamp(p),
            Stage::L1LockNode(job) => self.lock_own_node(p, job),
            Stage::L2LockOwn(job, a) => self.lock_own_level(p, job, a),
            Stage::L3Unlink(job, a) => {
                let next = self.after(at(self.own(p), a.level));
                self.set_forward(a.node, a.level, next);
                self.go(p, Stage::L4PointBack(job, a))
            }
            Stage::L4PointBack(job, a) => {
                self.set_forward(self.own(p), a.level, a.node);
                self.go(p, Stage::L5UnlockOwn(job, a))
            }
            Stage::L5UnlockOwn(job, a) => {
                self.free_lock(self.own(p), a.level);
                self.go(p, Stage::L6Unlock(job, a))
            }
            Stage::L6Unlock(job, a) => self.delete_unlock(p, job, a),
            Stage::L7UnlockNode(job) => {
                self.own_node(p).node_lock = FREE;
                self.go(p, Stage::L8Retire(job))
            }
            Stage::L8Retire(job) => self.retire(p, job),
            _ => unreachable!("the other stages have their own step"),
        }
    }

    /// Search: move on, or save the place and go one level down.
    pub(crate) fn search(&mut self, p: usize, op: Operation, a: Place, on: bool) -> Answer {
        if on {
            let b = self.after(a);
            return self.go(p, Stage::Search(op, at(b, a.level)));
        }
        self.processors[p].saved[slot(a.level)] = a.node;
        if a.level > 1 {
            return self.go(p, Stage::Search(op, at(a.node, a.level - 1)));
        }
        match op {
            Operation::Insert => self.go(p, Stage::G1Read(op, a)),
            Operation::Removal(job) => self.go(p, Stage::L1LockNode(job)),
        }
    }

    /// G1: move on, or try the lock.
    pub(crate) fn seek_read(&mut self, p: usize, op: Operation, a: Place, on: bool) -> Answer {
        if on {
            let b = self.after(a);
            self.go(p, Stage::G1Read(op, at(b, a.level)))
        } else {
            self.go(p, Stage::G2Lock(op, a))
        }
    }

    /// G2: take the place's lock, or wait.
    fn seek_lock(&mut self, p: usize, op: Operation, a: Place) -> Answer {
        match self.attempt(p, Lock::Level(a)) {
            Attempt::Taken => self.go(p, Stage::G3Reread(op, a)),
            Attempt::HeldBy(holder) => Answer::Waits { holder },
        }
    }

    /// G3: give the lock up and move on, or the Lock-seek is done.
    pub(crate) fn seek_reread(&mut self, p: usize, op: Operation, a: Place, on: bool) -> Answer {
        if on {
            let b = self.after(a);
            return self.go(p, Stage::G4Unlock(op, a, b));
        }
        match op {
            Operation::Insert => self.go(p, Stage::I1PointOwn(a)),
            Operation::Removal(job) => self.go(p, Stage::L2LockOwn(job, a)),
        }
    }

    /// I3: free the place's lock, then the next level up or I4.
    fn insert_unlock(&mut self, p: usize, a: Place) -> Answer {
        self.free_lock(a.node, a.level);
        if a.level >= self.own_node(p).height {
            self.go(p, Stage::I4UnlockNode)
        } else {
            self.seek_from_saved(p, Operation::Insert, a.level + 1)
        }
    }

    /// W1: the tail answers EMPTY, any other node is moved to.
    fn walk_read(&mut self, p: usize, a: Place) -> Answer {
        let b = self.after(at(a.node, 1));
        if b == self.tail() {
            self.finish(p, Answer::Empty)
        } else {
            self.go(p, Stage::W2Compare(at(b, 1)))
        }
    }

    /// W2: a stamp earlier than the begin time may be marked.
    fn walk_compare(&mut self, p: usize, a: Place) -> Answer {
        match self.nodes[a.node as usize].stamp {
            Some(time) if time < self.processors[p].begin => self.go(p, Stage::W3Mark(a)),
            _ => self.go(p, Stage::W1Read(a)),
        }
    }

    /// RW1: the tail answers EMPTY, at the head the walk reads on, any other
    /// node is marked next, stamped or not (document 02, W3).
    fn relaxed_read(&mut self, p: usize, a: Place) -> Answer {
        let b = self.after(at(a.node, 1));
        if b == self.tail() {
            self.finish(p, Answer::Empty)
        } else if b == HEAD {
            self.go(p, Stage::RW1Read(at(HEAD, 1)))
        } else {
            self.go(p, Stage::RW3Mark(at(b, 1)))
        }
    }

    /// W3 and RW3: set the mark; whoever finds it unset owns the node, and the
    /// others go on at W1 or RW1.
    fn walk_mark(&mut self, p: usize, a: Place, on: Stage) -> Answer {
        if self.nodes[a.node as usize].is_marked() {
            return self.go(p, on);
        }
        self.mark(p, a.node, Job::HandOut)
    }

    /// Marks the node, which becomes the own one; its Search is next.
    pub(crate) fn mark(&mut self, p: usize, node: u8, job: Job) -> Answer {
        self.nodes[node as usize].mark = holder(p);
        self.processors[p].own = node;
        let start = at(HEAD, self.level_count);
        self.go(p, Stage::Search(Operation::Removal(job), start));
        Answer::Marked(self.entry(node))
    }

    /// XS: move on, or save the place and go one level down; after level 1 read
    /// on from the same node (document 02, W5).
    pub(crate) fn remove_search(&mut self, p: usize, wanted: Wanted, a: Place, on: bool) -> Answer {
        if on {
            let b = self.after(a);
            return self.go(p, Stage::XSearch(wanted, at(b, a.level)));
        }
        self.processors[p].saved[slot(a.level)] = a.node;
        if a.level > 1 {
            self.go(p, Stage::XSearch(wanted, at(a.node, a.level - 1)))
        } else {
            self.go(p, Stage::X1Read(wanted, a))
        }
    }

    /// X1: a step along level 1. Past an earlier node the Remove reads on, at
    /// the key itself it goes on to the test, at any other it has its answer.
    fn remove_read(&mut self, p: usize, wanted: Wanted, a: Place) -> Answer {
        let b = self.after(at(a.node, 1));
        match self.key(b).cmp(&wanted.key()) {
            Ordering::Less => self.go(p, Stage::X1Read(wanted, at(b, 1))),
            Ordering::Equal => self.go(p, Stage::X2Test(wanted, at(b, 1))),
            Ordering::Greater => self.not_there(p, wanted),
        }
    }

    /// X2: as W2, but any other stamp, or none, ends the Remove.
    fn remove_test(&mut self, p: usize, wanted: Wanted, a: Place) -> Answer {
        match self.nodes[a.node as usize].stamp {
            Some(time) if time < self.processors[p].begin => self.go(p, Stage::X3Mark(wanted, a)),
            _ => self.not_there(p, wanted),
        }
    }

    /// X3: as W3, but a mark that is set ends the Remove.
    fn remove_mark(&mut self, p: usize, wanted: Wanted, a: Place) -> Answer {
        if self.nodes[a.node as usize].is_marked() {
            return self.not_there(p, wanted);
        }
        self.mark(p, a.node, Job::TakeBack)
    }

    pub(crate) fn not_there(&mut self, p: usize, wanted: Wanted) -> Answer {
        let Wanted { due, ticket } = wanted;
        self.finish(p, Answer::NotThere { due, ticket })
    }

    /// L1: take the own node lock, or wait.
    fn lock_own_node(&mut self, p: usize, job: Job) -> Answer {
        match self.attempt(p, Lock::Node(self.own(p))) {
            Attempt::Taken => {
                let height = self.own_node(p).height;
                self.seek_from_saved(p, Operation::Removal(job), height)
            }
            Attempt::HeldBy(holder) => Answer::Waits { holder },
        }
    }

    /// L2: take own lock of the level, or wait.
    fn lock_own_level(&mut self, p: usize, job: Job, a: Place) -> Answer {
        let own = at(self.own(p), a.level);
        match self.attempt(p, Lock::Level(own)) {
            Attempt::Taken => self.go(p, Stage::L3Unlink(job, a)),
            Attempt::HeldBy(holder) => Answer::Waits { holder },
        }
    }

    /// L6: free the place's lock, then the next level down or L7.
    fn delete_unlock(&mut self, p: usize, job: Job, a: Place) -> Answer {
        self.free_lock(a.node, a.level);
        if a.level > 1 {
            self.seek_from_saved(p, Operation::Removal(job), a.level - 1)
        } else {
            self.go(p, Stage::L7UnlockNode(job))
        }
    }

    /// I5: stamp the own node and answer.
    fn stamp(&mut self, p: usize) -> Answer {
        let now = self.clock;
        self.own_node(p).stamp = Some(now);
        let entry = self.entry(self.own(p));
        self.finish(p, Answer::Inserted(entry))
    }

    /// L8: retire the node; what its entry is told as depends on the job.
    fn retire(&mut self, p: usize, job: Job) -> Answer {
        let now = self.clock;
        self.own_node(p).state = Use::Retired(now);
        let entry = self.entry(self.own(p));
        match job {
            Job::HandOut => self.finish(p, Answer::HandedOut(entry)),
            Job::TakeBack => self.finish(p, Answer::TakenBack(entry)),
        }
    }

    fn seek_from_saved(&mut self, p: usize, op: Operation, level: u8) -> Answer {
        let saved = self.processors[p].saved[slot(level)];
        self.go(p, Stage::G1Read(op, at(saved, level)))
    }

    /// The node after a place.
    pub(crate) fn after(&self, a: Place) -> u8 {
        self.nodes[a.node as usize].forward[slot(a.level)]
    }

    /// Whether the node after `a` is before the own node of `p`.
    fn leads_before_own(&self, p: usize, a: Place) -> bool {
        self.key(self.after(a)) < self.key(self.own(p))
    }

    fn set_forward(&mut self, node: u8, level: u8, to: u8) {
        self.nodes[node as usize].forward[slot(level)] = to;
    }

    fn free_lock(&mut self, node: u8, level: u8) {
        self.nodes[node as usize].level_locks[slot(level)] = FREE;
    }

    fn own(&self, p: usize) -> u8 {
        self.processors[p].own
    }

    pub(crate) fn own_node(&mut self, p: usize) -> &mut Node {
        &mut self.nodes[self.processors[p].own as usize]
    }

    pub(crate) fn entry(&self, node: u8) -> Entry {
        let node = &self.nodes[node as usize];
        Entry {
            due: node.due,
            item: node.item,
            ticket: node.ticket,
        }
    }

    pub(crate) fn go(&mut self, p: usize, stage: Stage) -> Answer {
        self.processors[p].stage = stage;
        Answer::Moved
    }

    /// An answer leaves the processor as in a fresh queue.
    pub(crate) fn finish(&mut self, p: usize, answer: Answer) -> Answer {
        let mut saved = self.processors[p].saved;
        saved[..self.level_count as usize].fill(HEAD);
        self.processors[p] = Processor {
            begin: 0,
            own: 0,
            stage: Stage::Idle,
            saved,
        };
        answer
    }
}

/// A place.
pub(crate) fn at(node: u8, level: u8) -> Place {
    Place { node, level }
}

/// How a lock and a mark name processor `p`.
pub(crate) fn holder(p: usize) -> u8 {
    p as u8 + 1
}
