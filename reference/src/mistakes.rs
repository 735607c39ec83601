//! Wrong queues: one for each mistake of document 01's "Where an implementer
//! goes astray", two of document 02's marks, some that name the wrong holder, and
//! some about the Relaxed Delete_Min and the Remove. Each takes the right queue and
//! does one stage its own way; the right code knows nothing of them.

use crate::answer::Answer;
use crate::calls::{Call, Outcome};
use crate::locks::Lock;
use crate::misled::Misled;
use crate::queue::{named, Key, Place, Processor, Queue, Stage};
use crate::queue::{FREE, HEAD, MAX_NUMBER, MAX_PROCESSORS, UNMARKED};
use crate::stages::{at, holder};
use crate::trial::Machine;

/// A mistake.
#[derive(Clone, Copy, PartialEq, Eq, Debug)]
pub enum Mistake {
    /// Searches move on while the key is greater, as the figures say (but not
    /// past the tail, where they would run for ever).
    SearchWhileGreater,
    /// The walk advances only past stamped nodes, as the figures say.
    WalkSticks,
    /// I5 reads the clock in one call and stamps in the next.
    StampInTwoCalls,
    /// L4 leaves the own forward number as it is.
    ForwardLeft,
    /// The walk takes the head for a stamped node when it is led back to it.
    HeadMarked,
    /// A node is given out again as soon as it is unlinked.
    ReuseAtOnce,
    /// A walk that finds a mark set puts its own number there (document 02, W6).
    MarkTakenOver,
    /// L8 takes the mark off (document 02, W6).
    MarkTakenOff,
    /// A wait names another than the holder (document 02, W1).
    Misnamed(Misnamed),
    /// A Relaxed Delete_Min, or what stands beside it, goes another way
    /// (document 02, W3).
    Relaxed(Astray),
    /// A Remove goes another way (document 02, W5).
    Remove(Misled),
}

/// What goes another way by mistake.
#[derive(Clone, Copy, PartialEq, Eq, Debug)]
pub enum Astray {
    /// A Relaxed Delete_Min is begun as an ordinary one, W2 and all.
    BegunOrdinary,
    /// RW3 passes a node by that is not stamped before the begin.
    StampTested,
    /// RW1 takes the head for an entry when it is led back to it.
    HeadMarked,
    /// RW1 leaves the next entry out where another unmarked one follows.
    NextLeftOut,
    /// W2 of an ordinary Delete_Min lets every node but the head pass.
    StampNotTested,
    /// L1 takes the node lock from whoever holds it.
    LockTaken,
}

/// Every such mistake.
pub const ASTRAY: [Astray; 6] = [
    Astray::BegunOrdinary,
    Astray::StampTested,
    Astray::HeadMarked,
    Astray::NextLeftOut,
    Astray::StampNotTested,
    Astray::LockTaken,
];

/// Whom a wait names by mistake.
#[derive(Clone, Copy, PartialEq, Eq, Debug)]
pub enum Misnamed {
    /// The caller.
    Caller,
    /// Processor 0.
    Zero,
    /// The number that the lock holds, which is one more.
    Stored,
    /// At G2 the holder of the place's node lock.
    NodeLockAtG2,
    /// At L2 the holder of the own node's node lock.
    NodeLockAtL2,
    /// At L1 the holder of the own node's lock at level 1.
    LevelLockAtL1,
    /// At L2 the holder of the place's lock.
    PlaceAtL2,
    /// At G2 and L2 the holder of the lock at the level above, or at level 1
    /// where there is none.
    OtherLevel,
}

/// Every such mistake.
pub const MISNAMED: [Misnamed; 8] = [
    Misnamed::Caller,
    Misnamed::Zero,
    Misnamed::Stored,
    Misnamed::NodeLockAtG2,
    Misnamed::NodeLockAtL2,
    Misnamed::LevelLockAtL1,
    Misnamed::PlaceAtL2,
    Misnamed::OtherLevel,
];

/// A queue with one mistake.
#[derive(Clone, Debug)]
pub struct Wrong {
    queue: Queue,
    mistake: Mistake,
    /// For `StampInTwoCalls`: the time that each processor has read.
    read_time: [Option<u32>; MAX_PROCESSORS],
}

impl Wrong {
    /// A wrong queue over a fresh one.
    pub fn new(queue: Queue, mistake: Mistake) -> Wrong {
        Wrong {
            queue,
            mistake,
            read_time: [None; MAX_PROCESSORS],
        }
    }

    /// The step of processor p, if the mistake touches its stage.
    fn wrong_step(&mut self, p: usize) -> Option<Answer> {
        let stage = self.queue.processors[p].stage;
        match (self.mistake, stage) {
            (Mistake::SearchWhileGreater, Stage::Search(op, a)) => {
                let on = self.leads_to_greater(p, a);
                self.queue.clock += 1;
                Some(self.queue.search(p, op, a, on))
            }
            (Mistake::SearchWhileGreater, Stage::G1Read(op, a)) => {
                let on = self.leads_to_greater(p, a);
                self.queue.clock += 1;
                Some(self.queue.seek_read(p, op, a, on))
            }
            (Mistake::SearchWhileGreater, Stage::G3Reread(op, a)) => {
                let on = self.leads_to_greater(p, a);
                self.queue.clock += 1;
                Some(self.queue.seek_reread(p, op, a, on))
            }
            (Mistake::WalkSticks, Stage::W2Compare(a)) if !self.stamped_early(p, a) => {
                self.queue.clock += 1;
                Some(self.queue.go(p, Stage::W2Compare(a)))
            }
            (Mistake::StampInTwoCalls, Stage::I5Stamp) => {
                self.queue.clock += 1;
                match self.read_time[p].take() {
                    None => {
                        self.read_time[p] = Some(self.queue.clock);
                        Some(Answer::Moved)
                    }
                    Some(time) => {
                        self.queue.own_node(p).stamp = Some(time);
                        let entry = self.queue.entry(self.queue.processors[p].own);
                        Some(self.queue.finish(p, Answer::Inserted(entry)))
                    }
                }
            }
            (Mistake::ForwardLeft, Stage::L4PointBack(job, a)) => {
                self.queue.clock += 1;
                Some(self.queue.go(p, Stage::L5UnlockOwn(job, a)))
            }
            (Mistake::HeadMarked, Stage::W2Compare(a)) if a.node == HEAD => {
                self.queue.clock += 1;
                Some(self.queue.go(p, Stage::W3Mark(a)))
            }
            _ => self.wrong_mark(p),
        }
    }

    /// Where the step of processor p goes, if this mistake touches its stage.
    fn astray(&mut self, astray: Astray, p: usize) -> Option<Stage> {
        let Processor { stage, own, .. } = self.queue.processors[p];
        let next = |a: Place| self.queue.after(at(a.node, 1));
        let unmarked = |n: u8| {
            let entry = n != HEAD && n != self.queue.tail();
            entry && !self.queue.nodes[n as usize].is_marked()
        };
        match (astray, stage) {
            (Astray::StampTested, Stage::RW3Mark(a)) if !self.stamped_early(p, a) => {
                Some(Stage::RW1Read(a))
            }
            (Astray::HeadMarked, Stage::RW1Read(a)) if next(a) == HEAD => {
                Some(Stage::RW3Mark(at(HEAD, 1)))
            }
            (Astray::NextLeftOut, Stage::RW1Read(a)) => {
                let (b, c) = (next(a), next(at(next(a), 1)));
                let leaves = unmarked(b) && unmarked(c);
                leaves.then_some(Stage::RW3Mark(at(c, 1)))
            }
            (Astray::StampNotTested, Stage::W2Compare(a)) if a.node != HEAD => {
                Some(Stage::W3Mark(a))
            }
            (Astray::LockTaken, Stage::L1LockNode(_)) => {
                // the right step then finds it free
                self.queue.nodes[own as usize].node_lock = FREE;
                None
            }
            _ => None,
        }
    }

    /// The step of processor p, if the mistake is about marks or the Relaxed
    /// walk and touches its stage.
    fn wrong_mark(&mut self, p: usize) -> Option<Answer> {
        let Processor { stage, own, .. } = self.queue.processors[p];
        match (self.mistake, stage) {
            (
                Mistake::MarkTakenOver,
                Stage::W3Mark(a) | Stage::RW3Mark(a) | Stage::X3Mark(_, a),
            ) => {
                self.queue.clock += 1;
                let answer = self.queue.run_stage(p);
                self.queue.nodes[a.node as usize].mark = holder(p);
                Some(answer)
            }
            (Mistake::MarkTakenOff, Stage::L8Retire(_)) => {
                self.queue.nodes[own as usize].mark = UNMARKED;
                None
            }
            (Mistake::Relaxed(astray), _) => {
                let wrong = self.astray(astray, p)?;
                self.queue.clock += 1;
                Some(self.queue.go(p, wrong))
            }
            _ => None,
        }
    }

    /// Whom the wait of processor p names by this mistake, where it is told from
    /// another lock; else the right one. A lock that is free is then named as
    /// that of processor 0.
    fn misnamed(&self, mistake: Misnamed, p: usize, right: u8) -> u8 {
        let Processor { stage, own, .. } = self.queue.processors[p];
        let other = |level: u8| level % self.queue.level_count + 1;
        let lock = match (mistake, stage) {
            (Misnamed::Caller, _) => return p as u8,
            (Misnamed::Zero, _) => return 0,
            (Misnamed::Stored, _) => return right + 1,
            (Misnamed::NodeLockAtG2, Stage::G2Lock(_, a)) => Lock::Node(a.node),
            (Misnamed::NodeLockAtL2, Stage::L2LockOwn(..)) => Lock::Node(own),
            (Misnamed::LevelLockAtL1, Stage::L1LockNode(_)) => Lock::Level(at(own, 1)),
            (Misnamed::PlaceAtL2, Stage::L2LockOwn(_, a)) => Lock::Level(a),
            (Misnamed::OtherLevel, Stage::G2Lock(_, a)) => Lock::Level(at(a.node, other(a.level))),
            (Misnamed::OtherLevel, Stage::L2LockOwn(_, a)) => Lock::Level(at(own, other(a.level))),
            _ => return right,
        };
        named(self.queue.lock(lock)).unwrap_or(0)
    }

    fn leads_to_greater(&self, p: usize, a: Place) -> bool {
        let key = self.queue.key(self.queue.after(a));
        key != Key::Tail && key > self.queue.key(self.queue.processors[p].own)
    }

    fn stamped_early(&self, p: usize, a: Place) -> bool {
        let begin = self.queue.processors[p].begin;
        self.queue.nodes[a.node as usize]
            .stamp
            .is_some_and(|time| time < begin)
    }

    /// An Insert that takes the longest-retired node whoever is busy.
    fn insert_at_once(&mut self, call: &Call) -> Option<Outcome> {
        let Call::Insert {
            processor,
            due,
            item,
            height,
        } = *call
        else {
            return None;
        };
        let (p, filing) = self
            .queue
            .insert_in_range(processor, due, item, height)
            .ok()?;
        let (node, _) = self.queue.longest_retired()?;
        Some(Outcome::Began(self.queue.fill(p, node, &filing)))
    }
}

impl Machine for Wrong {
    fn call(&mut self, call: &Call) -> Outcome {
        if let Mistake::Remove(misled) = self.mistake {
            return misled.call(&mut self.queue, call);
        }
        let ordinary = Mistake::Relaxed(Astray::BegunOrdinary);
        let call = match *call {
            Call::Relaxed { processor } if self.mistake == ordinary => {
                &Call::DeleteMin { processor }
            }
            _ => call,
        };
        if let Call::Step { processor } = *call {
            let known = processor < u64::from(self.queue.processor_count);
            if known && self.queue.clock < MAX_NUMBER {
                if let Some(answer) = self.wrong_step(processor as usize) {
                    return Outcome::Stepped(answer);
                }
            }
        }
        let outcome = self.queue.call_inner(call);
        match (self.mistake, call, &outcome) {
            (Mistake::ReuseAtOnce, _, Outcome::Refused(37)) => {
                self.insert_at_once(call).unwrap_or(outcome)
            }
            (
                Mistake::Misnamed(mistake),
                &Call::Step { processor },
                &Outcome::Stepped(Answer::Waits { holder }),
            ) => {
                // a wait leaves the locks as they were
                let holder = self.misnamed(mistake, processor as usize, holder);
                Outcome::Stepped(Answer::Waits { holder })
            }
            _ => outcome,
        }
    }

    fn queue(&self) -> &Queue {
        &self.queue
    }
}
