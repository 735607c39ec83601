//! What a step must do at a lock, told by the record before it (document 02,
//! W1): take it where it is free, and else wait and name the holder.

use crate::answer::Answer;
use crate::book::Fault;
use crate::claims::{claim, Claim, Role};
use crate::locks::Lock;
use crate::queue::{named, Operation, Place, Processor, Queue, Stage};

/// The steps that ask for a lock.
#[derive(Clone, Copy, PartialEq, Eq, PartialOrd, Ord, Debug)]
pub enum Asker {
    /// G2 of an Insert.
    InsertG2,
    /// G2 of a removal, by a Delete_Min, ordinary or Relaxed, or by a Remove.
    RemovalG2,
    /// L1.
    L1,
    /// L2.
    L2,
}

/// How many such steps there are.
pub const ASKERS: usize = 4;

/// Which lock the next step of a processor asks for: at G2 that of its place,
/// at L1 the node lock of its own node, at L2 that of its own node at its level.
pub fn asked(processor: &Processor) -> Option<(Asker, Lock)> {
    match processor.stage {
        Stage::G2Lock(Operation::Insert, a) => Some((Asker::InsertG2, Lock::Level(a))),
        Stage::G2Lock(Operation::Removal(_), a) => Some((Asker::RemovalG2, Lock::Level(a))),
        Stage::L1LockNode(_) => Some((Asker::L1, Lock::Node(processor.own))),
        Stage::L2LockOwn(_, Place { level, .. }) => {
            let node = processor.own;
            Some((Asker::L2, Lock::Level(Place { node, level })))
        }
        _ => None,
    }
}

/// What the record before a step asks of it.
pub struct Watch {
    caller: usize,
    asked: Option<(Lock, Meant)>,
}

/// What is meant to happen at a lock.
enum Meant {
    /// It is taken.
    Taken,
    /// The step waits for this processor, and the record stays as it is here
    /// but for the clock.
    Waits(u8, Box<Queue>),
}

impl Watch {
    /// Before the step of a processor, which is busy.
    pub fn new(queue: &Queue, caller: usize) -> Watch {
        let meant = |lock| match named(queue.lock(lock)) {
            None => (lock, Meant::Taken),
            Some(holder) => (lock, Meant::Waits(holder, Box::new(queue.clone()))),
        };
        let asked = asked(&queue.processors[caller]).map(|(_, lock)| meant(lock));
        Watch { caller, asked }
    }

    /// After the step, which gave this answer and left this record.
    pub fn judge(&self, answer: Answer, after: &Queue) -> Result<(), Fault> {
        match (&self.asked, answer) {
            (None, Answer::Waits { .. }) => Err("waits where no lock is asked for"),
            (None, _) => Ok(()),
            (Some((lock, Meant::Taken)), Answer::Moved) => {
                if after.lock(*lock) == self.caller as u8 + 1 {
                    Ok(())
                } else {
                    Err("moved past a free lock without taking it")
                }
            }
            (Some((_, Meant::Taken)), _) => Err("a free lock, but the step did not move"),
            (Some((_, Meant::Waits(right, before))), Answer::Waits { holder }) => {
                if holder != *right {
                    return Err("waits for another than the holder");
                }
                if only_the_clock(before, after) {
                    Ok(())
                } else {
                    Err("waits and changes more than the clock")
                }
            }
            (Some((_, Meant::Waits(..))), _) => Err("a held lock, but the step did not wait"),
        }
    }

    /// On records that calls led to from a fresh one: whoever is waited for is
    /// another processor of the queue, busy, and at a stage that says that it
    /// holds this very lock.
    pub fn judge_holder(&self) -> Result<(), Fault> {
        let Some((lock, Meant::Waits(holder, before))) = &self.asked else {
            return Ok(());
        };
        if *holder >= before.processor_count {
            return Err("waits for no processor");
        }
        if usize::from(*holder) == self.caller {
            return Err("waits for itself");
        }
        let claim: Claim = claim(&before.processors[usize::from(*holder)]);
        if claim.role == Role::Idle {
            return Err("waits for an idle processor");
        }
        if claim.holds(*lock) {
            Ok(())
        } else {
            Err("waits for one whose stage does not hold the lock")
        }
    }
}

/// Whether the clock went on by one and nothing else changed.
fn only_the_clock(before: &Queue, after: &Queue) -> bool {
    let mut expected = before.clone();
    expected.clock += 1;
    expected == *after
}
