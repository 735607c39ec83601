//! How often each thing happened in a run, so that a test can show that it did.

use crate::answer::Answer;
use crate::calls::{Call, Outcome};
use crate::claims::{claim, Role};
use crate::markers::NOBODY;
use crate::queue::{Job, Processor, Queue, Stage, Use, FREE, HEAD, MAX_PROCESSORS};
use crate::stages::at;
use crate::waits::{asked, ASKERS};
use std::collections::BTreeSet;

/// What Relaxed Delete_Mins did, and what came of it for Inserts.
#[derive(Clone, Copy, Default, Debug)]
pub struct Relaxed {
    /// Those that began.
    pub begun: u64,
    /// Entries that they marked.
    pub marked: u64,
    /// Of these, entries whose Insert had not answered.
    pub unanswered: u64,
    /// Of these, entries whose Insert had still to link a level.
    pub unlinked: u64,
    /// Those that found nothing.
    pub empty: u64,
    /// Walks that found a mark set already (RW3).
    pub marks_lost: u64,
    /// Walks that were led back to an earlier node (RW1), the head too.
    pub led_back: u64,
    /// Of these, walks that were led back to the head and stayed at RW1.
    pub led_to_head: u64,
    /// Entries handed out before their Insert answered: I5 then stamps a node
    /// that is retired.
    pub answered_late: u64,
    /// Nodes so stamped that were taken again.
    pub reused: u64,
}

impl Relaxed {
    fn add(&mut self, other: &Relaxed) {
        self.begun += other.begun;
        self.marked += other.marked;
        self.unanswered += other.unanswered;
        self.unlinked += other.unlinked;
        self.empty += other.empty;
        self.marks_lost += other.marks_lost;
        self.led_back += other.led_back;
        self.led_to_head += other.led_to_head;
        self.answered_late += other.answered_late;
        self.reused += other.reused;
    }

    /// Counts a step of a Relaxed walk: `was` is the stage before it, `now` the
    /// processor after it.
    fn count(&mut self, was: &Stage, answer: &Answer, now: &Processor, queue: &Queue) {
        match (*was, *answer) {
            (Stage::RW1Read(_), Answer::Empty) => self.empty += 1,
            (Stage::RW1Read(a), Answer::Moved) => {
                if let Stage::RW1Read(b) | Stage::RW3Mark(b) = now.stage {
                    self.led_back += u64::from(queue.key(b.node) < queue.key(a.node));
                    self.led_to_head += u64::from(b.node == HEAD);
                }
            }
            (Stage::RW3Mark(_), Answer::Moved) => self.marks_lost += 1,
            (Stage::RW3Mark(_), Answer::Marked(_)) => {
                let node = &queue.nodes[now.own as usize];
                self.marked += 1;
                self.unanswered += u64::from(node.stamp.is_none());
                self.unlinked += u64::from(node.node_lock != FREE);
            }
            _ => {}
        }
    }
}

/// What Removes did (document 02, W5).
#[derive(Clone, Copy, Default, Debug)]
pub struct Removes {
    /// Those that began.
    pub begun: u64,
    /// Of these, those whose ticket lay above the clock.
    pub future: u64,
    /// Entries that they marked.
    pub marked: u64,
    /// Entries that they took back.
    pub taken_back: u64,
    /// Those that came to the tail (X1).
    pub tail: u64,
    /// Those that came to another key (X1).
    pub other_key: u64,
    /// Those that found their key without a stamp (X2).
    pub unanswered: u64,
    /// Those that found their key stamped at the begin or later (X2).
    pub answered_late: u64,
    /// Those that found their entry marked (X3).
    pub marks_lost: u64,
    /// Of these, those that another Remove came before.
    pub lost_to_remove: u64,
    /// Reads that were repeated further on (X1).
    pub read_on: u64,
    /// Reads that were led back to an earlier node (X1).
    pub led_back: u64,
    /// Walks, ordinary and Relaxed, that came to an entry which a Remove was
    /// taking back (W3, RW3).
    pub beaten_walks: u64,
    /// Waits while an entry is taken back.
    pub waits: u64,
}

impl Removes {
    fn add(&mut self, other: &Removes) {
        self.begun += other.begun;
        self.future += other.future;
        self.marked += other.marked;
        self.taken_back += other.taken_back;
        self.tail += other.tail;
        self.other_key += other.other_key;
        self.unanswered += other.unanswered;
        self.answered_late += other.answered_late;
        self.marks_lost += other.marks_lost;
        self.lost_to_remove += other.lost_to_remove;
        self.read_on += other.read_on;
        self.led_back += other.led_back;
        self.beaten_walks += other.beaten_walks;
        self.waits += other.waits;
    }

    /// All that ended without an entry.
    pub fn not_there(&self) -> u64 {
        self.tail + self.other_key + self.unanswered + self.answered_late + self.marks_lost
    }

    /// Counts the begin of a Remove that was accepted at this time.
    fn count_begin(&mut self, ticket: u64, time: u32) {
        self.begun += 1;
        self.future += u64::from(ticket > u64::from(time));
    }

    /// Counts a step: `was` is the stage before it, `now` the processor after it.
    fn count(&mut self, was: &Stage, answer: &Answer, now: &Processor, queue: &Queue) {
        match (*was, *answer) {
            (Stage::X1Read(_, a), Answer::NotThere { .. }) => {
                let ended = queue.after(at(a.node, 1)) == queue.tail();
                self.tail += u64::from(ended);
                self.other_key += u64::from(!ended);
            }
            (Stage::X1Read(_, a), Answer::Moved) => {
                if let Stage::X1Read(_, b) = now.stage {
                    let back = queue.key(b.node) < queue.key(a.node);
                    self.read_on += u64::from(!back);
                    self.led_back += u64::from(back);
                }
            }
            (Stage::X2Test(_, a), Answer::NotThere { .. }) => {
                let stamped = queue.nodes[a.node as usize].stamp.is_some();
                self.unanswered += u64::from(!stamped);
                self.answered_late += u64::from(stamped);
            }
            (Stage::X3Mark(_, a), Answer::NotThere { .. }) => {
                self.marks_lost += 1;
                self.lost_to_remove += u64::from(is_taken_back(queue, a.node));
            }
            (Stage::W3Mark(a) | Stage::RW3Mark(a), Answer::Moved) => {
                self.beaten_walks += u64::from(is_taken_back(queue, a.node));
            }
            (Stage::X3Mark(..), Answer::Marked(_)) => self.marked += 1,
            (_, Answer::TakenBack(_)) => self.taken_back += 1,
            (_, Answer::Waits { .. }) => self.waits += u64::from(takes_back(was)),
            _ => {}
        }
    }
}

/// Whether a Remove has marked this node and is unlinking it.
fn is_taken_back(queue: &Queue, node: u8) -> bool {
    queue
        .busy()
        .any(|processor| processor.own == node && takes_back(&processor.stage))
}

/// Whether the stage is one of a Remove's removal.
fn takes_back(stage: &Stage) -> bool {
    let claim = claim(&Processor {
        stage: *stage,
        ..Processor::made()
    });
    claim.role == Role::Delete && claim.job == Job::TakeBack
}

/// How often each thing happened.
#[derive(Clone, Copy, Default, Debug)]
pub struct Tally {
    /// All calls.
    pub calls: u64,
    /// Calls after which the whole invariant was looked at.
    pub invariant: u64,
    /// Steps that moved.
    pub moved: u64,
    /// Steps that waited.
    pub waits: u64,
    /// Inserts that ended.
    pub inserted: u64,
    /// Entries marked.
    pub marked: u64,
    /// Entries handed out.
    pub handed: u64,
    /// Delete_Mins that found nothing.
    pub empty: u64,
    /// What Relaxed Delete_Mins did (document 02, W3).
    pub relaxed: Relaxed,
    /// What Removes did (document 02, W5).
    pub removes: Removes,
    /// Backlog calls.
    pub backlogs: u64,
    /// Markers calls.
    pub listings: u64,
    /// Nodes that these told of, with their marker.
    pub markers: u64,
    /// Calls after which fewer entries are counted than nodes are in use.
    pub fewer_than_in_use: u64,
    /// Nodes taken again.
    pub reused: u64,
    /// Lock-seeks that gave a lock up again (G4).
    pub moved_on: u64,
    /// Walks that found a mark set already (W3).
    pub marks_lost: u64,
    /// Walks that were led back to an earlier node (W1).
    pub led_back: u64,
    /// Waits by the step that asked for the lock: G2 of an Insert, G2 of a
    /// removal, L1, L2.
    pub waits_at: [u64; ASKERS],
    /// Waits by the processor that was waited for.
    pub waits_for: [u64; MAX_PROCESSORS],
    /// Refusals 31 to 39 and 43, by what they are above 30.
    pub refused: [u64; 14],
}

impl Tally {
    /// Adds another tally to this one.
    pub fn add(&mut self, other: &Tally) {
        self.calls += other.calls;
        self.invariant += other.invariant;
        self.moved += other.moved;
        self.waits += other.waits;
        self.inserted += other.inserted;
        self.marked += other.marked;
        self.handed += other.handed;
        self.empty += other.empty;
        self.relaxed.add(&other.relaxed);
        self.removes.add(&other.removes);
        self.backlogs += other.backlogs;
        self.listings += other.listings;
        self.markers += other.markers;
        self.fewer_than_in_use += other.fewer_than_in_use;
        self.reused += other.reused;
        self.moved_on += other.moved_on;
        self.marks_lost += other.marks_lost;
        self.led_back += other.led_back;
        add_each(&mut self.waits_at, &other.waits_at);
        add_each(&mut self.waits_for, &other.waits_for);
        add_each(&mut self.refused, &other.refused);
    }

    /// Counts one call.
    pub(crate) fn count(&mut self, outcome: &Outcome) {
        self.calls += 1;
        match *outcome {
            Outcome::Began(_) => {}
            Outcome::Count(_) => self.backlogs += 1,
            Outcome::Listed(ref listing) => {
                let marked = listing.pairs().filter(|(_, marker)| *marker != NOBODY);
                self.listings += 1;
                self.markers += marked.count() as u64;
            }
            Outcome::Refused(number) => {
                let above_30 = (number as usize).checked_sub(30);
                if let Some(count) = above_30.and_then(|above| self.refused.get_mut(above)) {
                    *count += 1;
                }
            }
            Outcome::Stepped(answer) => match answer {
                Answer::Moved => self.moved += 1,
                Answer::Waits { .. } => self.waits += 1,
                Answer::Empty => self.empty += 1,
                Answer::Marked(_) => self.marked += 1,
                Answer::Inserted(_) => self.inserted += 1,
                Answer::HandedOut(_) => self.handed += 1,
                // counted by their cause
                Answer::TakenBack(_) | Answer::NotThere { .. } => {}
            },
        }
    }

    /// Counts what seldom happens: `was` is the processor before the step,
    /// `queue` the record after it.
    pub(crate) fn count_rare(&mut self, was: &Processor, p: u64, answer: &Answer, queue: &Queue) {
        let now = &queue.processors[p as usize];
        self.relaxed.count(&was.stage, answer, now, queue);
        self.removes.count(&was.stage, answer, now, queue);
        match (was.stage, *answer) {
            (Stage::G4Unlock(..), _) => self.moved_on += 1,
            (Stage::W3Mark(_), Answer::Moved) => self.marks_lost += 1,
            (_, Answer::Waits { holder }) => {
                if let Some((asker, _)) = asked(was) {
                    self.waits_at[asker as usize] += 1;
                }
                if let Some(count) = self.waits_for.get_mut(usize::from(holder)) {
                    *count += 1;
                }
            }
            (Stage::W1Read(a), Answer::Moved) => {
                if let Stage::W2Compare(b) = now.stage {
                    if queue.key(b.node) < queue.key(a.node) {
                        self.led_back += 1;
                    }
                }
            }
            _ => {}
        }
    }

    /// Counts nodes whose entry is handed out before its Insert answers: `was`
    /// is the processor before the call, `late` the nodes that are stamped so
    /// and not taken again since, `queue` the record after the call.
    pub(crate) fn count_late(
        &mut self,
        was: &Processor,
        call: &Call,
        outcome: &Outcome,
        late: &mut BTreeSet<u8>,
        queue: &Queue,
    ) {
        match (*call, outcome) {
            (Call::Relaxed { .. }, Outcome::Began(_)) => self.relaxed.begun += 1,
            (Call::Remove { ticket, .. }, &Outcome::Began(time)) => {
                self.removes.count_begin(ticket, time);
            }
            (Call::Insert { processor, .. }, Outcome::Began(_)) => {
                let taken = queue.processors[processor as usize].own;
                self.relaxed.reused += u64::from(late.remove(&taken));
            }
            (Call::Step { .. }, Outcome::Stepped(Answer::Inserted(_))) => {
                if let Use::Retired(_) = queue.nodes[was.own as usize].state {
                    self.relaxed.answered_late += 1;
                    late.insert(was.own);
                }
            }
            _ => {}
        }
    }
}

fn add_each(mine: &mut [u64], others: &[u64]) {
    for (count, other) in mine.iter_mut().zip(others) {
        *count += other;
    }
}
