//! The one ghost function of the proof, followed along the calls from outside.

use crate::calls::{Call, Outcome};
use crate::queue::{slot, Processor, Queue, Stage, HEAD, MAX_LEVELS, MAX_NUMBER, NODE_SLOTS};

/// A time above every clock: linked until further notice.
pub const EVER: u32 = MAX_NUMBER + 1;

/// `until[n][i]`: `EVER` while node n is linked at level i; the time at which
/// it was unlinked there, in its present use; 0 before it is linked.
#[derive(Clone, PartialEq, Eq, Debug)]
pub struct Ghost {
    /// The times, by node and level slot.
    pub until: [[u32; MAX_LEVELS]; NODE_SLOTS],
}

impl Ghost {
    /// The ghost of a fresh queue: only the head and the tail are linked.
    pub fn new(queue: &Queue) -> Ghost {
        let mut until = [[0; MAX_LEVELS]; NODE_SLOTS];
        until[HEAD as usize] = [EVER; MAX_LEVELS];
        until[queue.tail() as usize] = [EVER; MAX_LEVELS];
        Ghost { until }
    }

    /// Follows one call. `was` is the calling processor before it, `queue`
    /// the record after it.
    pub fn follow(&mut self, was: &Processor, call: &Call, outcome: &Outcome, queue: &Queue) {
        match (*call, outcome) {
            (Call::Insert { processor, .. }, Outcome::Began(_)) => {
                let own = queue.processors[processor as usize].own;
                self.until[own as usize] = [0; MAX_LEVELS];
            }
            (Call::Step { .. }, Outcome::Stepped(_)) => match was.stage {
                Stage::I2Link(a) => self.until[was.own as usize][slot(a.level)] = EVER,
                Stage::L3Unlink(_, a) => self.until[was.own as usize][slot(a.level)] = queue.clock,
                _ => {}
            },
            _ => {}
        }
    }
}
