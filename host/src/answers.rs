//! What the calls give back.

use crate::raw::{self, Reply};
use std::fmt;

/// Why a call was refused, in the order in which the grounds are looked for.
/// The values are the numbers of the specification.
#[derive(Clone, Copy, PartialEq, Eq, PartialOrd, Ord, Hash, Debug)]
#[repr(u32)]
pub enum Refusal {
    /// Making: processors not 1 to 16.
    BadProcessors = 11,
    /// Making: entries not 1 to 200.
    BadEntries = 12,
    /// Making: levels not 1 to 8.
    BadLevels = 13,
    /// The bytes are no image, or that of a record whose numbers are out of
    /// their ranges.
    BadRecord = 21,
    /// Begin and step: the clock is 999,999. The queue's life has ended, and
    /// nothing can be taken out any more: move to a new one before that.
    ClockEnded = 31,
    /// Begin and step: the queue has no such processor.
    NoProcessor = 32,
    /// Begin: the processor is busy.
    Busy = 33,
    /// Step: the processor is idle.
    Idle = 34,
    /// Insert: due or item above 999,999. A due minute: seconds above
    /// 59,999,969.
    TooLarge = 35,
    /// Remove: due above 999,999, or ticket not 1 to 999,999.
    BadKey = 38,
    /// Insert: item 0, which is no item.
    NoItem = 39,
    /// Insert: height not 1 to the queue's levels.
    BadHeight = 36,
    /// Insert: no node that may be used now. Let the workers step on or take
    /// entries out, and try again.
    NoNode = 37,
    /// Markers: the area has fewer than two bytes for each node in use.
    /// [`crate::Queue::markers`] lends one that has enough.
    AreaTooShort = 43,
}

impl Refusal {
    /// Every refusal.
    pub const ALL: [Refusal; 14] = [
        Refusal::BadProcessors,
        Refusal::BadEntries,
        Refusal::BadLevels,
        Refusal::BadRecord,
        Refusal::ClockEnded,
        Refusal::NoProcessor,
        Refusal::Busy,
        Refusal::Idle,
        Refusal::TooLarge,
        Refusal::BadKey,
        Refusal::NoItem,
        Refusal::BadHeight,
        Refusal::NoNode,
        Refusal::AreaTooShort,
    ];

    /// The specification's number.
    pub fn number(self) -> u32 {
        self as u32
    }

    /// The refusal with this number, or none.
    pub fn from_number(number: u32) -> Option<Refusal> {
        Refusal::ALL
            .into_iter()
            .find(|refusal| refusal.number() == number)
    }
}

impl fmt::Display for Refusal {
    fn fmt(&self, f: &mut fmt::Formatter<'_>) -> fmt::Result {
        let words = match self {
            Refusal::BadProcessors => "processors not 1 to 16",
            Refusal::BadEntries => "entries not 1 to 200",
            Refusal::BadLevels => "levels not 1 to 8",
            Refusal::BadRecord => "no image of a record, or one whose numbers are out of range",
            Refusal::ClockEnded => "the clock is 999,999",
            Refusal::NoProcessor => "no such processor",
            Refusal::Busy => "the processor is busy",
            Refusal::Idle => "the processor is idle",
            Refusal::TooLarge => "due or item above 999,999, or seconds above 59,999,969",
            Refusal::BadKey => "due above 999,999 or ticket not 1 to 999,999",
            Refusal::NoItem => "item 0",
            Refusal::BadHeight => "height not 1 to the queue's levels",
            Refusal::NoNode => "no node that may be used",
            Refusal::AreaTooShort => "fewer than two bytes for each node in use",
        };
        write!(f, "{words} ({})", self.number())
    }
}

impl std::error::Error for Refusal {}

/// An entry of the queue.
#[derive(Clone, Copy, PartialEq, Eq, Hash, Debug)]
pub struct Entry {
    /// The due minute.
    pub due: u32,
    /// The item.
    pub item: u32,
    /// The time at which its Insert began; no two entries of a queue share it.
    pub ticket: u32,
}

/// What an accepted step reports.
#[derive(Clone, Copy, PartialEq, Eq, Hash, Debug)]
pub enum Step {
    /// The operation went on.
    Moved,
    /// A lock is held: only the clock changed. Steps of the holder free it,
    /// which may wait for another itself: let the others step before this one
    /// steps again.
    Waits {
        /// The processor that holds the lock. In a queue that calls alone have
        /// brought to where it is, it is another one than the caller, and busy.
        holder: u8,
    },
    /// The Delete_Min, ordinary or Relaxed, ended: every entry filed before it
    /// began is taken.
    Empty,
    /// The Delete_Min, ordinary or Relaxed, or the Remove took this entry, and
    /// goes on to unlink it.
    Marked(Entry),
    /// The Insert ended. A Relaxed Delete_Min may have handed its entry out
    /// before.
    Inserted(Entry),
    /// The Delete_Min, ordinary or Relaxed, ended with this entry.
    HandedOut(Entry),
    /// The Remove ended: this entry is out of the queue, and nobody is handed it.
    TakenBack(Entry),
    /// The Remove ended without an entry: there is none with this due minute and
    /// ticket, another has taken it, or its Insert had not answered when the
    /// Remove began.
    NotThere {
        /// The due minute that it looked for.
        due: u32,
        /// The ticket that it looked for.
        ticket: u32,
    },
}

/// A node in use, with who has marked it.
#[derive(Clone, Copy, PartialEq, Eq, Hash, Debug)]
pub struct Marker {
    /// The node's number, from 1.
    pub node: u8,
    /// The processor whose Delete_Min, ordinary or Relaxed, or Remove has marked
    /// the node's entry and not yet handed it out or taken it back; none while the
    /// entry is not marked.
    pub marker: Option<u8>,
}

/// The refusal of a code. The contracts of the library have no other codes.
pub(crate) fn refusal(code: u32) -> Refusal {
    match Refusal::from_number(code) {
        Some(refusal) => refusal,
        None => panic!("the library gave back the code {code}, which no contract of it has"),
    }
}

/// The value of a begin, a Backlog, markers or a due minute.
pub(crate) fn value(reply: Reply) -> Result<u32, Refusal> {
    match reply.code {
        raw::ACCEPTED => Ok(reply.first),
        code => Err(refusal(code)),
    }
}

/// The processor of a number. The contracts of the library have none above 15.
fn processor(number: u32) -> u8 {
    match u8::try_from(number) {
        Ok(processor) => processor,
        Err(_) => panic!("the library gave back the processor {number}, which no queue has"),
    }
}

/// The report of a step.
pub(crate) fn step(reply: Reply) -> Result<Step, Refusal> {
    let entry = Entry {
        due: reply.first,
        item: reply.second,
        ticket: reply.third,
    };
    match reply.code {
        raw::MOVED => Ok(Step::Moved),
        raw::WAITS => Ok(Step::Waits {
            holder: processor(reply.first),
        }),
        raw::EMPTY => Ok(Step::Empty),
        raw::MARKED => Ok(Step::Marked(entry)),
        raw::INSERTED => Ok(Step::Inserted(entry)),
        raw::HANDED_OUT => Ok(Step::HandedOut(entry)),
        raw::TAKEN_BACK => Ok(Step::TakenBack(entry)),
        raw::NOT_THERE => Ok(Step::NotThere {
            due: reply.first,
            ticket: reply.second,
        }),
        code => Err(refusal(code)),
    }
}
