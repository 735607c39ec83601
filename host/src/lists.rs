//! The calls of a list and their answers, in the numbers that the library reads
//! and writes.

use crate::answers::{step, Refusal, Step};
use crate::raw::{self, Reply};
use std::mem::size_of;

/// How many numbers a call has, and an answer.
pub(crate) const NUMBERS: usize = 5;

const _: () = assert!(size_of::<Call>() == NUMBERS * size_of::<u32>());
const _: () = assert!(size_of::<Answer>() == NUMBERS * size_of::<u32>());

/// A call of a list, for [`crate::Queue::calls`].
#[repr(C)]
#[derive(Clone, Copy, PartialEq, Eq, Hash, Debug)]
pub struct Call {
    kind: u32,
    processor: u32,
    due: u32,
    item: u32,
    height: u32,
}

impl Call {
    /// The begin of an Insert, as [`crate::Queue::begin_insert`].
    pub const fn insert(processor: u32, due: u32, item: u32, height: u32) -> Call {
        Call {
            kind: raw::CALL_INSERT,
            processor,
            due,
            item,
            height,
        }
    }

    /// The begin of a Delete_Min, as [`crate::Queue::begin_delete_min`].
    pub const fn delete_min(processor: u32) -> Call {
        Call::of(raw::CALL_DELETE_MIN, processor)
    }

    /// The begin of a Relaxed Delete_Min, as [`crate::Queue::begin_relaxed`].
    pub const fn relaxed(processor: u32) -> Call {
        Call::of(raw::CALL_RELAXED, processor)
    }

    /// The begin of a Remove, as [`crate::Queue::begin_remove`].
    pub const fn remove(processor: u32, due: u32, ticket: u32) -> Call {
        Call {
            kind: raw::CALL_REMOVE,
            processor,
            due,
            // a list has the ticket where an Insert has its item
            item: ticket,
            height: 0,
        }
    }

    /// The next step of a processor's operation, as [`crate::Queue::step`].
    pub const fn step(processor: u32) -> Call {
        Call::of(raw::CALL_STEP, processor)
    }

    const fn of(kind: u32, processor: u32) -> Call {
        Call {
            kind,
            processor,
            due: 0,
            item: 0,
            height: 0,
        }
    }
}

/// What an accepted call of a list did.
#[derive(Clone, Copy, PartialEq, Eq, Hash, Debug)]
pub enum Done {
    /// An Insert, a Delete_Min, ordinary or Relaxed, or a Remove began at this
    /// time.
    Began(u32),
    /// A step reported this.
    Stepped(Step),
}

/// The answer to a call of a list.
#[repr(C)]
#[derive(Clone, Copy, PartialEq, Eq, Hash, Debug)]
pub struct Answer {
    reply: Reply,
    clock: u32,
}

impl Answer {
    /// What stands in the place of an answer before the list is run.
    pub(crate) const OPEN: Answer = Answer {
        reply: Reply {
            code: 0,
            first: 0,
            second: 0,
            third: 0,
        },
        clock: 0,
    };

    /// What the call did, or why it was refused.
    pub fn done(&self) -> Result<Done, Refusal> {
        match self.reply.code {
            raw::ACCEPTED => Ok(Done::Began(self.reply.first)),
            _ => step(self.reply).map(Done::Stepped),
        }
    }

    /// The clock after the call.
    pub fn clock(&self) -> u32 {
        self.clock
    }
}
