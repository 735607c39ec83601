//! A queue that owns its bytes.

use crate::answers::{refusal, step, value, Marker, Refusal, Step};
use crate::lists::{Answer, Call, NUMBERS};
use crate::raw;
use std::fmt;

/// A queue of timed withdrawals. Its bytes always are the image of a record
/// that passes the library's check 21, as many as its sizes take;
/// docs/IMAGE.md has the layout.
#[derive(Clone, PartialEq, Eq, Hash)]
pub struct Queue {
    image: Box<[u8]>,
}

impl Queue {
    /// A fresh queue for processors (1 to 16, numbered from 0), entries (1 to
    /// 200) and levels (1 to 8).
    pub fn new(processors: u32, entries: u32, levels: u32) -> Result<Queue, Refusal> {
        // sizes that have no length are refused before it is looked at
        let length = image_length(processors, entries).unwrap_or(0);
        let mut image = vec![0; length].into_boxed_slice();
        // Safe: the bytes are lent for the call, with their length.
        let code = unsafe {
            raw::darthog_make(image.as_mut_ptr(), image.len(), processors, entries, levels)
        };
        accepted(code).map(|()| Queue { image })
    }

    /// The queue with these bytes: those of [`Queue::as_bytes`], kept. Any
    /// others that the library does not take are refused with
    /// [`Refusal::BadRecord`].
    pub fn from_bytes(bytes: &[u8]) -> Result<Queue, Refusal> {
        // Safe: the bytes are lent for the call, with their length; a slice's pointer is not null.
        value(unsafe { raw::darthog_backlog(bytes.as_ptr(), bytes.len()) })?;
        Ok(Queue {
            image: Box::from(bytes),
        })
    }

    /// The bytes of the queue. Two queues are the same if and only if their
    /// bytes are.
    pub fn as_bytes(&self) -> &[u8] {
        &self.image
    }

    /// The clock: how many begins and steps were accepted since the queue was
    /// made. It is the time of the last one.
    pub fn clock(&self) -> u32 {
        u32::from_le_bytes([self.image[3], self.image[4], self.image[5], self.image[6]])
    }

    /// Begins an Insert by a processor: an entry with this due minute and
    /// item, which is not 0, linked on `height` levels. Gives the time of the
    /// call, which is the entry's ticket.
    pub fn begin_insert(
        &mut self,
        processor: u32,
        due: u32,
        item: u32,
        height: u32,
    ) -> Result<u32, Refusal> {
        // Safe: the bytes are lent for the call, with their length.
        value(unsafe {
            raw::darthog_begin_insert(
                self.image.as_mut_ptr(),
                self.image.len(),
                processor,
                due,
                item,
                height,
            )
        })
    }

    /// Begins a Delete_Min by a processor. Gives the time of the call.
    pub fn begin_delete_min(&mut self, processor: u32) -> Result<u32, Refusal> {
        // Safe: the bytes are lent for the call, with their length.
        value(unsafe {
            raw::darthog_begin_delete_min(self.image.as_mut_ptr(), self.image.len(), processor)
        })
    }

    /// Begins a Relaxed Delete_Min by a processor, for a worker that may take an
    /// entry early, as one that warms a cache. Gives the time of the call.
    ///
    /// Unlike an ordinary one it also takes entries whose Insert has not answered
    /// or answered after this begin. Nothing that was answered before this begin
    /// and is not taken comes before the entry that it takes ([`Step::Marked`]),
    /// and where it takes none ([`Step::Empty`]) nothing such was left. Its
    /// further steps may wait for the Insert of that entry, and the Insert may
    /// answer after the hand-out.
    ///
    /// ```
    /// use darthog_host::{Entry, Queue, Refusal, Step};
    ///
    /// # fn main() -> Result<(), Refusal> {
    /// // processor 0 files withdrawal 42; after six steps its node is linked
    /// let mut queue = Queue::new(2, 1, 1)?;
    /// let ticket = queue.begin_insert(0, 7, 42, 1)?;
    /// for _ in 0..6 {
    ///     assert_eq!(queue.step(0), Ok(Step::Moved));
    /// }
    /// // processor 1 takes it, and waits for the Insert before it unlinks it
    /// let early = Entry { due: 7, item: 42, ticket };
    /// queue.begin_relaxed(1)?;
    /// while queue.step(1)? != Step::Marked(early) {}
    /// while queue.step(1)? == Step::Moved {}
    /// assert_eq!(queue.step(1), Ok(Step::Waits { holder: 0 }));
    /// assert_eq!(queue.backlog(), Ok(0));
    ///
    /// // two steps more of the Insert are enough; it answers after the hand-out
    /// for _ in 0..2 {
    ///     assert_eq!(queue.step(0), Ok(Step::Moved));
    /// }
    /// while queue.step(1)? != Step::HandedOut(early) {}
    /// assert_eq!(queue.step(0), Ok(Step::Inserted(early)));
    /// # Ok(())
    /// # }
    /// ```
    pub fn begin_relaxed(&mut self, processor: u32) -> Result<u32, Refusal> {
        // Safe: the bytes are lent for the call, with their length.
        value(unsafe {
            raw::darthog_begin_relaxed(self.image.as_mut_ptr(), self.image.len(), processor)
        })
    }

    /// Begins a Remove by a processor: the entry with this due minute and ticket is
    /// to be taken back. The ticket is what [`Queue::begin_insert`] gave. Gives the
    /// time of the call.
    ///
    /// Where the entry's Insert had answered before this begin and nobody has
    /// taken it, the Remove takes it ([`Step::Marked`]), and after further steps,
    /// which may wait, it is out of the queue ([`Step::TakenBack`]). Else the
    /// Remove ends with [`Step::NotThere`]. A ticket that no entry has is no
    /// refusal, nor one above the clock.
    ///
    /// ```
    /// use darthog_host::{Entry, Queue, Refusal, Step};
    ///
    /// # fn main() -> Result<(), Refusal> {
    /// // withdrawal 42 is filed; then its studio renews
    /// let mut queue = Queue::new(2, 1, 1)?;
    /// let ticket = queue.begin_insert(0, 7, 42, 1)?;
    /// while !matches!(queue.step(0)?, Step::Inserted(_)) {}
    /// let renewed = Entry { due: 7, item: 42, ticket };
    /// queue.begin_remove(1, 7, ticket)?;
    /// while queue.step(1)? != Step::Marked(renewed) {}
    /// assert_eq!(queue.backlog(), Ok(0));
    /// while queue.step(1)? != Step::TakenBack(renewed) {}
    ///
    /// // nobody is handed it, and it is not there any more
    /// queue.begin_delete_min(0)?;
    /// while queue.step(0)? != Step::Empty {}
    /// queue.begin_remove(1, 7, ticket)?;
    /// while queue.step(1)? != (Step::NotThere { due: 7, ticket }) {}
    /// # Ok(())
    /// # }
    /// ```
    pub fn begin_remove(&mut self, processor: u32, due: u32, ticket: u32) -> Result<u32, Refusal> {
        // Safe: the bytes are lent for the call, with their length.
        value(unsafe {
            raw::darthog_begin_remove(
                self.image.as_mut_ptr(),
                self.image.len(),
                processor,
                due,
                ticket,
            )
        })
    }

    /// The next step of a processor's operation. One that waits tells for whom
    /// ([`Step::Waits`]).
    ///
    /// ```
    /// use darthog_host::{Queue, Refusal, Step};
    ///
    /// # fn main() -> Result<(), Refusal> {
    /// // both file a withdrawal; after three steps processor 1 has a lock
    /// let mut queue = Queue::new(2, 2, 1)?;
    /// queue.begin_insert(1, 7, 42, 1)?;
    /// queue.begin_insert(0, 8, 43, 1)?;
    /// for _ in 0..3 {
    ///     assert_eq!(queue.step(1), Ok(Step::Moved));
    /// }
    /// while queue.step(0)? == Step::Moved {}
    /// assert_eq!(queue.step(0), Ok(Step::Waits { holder: 1 }));
    ///
    /// // steps of the holder free it
    /// while !matches!(queue.step(1)?, Step::Inserted(_)) {}
    /// assert_eq!(queue.step(0), Ok(Step::Moved));
    /// # Ok(())
    /// # }
    /// ```
    pub fn step(&mut self, processor: u32) -> Result<Step, Refusal> {
        // Safe: the bytes are lent for the call, with their length.
        step(unsafe { raw::darthog_step(self.image.as_mut_ptr(), self.image.len(), processor) })
    }

    /// Makes the calls of a list, one after the other, and gives an answer for
    /// each. The library tests the bytes once for all of them, where single
    /// calls test them each time. A refused call changes nothing, and the list
    /// goes on behind it.
    ///
    /// ```
    /// use darthog_host::{Call, Done, Queue, Refusal, Step};
    ///
    /// # fn main() -> Result<(), Refusal> {
    /// let mut queue = Queue::new(2, 1, 1)?;
    /// let answers = queue.calls(&[
    ///     Call::insert(0, 7, 42, 1),
    ///     Call::insert(1, 8, 43, 1),
    ///     Call::step(0),
    /// ])?;
    /// assert_eq!(answers[0].done(), Ok(Done::Began(1)));
    /// // the only node is taken, and the clock stands
    /// assert_eq!(answers[1].done(), Err(Refusal::NoNode));
    /// assert_eq!(answers[1].clock(), 1);
    /// assert_eq!(answers[2].done(), Ok(Done::Stepped(Step::Moved)));
    /// assert_eq!(answers[2].clock(), 2);
    /// # Ok(())
    /// # }
    /// ```
    pub fn calls(&mut self, calls: &[Call]) -> Result<Vec<Answer>, Refusal> {
        let mut answers = vec![Answer::OPEN; calls.len()];
        // Safe: bytes, calls and answers are lent for the call, with their
        // lengths, and share no memory; a call is five numbers, and so is an
        // answer.
        let code = unsafe {
            raw::darthog_calls(
                self.image.as_mut_ptr(),
                self.image.len(),
                calls.as_ptr().cast(),
                calls.len() * NUMBERS,
                answers.as_mut_ptr().cast(),
                answers.len() * NUMBERS,
            )
        };
        accepted(code).map(|()| answers)
    }

    /// How many entries are filed and not yet taken: an entry counts from the
    /// answer to its Insert ([`Step::Inserted`]) until a Delete_Min, ordinary or
    /// Relaxed, or a Remove marks it ([`Step::Marked`]). One that is marked before
    /// that answer never counts.
    ///
    /// It keeps its node longer, from the begin of its Insert until it is handed
    /// out or taken back: a small count does not say that an Insert finds a node.
    pub fn backlog(&self) -> Result<u32, Refusal> {
        // Safe: the bytes are lent for the call, with their length.
        value(unsafe { raw::darthog_backlog(self.image.as_ptr(), self.image.len()) })
    }

    /// Which worker holds which entry that is not handed out or taken back yet: the
    /// nodes in use, in the order of their numbers, each with the processor that
    /// has marked its entry.
    ///
    /// A node is in use from the begin of its Insert until its entry is handed out
    /// or taken back. Its marker is the processor whose Delete_Min, ordinary or
    /// Relaxed, or Remove took the entry ([`Step::Marked`]), and stays that until
    /// the end ([`Step::HandedOut`], [`Step::TakenBack`]).
    ///
    /// ```
    /// use darthog_host::{Marker, Queue, Refusal, Step};
    ///
    /// # fn main() -> Result<(), Refusal> {
    /// // processor 0 files two withdrawals, and processor 1 takes the first
    /// let mut queue = Queue::new(2, 3, 1)?;
    /// for (due, item) in [(7, 42), (8, 43)] {
    ///     queue.begin_insert(0, due, item, 1)?;
    ///     while !matches!(queue.step(0)?, Step::Inserted(_)) {}
    /// }
    /// queue.begin_delete_min(1)?;
    /// while !matches!(queue.step(1)?, Step::Marked(_)) {}
    /// let taken = Marker { node: 1, marker: Some(1) };
    /// let free = Marker { node: 2, marker: None };
    /// assert_eq!(queue.markers(), Ok(vec![taken, free]));
    ///
    /// // delivered, it is nobody's any more
    /// while !matches!(queue.step(1)?, Step::HandedOut(_)) {}
    /// assert_eq!(queue.markers(), Ok(vec![free]));
    /// # Ok(())
    /// # }
    /// ```
    pub fn markers(&self) -> Result<Vec<Marker>, Refusal> {
        // two bytes for each entry that the queue is made for
        let mut area = vec![0; 2 * usize::from(self.image[1])];
        // Safe: bytes and area are lent for the call, with their lengths, and
        // share no memory.
        let nodes = value(unsafe {
            raw::darthog_markers(
                self.image.as_ptr(),
                self.image.len(),
                area.as_mut_ptr(),
                area.len(),
            )
        })?;
        let told = area.chunks_exact(2).take(nodes as usize);
        let of = |pair: &[u8]| Marker {
            node: pair[0],
            marker: (pair[1] != raw::NO_MARKER).then_some(pair[1]),
        };
        Ok(told.map(of).collect())
    }
}

/// Sizes and clock; the bytes would be too many to read.
impl fmt::Debug for Queue {
    fn fmt(&self, f: &mut fmt::Formatter<'_>) -> fmt::Result {
        f.debug_struct("Queue")
            .field("processors", &self.image[0])
            .field("entries", &self.image[1])
            .field("levels", &self.image[2])
            .field("clock", &self.clock())
            .finish_non_exhaustive()
    }
}

/// The length of a queue's bytes for processors (1 to 16) and entries (1 to
/// 200); none for other sizes, which no queue has.
pub fn image_length(processors: u32, entries: u32) -> Option<usize> {
    // Safe: the call takes numbers and touches no memory of the host's.
    match unsafe { raw::darthog_image_length(processors, entries) } {
        0 => None,
        length => Some(length),
    }
}

/// Nothing, or the refusal of a code.
fn accepted(code: u32) -> Result<(), Refusal> {
    match code {
        raw::ACCEPTED => Ok(()),
        code => Err(refusal(code)),
    }
}

/// The due minute of a count of seconds: the minute nearest to it. Half a minute
/// goes to the even one of its two minutes: 89 seconds are 1, 90 and 150 are 2.
///
/// Refused above 59,999,969 seconds ([`Refusal::TooLarge`]): they are nearest to
/// a minute above 999,999.
pub fn due_minute(seconds: u64) -> Result<u32, Refusal> {
    // Safe: the call takes a number and touches no memory of the host's.
    value(unsafe { raw::darthog_due(seconds) })
}
