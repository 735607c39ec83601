//! Darthog for hosts in Rust: a priority queue of timed withdrawals that is
//! advanced one step per call.
//!
//! A [`Queue`] owns the bytes of its image, as many as its sizes take, and lends
//! them to the calls of the proved library `libhost_calls.a`. A refused call leaves
//! the queue as it was. [`Queue::calls`] makes the calls of a list in one go,
//! [`Queue::markers`] tells which worker holds which entry,
//! [`Queue::begin_relaxed`] is for workers that may take an entry early,
//! [`Queue::begin_remove`] takes a withdrawal back, and [`raw`] has the library's
//! own functions.
//!
//! ```
//! use darthog_host::{due_minute, image_length, Entry, Queue, Refusal, Step};
//!
//! # fn main() -> Result<(), Refusal> {
//! // one processor, one entry, one level
//! let mut queue = Queue::new(1, 1, 1)?;
//!
//! // file withdrawal 42, which is due after 425 seconds: minute 7
//! let ticket = queue.begin_insert(0, due_minute(425)?, 42, 1)?;
//! let filed = Entry { due: 7, item: 42, ticket };
//! assert_eq!(queue.backlog(), Ok(0));
//! while queue.step(0)? != Step::Inserted(filed) {}
//! assert_eq!(queue.backlog(), Ok(1));
//!
//! // take it; it is no longer counted once it is marked
//! queue.begin_delete_min(0)?;
//! let taken = loop {
//!     match queue.step(0)? {
//!         Step::HandedOut(entry) => break Some(entry),
//!         Step::Empty => break None,
//!         _ => {}
//!     }
//! };
//! assert_eq!((taken, queue.backlog()), (Some(filed), Ok(0)));
//!
//! // the operation has ended
//! assert_eq!(queue.step(0), Err(Refusal::Idle));
//!
//! // the bytes are all that a host keeps over a restart
//! let kept = queue.as_bytes().to_vec();
//! assert_eq!(Some(kept.len()), image_length(1, 1));
//! assert_eq!(Queue::from_bytes(&kept), Ok(queue));
//! # Ok(())
//! # }
//! ```

#![warn(missing_docs)]

mod answers;
mod lists;
mod queue;
pub mod raw;

pub use answers::{Entry, Marker, Refusal, Step};
pub use lists::{Answer, Call, Done};
pub use queue::{due_minute, image_length, Queue};
pub use raw::MAX_IMAGE_LENGTH;
