//! The functions of the static library as include/darthog.h declares them.
//!
//! A test compares these declarations with the header and with the source.

/// How many bytes the largest image has, that of a queue for 16 processors and
/// 200 entries.
pub const MAX_IMAGE_LENGTH: usize = 8705;

/// What a call gives back: a code, and the values that belong to it. A value
/// that a code has not is 0; a refusal has three zeros.
#[repr(C)]
#[derive(Clone, Copy, PartialEq, Eq, Hash, Debug)]
pub struct Reply {
    /// 0 to 8 for an accepted call, else the refusal's number.
    pub code: u32,
    /// A begin's time, a backlog, how many nodes have markers told, a due
    /// minute, an entry's due minute, or the processor that a step waits for.
    pub first: u32,
    /// An entry's item, or the ticket that a Remove did not find.
    pub second: u32,
    /// An entry's ticket.
    pub third: u32,
}

/// A begin, a Backlog, markers or a due minute was accepted.
pub const ACCEPTED: u32 = 0;
/// The operation went on.
pub const MOVED: u32 = 1;
/// A lock is held, by the processor that the reply tells first.
pub const WAITS: u32 = 2;
/// The Delete_Min, ordinary or Relaxed, ended without an entry.
pub const EMPTY: u32 = 3;
/// The Delete_Min, ordinary or Relaxed, or the Remove took an entry.
pub const MARKED: u32 = 4;
/// The Insert ended.
pub const INSERTED: u32 = 5;
/// The Delete_Min, ordinary or Relaxed, ended with an entry.
pub const HANDED_OUT: u32 = 6;
/// The Remove ended: its entry is taken back.
pub const TAKEN_BACK: u32 = 7;
/// The Remove ended without an entry; the reply tells the due minute and the
/// ticket that it looked for.
pub const NOT_THERE: u32 = 8;

/// The kind of a call in a list that begins an Insert.
pub const CALL_INSERT: u32 = 1;
/// The kind of a call in a list that begins a Delete_Min.
pub const CALL_DELETE_MIN: u32 = 2;
/// A kind that is a step, as every kind is that begins nothing.
pub const CALL_STEP: u32 = 3;
/// The kind of a call in a list that begins a Relaxed Delete_Min.
pub const CALL_RELAXED: u32 = 4;
/// The kind of a call in a list that begins a Remove, with its ticket in the place
/// of an item.
pub const CALL_REMOVE: u32 = 5;

/// What stands for the processor in the markers where nobody has marked the
/// node.
pub const NO_MARKER: u8 = 255;

// In every call the host owes: `image` is not null and points to `length`
// bytes that may be read, and written where it is `*mut`; no other thread
// reads or writes them during the call. The same goes for the area of
// `darthog_markers`, which shares no memory with the image, and for the lists
// of `darthog_calls`, whose lengths count numbers: they are aligned, and
// neither the image nor the answers share memory with another of the three.
// Nothing else is asked.
extern "C" {
    /// The length of an image for so many processors and entries; 0 where no
    /// queue has these sizes.
    pub fn darthog_image_length(processors: u32, entries: u32) -> usize;

    /// Makes a queue in these bytes. 0, or 11, 12, 13 or 21.
    pub fn darthog_make(
        image: *mut u8,
        length: usize,
        processors: u32,
        entries: u32,
        levels: u32,
    ) -> u32;

    /// Begins an Insert by a processor.
    pub fn darthog_begin_insert(
        image: *mut u8,
        length: usize,
        processor: u32,
        due: u32,
        item: u32,
        height: u32,
    ) -> Reply;

    /// Begins a Delete_Min by a processor.
    pub fn darthog_begin_delete_min(image: *mut u8, length: usize, processor: u32) -> Reply;

    /// Begins a Relaxed Delete_Min by a processor.
    pub fn darthog_begin_relaxed(image: *mut u8, length: usize, processor: u32) -> Reply;

    /// Begins a Remove by a processor, of the entry with this due minute and
    /// ticket.
    pub fn darthog_begin_remove(
        image: *mut u8,
        length: usize,
        processor: u32,
        due: u32,
        ticket: u32,
    ) -> Reply;

    /// The next step of a processor's operation. One that waits tells who holds
    /// the lock.
    pub fn darthog_step(image: *mut u8, length: usize, processor: u32) -> Reply;

    /// Makes the calls of a list: kind, processor, due, item and height of
    /// each. Its answers are code, first, second and third as in [`Reply`] and
    /// the clock after the call. 0, or 21.
    pub fn darthog_calls(
        image: *mut u8,
        length: usize,
        calls: *const u32,
        calls_length: usize,
        answers: *mut u32,
        answers_length: usize,
    ) -> u32;

    /// How many entries are answered and not marked.
    pub fn darthog_backlog(image: *const u8, length: usize) -> Reply;

    /// Writes two bytes for each node in use to the front of the area: its
    /// number, and the processor that has marked it or [`NO_MARKER`]. Gives how
    /// many nodes these are.
    pub fn darthog_markers(
        image: *const u8,
        length: usize,
        area: *mut u8,
        area_length: usize,
    ) -> Reply;

    /// The due minute of a count of seconds: the nearest, half a minute to the
    /// even one.
    pub fn darthog_due(seconds: u64) -> Reply;
}
