//! What an accepted step reports.

/// An entry as the answers tell it.
#[derive(Clone, Copy, PartialEq, Eq, Debug)]
pub struct Entry {
    /// The due minute.
    pub due: u32,
    /// The item.
    pub item: u32,
    /// The time at which its Insert began.
    pub ticket: u32,
}

/// What an accepted step reports.
#[derive(Clone, Copy, PartialEq, Eq, Debug)]
pub enum Answer {
    /// The operation went on.
    Moved,
    /// A lock is held; nothing but the clock changed (document 02, W1).
    Waits {
        /// The processor that holds it.
        holder: u8,
    },
    /// The Delete_Min, ordinary or Relaxed, ended without an entry.
    Empty,
    /// The Delete_Min, ordinary or Relaxed, or the Remove took this entry.
    Marked(Entry),
    /// The Insert ended.
    Inserted(Entry),
    /// The Delete_Min ended with this entry.
    HandedOut(Entry),
    /// The Remove ended: this entry is taken back (document 02, W5).
    TakenBack(Entry),
    /// The Remove ended without an entry: none of this key was answered before
    /// it began, or another has marked it.
    NotThere {
        /// The due minute that it looked for.
        due: u32,
        /// The ticket that it looked for.
        ticket: u32,
    },
}
