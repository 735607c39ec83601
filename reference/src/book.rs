//! The book of document 01, with the Relaxed Delete_Min and the Remove of document
//! 02 (W3, W5). It is fed calls and what they gave back, and never sees the
//! record.

use crate::answer::{Answer, Entry};
use crate::calls::{Call, Outcome};
use crate::markers::Listing;
use crate::queue::MAX_PROCESSORS;

/// An entry that was not both answered and handed out or taken back yet.
#[derive(Clone, Copy, PartialEq, Eq, Debug)]
pub struct Written {
    /// Due, item and ticket.
    pub entry: Entry,
    /// When its Insert answered, if it has.
    pub answered: Option<u32>,
    /// Whether a Delete_Min, ordinary or Relaxed, or a Remove marked it.
    pub marked: bool,
    /// Whether it was handed out; its Insert has still to answer then.
    pub handed_out: bool,
    /// Whether it was taken back. (Its Insert had answered, so that it leaves the
    /// book in the same call.)
    pub taken_back: bool,
}

impl Written {
    /// Whether it has left the queue, in either way.
    fn is_gone(&self) -> bool {
        self.handed_out || self.taken_back
    }

    /// Whether it was answered before this begin and nobody has marked it.
    fn is_free_before(&self, begin: u32) -> bool {
        !self.marked && self.answered.is_some_and(|time| time < begin)
    }
}

/// What a processor has open.
#[derive(Clone, Copy, PartialEq, Eq, Debug)]
pub enum Open {
    /// Nothing.
    Nothing,
    /// The Insert of the entry with this ticket.
    Insert(u32),
    /// A Delete_Min begun at `begin`, and the ticket of what it marked; a
    /// Relaxed one too once it has marked.
    DeleteMin {
        /// Its begin time.
        begin: u32,
        /// The ticket of the entry that it marked.
        marked: Option<u32>,
    },
    /// A Relaxed Delete_Min begun at this time that has marked nothing.
    Relaxed(u32),
    /// A Remove (document 02, W5).
    Remove {
        /// Its begin time.
        begin: u32,
        /// The due minute that it looks for.
        due: u32,
        /// The ticket that it looks for.
        ticket: u32,
        /// Whether it has marked the entry of that key.
        marked: bool,
    },
}

/// Which rule of the book an answer does not keep.
pub type Fault = &'static str;

/// The book. Entries stand in the order of their tickets; one that was answered
/// and handed out, in whichever order, or taken back is struck, since no rule can
/// speak of it again.
#[derive(Clone, PartialEq, Eq, Debug)]
pub struct Book {
    /// How many begins and steps were accepted.
    pub count: u32,
    /// The entries, but those that were answered and handed out or taken back.
    pub entries: Vec<Written>,
    /// What each processor has open.
    pub open: [Open; MAX_PROCESSORS],
}

impl Default for Book {
    fn default() -> Book {
        Book::new()
    }
}

impl Book {
    /// The book before the first call.
    pub fn new() -> Book {
        Book {
            count: 0,
            entries: Vec::new(),
            open: [Open::Nothing; MAX_PROCESSORS],
        }
    }

    /// Enters one call and what it gave back, or tells which rule it breaks.
    pub fn enter(&mut self, call: &Call, outcome: &Outcome) -> Result<(), Fault> {
        match (*call, outcome) {
            (_, Outcome::Refused(_)) => Ok(()),
            (Call::Backlog, Outcome::Count(count)) if *count == self.pending() => Ok(()),
            (Call::Backlog, Outcome::Count(_)) => Err("a backlog of another number of entries"),
            (Call::Markers { .. }, Outcome::Listed(listing)) => self.listed(listing),
            (
                Call::Insert {
                    processor,
                    due,
                    item,
                    ..
                },
                &Outcome::Began(time),
            ) => self.begin_insert(processor, due, item, time),
            (Call::DeleteMin { processor }, &Outcome::Began(time)) => {
                let p = self.begin(processor, time)?;
                self.open[p] = Open::DeleteMin {
                    begin: time,
                    marked: None,
                };
                Ok(())
            }
            (Call::Relaxed { processor }, &Outcome::Began(time)) => {
                let p = self.begin(processor, time)?;
                self.open[p] = Open::Relaxed(time);
                Ok(())
            }
            (
                Call::Remove {
                    processor,
                    due,
                    ticket,
                },
                &Outcome::Began(time),
            ) => self.begin_remove(processor, due, ticket, time),
            (Call::Step { processor }, &Outcome::Stepped(answer)) => self.step(processor, answer),
            _ => Err("the call cannot give this back"),
        }
    }

    fn begin_remove(&mut self, p: u64, due: u64, ticket: u64, time: u32) -> Result<(), Fault> {
        let p = self.begin(p, time)?;
        let (Ok(due), Ok(ticket)) = (u32::try_from(due), u32::try_from(ticket)) else {
            return Err("a key was accepted that no answer can give");
        };
        self.open[p] = Open::Remove {
            begin: time,
            due,
            ticket,
            marked: false,
        };
        Ok(())
    }

    fn begin_insert(&mut self, p: u64, due: u64, item: u64, time: u32) -> Result<(), Fault> {
        let p = self.begin(p, time)?;
        let (Ok(due), Ok(item)) = (u32::try_from(due), u32::try_from(item)) else {
            return Err("an entry was accepted that no answer can give");
        };
        let entry = Entry {
            due,
            item,
            ticket: time,
        };
        self.entries.push(Written {
            entry,
            answered: None,
            marked: false,
            handed_out: false,
            taken_back: false,
        });
        self.open[p] = Open::Insert(time);
        Ok(())
    }

    /// The earliest by due, then ticket, of the entries answered before
    /// `begin` and not marked.
    pub fn pick(&self, begin: u32) -> Option<Entry> {
        self.entries
            .iter()
            .filter(|written| written.is_free_before(begin))
            .map(|written| written.entry)
            .min_by_key(|entry| (entry.due, entry.ticket))
    }

    /// How many entries are neither handed out nor taken back.
    pub fn held(&self) -> usize {
        self.entries
            .iter()
            .filter(|written| !written.is_gone())
            .count()
    }

    /// How many entries are answered and not marked: what Backlog must give
    /// (document 02, W2). Entries that were handed out or taken back are marked,
    /// and one that a Relaxed Delete_Min marked before its answer is never counted.
    pub fn pending(&self) -> u32 {
        self.entries
            .iter()
            .filter(|written| written.answered.is_some() && !written.marked)
            .count() as u32
    }

    /// The ticket of the entry that a processor has marked and not yet handed
    /// out or taken back.
    pub fn delivering(&self, p: usize) -> Option<u32> {
        match self.open[p] {
            Open::DeleteMin { marked, .. } => marked,
            Open::Remove { ticket, marked, .. } => marked.then_some(ticket),
            Open::Nothing | Open::Insert(_) | Open::Relaxed(_) => None,
        }
    }

    /// As many nodes are told of as entries are not handed out or taken back, and
    /// each processor stands there as a marker once if it delivers one of them,
    /// and else never (document 02, W6).
    fn listed(&self, listing: &Listing) -> Result<(), Fault> {
        if listing.nodes as usize != self.held() {
            return Err("markers of another number of entries");
        }
        for p in 0..MAX_PROCESSORS {
            let times = listing
                .pairs()
                .filter(|(_, marker)| usize::from(*marker) == p)
                .count();
            match (times, self.delivering(p)) {
                (1, Some(_)) | (0, None) => {}
                (0, Some(_)) => return Err("markers without one that delivers an entry"),
                (_, None) => return Err("markers with one that delivers nothing"),
                (_, Some(_)) => return Err("markers with one that stands there twice"),
            }
        }
        Ok(())
    }

    /// Where the entry with this ticket stands.
    pub fn find(&self, ticket: u32) -> Option<usize> {
        self.entries
            .binary_search_by_key(&ticket, |written| written.entry.ticket)
            .ok()
    }

    fn begin(&mut self, processor: u64, time: u32) -> Result<usize, Fault> {
        if processor >= MAX_PROCESSORS as u64 {
            return Err("a begin of no processor was accepted");
        }
        if self.open[processor as usize] != Open::Nothing {
            return Err("a begin was accepted where something is open");
        }
        self.count += 1;
        if time != self.count {
            return Err("a begin gave another time than the count");
        }
        Ok(processor as usize)
    }

    fn step(&mut self, processor: u64, answer: Answer) -> Result<(), Fault> {
        if processor >= MAX_PROCESSORS as u64 {
            return Err("a step of no processor was accepted");
        }
        let p = processor as usize;
        if self.open[p] == Open::Nothing {
            return Err("a step was accepted where nothing is open");
        }
        self.count += 1;
        match answer {
            Answer::Moved | Answer::Waits { .. } => Ok(()),
            Answer::Inserted(entry) => self.inserted(p, entry),
            Answer::Marked(entry) => self.marked(p, entry),
            Answer::Empty => self.empty(p),
            Answer::HandedOut(entry) => self.handed_out(p, entry),
            Answer::TakenBack(entry) => self.taken_back(p, entry),
            Answer::NotThere { due, ticket } => self.not_there(p, due, ticket),
        }
    }

    fn inserted(&mut self, p: usize, entry: Entry) -> Result<(), Fault> {
        let Open::Insert(ticket) = self.open[p] else {
            return Err("inserted, but no Insert is open");
        };
        let Some(i) = self.find(ticket) else {
            return Err("inserted, but the entry was answered already");
        };
        if self.entries[i].entry != entry {
            return Err("inserted, but not the entry of this Insert");
        }
        self.entries[i].answered = Some(self.count);
        self.strike(i);
        self.open[p] = Open::Nothing;
        Ok(())
    }

    /// An entry that is answered and handed out or taken back is struck.
    fn strike(&mut self, i: usize) {
        let written = &self.entries[i];
        if written.is_gone() && written.answered.is_some() {
            self.entries.remove(i);
        }
    }

    fn marked(&mut self, p: usize, entry: Entry) -> Result<(), Fault> {
        let marked = Some(entry.ticket);
        let open = match self.open[p] {
            Open::DeleteMin {
                begin,
                marked: None,
            } => {
                self.is_the_pick(begin, entry)?;
                Open::DeleteMin { begin, marked }
            }
            Open::Relaxed(begin) => {
                self.may_be_relaxed(begin, entry)?;
                Open::DeleteMin { begin, marked }
            }
            Open::Remove {
                begin,
                due,
                ticket,
                marked: false,
            } => {
                self.may_be_removed(begin, (due, ticket), entry)?;
                Open::Remove {
                    begin,
                    due,
                    ticket,
                    marked: true,
                }
            }
            _ => return Err("marked, but no Delete_Min is open with nothing marked"),
        };
        if let Some(i) = self.find(entry.ticket) {
            self.entries[i].marked = true;
        }
        self.open[p] = open;
        Ok(())
    }

    /// What a Remove may mark (document 02, W5): the entry of the key that it
    /// looks for, answered before the begin and unmarked.
    fn may_be_removed(&self, begin: u32, key: (u32, u32), entry: Entry) -> Result<(), Fault> {
        if (entry.due, entry.ticket) != key {
            return Err("marked, but not the key of this Remove");
        }
        let found = self.find(entry.ticket).map(|i| &self.entries[i]);
        match found {
            Some(written) if written.entry != entry => Err("marked, but no such entry is written"),
            None => Err("marked, but no such entry is written"),
            Some(written) if written.marked => Err("marked, but it was marked before"),
            Some(written) if !written.is_free_before(begin) => {
                Err("marked, but it was not answered before the begin")
            }
            Some(_) => Ok(()),
        }
    }

    /// N: no entry of this key that was answered before the begin is unmarked.
    fn not_there(&mut self, p: usize, told_due: u32, told_ticket: u32) -> Result<(), Fault> {
        let Open::Remove {
            begin,
            due,
            ticket,
            marked: false,
        } = self.open[p]
        else {
            return Err("not there, but no Remove is open with nothing marked");
        };
        if (told_due, told_ticket) != (due, ticket) {
            return Err("not there, but another key than that of this Remove");
        }
        let is_free = |written: &Written| {
            let key = (written.entry.due, written.entry.ticket);
            key == (due, ticket) && written.is_free_before(begin)
        };
        if self.entries.iter().any(is_free) {
            return Err("not there, but it was answered before the begin and is unmarked");
        }
        self.open[p] = Open::Nothing;
        Ok(())
    }

    /// U: the entry that this Remove marked leaves the queue.
    fn taken_back(&mut self, p: usize, entry: Entry) -> Result<(), Fault> {
        let Open::Remove {
            ticket,
            marked: true,
            ..
        } = self.open[p]
        else {
            return Err("taken back, but no Remove is open that marked");
        };
        let Some(i) = self.find(ticket) else {
            return Err("taken back, but it was handed out or taken back before");
        };
        if self.entries[i].is_gone() {
            return Err("taken back, but it was handed out or taken back before");
        }
        if self.entries[i].entry != entry {
            return Err("taken back, but not the entry that was marked");
        }
        self.entries[i].taken_back = true;
        self.strike(i);
        self.open[p] = Open::Nothing;
        Ok(())
    }

    /// What an ordinary Delete_Min may mark: its pick.
    fn is_the_pick(&self, begin: u32, entry: Entry) -> Result<(), Fault> {
        match self.pick(begin) {
            None => Err("marked, but there is no pick"),
            Some(pick) if pick != entry => Err("marked, but not the pick"),
            Some(_) => Ok(()),
        }
    }

    /// What a Relaxed Delete_Min may mark (document 02, W3): an entry that is
    /// written, answered or not, and unmarked, if none of the unmarked ones that
    /// were answered before the begin is earlier.
    fn may_be_relaxed(&self, begin: u32, entry: Entry) -> Result<(), Fault> {
        let Some(i) = self.find(entry.ticket) else {
            return Err("marked, but no such entry is written");
        };
        if self.entries[i].entry != entry {
            return Err("marked, but no such entry is written");
        }
        if self.entries[i].marked {
            return Err("marked, but it was marked before");
        }
        let earlier = |written: &Written| {
            let Written { entry: other, .. } = written;
            let before = (other.due, other.ticket) < (entry.due, entry.ticket);
            before && written.is_free_before(begin)
        };
        if self.entries.iter().any(earlier) {
            return Err("marked, but an entry answered before the begin is earlier");
        }
        Ok(())
    }

    fn empty(&mut self, p: usize) -> Result<(), Fault> {
        match self.open[p] {
            Open::DeleteMin {
                begin,
                marked: None,
            } if self.pick(begin).is_some() => return Err("EMPTY, but there is a pick"),
            Open::Relaxed(begin) if self.left_before(begin) => {
                return Err("EMPTY, but an entry answered before the begin is left")
            }
            Open::DeleteMin { marked: None, .. } | Open::Relaxed(_) => {}
            _ => return Err("EMPTY, but no Delete_Min is open with nothing marked"),
        }
        self.open[p] = Open::Nothing;
        Ok(())
    }

    /// Whether an unmarked entry was answered before this begin.
    fn left_before(&self, begin: u32) -> bool {
        self.entries
            .iter()
            .any(|written| written.is_free_before(begin))
    }

    fn handed_out(&mut self, p: usize, entry: Entry) -> Result<(), Fault> {
        let Open::DeleteMin {
            marked: Some(ticket),
            ..
        } = self.open[p]
        else {
            return Err("handed out, but no Delete_Min is open that marked");
        };
        let Some(i) = self.find(ticket) else {
            return Err("handed out, but it was handed out before");
        };
        if self.entries[i].is_gone() {
            return Err("handed out, but it was handed out before");
        }
        if self.entries[i].entry != entry {
            return Err("handed out, but not the entry that was marked");
        }
        self.entries[i].handed_out = true;
        self.strike(i);
        self.open[p] = Open::Nothing;
        Ok(())
    }
}
