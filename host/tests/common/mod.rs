//! What the tests share: lent bytes between guards, the library's entries as
//! one call, lists of calls, what the reference says about both, and counts.
//!
//! An image has no slot past P and N+1: a record that is read from bytes has
//! these as made, whatever they held in the record that was written.

#![allow(dead_code)]

use darthog_host::raw::{self, Reply};
use darthog_host::{Done, Refusal};
use darthog_reference::calls::{Call as ReferenceCall, Outcome};
use darthog_reference::image;
use darthog_reference::lists;
use darthog_reference::queue::{fresh, Queue};
use darthog_reference::random::Random;
use darthog_reference::stated::lists::{split, Turn};
use darthog_reference::stated::relaxed::{stated, Counted};
use darthog_reference::stated::waiting::Run;
use std::collections::BTreeMap;

/// The seed of a test: DARTHOG_SEED if it is set. It is printed.
pub fn seed() -> u64 {
    let seed = match std::env::var("DARTHOG_SEED") {
        Ok(word) => word.parse().expect("DARTHOG_SEED is a number"),
        Err(_) => 1,
    };
    println!("DARTHOG_SEED={seed}");
    seed
}

/// A call of the C interface that is lent bytes. Numbers may have any value.
#[derive(Clone, Copy, PartialEq, Eq, Debug)]
pub enum Call {
    /// Making, for processors, entries and levels.
    Make(u32, u32, u32),
    /// The begin of an Insert: processor, due, item, height.
    Insert(u32, u32, u32, u32),
    /// The begin of a Delete_Min.
    DeleteMin(u32),
    /// A step.
    Step(u32),
    /// Backlog.
    Backlog,
    /// Markers, with an area of so many bytes.
    Markers(u32),
    /// The begin of a Relaxed Delete_Min.
    Relaxed(u32),
    /// The begin of a Remove: processor, due, ticket.
    Remove(u32, u32, u32),
}

/// The entries that are lent bytes, as counts name them.
pub const ENTRIES: [&str; 8] = [
    "make",
    "insert",
    "delete_min",
    "step",
    "backlog",
    "markers",
    "relaxed",
    "remove",
];

impl Call {
    /// The entry, as counts name it.
    pub fn entry(&self) -> &'static str {
        match self {
            Call::Make(..) => ENTRIES[0],
            Call::Insert(..) => ENTRIES[1],
            Call::DeleteMin(_) => ENTRIES[2],
            Call::Step(_) => ENTRIES[3],
            Call::Backlog => ENTRIES[4],
            Call::Markers(_) => ENTRIES[5],
            Call::Relaxed(_) => ENTRIES[6],
            Call::Remove(..) => ENTRIES[7],
        }
    }

    /// Whether the call changes no record.
    pub fn only_reads(&self) -> bool {
        matches!(self, Call::Backlog | Call::Markers(_))
    }

    /// The call of a schedule; a number that 32 bits do not hold becomes the
    /// greatest that they do.
    pub fn of(call: &ReferenceCall) -> Call {
        let cut = |number: u64| u32::try_from(number).unwrap_or(u32::MAX);
        match *call {
            ReferenceCall::Insert {
                processor,
                due,
                item,
                height,
            } => Call::Insert(cut(processor), cut(due), cut(item), cut(height)),
            ReferenceCall::DeleteMin { processor } => Call::DeleteMin(cut(processor)),
            ReferenceCall::Relaxed { processor } => Call::Relaxed(cut(processor)),
            ReferenceCall::Remove {
                processor,
                due,
                ticket,
            } => Call::Remove(cut(processor), cut(due), cut(ticket)),
            ReferenceCall::Step { processor } => Call::Step(cut(processor)),
            ReferenceCall::Backlog => Call::Backlog,
            ReferenceCall::Markers { room } => Call::Markers(cut(room as u64)),
        }
    }

    /// The five numbers of the call in a list; none for making, Backlog and
    /// markers, which no list has.
    pub fn numbers(&self) -> Option<[u32; 5]> {
        match *self {
            Call::Make(..) | Call::Backlog | Call::Markers(_) => None,
            Call::Insert(processor, due, item, height) => {
                Some([raw::CALL_INSERT, processor, due, item, height])
            }
            Call::DeleteMin(processor) => Some([raw::CALL_DELETE_MIN, processor, 0, 0, 0]),
            Call::Relaxed(processor) => Some([raw::CALL_RELAXED, processor, 0, 0, 0]),
            Call::Remove(processor, due, ticket) => {
                Some([raw::CALL_REMOVE, processor, due, ticket, 0])
            }
            Call::Step(processor) => Some([raw::CALL_STEP, processor, 0, 0, 0]),
        }
    }

    /// The reference's call; none for making.
    pub fn of_reference(&self) -> Option<ReferenceCall> {
        Some(match *self {
            Call::Make(..) => return None,
            Call::Insert(processor, due, item, height) => ReferenceCall::Insert {
                processor: u64::from(processor),
                due: u64::from(due),
                item: u64::from(item),
                height: u64::from(height),
            },
            Call::DeleteMin(processor) => ReferenceCall::DeleteMin {
                processor: u64::from(processor),
            },
            Call::Relaxed(processor) => ReferenceCall::Relaxed {
                processor: u64::from(processor),
            },
            Call::Remove(processor, due, ticket) => ReferenceCall::Remove {
                processor: u64::from(processor),
                due: u64::from(due),
                ticket: u64::from(ticket),
            },
            Call::Step(processor) => ReferenceCall::Step {
                processor: u64::from(processor),
            },
            Call::Backlog => ReferenceCall::Backlog,
            Call::Markers(room) => ReferenceCall::Markers {
                room: room as usize,
            },
        })
    }
}

/// Bytes between guards. The guards' lengths vary, so that the bytes start at
/// every alignment.
pub struct Lent {
    bytes: Vec<u8>,
    start: usize,
    end: usize,
    /// The area of the last call for markers, with what is around it.
    pub area: Vec<u8>,
}

impl Lent {
    /// These bytes between guards.
    pub fn new(bytes: &[u8], random: &mut Random) -> Lent {
        let start = random.between(64, 80) as usize;
        let end = start + bytes.len();
        let mut all: Vec<u8> = (0..end + 64).map(guard).collect();
        all[start..end].copy_from_slice(bytes);
        Lent {
            bytes: all,
            start,
            end,
            area: Vec::new(),
        }
    }

    /// What the bytes are now.
    pub fn now(&self) -> &[u8] {
        &self.bytes[self.start..self.end]
    }

    /// Puts other bytes of the same length in their place.
    pub fn put(&mut self, bytes: &[u8]) {
        self.bytes[self.start..self.end].copy_from_slice(bytes);
    }

    /// Makes a call, and sees that both guards stand.
    pub fn call(&mut self, call: &Call) -> Reply {
        let length = self.end - self.start;
        let image = self.bytes[self.start..].as_mut_ptr();
        // Safe: `length` bytes are lent at `image`, which is not null, and so
        // many as `Markers` says at `area`, which is not null either.
        let reply = unsafe {
            match *call {
                Call::Make(p, n, l) => refused(raw::darthog_make(image, length, p, n, l)),
                Call::Insert(p, due, item, height) => {
                    raw::darthog_begin_insert(image, length, p, due, item, height)
                }
                Call::DeleteMin(p) => raw::darthog_begin_delete_min(image, length, p),
                Call::Relaxed(p) => raw::darthog_begin_relaxed(image, length, p),
                Call::Remove(p, due, ticket) => {
                    raw::darthog_begin_remove(image, length, p, due, ticket)
                }
                Call::Step(p) => raw::darthog_step(image, length, p),
                Call::Backlog => raw::darthog_backlog(image, length),
                Call::Markers(room) => {
                    self.area = untouched(room);
                    let area = self.area[MARGIN..].as_mut_ptr();
                    raw::darthog_markers(image, length, area, room as usize)
                }
            }
        };
        self.guards_stand(&format!("{call:?}"));
        reply
    }

    /// Makes the calls of a list with an area for this many numbers of answers,
    /// and sees that the guards of the bytes stand. Gives the code and the area
    /// with what is around it.
    pub fn list(&mut self, calls: &[u32], room: usize) -> (u32, Vec<u32>) {
        let length = self.end - self.start;
        let image = self.bytes[self.start..].as_mut_ptr();
        let mut area = junk(room);
        let answers = area[MARGIN..].as_mut_ptr();
        // Safe: `length` bytes are lent at `image`, and `room` numbers at
        // `answers`; no pointer is null, and no two areas are one.
        let code = unsafe {
            raw::darthog_calls(image, length, calls.as_ptr(), calls.len(), answers, room)
        };
        self.guards_stand("a list");
        (code, area)
    }

    fn guards_stand(&self, what: &str) {
        let outside = (0..self.start).chain(self.end..self.bytes.len());
        for place in outside {
            assert_eq!(self.bytes[place], guard(place), "{what} wrote past");
        }
    }
}

/// What a guard holds at a place.
fn guard(place: usize) -> u8 {
    (place as u8).wrapping_mul(151) ^ 0xa5
}

/// How many numbers stand before and after an area for answers, and how many
/// bytes before and after one for markers.
pub const MARGIN: usize = 16;

/// An area of so many bytes for markers before the call, with what is around
/// it.
pub fn untouched(room: u32) -> Vec<u8> {
    (0..MARGIN + room as usize + MARGIN).map(guard).collect()
}

/// That area with these bytes at its front.
pub fn written(room: u32, front: &[u8]) -> Vec<u8> {
    let mut area = untouched(room);
    area[MARGIN..MARGIN + front.len()].copy_from_slice(front);
    area
}

/// What the reference leaves of that area, for any bytes in place of an image.
pub fn expected_area(bytes: &[u8], room: u32) -> Vec<u8> {
    let mut area = untouched(room);
    if let Some(queue) = image::decode(bytes) {
        // A refusal leaves it as it was, and is told by `expected`.
        let _ = queue.markers(&mut area[MARGIN..MARGIN + room as usize]);
    }
    area
}

/// An area for this many numbers of answers before a list, with what is around
/// it.
pub fn junk(room: usize) -> Vec<u32> {
    let number = |place: usize| (place as u32).wrapping_mul(0x9e37_79b1) ^ 0xa5a5_a5a5;
    (0..MARGIN + room + MARGIN).map(number).collect()
}

/// An area with these answers in front, and what is around it.
pub fn area_with(answers: &[u32], room: usize) -> Vec<u32> {
    let mut area = junk(room);
    area[MARGIN..MARGIN + answers.len()].copy_from_slice(answers);
    area
}

/// What the reference says about a list of calls on any bytes, one call at a
/// time: the code, the area with what is around it, and the bytes afterwards.
pub fn expected_list(bytes: &[u8], calls: &[u32], room: usize) -> (u32, Vec<u32>, Vec<u8>) {
    let mut area = junk(room);
    let answers = &mut area[MARGIN..MARGIN + room];
    match image::decode(bytes) {
        None => (21, area, bytes.to_vec()),
        Some(mut queue) => match lists::run(&mut queue, calls, answers) {
            Err(number) => (number, area, bytes.to_vec()),
            Ok(()) => (0, area, image::encode(&queue)),
        },
    }
}

/// A step that is stated, with its answer as in a list and the bytes before and
/// after it: one call, and as a list. Gives the reply.
pub fn stated_step(
    what: &str,
    p: u32,
    [before, after]: [&[u8]; 2],
    answer: [u32; 5],
    random: &mut Random,
) -> Reply {
    let [code, first, second, third, _] = answer;
    let mut lent = Lent::new(before, random);
    let got = lent.call(&Call::Step(p));
    assert_eq!(got, reply([code, first, second, third]), "{what}");
    assert!(lent.now() == after, "{what}: other bytes");

    let mut lent = Lent::new(before, random);
    let listed = lent.list(&[3, p, 0, 0, 0], 5);
    assert_eq!(listed, (0, area_with(&answer, 5)), "{what}: as a list");
    assert!(lent.now() == after, "{what}: other bytes by a list");
    got
}

/// Stated runs, one call at a time and as a list; after each call Backlog gives
/// what is stated.
pub fn counted_runs(runs: Vec<Counted>) -> Counts {
    let mut random = Random::new(seed());
    let mut counts = Counts::default();
    for (Run { what, sizes, turns }, spans) in runs {
        let [p, n, l] = sizes;
        let made = darthog_host::Queue::new(p, n, l).expect("the sizes are in range");
        let mut lent = Lent::new(made.as_bytes(), &mut random);
        for (numbers, [code, first, second, third, clock]) in &turns {
            let call = Call::of(&lists::call_of(*numbers));
            let got = lent.call(&call);
            let told = reply([*code, *first, *second, *third]);
            assert_eq!(got, told, "{what}, at {clock}");
            let count = reply([0, stated(&spans, *clock), 0, 0]);
            assert_eq!(lent.call(&Call::Backlog), count, "{what}, at {clock}");
            counts.note_reply(call.entry(), &got);
        }
        let (calls, answers) = split(&turns);
        let mut listed = Lent::new(made.as_bytes(), &mut random);
        let got = listed.list(&calls, answers.len());
        assert_eq!(got, (0, area_with(&answers, answers.len())), "{what}");
        assert!(listed.now() == lent.now(), "{what}: as a list");
    }
    counts
}

/// A begin or a step through the crate.
pub fn single(queue: &mut darthog_host::Queue, call: &Call) -> Result<Done, Refusal> {
    match *call {
        Call::Insert(p, due, item, height) => {
            queue.begin_insert(p, due, item, height).map(Done::Began)
        }
        Call::DeleteMin(p) => queue.begin_delete_min(p).map(Done::Began),
        Call::Relaxed(p) => queue.begin_relaxed(p).map(Done::Began),
        Call::Remove(p, due, ticket) => queue.begin_remove(p, due, ticket).map(Done::Began),
        Call::Step(p) => queue.step(p).map(Done::Stepped),
        _ => panic!("{call:?} is no call of a processor"),
    }
}

/// A run on two processors, one node and one level has these images at these
/// times, on lent bytes and in the crate's queue.
pub fn has_images(turns: Vec<Turn>, images: Vec<(u32, Vec<u8>)>) {
    let mut queue = darthog_host::Queue::new(2, 1, 1).expect("the sizes are in range");
    let mut lent = Lent::new(queue.as_bytes(), &mut Random::new(seed()));
    let mut expected = images.into_iter().peekable();
    for (numbers, answer) in turns {
        let call = Call::of(&lists::call_of(numbers));
        let accepted = lent.call(&call).code < 11;
        let done = single(&mut queue, &call);
        assert_eq!(done.is_ok(), accepted, "{call:?}");
        assert!(lent.now() == queue.as_bytes(), "at {}", answer[4]);
        if let Some((time, image)) = expected.next_if(|(time, _)| accepted && *time == answer[4]) {
            assert_eq!(lent.now(), image, "at {time}");
        }
    }
    assert_eq!(expected.next(), None, "the run is shorter");
}

/// Makes the calls of a list on bytes of their own and compares code, answers
/// and bytes with the reference's. Gives the answers with what is around them.
pub fn compare_list(bytes: &[u8], calls: &[u32], room: usize, random: &mut Random) -> Vec<u32> {
    let mut lent = Lent::new(bytes, random);
    let (code, area, after) = expected_list(bytes, calls, room);
    let got = lent.list(calls, room);
    let what = format!("{} numbers, room for {room}", calls.len());
    assert_eq!(got.0, code, "{what}");
    assert_eq!(got.1, area, "{what}");
    assert!(lent.now() == after, "{what}: other bytes");
    if code != 0 {
        assert_eq!(got.1, junk(room), "{what}: refused, and an answer");
        assert!(lent.now() == bytes, "{what}: refused, and a change");
    }
    area
}

/// A code without a value, as every refusal is.
pub fn refused(number: u32) -> Reply {
    reply([number, 0, 0, 0])
}

/// These numbers as a reply.
pub fn reply([code, first, second, third]: [u32; 4]) -> Reply {
    Reply {
        code,
        first,
        second,
        third,
    }
}

/// The reference's outcome as a reply.
pub fn reply_of(outcome: &Outcome) -> Reply {
    reply(lists::numbers_of(outcome))
}

/// What the reference says about a call on any bytes: the reply, and the bytes
/// afterwards.
pub fn expected(bytes: &[u8], call: &Call) -> (Reply, Vec<u8>) {
    if let Call::Make(p, n, l) = *call {
        let length = image::image_length(u64::from(p), u64::from(n));
        return match fresh(u64::from(p), u64::from(n), u64::from(l)) {
            Err(number) => (refused(number), bytes.to_vec()),
            Ok(_) if Some(bytes.len()) != length => (refused(21), bytes.to_vec()),
            Ok(queue) => (refused(0), image::encode(&queue)),
        };
    }
    match image::decode(bytes) {
        None => (refused(21), bytes.to_vec()),
        Some(mut queue) => {
            let reply = call_on(&mut queue, call);
            if reply.code >= 11 {
                return (reply, bytes.to_vec());
            }
            (reply, image::encode(&queue))
        }
    }
}

/// Makes a call that is not a making on the reference's record.
pub fn call_on(queue: &mut Queue, call: &Call) -> Reply {
    let call = call.of_reference().expect("no making");
    reply_of(&queue.call(&call))
}

/// Makes a call on bytes of their own and compares reply, bytes and area with
/// the reference's; then the same call as a list of one.
pub fn compare(bytes: &[u8], call: &Call, random: &mut Random, counts: &mut Counts) {
    let mut lent = Lent::new(bytes, random);
    let (reply, after) = expected(bytes, call);
    assert_eq!(lent.call(call), reply, "{call:?}");
    assert!(lent.now() == after, "{call:?} {reply:?}: other bytes");
    if reply.code >= 11 || call.only_reads() {
        assert!(lent.now() == bytes, "{call:?} {reply:?} changed a byte");
    }
    if let Call::Markers(room) = *call {
        assert!(lent.area == expected_area(bytes, room), "{call:?}: area");
        let left = lent.area == untouched(room);
        assert!(reply.code == 0 || left, "{call:?} {reply:?}: it is written");
    }
    counts.note_reply(call.entry(), &reply);
    if let Some(numbers) = call.numbers() {
        compare_list(bytes, &numbers, 5, random);
    }
}

/// How often each entry gave back each code, and how often each processor was
/// waited for.
#[derive(Default)]
pub struct Counts {
    codes: BTreeMap<(&'static str, u32), u64>,
    holders: BTreeMap<u32, u64>,
}

impl Counts {
    /// One more.
    pub fn note(&mut self, entry: &'static str, code: u32) {
        *self.codes.entry((entry, code)).or_default() += 1;
    }

    /// One more, with whom it waits for.
    pub fn note_reply(&mut self, entry: &'static str, reply: &Reply) {
        self.note(entry, reply.code);
        if reply.code == raw::WAITS {
            *self.holders.entry(reply.first).or_default() += 1;
        }
    }

    /// Prints the counts, and fails if one of these codes did not occur.
    pub fn must_have(&self, wanted: &[(&'static str, &[u32])]) {
        for ((entry, code), count) in &self.codes {
            println!("{entry:>12} {code:>3} {count:>8}");
        }
        for (entry, codes) in wanted {
            for code in *codes {
                assert!(
                    self.codes.contains_key(&(*entry, *code)),
                    "{entry} never gave back {code}"
                );
            }
        }
    }

    /// Prints how often each processor was waited for, and fails unless so many
    /// of the sixteen were, and no other.
    pub fn must_wait_for(&self, least: usize) {
        let holders = &self.holders;
        println!("waited for {holders:?}");
        assert!(holders.len() >= least, "for {} alone", holders.len());
        assert!(holders.keys().all(|&holder| holder < 16), "{holders:?}");
    }
}

/// Every code that an entry on lent bytes can give back.
pub const ALL_CODES: [(&str, &[u32]); 8] = [
    ("make", &[0, 11, 12, 13, 21]),
    ("insert", &[0, 21, 31, 32, 33, 35, 39, 36, 37]),
    ("delete_min", &[0, 21, 31, 32, 33]),
    ("step", &[1, 2, 3, 4, 5, 6, 7, 8, 21, 31, 32, 34]),
    ("backlog", &[0, 21]),
    ("markers", &[0, 21, 43]),
    ("relaxed", &[0, 21, 31, 32, 33]),
    ("remove", &[0, 21, 31, 32, 33, 38]),
];

/// A number at or past an edge: of processors, sizes, dues, items, tickets, heights.
pub fn edge(random: &mut Random) -> u32 {
    let edges = [
        0,
        1,
        2,
        7,
        8,
        9,
        15,
        16,
        17,
        199,
        200,
        201,
        255,
        256,
        257,
        65_535,
        65_536,
        999_998,
        999_999,
        1_000_000,
        1_000_001,
        0x00ff_ffff,
        0x0100_0000,
        0x7fff_ffff,
        0x8000_0000,
        u32::MAX - 1,
        u32::MAX,
    ];
    random.among(&edges)
}

/// A room for the markers of this record: just enough, a byte less or more,
/// none, enough for every queue, or any.
pub fn any_room(random: &mut Random, queue: &Queue) -> u32 {
    let enough = 2 * queue.in_use();
    let any = random.below(500) as u32;
    random.among(&[
        enough,
        enough.saturating_sub(1),
        enough + 1,
        0,
        400,
        401,
        any,
    ])
}

/// Any call on a queue of this record's sizes: most numbers in range, some at
/// or past an edge.
pub fn any_call(random: &mut Random, queue: &Queue) -> Call {
    let processor = if random.one_in(12) {
        edge(random)
    } else {
        random.below(u64::from(queue.processor_count) + 1) as u32
    };
    let mut value = |most: u64| {
        if random.one_in(12) {
            edge(random)
        } else {
            random.below(most) as u32
        }
    };
    let (due, item) = (value(1_000_000), value(1_000_000));
    let height = value(u64::from(queue.level_count) + 2);
    // a making in its own bytes has their length if its sizes are the queue's
    let mut sizes = (value(17), value(201), value(9));
    if random.one_in(2) {
        sizes.0 = u32::from(queue.processor_count);
        sizes.1 = u32::from(queue.node_count);
    }
    match random.below(22) {
        0 => Call::Backlog,
        18 | 19 => Call::Relaxed(processor),
        20 | 21 => Call::Remove(processor, due, item),
        16 => Call::Markers(any_room(random, queue)),
        1 | 2 => Call::DeleteMin(processor),
        3..=6 => Call::Insert(processor, due, item, height),
        7 => Call::Make(sizes.0, sizes.1, sizes.2),
        _ => Call::Step(processor),
    }
}
