//! Check 21 of the compiled entries, with what is expected written by hand:
//! each stored field at the ends of its range, levels past L, the reference's
//! single changes, tags, and the end of the clock. The reference must say the
//! same, but no expectation comes from it alone.
//!
//! Slots past P and N+1 are in no image, and so as made: a record that differs
//! there alone has the same bytes.

mod common;

use common::{compare_list, expected, expected_area, refused, seed, untouched};
use common::{Call, Counts, Lent};
use darthog_host::raw::Reply;
use darthog_reference::any_record::slots_past;
use darthog_reference::image::{decode, encode, node_at, processor_at};
use darthog_reference::perturb::{bases, breaking, past_levels, to_the_edge, Change};
use darthog_reference::queue::{Queue, Stage};
use darthog_reference::random::Random;
use darthog_reference::stated::cases::each_case;
use darthog_reference::stated::records::record;
use darthog_reference::stated::rows::TABLES;

/// Every call on a record, by one processor.
fn calls(processor: u32) -> [Call; 8] {
    [
        Call::Backlog,
        Call::Markers(400),
        Call::Markers(0),
        Call::Step(processor),
        Call::DeleteMin(processor),
        Call::Relaxed(processor),
        Call::Remove(processor, 7, 1),
        Call::Insert(processor, 7, 42, 1),
    ]
}

/// Calls that a taken record refuses for their numbers: 21 comes first.
const STRANGE: [Call; 5] = [
    Call::Step(u32::MAX),
    Call::DeleteMin(16),
    Call::Relaxed(16),
    Call::Remove(16, u32::MAX, 0),
    Call::Insert(99, u32::MAX, u32::MAX, 0),
];

/// Makes calls on images, and compares what comes back with what is expected
/// and with the reference.
struct Judge {
    random: Random,
    counts: Counts,
    calls: u64,
}

impl Judge {
    fn new() -> Judge {
        Judge {
            random: Random::new(seed()),
            counts: Counts::default(),
            calls: 0,
        }
    }

    /// A call on bytes of its own, alone and as a list of one. Not taken: 21,
    /// and no byte changes. Taken: anything but 21. Both as the reference has
    /// it.
    fn call(&mut self, bytes: &[u8], call: &Call, taken: bool, what: &str) -> Reply {
        let mut lent = Lent::new(bytes, &mut self.random);
        let got = lent.call(call);
        if taken {
            assert_ne!(got.code, 21, "{what}, {call:?} got {got:?}");
        } else {
            assert_eq!(got, refused(21), "{what}, {call:?}");
            assert!(lent.now() == bytes, "{what}, {call:?} changed a byte");
        }
        let (reply, after) = expected(bytes, call);
        assert_eq!(got, reply, "{what}, {call:?}: the reference differs");
        if let Call::Markers(room) = *call {
            let area = expected_area(bytes, room);
            assert!(lent.area == area, "{what}, {call:?}: another area");
            let left = lent.area == untouched(room);
            assert!(taken || left, "{what}, {call:?}: it is written");
        }
        assert!(lent.now() == after, "{what}, {call:?}: other bytes");
        if let Some(numbers) = call.numbers() {
            compare_list(bytes, &numbers, 5, &mut self.random);
        }
        self.counts.note(call.entry(), got.code);
        self.calls += 1;
        got
    }

    /// Every call by one processor, and where 21 is expected also calls with
    /// numbers that are refused later. A taken record of the tables has no node
    /// in use.
    fn case(&mut self, queue: &Queue, processor: u32, taken: bool, what: &str) {
        let bytes = encode(queue);
        for call in calls(processor) {
            let got = self.call(&bytes, &call, taken, what);
            if taken && call.only_reads() {
                assert_eq!(got, refused(0), "{what}, {call:?}");
            }
        }
        if !taken {
            let strange = STRANGE[self.calls as usize % STRANGE.len()];
            self.call(&bytes, &strange, false, what);
        }
    }
}

#[test]
fn each_field_is_taken_and_refused_as_stated() {
    let mut judge = Judge::new();
    let (mut total, mut outside) = (0, 0);
    for table in &TABLES {
        let base = record(table);
        let image = encode(&base);
        let words = format!("{:?} {:?} as it is", table.sizes, table.filling);
        judge.case(&base, 0, true, &words);
        let seen = each_case(table, |case| {
            let what = case.words(table);
            if case.spot.stored(table.sizes) {
                judge.case(&case.queue, case.processor(), case.taken, &what);
            } else {
                assert!(encode(&case.queue) == image, "{what}: it is in the image");
                outside += 1;
            }
        });
        seen.must_have_all(table);
        total += seen.total();
    }
    println!(
        "{total} cases, {outside} of them outside, {} calls",
        judge.calls
    );
    let inside = total - outside;
    assert!(inside > 45_000, "only {inside} cases of images");
    judge.counts.must_have(&[
        ("backlog", &[0, 21]),
        ("markers", &[0, 21]),
        ("step", &[1, 2, 3, 4, 5, 6, 7, 8, 21, 31, 34]),
        ("delete_min", &[0, 21, 31, 33]),
        ("relaxed", &[0, 21, 31, 33]),
        ("remove", &[0, 21, 31, 33]),
        ("insert", &[0, 21, 31, 33]),
    ]);
}

/// Makes each change on a base and one call on what comes of it, each call in
/// its turn. Levels past L stay as they are.
fn judge_changes(judge: &mut Judge, base: &Queue, changes: &[Change], taken: bool) {
    for (number, change) in changes.iter().enumerate() {
        let mut queue = base.clone();
        (change.make)(&mut queue);
        let bytes = encode(&queue);
        let processor = (number / 8) as u32 % u32::from(base.processor_count);
        let call = calls(processor)[number % 8];
        judge.call(&bytes, &call, taken, &change.name);
        if taken {
            let (_, after) = expected(&bytes, &call);
            let after = decode(&after).expect("it was written");
            let same = slots_past(&after) == slots_past(&queue);
            assert!(same, "{}: a level past L changed", change.name);
        }
    }
}

#[test]
fn the_references_changes_are_taken_and_refused_as_their_lists_say() {
    let mut judge = Judge::new();
    let mut made = [0, 0, 0];
    for (_, base) in bases() {
        for call in calls(0) {
            judge.call(&encode(&base), &call, true, "a record of a run");
        }
        let lists = [breaking(&base), to_the_edge(&base), past_levels(&base)];
        for (number, list) in lists.iter().enumerate() {
            judge_changes(&mut judge, &base, list, number > 0);
            made[number] += list.len();
        }
    }
    let [broken, edge, far] = made;
    println!("{broken} changes give 21, {edge} to the edge and {far} past L do not");
    assert!(broken > 10_000 && edge > 1_000 && far > 250);
    judge.counts.must_have(&[
        ("backlog", &[0, 21]),
        ("markers", &[0, 21, 43]),
        ("step", &[1, 2, 21]),
        ("delete_min", &[0, 21, 33]),
        ("relaxed", &[0, 21, 33]),
        ("remove", &[0, 21, 33]),
        ("insert", &[0, 21, 33]),
    ]);
}

/// Bytes of a node that are no image where the node is as a fresh one: what it
/// is, where, and the byte.
const NODE_TAGS: [(&str, usize, u8); 7] = [
    ("stamp", 18, 2),
    ("time without a stamp", 19, 1),
    ("time without a stamp", 22, 1),
    ("use", 36, 3),
    ("use", 36, 255),
    ("time without a retirement", 37, 1),
    ("time without a retirement", 40, 1),
];

/// The same for an idle processor.
const PROCESSOR_TAGS: [(&str, usize, u8); 12] = [
    ("stage", 5, 33),
    ("stage", 5, 255),
    ("node without a place", 6, 1),
    ("level without a place", 7, 1),
    ("node of G3 but at G4", 8, 1),
    ("job but in a removal", 17, 1),
    ("unknown job", 17, 2),
    ("unknown job", 17, 255),
    ("due but in a Remove", 18, 1),
    ("due but in a Remove", 21, 1),
    ("ticket but in a Remove", 22, 1),
    ("ticket but in a Remove", 25, 1),
];

/// Whether the bytes are an image at all is asked of every node and processor
/// that they have.
#[test]
fn a_wrong_tag_is_21_in_every_node_and_processor() {
    let mut judge = Judge::new();
    let table = &TABLES[2];
    assert_eq!(table.sizes, [2, 3, 2]);
    let image = encode(&record(table));
    let mut places = Vec::new();
    for slot in 0..5 {
        let whose = format!("node {slot}");
        places.extend(NODE_TAGS.map(|tag| (tag, whose.clone(), node_at(2, slot))));
    }
    for slot in 0..2 {
        let whose = format!("processor {slot}");
        places.extend(PROCESSOR_TAGS.map(|tag| (tag, whose.clone(), processor_at(slot))));
    }
    assert_eq!(places.len(), 59);
    for ((field, at, byte), whose, start) in places {
        let mut bytes = image.clone();
        bytes[start + at] = byte;
        let what = format!("{whose}, {field}: byte {byte} at {at}, expected 21");
        for call in calls(0) {
            judge.call(&bytes, &call, false, &what);
        }
    }
}

/// At 999,998 a call is accepted and its time is 999,999; then all but Backlog
/// and markers are refused with 31, which comes after 21 and before 32.
#[test]
fn the_clock_ends_at_999_999() {
    let mut judge = Judge::new();
    let began = |time| Reply {
        first: time,
        ..refused(0)
    };
    for table in &TABLES {
        let mut queue = record(table);
        let whose = format!("{:?} {:?}", table.sizes, table.filling);
        let idle = queue.processors[0].stage == Stage::Idle;
        let number = if idle { began(999_999) } else { refused(33) };
        for (clock, begin) in [(999_998, number), (999_999, refused(31))] {
            queue.clock = clock;
            let bytes = encode(&queue);
            let what = format!("{whose}, clock {clock}, expected {begin:?}");
            for call in [Call::DeleteMin(0), Call::Relaxed(0), Call::Remove(0, 7, 1)] {
                let got = judge.call(&bytes, &call, true, &what);
                assert_eq!(got, begin, "{what}, {call:?}");
            }
        }
        let bytes = encode(&queue);
        for call in calls(0).into_iter().chain(STRANGE) {
            let number = if call.only_reads() { 0 } else { 31 };
            let got = judge.call(&bytes, &call, true, &whose);
            assert_eq!(got, refused(number), "{whose}, clock 999,999, {call:?}");
        }
        queue.clock = 1_000_000;
        judge.case(&queue, 0, false, &format!("{whose}, clock 1,000,000"));
    }
}
