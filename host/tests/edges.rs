//! Sizes, lengths and numbers at and past every edge.

mod common;

use common::{any_room, compare, compare_list, edge, junk, refused, seed};
use common::{Call, Counts, Lent, ALL_CODES};
use darthog_host::raw::{darthog_due, darthog_image_length, Reply};
use darthog_host::MAX_IMAGE_LENGTH;
use darthog_reference::image::{encode, image_length};
use darthog_reference::queue::{due_from_seconds, fresh, Queue, MAX_NUMBER};
use darthog_reference::random::Random;
use darthog_reference::stated::images::LENGTHS;
use darthog_reference::stated::minutes::{MINUTES, TOO_MANY_SECONDS};

/// Bytes of any content.
fn garbage(length: usize, random: &mut Random) -> Vec<u8> {
    (0..length).map(|_| random.draw() as u8).collect()
}

fn length_of(processors: u32, entries: u32) -> usize {
    // Safe: the call takes numbers and touches no memory.
    unsafe { darthog_image_length(processors, entries) }
}

#[test]
fn lengths_are_the_stated_ones_and_the_references() {
    for (p, n, length) in LENGTHS {
        assert_eq!(length_of(p, n), length, "{p} processors, {n} entries");
    }
    for p in 0..=300 {
        for n in 0..=300 {
            let expected = image_length(p.into(), n.into()).unwrap_or(0);
            assert_eq!(length_of(p, n), expected, "{p} processors, {n} entries");
        }
    }
    let mut random = Random::new(seed());
    for _ in 0..3_000 {
        let (p, n) = (edge(&mut random), edge(&mut random));
        let expected = image_length(p.into(), n.into()).unwrap_or(0);
        assert_eq!(length_of(p, n), expected, "{p} processors, {n} entries");
    }
    assert_eq!(length_of(16, 200), MAX_IMAGE_LENGTH);
}

/// A list of calls, which bytes of another length refuse.
const LIST: [u32; 10] = [2, 0, 0, 0, 0, 3, 0, 0, 0, 0];

/// Every entry on bytes that are no image by their length, nor as long as that
/// of 2 processors and 3 entries: 21, but 11 for sizes that no queue has, and no
/// byte changes.
fn judge_length(bytes: &[u8], random: &mut Random, counts: &mut Counts) {
    let length = bytes.len();
    for call in [
        Call::Make(2, 3, 4),
        Call::Make(0, 0, 0),
        Call::Insert(0, 7, 42, 1),
        Call::DeleteMin(0),
        Call::Relaxed(0),
        Call::Remove(0, 7, 1),
        Call::Step(0),
        Call::Backlog,
        Call::Markers(400),
        Call::Markers(0),
    ] {
        let number = match call {
            Call::Make(0, ..) => 11,
            _ => 21,
        };
        let mut lent = Lent::new(bytes, random);
        let got = lent.call(&call);
        assert_eq!(got, refused(number), "{call:?} of {length} bytes");
        assert!(lent.now() == bytes, "{call:?} changed a byte");
        compare(bytes, &call, random, counts);
    }
    for calls in [&LIST[..], &[]] {
        let mut lent = Lent::new(bytes, random);
        assert_eq!(lent.list(calls, 10), (21, junk(10)), "of {length} bytes");
        assert!(lent.now() == bytes, "a list changed a byte");
    }
}

#[test]
fn another_length_is_refused_and_no_byte_changes() {
    let mut random = Random::new(seed());
    let mut counts = Counts::default();
    for (p, n) in [(1, 1), (1, 2), (2, 1), (2, 3), (16, 1), (1, 200), (16, 200)] {
        let image = encode(&fresh(p, n, 4).expect("sizes in range"));
        let right = image.len();
        // behind the image stands more of the same: nodes as made
        let mut long = image.clone();
        while long.len() < 17_500 {
            long.extend_from_within(right - 41..right);
        }
        let far = [8_561, 8_664, 8_704, 8_705, 8_706, 8_746, 17_410];
        let near = right - 42..=right + 42;
        for length in (0..=200).chain(near).chain(far) {
            if length != right {
                judge_length(&long[..length], &mut random, &mut counts);
            }
        }
        compare(&image, &Call::Backlog, &mut random, &mut counts);
        compare(&image, &Call::Markers(0), &mut random, &mut counts);
        compare_list(&image, &LIST, 10, &mut random);
    }
    let megabyte = vec![1; 1 << 20];
    judge_length(&megabyte, &mut random, &mut counts);
    counts.must_have(&[
        ("make", &[11, 21]),
        ("insert", &[21]),
        ("delete_min", &[21]),
        ("relaxed", &[21]),
        ("remove", &[21]),
        ("step", &[21]),
        ("backlog", &[0, 21]),
        ("markers", &[0, 21]),
    ]);
}

/// Every pair of sizes, in bytes of their length that held anything, and in one
/// byte less and one more.
#[test]
fn a_queue_of_every_size_is_made_in_its_own_length() {
    let mut random = Random::new(seed());
    let mut counts = Counts::default();
    for p in 1..=16 {
        for n in 1..=200 {
            let length = length_of(p, n);
            let held = garbage(length + 1, &mut random);
            let l = 1 + random.below(8) as u32;
            for (bytes, code) in [
                (&held[..length - 1], 21),
                (&held[..length], 0),
                (&held[..length + 1], 21),
            ] {
                let call = Call::Make(p, n, l);
                let mut lent = Lent::new(bytes, &mut random);
                assert_eq!(lent.call(&call), refused(code), "{call:?}");
                assert_eq!(lent.now() == bytes, code != 0, "{call:?}");
                compare(bytes, &call, &mut random, &mut counts);
            }
        }
    }
    counts.must_have(&[("make", &[0, 21])]);
}

/// Bytes of any content, of the length for these sizes or, where no queue has
/// them, of the largest.
fn held_for(processors: u32, entries: u32, random: &mut Random) -> Vec<u8> {
    match length_of(processors, entries) {
        0 => garbage(MAX_IMAGE_LENGTH, random),
        length => garbage(length, random),
    }
}

#[test]
fn making_takes_the_sizes_that_the_reference_takes() {
    let mut random = Random::new(seed());
    let mut counts = Counts::default();
    let mut judge = |p: u32, n: u32, l: u32| {
        let mut held = held_for(p, n, &mut random);
        let call = Call::Make(p, n, l);
        compare(&held, &call, &mut random, &mut counts);
        // the numbers of sizes come before the length
        held.pop();
        compare(&held, &call, &mut random, &mut counts);
    };
    for p in 0..=18 {
        for l in 0..=10 {
            for n in [0, 1, 2, 100, 199, 200, 201, 255, 256] {
                judge(p, n, l);
            }
        }
    }
    for n in 0..=260 {
        judge(3, n, 2);
    }
    let mut sizes = Random::new(seed());
    for _ in 0..3_000 {
        judge(edge(&mut sizes), edge(&mut sizes), edge(&mut sizes));
    }
    counts.must_have(&[("make", &[0, 11, 12, 13, 21])]);
}

/// Some records whose calls are refused in each way, or nearly.
fn records() -> Vec<Queue> {
    let mut records = Vec::new();
    for (p, n, l) in [(1, 1, 1), (2, 1, 1), (2, 3, 4), (16, 200, 8)] {
        for clock in [0, MAX_NUMBER - 1, MAX_NUMBER, MAX_NUMBER + 1, u32::MAX] {
            let idle = fresh(p, n, l).expect("sizes in range");
            let mut inserting = idle.clone();
            inserting.begin_insert(0, 5, 6, l).expect("a node is free");
            let mut walking = idle.clone();
            walking.begin_delete_min(p - 1).expect("it is idle");
            let mut relaxed = idle.clone();
            relaxed.begin_relaxed(p - 1).expect("it is idle");
            let mut removing = idle.clone();
            removing.begin_remove(p - 1, 5, 9).expect("it is idle");
            for mut record in [idle, inserting, walking, relaxed, removing] {
                record.clock = record.clock.max(clock);
                records.push(record);
            }
        }
    }
    records
}

#[test]
fn numbers_at_and_past_every_edge() {
    let mut random = Random::new(seed());
    let mut counts = Counts::default();
    for record in records() {
        let bytes = encode(&record);
        for _ in 0..60 {
            let processor = if random.one_in(2) {
                0
            } else {
                edge(&mut random)
            };
            let mut value = |usual: u32| {
                if random.one_in(2) {
                    usual
                } else {
                    edge(&mut random)
                }
            };
            let insert = Call::Insert(processor, value(7), value(42), value(1));
            let remove = Call::Remove(processor, value(7), value(1));
            for call in [
                insert,
                remove,
                Call::DeleteMin(processor),
                Call::Relaxed(processor),
                Call::Step(processor),
                Call::Backlog,
                Call::Markers(any_room(&mut random, &record)),
            ] {
                compare(&bytes, &call, &mut random, &mut counts);
            }
        }
        for call in named_edges(&record) {
            compare(&bytes, &call, &mut random, &mut counts);
        }
    }
    counts.must_have(&[
        ("insert", &[0, 21, 31, 32, 33, 35, 39, 36, 37]),
        ALL_CODES[2],
        ("step", &[1, 3, 21, 31, 32, 34]),
        ALL_CODES[4],
        ALL_CODES[5],
        ALL_CODES[6],
        ALL_CODES[7],
    ]);
}

/// Calls whose numbers stand at the edges of what this record takes.
fn named_edges(record: &Queue) -> Vec<Call> {
    let (p, levels) = (
        u32::from(record.processor_count),
        u32::from(record.level_count),
    );
    let most = MAX_NUMBER;
    vec![
        Call::Insert(0, most, most, levels),
        Call::Insert(0, most + 1, most, levels),
        Call::Insert(0, most, most + 1, levels),
        Call::Insert(0, most, most, levels + 1),
        Call::Insert(0, most, most, 0),
        Call::Insert(0, most, 0, levels),
        Call::Insert(0, most, 0, 0),
        Call::Insert(u32::MAX, u32::MAX, u32::MAX, u32::MAX),
        Call::Insert(p - 1, 7, 42, 1),
        Call::DeleteMin(p - 1),
        Call::DeleteMin(p),
        Call::Relaxed(p - 1),
        Call::Relaxed(p),
        Call::Remove(0, most, most),
        Call::Remove(0, most, 1),
        Call::Remove(0, 0, 1),
        Call::Remove(0, 0, 0),
        Call::Remove(0, most + 1, 1),
        Call::Remove(0, 0, most + 1),
        Call::Remove(p - 1, 7, 1),
        Call::Remove(p, 7, 1),
        Call::Remove(p, most + 1, 0),
        Call::Step(p - 1),
        Call::Step(p),
        Call::Step(u32::MAX),
    ]
}

fn due(seconds: u64) -> Reply {
    // Safe: the call takes a number and touches no memory.
    unsafe { darthog_due(seconds) }
}

#[test]
fn a_due_minute_is_the_stated_one() {
    for (seconds, minute) in MINUTES {
        let expected = Reply {
            first: minute,
            ..refused(0)
        };
        assert_eq!(due(seconds), expected, "{seconds} seconds");
    }
    for seconds in TOO_MANY_SECONDS {
        assert_eq!(due(seconds), refused(35), "{seconds} seconds");
    }
}

#[test]
fn a_due_minute_is_the_references() {
    let mut random = Random::new(seed());
    let mut edges = vec![u64::MAX, u64::MAX - 1];
    for middle in [
        0u64,
        60,
        120,
        3_600,
        59_999_970,
        60_000_000,
        1 << 26,
        1 << 31,
        1 << 32,
    ] {
        for seconds in middle.saturating_sub(61)..=middle + 61 {
            edges.push(seconds);
        }
    }
    for _ in 0..100_000 {
        edges.push(random.draw() >> random.between(20, 63));
    }
    let (mut accepted, mut too_large) = (0, 0);
    for seconds in edges {
        match due_from_seconds(seconds) {
            Ok(minute) => {
                let expected = Reply {
                    first: minute,
                    ..refused(0)
                };
                assert_eq!(due(seconds), expected, "{seconds} seconds");
                accepted += 1;
            }
            Err(number) => {
                assert_eq!(due(seconds), refused(number), "{seconds} seconds");
                assert_eq!(number, 35);
                too_large += 1;
            }
        }
    }
    println!("due: {accepted} accepted, {too_large} refused with 35");
    assert!(accepted > 1_000 && too_large > 1_000);
}
