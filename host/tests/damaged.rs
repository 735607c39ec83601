//! Images with damage: each bit of each byte flipped, every byte value at each
//! byte of small images and at each tag of large ones, random bytes. Those that
//! the reference takes are taken, the others are refused with 21, and a refused
//! call changes no byte.

mod common;

use common::{any_call, compare, junk, refused, seed, Call, Counts, Lent};
use darthog_reference::any_record::any_record;
use darthog_reference::image::{decode, encode, image_length, node_at, processor_at};
use darthog_reference::queue::{Node, Queue, Use};
use darthog_reference::random::Random;
use darthog_reference::schedule::{Schedule, Sizes};
use darthog_reference::trial::fresh_of;

/// A record in the middle of some operations: of the processors the last two
/// are idle if there are so many, up to three of the others busy. A node is in use.
fn reached(processors: u64, nodes: u64, levels: u64, random: &mut Random) -> Queue {
    let mut record = drained(processors, nodes, levels, random);
    let busy = processors.saturating_sub(2).clamp(1, 3);
    for p in 0..busy {
        // An Insert may find no node.
        if p == 1 && record.begin_insert(1, 3, 4, levels).is_ok() {
            continue;
        }
        let begun = match random.below(4) {
            0 => record.begin_delete_min(p),
            1 => record.begin_relaxed(p),
            _ => remove_some(&mut record, p),
        };
        assert_eq!(begun, Ok(record.clock), "it is idle");
    }
    for _ in 0..nodes.min(12) {
        for p in 0..busy {
            // It may have ended.
            let _ = record.step(p);
        }
    }
    record
}

/// A record after some operations, with a node in use and all processors idle.
fn drained(processors: u64, nodes: u64, levels: u64, random: &mut Random) -> Queue {
    let sizes = Sizes {
        processors,
        nodes,
        levels,
    };
    let mut record = fresh_of(sizes);
    let mut schedule = Schedule::new(random.draw(), sizes);
    for _ in 0..600 {
        let call = schedule.next_call();
        let outcome = record.call(&call);
        schedule.note(&call, &outcome);
    }
    while record.busy().count() > 0 {
        for p in 0..processors {
            // An idle processor's step is refused and changes nothing.
            let _ = record.step(p);
        }
    }
    if record.in_use() == 0 {
        record.begin_insert(0, 5, 6, 1).expect("a node is free");
        while record.step(0).is_ok() {}
    }
    record
}

/// Begins a Remove of the first entry that is answered and not marked, or of one
/// that is not there.
fn remove_some(record: &mut Queue, p: u64) -> Result<u32, u32> {
    let free = |node: &&Node| {
        let answered = node.state == Use::InUse && node.stamp.is_some();
        answered && !node.is_marked()
    };
    let found = record.nodes.iter().find(free);
    let (due, ticket) = found.map_or((7, 1), |node| (node.due, node.ticket));
    record.begin_remove(p, due.into(), ticket.max(1).into())
}

/// The sizes of the records that are damaged.
const SIZES: [(u64, u64, u64); 6] = [
    (1, 1, 1),
    (2, 3, 2),
    (5, 40, 5),
    (16, 1, 8),
    (1, 200, 1),
    (16, 200, 8),
];

/// The calls that are made on damaged bytes.
fn calls(number: usize) -> Call {
    let processor = (number / 7 % 6) as u32;
    match number % 7 {
        0 => Call::Backlog,
        4 => Call::Markers([400, 3, 401, 0][number / 7 % 4]),
        5 => Call::Relaxed(processor),
        6 => Call::Remove(processor, 7, 1),
        1 => Call::Step(processor),
        2 => Call::DeleteMin(processor),
        _ => Call::Insert(processor, 7, 42, 1),
    }
}

#[test]
fn flipped_bits_are_seen_as_the_reference_sees_them() {
    let mut random = Random::new(seed());
    let mut counts = Counts::default();
    let (mut taken, mut all) = (0, 0);
    for (p, n, l) in SIZES {
        let image = encode(&reached(p, n, l, &mut random));
        for at in 0..image.len() {
            // one bit of every byte; in a tenth of the bytes all eight
            let first = random.below(8);
            let bits = if random.one_in(10) { 8 } else { 1 };
            for bit in first..first + bits {
                let mut bytes = image.clone();
                bytes[at] ^= 1 << (bit % 8);
                taken += u64::from(decode(&bytes).is_some());
                compare(&bytes, &calls(at + bit as usize), &mut random, &mut counts);
                all += 1;
            }
        }
    }
    println!("{taken} of {all} damaged images are images");
    assert!(all > 18_000, "only {all} damaged images");
    counts.must_have(&[
        ("backlog", &[0, 21]),
        ("markers", &[0, 21, 43]),
        ("step", &[1, 21]),
        ("delete_min", &[21, 33]),
        ("relaxed", &[21, 33]),
        ("remove", &[21, 33]),
        ("insert", &[21, 33]),
    ]);
}

/// Every byte value at a place of the image.
fn every_value_at(image: &[u8], at: usize, random: &mut Random, counts: &mut Counts) {
    for value in 0..=255 {
        let mut bytes = image.to_vec();
        bytes[at] = value;
        compare(&bytes, &calls(value as usize), random, counts);
    }
}

/// Each byte of small images, sizes and clock too, with every value.
#[test]
fn every_value_of_every_byte_is_seen_as_the_reference_sees_it() {
    let mut random = Random::new(seed());
    let mut counts = Counts::default();
    for (p, n, l) in [(1, 1, 1), (2, 3, 2)] {
        let image = encode(&reached(p, n, l, &mut random));
        for at in 0..image.len() {
            every_value_at(&image, at, &mut random, &mut counts);
        }
    }
    counts.must_have(&[
        ("backlog", &[0, 21]),
        ("markers", &[0, 21, 43]),
        ("step", &[1, 21, 32]),
        ("delete_min", &[21, 33]),
        ("relaxed", &[21, 33]),
        ("remove", &[21, 33]),
        ("insert", &[21, 33]),
    ]);
}

#[test]
fn every_byte_value_at_a_tag_is_seen_as_the_reference_sees_it() {
    let mut random = Random::new(seed());
    let mut counts = Counts::default();
    for (p, n, l) in [(5, 40, 5), (16, 200, 8)] {
        let image = encode(&reached(p, n, l, &mut random));
        let (p, n) = (p as usize, n as usize);
        // sizes, and each byte of the clock
        let mut places: Vec<usize> = (0..7).collect();
        // own node, stage, place and the node of G3; job, due and ticket
        for processor in [0, 1, p - 2, p - 1] {
            places.extend((4..9).map(|field| processor_at(processor) + field));
            places.extend((17..26).map(|field| processor_at(processor) + field));
        }
        // mark, stamp and use of the head, of some nodes and of the tail
        for node in [0, 1, 2, n / 2, n, n + 1] {
            places.extend([17, 18, 36].map(|field| node_at(p, node) + field));
        }
        for at in places {
            every_value_at(&image, at, &mut random, &mut counts);
        }
    }
    counts.must_have(&[
        ("backlog", &[0, 21]),
        ("markers", &[0, 21, 43]),
        ("step", &[1, 21, 32, 34]),
        ("delete_min", &[0, 21, 33]),
        ("relaxed", &[0, 21, 33]),
        ("remove", &[0, 21, 33]),
        ("insert", &[0, 21, 33]),
    ]);
}

#[test]
fn damage_at_random_places_of_any_record() {
    let mut random = Random::new(seed());
    let mut counts = Counts::default();
    for _ in 0..6_000 {
        let record = any_record(&mut random);
        let mut bytes = encode(&record);
        for _ in 0..random.between(1, 3) {
            let at = random.below(bytes.len() as u64) as usize;
            bytes[at] = match random.below(3) {
                0 => random.draw() as u8,
                1 => bytes[at].wrapping_add(1),
                _ => bytes[at] ^ (1 << random.below(8)),
            };
        }
        let call = any_call(&mut random, &record);
        compare(&bytes, &call, &mut random, &mut counts);
    }
    counts.must_have(&[
        ("make", &[0]),
        ("backlog", &[0, 21]),
        ("markers", &[0, 21, 43]),
        ("step", &[1, 21]),
        ("delete_min", &[0, 21]),
        ("relaxed", &[0, 21]),
        ("remove", &[0, 21]),
        ("insert", &[0, 21]),
    ]);
}

/// Random bytes, half of them with the sizes that their length is for.
#[test]
fn random_bytes_are_no_image() {
    let mut random = Random::new(seed());
    let mut counts = Counts::default();
    for number in 0..2_000 {
        let (p, n) = (random.between(1, 16), random.between(1, 200));
        let right = image_length(p, n).expect("sizes in range");
        let length = random.among(&[0, 1, 2, 7, 48, right - 1, right, right, right, right + 1]);
        let mut bytes: Vec<u8> = (0..length).map(|_| random.draw() as u8).collect();
        if length > 2 && random.one_in(2) {
            bytes[..2].copy_from_slice(&[p as u8, n as u8]);
        }
        let call = calls(number);
        let mut lent = Lent::new(&bytes, &mut random);
        assert_eq!(lent.call(&call), refused(21), "{call:?} of {length} bytes");
        assert_eq!(lent.list(&[3, 0, 0, 0, 0], 5), (21, junk(5)));
        assert!(lent.now() == bytes, "{call:?} changed a byte");
        counts.note(call.entry(), 21);
    }
    counts.must_have(&[
        ("backlog", &[21]),
        ("markers", &[21]),
        ("step", &[21]),
        ("delete_min", &[21]),
        ("relaxed", &[21]),
        ("remove", &[21]),
        ("insert", &[21]),
    ]);
}
