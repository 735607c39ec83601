//! The record as bytes: written and read back, stated images, and bytes that
//! are no image.

use darthog_reference::any_record::any_record;
use darthog_reference::calls::{Call, Outcome};
use darthog_reference::image::{
    decode, encode, image_length, node_at, processor_at, stored, NODE_BYTES, PROCESSOR_BYTES,
};
use darthog_reference::perturb::{bases, past_slots};
use darthog_reference::perturb::{remove_stages_at, stages_at};
use darthog_reference::perturb::{stages_without_place, walk_stages_at};
use darthog_reference::queue::{fresh, Place, Queue, Stage, Use, Wanted};
use darthog_reference::random::Random;
use darthog_reference::stated::backlogs::printed;
use darthog_reference::stated::images;

const RECORDS: u64 = 2_000;

#[test]
fn a_record_is_read_back_from_its_image() {
    let mut random = Random::new(1);
    for _ in 0..RECORDS {
        let queue = any_record(&mut random);
        let (p, n) = (queue.processor_count, queue.node_count);
        let image = encode(&queue);
        assert_eq!(Some(image.len()), image_length(p.into(), n.into()));
        assert!(decode(&image) == Some(stored(&queue)));
    }
}

#[test]
fn every_fresh_queue_is_read_back_as_it_is() {
    for p in 1..=16 {
        for n in 1..=200 {
            let queue = fresh(p, n, 1 + n % 8).unwrap();
            let image = encode(&queue);
            assert_eq!(Some(image.len()), image_length(p, n));
            assert!(decode(&image) == Some(queue), "{p} {n}");
        }
    }
}

/// No image says what stands past P and N+1, and it is read as made.
#[test]
fn slots_past_the_sizes_are_in_no_image() {
    let mut count = 0;
    for (_, base) in bases() {
        for change in past_slots(&base) {
            let mut queue = base.clone();
            (change.make)(&mut queue);
            assert!(queue != base, "{}", change.name);
            assert!(encode(&queue) == encode(&base), "{}", change.name);
            assert!(stored(&queue) == base, "{}", change.name);
            count += 1;
        }
    }
    assert!(count > 1000, "only {count} changes");
}

#[test]
fn lengths_are_as_stated() {
    for (p, n, length) in images::LENGTHS {
        let got = image_length(p.into(), n.into());
        assert_eq!(got.unwrap_or(0), length, "{p} processors, {n} entries");
        assert_ne!(got, Some(0));
    }
    for ([p, n, _], length, _) in images::PLACES {
        assert_eq!(image_length(p.into(), n.into()), Some(length));
    }
}

#[test]
fn the_printed_run_has_the_stated_images() {
    let mut queue = fresh(1, 1, 1).unwrap();
    let mut calls = printed().into_iter();
    for (time, bytes) in images::printed() {
        while queue.clock < time {
            queue.call(&calls.next().expect("the run is longer"));
        }
        assert_eq!(encode(&queue), bytes, "at {time}");
        assert!(decode(&bytes) == Some(queue.clone()), "at {time}");
    }
}

#[test]
fn the_pieces_stand_where_stated() {
    for (what, queue, bytes) in images::pieces() {
        assert!(encode(&queue) == bytes, "{what}");
        assert!(decode(&bytes) == Some(queue), "{what}");
    }
    for (sizes, changed) in images::BEGUN {
        let [p, n, l] = sizes.map(u64::from);
        let mut queue = fresh(p, n, l).unwrap();
        let mut expected = encode(&queue);
        for (at, byte) in changed {
            expected[at] = byte;
        }
        assert_eq!(queue.begin_delete_min(p - 1), Ok(1));
        assert!(encode(&queue) == expected, "{sizes:?}");
    }
}

#[test]
fn a_relaxed_begin_leaves_the_stated_bytes() {
    for (sizes, changed) in images::BEGUN_RELAXED {
        let [p, n, l] = sizes.map(u64::from);
        let mut queue = fresh(p, n, l).unwrap();
        let mut expected = encode(&queue);
        for (at, byte) in changed {
            expected[at] = byte;
        }
        assert_eq!(queue.begin_relaxed(p - 1), Ok(1));
        assert!(encode(&queue) == expected, "{sizes:?}");
    }
}

/// Whether the bytes are the image of a record that passes check 21.
fn taken(bytes: &[u8]) -> bool {
    decode(bytes).is_some_and(|mut queue| queue.call(&Call::Backlog) != Outcome::Refused(21))
}

#[test]
fn bytes_are_taken_and_refused_as_stated() {
    for (sizes, at, byte, expected) in images::EDITS {
        let [p, n, l] = sizes.map(u64::from);
        let mut bytes = encode(&fresh(p, n, l).unwrap());
        bytes[at] = byte;
        assert_eq!(taken(&bytes), expected, "{sizes:?}: byte {at} is {byte}");
    }
    for (sizes, at, stage, expected) in images::STAGES {
        let [p, n, l] = sizes.map(u64::from);
        let mut bytes = encode(&fresh(p, n, l).unwrap());
        bytes[at..at + 4].copy_from_slice(&stage);
        assert_eq!(taken(&bytes), expected, "{sizes:?}: {stage:?}");
    }
    for (what, length, bytes) in images::refused() {
        assert_eq!(bytes.len(), length, "{what}");
        assert!(!taken(&bytes), "{what}");
    }
}

#[test]
fn the_numbers_stand_where_the_layout_has_them() {
    let mut queue: Queue = fresh(2, 3, 4).unwrap();
    queue.clock = 0x000a_0b0c;
    queue.nodes[3].due = 0x0001_0203;
    queue.nodes[3].mark = 2;
    queue.nodes[3].stamp = Some(7);
    queue.nodes[3].state = Use::Retired(9);
    queue.processors[1].begin = 5;
    queue.processors[1].own = 3;
    queue.processors[1].saved[7] = 6;
    let image = encode(&queue);
    assert_eq!(image[..7], [2, 3, 4, 0x0c, 0x0b, 0x0a, 0]);
    let node = &image[node_at(2, 3)..][..NODE_BYTES];
    assert_eq!(node[..8], [4; 8]);
    assert_eq!(node[8..17], [0; 9]);
    assert_eq!(node[17..23], [2, 1, 7, 0, 0, 0]);
    assert_eq!(node[23..27], [3, 2, 1, 0]);
    assert_eq!(node[27..35], [0; 8]);
    assert_eq!(node[35..], [1, 2, 9, 0, 0, 0]);
    let processor = &image[processor_at(1)..][..PROCESSOR_BYTES];
    assert_eq!(
        processor,
        [5, 0, 0, 0, 3, 0, 0, 0, 0, 0, 0, 0, 0, 0, 0, 0, 6, 0, 0, 0, 0, 0, 0, 0, 0, 0]
    );
    assert_eq!(node_at(2, 5), image.len());
}

/// The tags of docs/IMAGE.md's table, in the order of `perturb`'s stages.
#[test]
fn every_stage_has_its_own_tag() {
    let a = Place { node: 5, level: 2 };
    let mut stages = stages_at(a, 9);
    stages.extend(walk_stages_at(a));
    stages.extend(stages_without_place());
    let wanted = Wanted { due: 3, ticket: 4 };
    let of_remove = remove_stages_at(a, wanted);
    stages.extend(&of_remove);
    stages.push(Stage::Idle);
    let mut tags: Vec<u8> = stages.iter().map(|stage| tag_of(*stage)).collect();
    tags.sort_unstable();
    tags.dedup();
    assert_eq!(tags, (0..=32).collect::<Vec<u8>>());
    assert_eq!([Stage::RW1Read(a), Stage::RW3Mark(a)].map(tag_of), [27, 28]);
    let of_remove: Vec<u8> = of_remove.into_iter().map(tag_of).collect();
    assert_eq!(of_remove, [29, 30, 31, 32]);
}

fn tag_of(stage: Stage) -> u8 {
    let mut queue = fresh(1, 1, 1).unwrap();
    queue.processors[0].stage = stage;
    let image = encode(&queue);
    assert!(decode(&image) == Some(queue));
    image[processor_at(0) + 5]
}

#[test]
fn another_length_is_no_image() {
    for (p, n) in [(1, 1), (2, 3), (16, 1), (1, 200), (16, 200)] {
        let image = encode(&fresh(p, n, 4).unwrap());
        let mut longer = image.clone();
        longer.extend([0; 100]);
        for length in (0..=200).chain(image.len() - 50..=longer.len()) {
            let bytes = &longer[..length.min(longer.len())];
            assert_eq!(decode(bytes).is_some(), bytes.len() == image.len());
        }
    }
}

/// Bytes of a fresh node that make it none: of its stamp, a stamp's time, its use
/// and a retirement's time.
const WRONG_NODE: [(usize, u8); 6] = [(18, 2), (19, 1), (22, 1), (36, 3), (37, 1), (40, 1)];

/// Bytes of an idle processor that make it none: of its stage, place, level and
/// node of G3, and of the job, due minute and ticket of a Remove.
const WRONG_PROCESSOR: [(usize, u8); 12] = [
    (5, 33),
    (5, 255),
    (6, 1),
    (7, 1),
    (8, 1),
    (17, 1),
    (17, 2),
    (17, 255),
    (18, 1),
    (21, 1),
    (22, 1),
    (25, 1),
];

#[test]
fn wrong_tags_are_no_image() {
    let image = encode(&fresh(2, 3, 4).unwrap());
    let nodes = (0..5).map(|node| (node_at(2, node), &WRONG_NODE[..]));
    let processors = (0..2).map(|p| (processor_at(p), &WRONG_PROCESSOR[..]));
    for (start, wrong) in nodes.chain(processors) {
        for (at, byte) in wrong {
            let mut damaged = image.clone();
            damaged[start + at] = *byte;
            assert!(decode(&damaged).is_none(), "{start}: {at} is {byte}");
        }
    }
}

/// Every byte is a mark, and one that is above P is refused with 21.
#[test]
fn any_byte_is_a_mark() {
    for (p, n) in [(1, 1), (2, 3), (16, 200)] {
        let image = encode(&fresh(p, n, 4).unwrap());
        for node in [0, 1, n, n + 1] {
            for byte in 0..=255 {
                let mut bytes = image.clone();
                bytes[node_at(p as usize, node as usize) + 17] = byte;
                let queue = decode(&bytes).expect("it is an image");
                assert_eq!(queue.nodes[node as usize].mark, byte);
                assert_eq!(taken(&bytes), u64::from(byte) <= p, "{p}: {byte} at {node}");
            }
        }
    }
}

/// Whatever is taken is the image of what it is read as.
#[test]
fn taken_bytes_are_the_image_of_their_record() {
    let mut random = Random::new(2);
    let (mut taken, mut refused) = (0, 0);
    for _ in 0..RECORDS {
        let mut image = encode(&any_record(&mut random));
        let at = random.below(image.len() as u64) as usize;
        image[at] = random.below(256) as u8;
        match decode(&image) {
            Some(queue) => {
                assert!(encode(&queue) == image, "byte {at}");
                assert!(stored(&queue) == queue, "byte {at}");
                taken += 1;
            }
            None => refused += 1,
        }
    }
    assert!(
        taken > RECORDS / 4 && refused > RECORDS / 100,
        "{taken} {refused}"
    );
}
