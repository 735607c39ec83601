//! The layout of the library's images, with what is expected written by hand:
//! the images of the printed run byte by byte, what a begin changes at the edges
//! of the sizes, and which bytes are taken. Those of earlier releases are not,
//! and are brought over as docs/IMAGE.md says.

mod common;

use common::{compare, junk, refused, seed, Call, Counts, Lent};
use darthog_host::raw::Reply;
use darthog_host::{Queue, Refusal};
use darthog_reference::image::{encode, node_at, processor_at, PROCESSOR_BYTES};
use darthog_reference::perturb::bases;
use darthog_reference::queue::{Processor, Queue as Record};
use darthog_reference::random::Random;
use darthog_reference::schedule::Sizes;
use darthog_reference::stated::backlogs::printed;
use darthog_reference::stated::images;
use darthog_reference::stated::removes;
use darthog_reference::trial::fresh_of;

/// A fresh queue's bytes, by the library.
fn made(sizes: [u8; 3]) -> Vec<u8> {
    let [p, n, l] = sizes.map(u32::from);
    let queue = Queue::new(p, n, l).expect("sizes in range");
    queue.as_bytes().to_vec()
}

#[test]
fn the_printed_run_has_the_stated_images() {
    let mut lent = Lent::new(&[0xa5; 156], &mut Random::new(seed()));
    assert_eq!(lent.call(&Call::Make(1, 1, 1)), refused(0));
    let mut calls = printed()
        .iter()
        .map(Call::of)
        .collect::<Vec<_>>()
        .into_iter();
    let mut clock = 0;
    for (time, image) in images::printed() {
        while clock < time {
            let reply = lent.call(&calls.next().expect("the run is longer"));
            assert!(reply.code < 11, "{reply:?}");
            clock += 1;
        }
        assert_eq!(lent.now(), image, "at {time}");
    }
}

#[test]
fn a_begin_changes_the_stated_bytes() {
    let mut random = Random::new(seed());
    let began = Reply {
        first: 1,
        ..refused(0)
    };
    type Begin = fn(u32) -> Call;
    let tables: [(_, Begin); 2] = [
        (images::BEGUN, Call::DeleteMin),
        (images::BEGUN_RELAXED, Call::Relaxed),
    ];
    for (table, begin) in tables {
        for (sizes, changed) in table {
            let mut expected = made(sizes);
            let mut lent = Lent::new(&expected, &mut random);
            let call = begin(u32::from(sizes[0]) - 1);
            assert_eq!(lent.call(&call), began, "{sizes:?} {call:?}");
            for (at, byte) in changed {
                expected[at] = byte;
            }
            assert!(lent.now() == expected, "{sizes:?} {call:?}");
        }
    }
    let [due, ticket] = removes::BEGUN_KEY;
    for (sizes, changed) in removes::BEGUN {
        let mut expected = made(sizes);
        let mut lent = Lent::new(&expected, &mut random);
        let call = Call::Remove(u32::from(sizes[0]) - 1, due, ticket);
        assert_eq!(lent.call(&call), began, "{sizes:?} {call:?}");
        for (at, byte) in changed {
            expected[at] = byte;
        }
        assert!(lent.now() == expected, "{sizes:?} {call:?}");
    }
}

/// Every call on bytes, and a list: 21 and no change where they are not taken.
fn judge(bytes: &[u8], taken: bool, what: &str, random: &mut Random, counts: &mut Counts) {
    for call in [
        Call::Backlog,
        Call::Markers(400),
        Call::Markers(0),
        Call::Step(0),
        Call::DeleteMin(0),
        Call::Relaxed(0),
        Call::Remove(0, 7, 1),
        Call::Insert(0, 7, 42, 1),
        Call::Step(u32::MAX),
    ] {
        let mut lent = Lent::new(bytes, random);
        let got = lent.call(&call);
        assert_eq!(got != refused(21), taken, "{what}, {call:?}");
        assert!(taken || lent.now() == bytes, "{what}, {call:?}: a change");
        compare(bytes, &call, random, counts);
    }
    let mut lent = Lent::new(bytes, random);
    let (code, area) = lent.list(&[3, 0, 0, 0, 0], 5);
    assert_eq!(code, if taken { 0 } else { 21 }, "{what}, a list");
    assert_eq!(area != junk(5), taken, "{what}, a list's answers");
    let refusal = Queue::from_bytes(bytes).err();
    assert_eq!(refusal, (!taken).then_some(Refusal::BadRecord), "{what}");
}

#[test]
fn bytes_are_taken_and_refused_as_stated() {
    let mut random = Random::new(seed());
    let mut counts = Counts::default();
    for (sizes, at, byte, taken) in images::EDITS {
        let mut bytes = made(sizes);
        bytes[at] = byte;
        let what = format!("{sizes:?}: byte {at} is {byte}");
        judge(&bytes, taken, &what, &mut random, &mut counts);
    }
    for (sizes, at, stage, taken) in images::STAGES {
        let mut bytes = made(sizes);
        bytes[at..at + 4].copy_from_slice(&stage);
        let what = format!("{sizes:?}: stage {stage:?}");
        judge(&bytes, taken, &what, &mut random, &mut counts);
    }
    for (what, length, bytes) in images::refused() {
        assert_eq!(bytes.len(), length, "{what}");
        judge(&bytes, false, what, &mut random, &mut counts);
    }
    for (what, _, bytes) in images::pieces() {
        judge(&bytes, false, &what, &mut random, &mut counts);
    }
    counts.must_have(&[
        ("backlog", &[0, 21]),
        ("markers", &[0, 21]),
        ("step", &[21, 32, 34]),
    ]);
}

#[test]
fn bytes_of_a_remove_are_taken_and_refused_as_stated() {
    let mut random = Random::new(seed());
    let mut counts = Counts::default();
    for stored in removes::LOOKING.iter().chain(&removes::REMOVING) {
        let &(sizes, at, .., taken) = stored;
        let processor = removes::stored_bytes(stored);
        let mut bytes = made(sizes);
        bytes[at..at + processor.len()].copy_from_slice(&processor);
        let what = format!("{stored:?}");
        judge(&bytes, taken, &what, &mut random, &mut counts);
    }
    counts.must_have(&[("backlog", &[0, 21]), ("step", &[1, 7, 8, 21])]);
}

/// The record with each processor idle that is in a Remove, which no earlier
/// release knows.
fn without_removes(record: &Record) -> Record {
    let mut without = record.clone();
    for (p, processor) in without.processors.iter_mut().enumerate() {
        let start = processor_at(p);
        let image = encode(record);
        let stored = image.get(start..start + PROCESSOR_BYTES);
        let in_remove = |bytes: &[u8]| bytes[BEFORE_REMOVES..].iter().any(|&byte| byte != 0);
        let known = p < usize::from(record.processor_count);
        if known && stored.is_some_and(in_remove) {
            *processor = Processor::made();
        }
    }
    without
}

/// How many bytes a processor had before there were Removes.
const BEFORE_REMOVES: usize = 17;

/// The pieces of an image: the front, each processor, and the nodes.
fn pieces(image: &[u8]) -> (&[u8], Vec<&[u8]>, &[u8]) {
    let nodes = node_at(usize::from(image[0]), 0);
    let processors = image[7..nodes].chunks_exact(PROCESSOR_BYTES);
    (&image[..7], processors.collect(), &image[nodes..])
}

/// The bytes of the release before there were Removes.
fn earlier(record: &Record) -> Vec<u8> {
    let image = encode(record);
    let (front, processors, nodes) = pieces(&image);
    let short: Vec<&[u8]> = processors
        .iter()
        .map(|all| &all[..BEFORE_REMOVES])
        .collect();
    [front, &short.concat(), nodes].concat()
}

/// The bytes of the first release: all 202 nodes behind the sizes and the clock,
/// then all 16 processors.
fn earliest(record: &Record) -> Vec<u8> {
    let mut whole = record.clone();
    (whole.processor_count, whole.node_count) = (16, 200);
    let image = encode(&whole);
    let (_, processors, nodes) = pieces(&image);
    let short: Vec<&[u8]> = processors
        .iter()
        .map(|all| &all[..BEFORE_REMOVES])
        .collect();
    [&encode(record)[..7], nodes, &short.concat()].concat()
}

/// What is copied of such bytes: nine bytes of 0 come behind each processor.
fn brought_over(front: &[u8], processors: &[u8], nodes: &[u8]) -> Vec<u8> {
    let mut image = front.to_vec();
    for processor in processors.chunks_exact(BEFORE_REMOVES) {
        image.extend(processor);
        image.extend([0; PROCESSOR_BYTES - BEFORE_REMOVES]);
    }
    image.extend(nodes);
    image
}

/// Records of runs, and fresh ones of the largest sizes.
fn records_of_runs() -> Vec<Record> {
    let largest = (1..=8).map(|levels| {
        fresh_of(Sizes {
            processors: 16,
            nodes: 200,
            levels,
        })
    });
    let of_runs = bases().into_iter().map(|(_, base)| without_removes(&base));
    of_runs.chain(largest).collect()
}

#[test]
fn bytes_of_an_earlier_release_are_refused_and_brought_over() {
    let mut random = Random::new(seed());
    let mut counts = Counts::default();
    for record in records_of_runs() {
        let (p, n) = (record.processor_count, record.node_count);
        let (of_processors, of_nodes) = (17 * usize::from(p), 41 * (usize::from(n) + 2));
        let old = earlier(&record);
        assert_eq!(old.len(), 7 + of_processors + of_nodes);
        let behind = 7 + of_processors;
        let image = brought_over(&old[..7], &old[7..behind], &old[behind..]);
        let oldest = earliest(&record);
        assert_eq!(oldest.len(), 8_561);
        let (nodes, processors) = (&oldest[7..7 + of_nodes], &oldest[8_289..]);
        let second = brought_over(&oldest[..7], &processors[..of_processors], nodes);
        for old in [old, oldest] {
            judge(&old, false, "an earlier release", &mut random, &mut counts);
        }
        assert!(image == encode(&record) && second == image, "brought over");
        judge(&image, true, "brought over", &mut random, &mut counts);
    }
    counts.must_have(&[("backlog", &[0, 21]), ("markers", &[0, 21, 43])]);
}

/// Before document 02's W6 a mark was 0 or 1. Such bytes are taken as before,
/// and each of their markers is processor 0.
#[test]
fn marks_of_an_earlier_release_are_those_of_processor_0() {
    let mut random = Random::new(seed());
    let mut counts = Counts::default();
    let (mut changed, mut told) = (0, 0);
    for (_, mut record) in bases() {
        for node in &mut record.nodes {
            changed += usize::from(node.mark > 1);
            node.mark = node.mark.min(1);
        }
        let image = encode(&record);
        judge(&image, true, "before W6", &mut random, &mut counts);
        let queue = Queue::from_bytes(&image).expect("it is taken");
        let nodes = queue.markers().expect("it is taken");
        assert!(nodes.iter().all(|node| node.marker.unwrap_or(0) == 0));
        told += nodes.iter().filter(|node| node.marker.is_some()).count();
    }
    println!("{changed} marks of another processor, {told} markers of nodes in use");
    assert!(changed > 10 && told > 3, "{changed} {told}");
}
