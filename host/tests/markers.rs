//! Markers. With what is expected written by hand: which nodes are told of, how
//! long an area must be, and what is told along some runs. And beside the
//! reference: records that no run reached, damaged ones, areas of any length.
//! Through the C entry and through the crate. Nodes past the tail, which are not
//! told of, are in no image at all.

mod common;

use common::{any_call, any_room, compare, expected, refused, reply_of, seed, untouched, written};
use common::{Call, Counts, Lent};
use darthog_host::{Marker, Queue, Refusal};
use darthog_reference::any_record::any_record;
use darthog_reference::image::{decode, encode, node_at};
use darthog_reference::queue::{fresh, Queue as Record};
use darthog_reference::random::Random;
use darthog_reference::stated::markers::{records, rooms, runs, Run, Told};

/// What the crate makes of these bytes.
fn markers_of(bytes: &[u8]) -> Vec<Marker> {
    let of = |pair: &[u8]| Marker {
        node: pair[0],
        marker: (pair[1] != 255).then_some(pair[1]),
    };
    bytes.chunks_exact(2).map(of).collect()
}

/// The entry writes these bytes and gives their nodes where the area is long
/// enough, and is refused with 43 and writes nothing where it is not; no byte of
/// the image changes. The crate tells the same.
fn judge(lent: &mut Lent, bytes: &[u8], what: &str) -> usize {
    let image = lent.now().to_vec();
    let mut count = refused(0);
    count.first = bytes.len() as u32 / 2;
    let (enough, too_short) = rooms(bytes.len() / 2);
    for room in enough.iter().map(|&room| room as u32) {
        let got = lent.call(&Call::Markers(room));
        assert_eq!(got, count, "{what}, area of {room}");
        let area = written(room, bytes);
        assert!(lent.area == area, "{what}, area of {room}: other bytes");
    }
    for room in too_short.iter().map(|&room| room as u32) {
        let got = lent.call(&Call::Markers(room));
        assert_eq!(got, refused(43), "{what}, area of {room}");
        let left = lent.area == untouched(room);
        assert!(left, "{what}, area of {room}: it is written");
    }
    assert!(lent.now() == image, "{what}: a byte of the image changed");
    let kept = Queue::from_bytes(&image).expect("check 21 takes it");
    assert_eq!(kept.markers(), Ok(markers_of(bytes)), "{what}: the crate");
    enough.len() + too_short.len()
}

#[test]
fn the_stated_nodes_are_told() {
    let mut random = Random::new(seed());
    let (mut cases, mut areas) = (0, 0);
    for Told { what, queue, bytes } in records() {
        let mut lent = Lent::new(&encode(&queue), &mut random);
        areas += judge(&mut lent, &bytes, &what);
        cases += 1;
    }
    println!("{cases} records, {areas} areas");
    assert!(cases > 700 && areas > 5_000, "{cases} {areas}");
}

#[test]
fn the_stated_runs_have_the_stated_markers() {
    let mut random = Random::new(seed());
    for run in runs() {
        let Run { what, calls, .. } = run;
        let mut record = fresh(run.processors.into(), 1, 1).expect("the sizes are in range");
        let mut lent = Lent::new(&encode(&record), &mut random);
        let mark_at = node_at(run.processors as usize, 1) + 17;
        let mut calls = calls.into_iter();
        for (from, to, bytes, mark) in run.spans {
            for time in *from..=*to {
                let what = format!("{what}, at {time}");
                let clock = Queue::from_bytes(lent.now()).map(|queue| queue.clock());
                assert_eq!(clock, Ok(time), "{what}");
                assert_eq!(lent.now()[mark_at], *mark, "{what}: the mark");
                judge(&mut lent, bytes, &what);
                if let Some(asked) = calls.next() {
                    let got = lent.call(&Call::of(&asked));
                    assert_eq!(got, reply_of(&record.call(&asked)), "{what}");
                }
            }
        }
        assert_eq!(calls.next(), None, "{what} is longer");
    }
}

/// Any record, half of them with damage: a mark or another number out of its
/// range, any byte, or a length that is no image's.
#[test]
fn any_record_and_any_area_as_the_reference() {
    let mut random = Random::new(seed());
    let mut counts = Counts::default();
    for _ in 0..20_000 {
        let record = any_record(&mut random);
        let mut bytes = encode(&record);
        let p = usize::from(record.processor_count);
        let node = random.between(0, u64::from(record.tail())) as usize;
        match random.below(10) {
            0 => bytes[node_at(p, node) + 17] = p as u8 + 1,
            1 => bytes[node_at(p, node) + 17] = random.between(p as u64 + 1, 255) as u8,
            2 => bytes[6] = 1,
            3 => {
                let at = random.below(bytes.len() as u64) as usize;
                bytes[at] = random.draw() as u8;
            }
            4 => bytes.truncate(random.below(bytes.len() as u64) as usize),
            _ => {}
        }
        let room = any_room(&mut random, &record);
        compare(&bytes, &Call::Markers(room), &mut random, &mut counts);
        let told = Queue::from_bytes(&bytes).and_then(|queue| queue.markers());
        assert_eq!(told, by_the_reference(&bytes));
    }
    counts.must_have(&[("markers", &[0, 21, 43])]);
}

/// What the crate gives for any bytes, by the reference.
fn by_the_reference(bytes: &[u8]) -> Result<Vec<Marker>, Refusal> {
    let record = decode(bytes).ok_or(Refusal::BadRecord)?;
    let mut area = [0; 400];
    match record.markers(&mut area) {
        Ok(nodes) => Ok(markers_of(&area[..2 * nodes as usize])),
        Err(number) => Err(Refusal::from_number(number).expect("a known number")),
    }
}

/// The greatest mark is that of the last processor, in the head and the tail
/// too; one above it is 21, before 43.
#[test]
fn a_mark_of_no_processor_is_21_before_43() {
    let mut random = Random::new(seed());
    for p in 1..=16 {
        let mut record = fresh(p, 3, 2).expect("the sizes are in range");
        record.begin_insert(0, 7, 42, 1).expect("a node is free");
        let image = encode(&record);
        for node in 0..=4 {
            for (mark, taken) in [(p as u8, true), (p as u8 + 1, false), (255, false)] {
                let mut bytes = image.clone();
                bytes[node_at(p as usize, node) + 17] = mark;
                let mut lent = Lent::new(&bytes, &mut random);
                let marker = if node == 1 { mark - 1 } else { 255 };
                for (room, code) in [(0, 43), (1, 43), (2, 0), (3, 0)] {
                    let got = lent.call(&Call::Markers(room));
                    let what = format!("P {p}, node {node}, mark {mark}, area of {room}");
                    let (number, front) = match (taken, code) {
                        (false, _) => (21, &[][..]),
                        (true, 0) => (0, &[1, marker][..]),
                        (true, _) => (code, &[][..]),
                    };
                    assert_eq!(got.code, number, "{what}");
                    assert!(lent.area == written(room, front), "{what}: the area");
                }
                assert!(lent.now() == bytes, "P {p}: a byte of the image changed");
            }
        }
    }
}

/// Where the marks of an image stand, and the image with each that is set as
/// that of another processor.
fn marked_by_others(record: &Record, random: &mut Random) -> (Vec<usize>, Vec<u8>) {
    let p = usize::from(record.processor_count);
    let places: Vec<usize> = (0..=usize::from(record.tail()))
        .map(|node| node_at(p, node) + 17)
        .collect();
    let mut other = encode(record);
    for &at in &places {
        if other[at] != 0 {
            other[at] = random.between(1, p as u64) as u8;
        }
    }
    (places, other)
}

/// Whoever set the marks: a call gives the same, and leaves the same bytes but
/// for the marks, of which the same are set.
#[test]
fn no_call_looks_at_who_set_a_mark() {
    let mut random = Random::new(seed());
    let (mut differ, mut marked) = (0, 0);
    for _ in 0..20_000 {
        let record = any_record(&mut random);
        let (places, other) = marked_by_others(&record, &mut random);
        let call = match any_call(&mut random, &record) {
            // its area tells who
            Call::Markers(_) | Call::Make(..) => Call::Step(0),
            call => call,
        };
        let image = encode(&record);
        let mut first = Lent::new(&image, &mut random);
        let mut second = Lent::new(&other, &mut random);
        let (one, two) = (first.call(&call), second.call(&call));
        assert_eq!(one, two, "{call:?}");
        assert_eq!(one, expected(&image, &call).0, "{call:?}");
        let (mut left, mut right) = (first.now().to_vec(), second.now().to_vec());
        for &at in &places {
            left[at] = left[at].min(1);
            right[at] = right[at].min(1);
        }
        assert!(left == right, "{call:?}: other bytes");
        differ += u64::from(image != other);
        marked += u64::from(one.code == 4);
    }
    println!("{differ} images with other marks, {marked} marks set");
    assert!(differ > 10_000 && marked > 50, "{differ} {marked}");
}
