//! The safe interface: the same schedules, over `Queue`, one call at a time and
//! as lists.

mod common;

use common::{edge, seed};
use darthog_host::{due_minute, image_length, Answer as Told, Call as Asked, Done};
use darthog_host::{Entry, Marker, Queue, Refusal, Step, MAX_IMAGE_LENGTH};
use darthog_reference::answer::{self, Answer};
use darthog_reference::calls::{Call, Outcome};
use darthog_reference::image::encode;
use darthog_reference::queue::{due_from_seconds, fresh, MAX_NUMBER};
use darthog_reference::random::Random;
use darthog_reference::schedule::{Schedule, Sizes};
use darthog_reference::stated::images::LENGTHS;
use darthog_reference::stated::minutes::{MINUTES, TOO_MANY_SECONDS};
use darthog_reference::trial::fresh_of;
use std::collections::BTreeMap;

fn same_entry(entry: answer::Entry) -> Entry {
    Entry {
        due: entry.due,
        item: entry.item,
        ticket: entry.ticket,
    }
}

fn same_step(answer: Answer) -> Step {
    match answer {
        Answer::Moved => Step::Moved,
        Answer::Waits { holder } => Step::Waits { holder },
        Answer::Empty => Step::Empty,
        Answer::Marked(entry) => Step::Marked(same_entry(entry)),
        Answer::Inserted(entry) => Step::Inserted(same_entry(entry)),
        Answer::HandedOut(entry) => Step::HandedOut(same_entry(entry)),
        Answer::TakenBack(entry) => Step::TakenBack(same_entry(entry)),
        Answer::NotThere { due, ticket } => Step::NotThere { due, ticket },
    }
}

/// Every report of a begin or a step and every refusal of one is among the counts.
fn all_occurred(counts: &BTreeMap<String, u64>) {
    println!("{counts:?}");
    for wanted in [
        "began",
        "Moved",
        "Waits",
        "Empty",
        "Marked",
        "Inserted",
        "HandedOut",
        "TakenBack",
        "NotThere",
        "31",
        "32",
        "33",
        "34",
        "35",
        "38",
        "39",
        "36",
        "37",
    ] {
        assert!(counts.contains_key(wanted), "{wanted} never occurred");
    }
}

/// The name of what occurred, for the counts.
fn word(outcome: &Outcome) -> String {
    match outcome {
        Outcome::Began(_) => "began".to_string(),
        Outcome::Count(_) => "count".to_string(),
        Outcome::Listed(_) => "listed".to_string(),
        Outcome::Refused(number) => number.to_string(),
        Outcome::Stepped(answer) => {
            let words = format!("{answer:?}");
            words
                .split(['(', ' '])
                .next()
                .unwrap_or_default()
                .to_string()
        }
    }
}

/// A number of 32 bits in the place of a greater one.
fn cut(number: u64) -> u32 {
    u32::try_from(number).unwrap_or(u32::MAX)
}

/// What a begin gives; none for another call.
fn begun(queue: &mut Queue, call: &Call) -> Option<Result<u32, Refusal>> {
    Some(match *call {
        Call::Insert {
            processor,
            due,
            item,
            height,
        } => queue.begin_insert(cut(processor), cut(due), cut(item), cut(height)),
        Call::DeleteMin { processor } => queue.begin_delete_min(cut(processor)),
        Call::Relaxed { processor } => queue.begin_relaxed(cut(processor)),
        Call::Remove {
            processor,
            due,
            ticket,
        } => queue.begin_remove(cut(processor), cut(due), cut(ticket)),
        Call::Step { .. } | Call::Backlog | Call::Markers { .. } => return None,
    })
}

/// A call with numbers of 32 bits on the queue, beside the reference's outcome.
fn compare(queue: &mut Queue, call: &Call, outcome: &Outcome) {
    let refusal = |number: u32| Refusal::from_number(number).expect("a known number");
    let value = match *outcome {
        Outcome::Began(time) => Ok(time),
        Outcome::Count(count) => Ok(count),
        Outcome::Refused(number) => Err(refusal(number)),
        Outcome::Stepped(_) | Outcome::Listed(_) => Ok(0),
    };
    if let Some(got) = begun(queue, call) {
        assert_eq!(got, value, "{call:?}");
        return;
    }
    match *call {
        Call::Step { processor } => {
            let expected = match *outcome {
                Outcome::Stepped(answer) => Ok(same_step(answer)),
                _ => Err(value.expect_err("a step is answered or refused")),
            };
            assert_eq!(queue.step(cut(processor)), expected, "{call:?}");
        }
        Call::Backlog => assert_eq!(queue.backlog(), value),
        _ => compare_markers(queue, outcome),
    }
}

/// The queue lends enough, whatever room the reference was lent.
fn compare_markers(queue: &Queue, outcome: &Outcome) {
    let got = queue.markers();
    match outcome {
        Outcome::Listed(listing) => {
            let none = 255;
            let of = |(node, marker)| Marker {
                node,
                marker: (marker != none).then_some(marker),
            };
            assert_eq!(got, Ok(listing.pairs().map(of).collect()));
        }
        _ => {
            assert_eq!(*outcome, Outcome::Refused(43));
            assert!(got.is_ok_and(|nodes| !nodes.is_empty()), "none is in use");
        }
    }
}

#[test]
fn the_queue_does_what_the_reference_does() {
    let mut random = Random::new(seed());
    let mut counts: BTreeMap<String, u64> = BTreeMap::new();
    for number in 0..30 {
        let sizes = match number % 3 {
            0 => Sizes::small(&mut random),
            1 => Sizes::middle(&mut random),
            _ => Sizes::large(&mut random),
        };
        let mut record = fresh_of(sizes);
        let (p, n, l) = (sizes.processors, sizes.nodes, sizes.levels);
        let mut queue = Queue::new(p as u32, n as u32, l as u32).expect("sizes in range");
        assert!(queue.as_bytes()[..] == encode(&record));
        if number % 5 == 4 {
            record.clock = MAX_NUMBER - 400;
            queue = Queue::from_bytes(&encode(&record)).expect("an image");
        }
        let mut schedule = Schedule::new(random.draw(), sizes);
        for _ in 0..1000 {
            let call = schedule.next_call();
            let outcome = record.call(&call);
            compare(&mut queue, &call, &outcome);
            assert!(queue.as_bytes()[..] == encode(&record), "{call:?}");
            assert_eq!(queue.clock(), record.clock);
            *counts.entry(word(&outcome)).or_default() += 1;
            schedule.note(&call, &outcome);
            if random.one_in(100) {
                let copy = queue.clone();
                assert_eq!(Queue::from_bytes(queue.as_bytes()), Ok(copy));
            }
        }
    }
    all_occurred(&counts);
    for wanted in ["count", "listed", "43"] {
        assert!(counts.contains_key(wanted), "{wanted} never occurred");
    }
}

/// A call of a schedule as one of a list; Backlog and markers are none.
fn asked(call: &Call) -> Option<Asked> {
    match *call {
        Call::Insert {
            processor,
            due,
            item,
            height,
        } => Some(Asked::insert(
            cut(processor),
            cut(due),
            cut(item),
            cut(height),
        )),
        Call::DeleteMin { processor } => Some(Asked::delete_min(cut(processor))),
        Call::Relaxed { processor } => Some(Asked::relaxed(cut(processor))),
        Call::Remove {
            processor,
            due,
            ticket,
        } => Some(Asked::remove(cut(processor), cut(due), cut(ticket))),
        Call::Step { processor } => Some(Asked::step(cut(processor))),
        Call::Backlog | Call::Markers { .. } => None,
    }
}

/// What the reference gives back for a call of a list.
fn done(outcome: &Outcome) -> Result<Done, Refusal> {
    match *outcome {
        Outcome::Began(time) => Ok(Done::Began(time)),
        Outcome::Stepped(answer) => Ok(Done::Stepped(same_step(answer))),
        Outcome::Refused(number) => Err(Refusal::from_number(number).expect("a known number")),
        Outcome::Count(_) | Outcome::Listed(_) => panic!("a list has neither of these"),
    }
}

#[test]
fn a_list_does_what_the_reference_does_call_by_call() {
    let mut random = Random::new(seed());
    let mut counts: BTreeMap<String, u64> = BTreeMap::new();
    for number in 0..60 {
        let sizes = match number % 3 {
            0 => Sizes::small(&mut random),
            1 => Sizes::middle(&mut random),
            _ => Sizes::large(&mut random),
        };
        let mut record = fresh_of(sizes);
        if number % 5 == 4 {
            record.clock = MAX_NUMBER - 400;
        }
        let mut queue = Queue::from_bytes(&encode(&record)).expect("an image");
        let mut schedule = Schedule::new(random.draw(), sizes);
        for _ in 0..20 {
            let mut calls = Vec::new();
            let mut expected = Vec::new();
            for _ in 0..random.below(100) {
                let call = schedule.next_call();
                let Some(one) = asked(&call) else { continue };
                let outcome = record.call(&call);
                calls.push(one);
                expected.push((done(&outcome), record.clock));
                *counts.entry(word(&outcome)).or_default() += 1;
                schedule.note(&call, &outcome);
            }
            let answers = queue.calls(&calls).expect("its bytes are an image");
            let got: Vec<_> = answers
                .iter()
                .map(|a: &Told| (a.done(), a.clock()))
                .collect();
            assert_eq!(got, expected);
            assert!(queue.as_bytes() == encode(&record));
        }
    }
    all_occurred(&counts);
}

#[test]
fn the_bytes_are_as_many_as_stated() {
    for (p, n, length) in LENGTHS {
        let stated = (length > 0).then_some(length);
        assert_eq!(image_length(p, n), stated, "{p} processors, {n} entries");
        let made = Queue::new(p, n, 1).map(|queue| queue.as_bytes().len());
        assert_eq!(made.ok(), stated, "{p} processors, {n} entries");
    }
    assert_eq!(image_length(16, 200), Some(MAX_IMAGE_LENGTH));
}

#[test]
fn making_is_refused_with_the_references_number() {
    let mut random = Random::new(seed());
    let mut counts: BTreeMap<u32, u64> = BTreeMap::new();
    for _ in 0..3_000 {
        let (p, n, l) = (edge(&mut random), edge(&mut random), edge(&mut random));
        let made = Queue::new(p, n, l);
        match fresh(u64::from(p), u64::from(n), u64::from(l)) {
            Ok(record) => {
                assert!(made.expect("made").as_bytes()[..] == encode(&record));
                *counts.entry(0).or_default() += 1;
            }
            Err(number) => {
                assert_eq!(made.map_err(Refusal::number), Err(number));
                *counts.entry(number).or_default() += 1;
            }
        }
    }
    println!("{counts:?}");
    for number in [0, 11, 12, 13] {
        assert!(counts.contains_key(&number), "{number} never occurred");
    }
}

#[test]
fn bytes_that_the_library_does_not_take_make_no_queue() {
    let queue = Queue::new(2, 3, 4).expect("sizes in range");
    let bytes = queue.as_bytes().to_vec();
    assert_eq!(Queue::from_bytes(&bytes), Ok(queue));
    let mut long = bytes.clone();
    long.push(0);
    for other in [&[][..], &bytes[..1], &bytes[..bytes.len() - 1], &long] {
        assert_eq!(Queue::from_bytes(other), Err(Refusal::BadRecord));
    }
    // no processor, no level, an unknown stage, the mark of a third processor, a clock past its end
    for (at, value) in [(0, 0), (2, 0), (7 + 5, 33), (59 + 17, 3), (6, 1)] {
        let mut damaged = bytes.clone();
        damaged[at] = value;
        assert_eq!(Queue::from_bytes(&damaged), Err(Refusal::BadRecord));
    }
}

#[test]
fn a_due_minute_or_too_many_seconds() {
    for (seconds, minute) in MINUTES {
        assert_eq!(due_minute(seconds), Ok(minute), "{seconds} seconds");
    }
    for seconds in TOO_MANY_SECONDS {
        assert_eq!(due_minute(seconds), Err(Refusal::TooLarge));
    }
    let mut random = Random::new(seed());
    for _ in 0..1000 {
        let seconds = random.below(120_000_000);
        let found = due_minute(seconds).map_err(Refusal::number);
        assert_eq!(found, due_from_seconds(seconds), "{seconds} seconds");
    }
}

#[test]
fn each_refusal_has_its_number() {
    let numbers: Vec<u32> = Refusal::ALL
        .iter()
        .map(|refusal| refusal.number())
        .collect();
    let expected = [11, 12, 13, 21, 31, 32, 33, 34, 35, 38, 39, 36, 37, 43];
    assert_eq!(numbers, expected);
    for number in 0..=u32::from(u16::MAX) {
        let expected = numbers.contains(&number).then_some(number);
        assert_eq!(Refusal::from_number(number).map(Refusal::number), expected);
    }
    assert_eq!(Refusal::Idle.to_string(), "the processor is idle (34)");
    assert_eq!(Refusal::NoItem.to_string(), "item 0 (39)");
}

/// include/darthog.h says that a call takes less than 64 KiB of stack. The
/// thread has 64 KiB and what a thread needs for itself; past its end lies a
/// page that cannot be written to.
#[test]
fn the_calls_run_on_a_small_stack() {
    const OF_THE_THREAD: usize = 16 * 1024;
    let calls = || {
        let mut queue = Queue::new(16, 200, 8).expect("sizes in range");
        queue.begin_insert(0, 1, 2, 8).expect("a node is free");
        queue.begin_delete_min(1).expect("it is idle");
        while !matches!(queue.step(1).expect("it is busy"), Step::Empty) {}
        while !matches!(queue.step(0).expect("it is busy"), Step::Inserted(_)) {}
        queue.begin_relaxed(4).expect("it is idle");
        queue.begin_remove(5, 1, 1).expect("it is idle");
        assert_eq!(queue.step(5), Ok(Step::Moved));
        let list = [
            Asked::delete_min(2),
            Asked::step(2),
            Asked::relaxed(2),
            Asked::step(3),
        ];
        let answers = queue.calls(&list).expect("its bytes are an image");
        assert_eq!(answers[2].done(), Err(Refusal::Busy));
        assert_eq!(answers[3].done(), Err(Refusal::Idle));
        let told = queue.markers().expect("its bytes are an image");
        assert_eq!((told.len(), told[0].marker), (1, None));
        queue.backlog()
    };
    let thread = std::thread::Builder::new()
        .stack_size(64 * 1024 + OF_THE_THREAD)
        .spawn(calls)
        .expect("a thread");
    assert_eq!(thread.join().expect("it ended"), Ok(1));
}
