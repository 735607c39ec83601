//! Random schedules of calls on one queue: after each call the bytes are the
//! image of the reference's record, the reply is the reference's, and so is what
//! an area for markers holds.

mod common;

use common::{call_on, expected_area, refused, seed, Call, Counts, Lent};
use darthog_reference::answer::{Answer, Entry};
use darthog_reference::calls::Outcome;
use darthog_reference::image::encode;
use darthog_reference::markers::Listing;
use darthog_reference::queue::MAX_NUMBER;
use darthog_reference::random::Random;
use darthog_reference::schedule::{Schedule, Sizes};
use darthog_reference::trial::fresh_of;

const SCHEDULES: u64 = 250;
const CALLS: u64 = 1500;

/// What a schedule takes notice of.
fn outcome_of(call: &Call, reply: &darthog_host::raw::Reply) -> Outcome {
    let entry = Entry {
        due: reply.first,
        item: reply.second,
        ticket: reply.third,
    };
    match (call, reply.code) {
        (Call::Insert(..) | Call::DeleteMin(_) | Call::Relaxed(_) | Call::Remove(..), 0) => {
            Outcome::Began(reply.first)
        }
        (Call::Markers(_), 0) => Outcome::Listed(Listing {
            nodes: reply.first,
            area: Vec::new(),
        }),
        (_, 0) => Outcome::Count(reply.first),
        (_, 1) => Outcome::Stepped(Answer::Moved),
        (_, 2) => Outcome::Stepped(Answer::Waits {
            holder: reply.first as u8,
        }),
        (_, 3) => Outcome::Stepped(Answer::Empty),
        (_, 4) => Outcome::Stepped(Answer::Marked(entry)),
        (_, 5) => Outcome::Stepped(Answer::Inserted(entry)),
        (_, 6) => Outcome::Stepped(Answer::HandedOut(entry)),
        (_, 7) => Outcome::Stepped(Answer::TakenBack(entry)),
        (_, 8) => Outcome::Stepped(Answer::NotThere {
            due: reply.first,
            ticket: reply.second,
        }),
        (_, number) => Outcome::Refused(number),
    }
}

fn sizes_of(number: u64, random: &mut Random) -> Sizes {
    match number % 3 {
        0 => Sizes::small(random),
        1 => Sizes::middle(random),
        _ => Sizes::large(random),
    }
}

/// A queue of these sizes, made in bytes that held anything.
fn made(sizes: Sizes, random: &mut Random, counts: &mut Counts) -> Lent {
    let image = encode(&fresh_of(sizes));
    let junk: Vec<u8> = image.iter().map(|_| random.draw() as u8).collect();
    let mut lent = Lent::new(&junk, random);
    let (p, n, l) = (sizes.processors, sizes.nodes, sizes.levels);
    let make = Call::Make(p as u32, n as u32, l as u32);
    assert_eq!(lent.call(&make), refused(0));
    assert!(lent.now() == image, "the fresh queue of {sizes:?}");
    counts.note(make.entry(), 0);
    lent
}

fn run(number: u64, random: &mut Random, counts: &mut Counts) {
    let sizes = sizes_of(number, random);
    let mut record = fresh_of(sizes);
    let mut lent = made(sizes, random, counts);
    // one schedule in five runs into the end of the clock
    if number % 5 == 4 {
        record.clock = MAX_NUMBER - 400;
        lent.put(&encode(&record));
    }
    let mut schedule = Schedule::new(random.draw(), sizes);
    for at in 0..CALLS {
        let asked = schedule.next_call();
        let call = Call::of(&asked);
        let before = lent.now().to_vec();
        let reply = lent.call(&call);
        assert_eq!(
            reply,
            call_on(&mut record, &call),
            "schedule {number}, call {at}: {call:?}"
        );
        let after = encode(&record);
        assert!(
            lent.now() == after,
            "schedule {number}, call {at}: {call:?} {reply:?}: other bytes"
        );
        let accepted = reply.code < 11 && !call.only_reads();
        assert_eq!(before != after, accepted, "{call:?} {reply:?}");
        if let Call::Markers(room) = call {
            let area = expected_area(&after, room);
            assert!(lent.area == area, "schedule {number}, call {at}: {call:?}");
        }
        counts.note_reply(call.entry(), &reply);
        schedule.note(&asked, &outcome_of(&call, &reply));
    }
}

#[test]
fn every_call_of_a_schedule_leaves_the_image_of_the_references_record() {
    let mut random = Random::new(seed());
    let mut counts = Counts::default();
    for number in 0..SCHEDULES {
        run(number, &mut random, &mut counts);
    }
    counts.must_have(&[
        ("make", &[0]),
        ("insert", &[0, 31, 32, 33, 35, 39, 36, 37]),
        ("delete_min", &[0, 31, 32, 33]),
        ("relaxed", &[0, 31, 32, 33]),
        ("remove", &[0, 31, 32, 33, 38]),
        ("step", &[1, 2, 3, 4, 5, 6, 7, 8, 31, 32, 34]),
        ("backlog", &[0]),
        ("markers", &[0, 43]),
    ]);
    counts.must_wait_for(16);
}
