//! The Remove, with what is expected written by hand: its runs with what Backlog
//! gives along them, the bytes of one of them, single steps on records that most
//! runs do not lead to, and what refuses it. One call at a time, as lists, and
//! through the crate, on bytes. tests/sheets.rs has its sheets, tests/images.rs
//! bytes that are taken and refused.

mod common;

use common::{counted_runs, has_images, refused, reply, seed, stated_step, Call, Counts, Lent};
use darthog_host::{Call as Asked, Entry, Queue, Refusal, Step};
use darthog_reference::image::encode;
use darthog_reference::random::Random;
use darthog_reference::stated::items::no_node_free;
use darthog_reference::stated::removes::{images, runs, taken_back, REFUSED_CALLS, TAKEN_KEYS};
use darthog_reference::stated::seeks::cases;

#[test]
fn the_stated_runs_go_as_stated() {
    let counts = counted_runs(runs());
    counts.must_have(&[
        ("remove", &[0, 33]),
        ("delete_min", &[0]),
        ("relaxed", &[0]),
        ("insert", &[0, 37]),
        ("step", &[1, 2, 3, 4, 5, 6, 7, 8, 34]),
    ]);
}

#[test]
fn the_first_run_has_the_stated_images() {
    has_images(taken_back(0, 1), images());
}

#[test]
fn steps_of_a_remove_do_as_stated_on_any_record() {
    let mut random = Random::new(seed());
    let mut counts = Counts::default();
    for case in cases() {
        let (what, p) = (&case.what, case.processor);
        let (image, after) = (encode(&case.queue), encode(&case.after));
        let [code, first, second, third] = case.reply;
        let answer = [code, first, second, third, case.after.clock];
        let got = stated_step(what, p, [&image, &after], answer, &mut random);
        counts.note_reply("step", &got);

        let mut queue = Queue::from_bytes(&image).expect("check 21 takes it");
        let entry = Entry {
            due: first,
            item: second,
            ticket: third,
        };
        let step = match code {
            1 => Step::Moved,
            4 => Step::Marked(entry),
            7 => Step::TakenBack(entry),
            _ => Step::NotThere {
                due: first,
                ticket: second,
            },
        };
        assert_eq!(queue.step(p), Ok(step), "{what}: the crate");
        assert!(queue.as_bytes() == after, "{what}: the crate's bytes");
    }
    counts.must_have(&[("step", &[1, 4, 7, 8])]);
}

/// 21 before 31 before 32 before 33 before 38, and no byte changes.
#[test]
fn a_remove_is_refused_in_order() {
    let mut random = Random::new(seed());
    let record = no_node_free();
    for ([p, due, ticket], number) in REFUSED_CALLS {
        for (clock, number) in [(1, number), (999_999, 31), (1_000_000, 21)] {
            let mut other = record.clone();
            other.clock = clock;
            let image = encode(&other);
            let mut lent = Lent::new(&image, &mut random);
            let what = format!("{p} {due} {ticket} at {clock}");
            let got = lent.call(&Call::Remove(p, due, ticket));
            assert_eq!(got, refused(number), "{what}");
            assert!(lent.now() == image, "{what}: a byte changed");
        }
        let mut queue = Queue::from_bytes(&encode(&record)).expect("an image");
        let refusal = Refusal::from_number(number).expect("a known number");
        assert_eq!(queue.begin_remove(p, due, ticket), Err(refusal));
        let answers = queue.calls(&[Asked::remove(p, due, ticket)]);
        let done = answers.expect("an image")[0].done();
        assert_eq!(done, Err(refusal), "{p} {due} {ticket}: as a list");
        assert!(queue.as_bytes() == encode(&record), "a byte changed");
    }
}

/// A key in range is taken whatever the clock is, above it too.
#[test]
fn a_remove_begins_with_every_key_in_range() {
    let mut random = Random::new(seed());
    for [due, ticket] in TAKEN_KEYS {
        for clock in [1, 2, 999_998] {
            let mut record = no_node_free();
            record.clock = clock;
            let mut lent = Lent::new(&encode(&record), &mut random);
            let mut queue = Queue::from_bytes(lent.now()).expect("an image");
            let what = format!("{due} {ticket} at {clock}");
            let began = reply([0, clock + 1, 0, 0]);
            assert_eq!(lent.call(&Call::Remove(1, due, ticket)), began, "{what}");
            assert_eq!(queue.begin_remove(1, due, ticket), Ok(clock + 1), "{what}");
            assert!(lent.now() == queue.as_bytes(), "{what}");
            // the record that it leaves is taken as well
            let number = if clock == 999_998 { 31 } else { 1 };
            assert_eq!(lent.call(&Call::Step(1)).code, number, "{what}");
        }
    }
}
