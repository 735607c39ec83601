//! The Relaxed Delete_Min, with what is expected written by hand: its runs with
//! what Backlog gives along them, the bytes of one of them, and single steps on
//! records that most runs do not lead to. One call at a time, as lists, and
//! through the crate, on bytes. tests/sheets.rs has its sheets.

mod common;

use common::{counted_runs, has_images, refused, seed, stated_step, Call, Counts, Lent};
use darthog_host::{Call as Asked, Done, Queue, Refusal, Step};
use darthog_reference::image::encode;
use darthog_reference::random::Random;
use darthog_reference::stated::relaxed::{before_its_answer, images, runs};
use darthog_reference::stated::walks::cases;

#[test]
fn the_stated_runs_go_as_stated() {
    let counts = counted_runs(runs());
    counts.must_have(&[
        ("relaxed", &[0, 32, 33]),
        ("delete_min", &[0]),
        ("insert", &[0, 37]),
        ("step", &[1, 2, 3, 4, 5, 6]),
    ]);
}

#[test]
fn the_first_run_has_the_stated_images() {
    has_images(before_its_answer(0, 1), images());
}

#[test]
fn steps_of_a_relaxed_walk_do_as_stated_on_any_record() {
    let mut random = Random::new(seed());
    let mut counts = Counts::default();
    for case in cases() {
        let (what, p) = (&case.what, case.processor);
        let (image, after) = (encode(&case.queue), encode(&case.after));
        let [code, first, second, third] = case.reply;
        let answer = [code, first, second, third, case.after.clock];
        let got = stated_step(what, p, [&image, &after], answer, &mut random);
        counts.note_reply("step", &got);

        let mut queue = Queue::from_bytes(&image).expect("check 21 takes it");
        let marked = matches!(queue.step(p), Ok(Step::Marked(_)));
        assert_eq!(marked, code == 4, "{what}: the crate");
        assert!(queue.as_bytes() == after, "{what}: the crate's bytes");
    }
    counts.must_have(&[("step", &[1, 3, 4])]);
}

/// Refused as the begin of an ordinary one: 31 before 32 before 33, and no byte
/// changes.
#[test]
fn a_relaxed_begin_is_refused_in_order() {
    let mut random = Random::new(seed());
    let mut queue = Queue::new(2, 1, 1).expect("the sizes are in range");
    assert_eq!(queue.begin_relaxed(2), Err(Refusal::NoProcessor));
    assert_eq!(queue.begin_relaxed(0), Ok(1));
    assert_eq!(queue.begin_relaxed(0), Err(Refusal::Busy));
    assert_eq!(queue.begin_delete_min(0), Err(Refusal::Busy));
    let list = [Asked::relaxed(2), Asked::relaxed(0), Asked::relaxed(1)];
    let answers = queue.calls(&list).expect("its bytes are an image");
    let done: Vec<_> = answers.iter().map(|answer| answer.done()).collect();
    let refusals = [Err(Refusal::NoProcessor), Err(Refusal::Busy)];
    assert_eq!(done, [&refusals[..], &[Ok(Done::Began(2))]].concat());

    let mut bytes = queue.as_bytes().to_vec();
    for (clock, number) in [(999_999u32, 31), (1_000_000, 21)] {
        bytes[3..7].copy_from_slice(&clock.to_le_bytes());
        for processor in [0, 1, 2, u32::MAX] {
            let mut lent = Lent::new(&bytes, &mut random);
            let got = lent.call(&Call::Relaxed(processor));
            assert_eq!(got, refused(number), "processor {processor}");
            assert!(lent.now() == bytes, "{number} changed a byte");
        }
    }
}
