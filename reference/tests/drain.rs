//! The book alone accepts a queue that sticks. So runs are stopped in the
//! middle and drained: nothing more is begun, the busy processors take turns,
//! and every operation must end.

use darthog_reference::random::Random;
use darthog_reference::schedule::Sizes;
use darthog_reference::tally::Tally;
use darthog_reference::trial::{drain_bound, fresh_of, Trial};

#[test]
fn every_operation_ends_when_nothing_more_is_begun() {
    let mut random = Random::new(7);
    let mut busy_runs = 0;
    let mut drained = Tally::default();
    let mut most = 0.0f64;
    for run in 0..6000 {
        let (sizes, calls) = match run % 30 {
            0 => (Sizes::large(&mut random), random.below(4000)),
            1..=8 => (Sizes::middle(&mut random), random.below(600)),
            _ => (Sizes::small(&mut random), random.below(200)),
        };
        let mut trial = Trial::new(fresh_of(sizes), random.draw(), sizes);
        trial.play_by_book(calls).expect("the run agrees");
        let bound = drain_bound(sizes);
        trial.tally = Tally::default();
        let turns = match trial.drain(bound) {
            Ok(turns) => turns,
            Err(failure) => panic!("{failure:?}"),
        };
        if turns > 0 {
            busy_runs += 1;
        }
        most = most.max(turns as f64 / bound as f64);
        drained.add(&trial.tally);
        let idle = trial.machine.busy().next().is_none();
        assert!(idle, "{sizes:?}");
        // What is left are the entries that nobody marked, all answered.
        let left = trial.book.entries.len() as u32;
        assert_eq!(trial.machine.in_use(), left);
        assert_eq!(trial.machine.backlog_inner(), left);
        assert!(trial
            .book
            .entries
            .iter()
            .all(|written| written.answered.is_some() && !written.marked));
    }
    eprintln!("{busy_runs} runs were stopped in the middle, {most:.3} of the bound at most");
    assert!(busy_runs > 5000);
    assert_operations(&drained);
}

fn assert_operations(drained: &Tally) {
    assert_relaxed(drained);
    assert_removes(drained);
}

/// Among the operations that ended were Relaxed Delete_Mins, before their mark
/// and after it.
fn assert_relaxed(drained: &Tally) {
    let (relaxed, [.., at_l1, _]) = (drained.relaxed, drained.waits_at);
    eprintln!("while they were drained: {relaxed:?}, {at_l1} waits at L1");
    for count in [
        relaxed.marked,
        relaxed.empty,
        relaxed.unanswered,
        relaxed.marks_lost,
        relaxed.led_to_head,
        relaxed.answered_late,
        at_l1,
    ] {
        assert!(count > 30, "{relaxed:?}, {at_l1} waits at L1");
    }
}

/// Among them were Removes, before their mark and after it, and with every cause
/// to end without an entry.
fn assert_removes(drained: &Tally) {
    let removes = drained.removes;
    eprintln!("while they were drained: {removes:?}");
    for count in [
        removes.marked,
        removes.taken_back,
        removes.tail,
        removes.other_key,
        removes.unanswered,
        removes.answered_late,
        removes.marks_lost,
        removes.lost_to_remove,
        removes.beaten_walks,
        removes.waits,
    ] {
        assert!(count > 10, "{removes:?}");
    }
}
