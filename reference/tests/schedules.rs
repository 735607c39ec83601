//! Random schedules: every answer goes through the book and the table of
//! refusals, every step at a lock takes it or names its holder, and the backlog,
//! the markers and the whole invariant are looked at after every single call, on
//! the large sizes too. The two tests together make 5,000,000 calls and more.

use darthog_reference::queue::MAX_NUMBER;
use darthog_reference::random::Random;
use darthog_reference::schedule::Sizes;
use darthog_reference::tally::{Relaxed, Removes, Tally};
use darthog_reference::trial::{fresh_of, Trial};

/// Calls of each of the two tests.
const CALLS: u64 = 2_500_000;

/// Plays schedules from `seed` on until so many calls are made. Of twenty
/// runs fourteen are small, five of middle size and one is large and long.
fn play_many(seed: u64) -> Tally {
    let mut total = Tally::default();
    let mut random = Random::new(seed);
    while total.calls < CALLS {
        let (sizes, calls) = match random.below(20) {
            0 => (Sizes::large(&mut random), 4000),
            1..=5 => (Sizes::middle(&mut random), 3000),
            _ => (Sizes::small(&mut random), 2000),
        };
        let seed = random.draw();
        let mut trial = Trial::new(fresh_of(sizes), seed, sizes);
        if let Err(failure) = trial.play(calls, 1) {
            panic!("{failure:?}");
        }
        total.add(&trial.tally);
    }
    total
}

/// Steps waited at G2 of an Insert and of a removal, at L1 and at L2, and for every
/// processor. At L1 it is the remover of an entry that a Relaxed walk has marked
/// before its Insert gave the node lock back.
fn assert_waits(total: &Tally) {
    let [insert, removal, node, own] = total.waits_at;
    assert!(
        insert > 10_000 && removal > 5_000 && node > 5_000 && own > 300,
        "{total:?}"
    );
    assert_eq!(insert + removal + node + own, total.waits, "{total:?}");
    assert!(total.waits_for.iter().all(|&count| count > 30), "{total:?}");
    assert_eq!(total.waits_for.iter().sum::<u64>(), total.waits);
}

/// Relaxed Delete_Mins began, marked and found nothing often; so did all that
/// they alone bring about (document 02, W3).
fn assert_relaxed(relaxed: &Relaxed) {
    for count in [
        relaxed.begun,
        relaxed.marked,
        relaxed.empty,
        relaxed.marks_lost,
    ] {
        assert!(count > 10_000, "{relaxed:?}");
    }
    for count in [
        relaxed.unanswered,
        relaxed.unlinked,
        relaxed.led_back,
        relaxed.led_to_head,
        relaxed.answered_late,
        relaxed.reused,
    ] {
        assert!(count > 1_000, "{relaxed:?}");
    }
}

/// Removes began, took entries back and ended without one often, for each cause,
/// and met other Removes and walks (document 02, W5).
fn assert_removes(removes: &Removes) {
    for count in [removes.begun, removes.tail, removes.other_key] {
        assert!(count > 10_000, "{removes:?}");
    }
    for count in [
        removes.future,
        removes.marked,
        removes.taken_back,
        removes.unanswered,
        removes.answered_late,
        removes.marks_lost,
        removes.lost_to_remove,
        removes.beaten_walks,
        removes.waits,
    ] {
        assert!(count > 1_000, "{removes:?}");
    }
    assert!(removes.read_on > 100 && removes.led_back > 100);
    let ended = removes.taken_back + removes.not_there();
    assert!(ended <= removes.begun && removes.taken_back <= removes.marked);
}

/// Every kind of answer and refusal but 31 came up, and often, and so did the
/// rarer turns of an operation.
fn assert_rich(total: &Tally) {
    eprintln!("{total:?}");
    assert_eq!(total.invariant, total.calls);
    assert!(total.calls >= CALLS);
    assert_waits(total);
    assert_relaxed(&total.relaxed);
    assert_removes(&total.removes);
    for count in [
        total.moved,
        total.waits,
        total.inserted,
        total.marked,
        total.handed,
        total.empty,
        total.backlogs,
        total.listings,
        total.markers,
        total.fewer_than_in_use,
        total.reused,
    ] {
        assert!(count > 10_000, "{total:?}");
    }
    for count in [total.moved_on, total.marks_lost, total.led_back] {
        assert!(count > 300, "{total:?}");
    }
    for number in [2, 3, 4, 5, 6, 7, 8, 9, 13] {
        assert!(total.refused[number] > 1000, "{total:?}");
    }
}

#[test]
fn random_schedules_keep_book_refusals_and_invariant_first_half() {
    assert_rich(&play_many(1));
}

#[test]
fn random_schedules_keep_book_refusals_and_invariant_second_half() {
    assert_rich(&play_many(2));
}

/// Runs up to the end of the clock: after its last tick every begin and step
/// is refused with 31, before any other refusal; Backlog and markers still answer.
/// Book, refusals and invariant are followed at every call here too.
#[test]
fn long_runs_reach_the_end_of_the_clock() {
    for seed in [3, 4] {
        let sizes = Sizes {
            processors: 2,
            nodes: 2,
            levels: seed - 2,
        };
        let mut trial = Trial::new(fresh_of(sizes), seed, sizes);
        while trial.machine.clock < MAX_NUMBER - 100 {
            trial.play(100, 1).expect("the run agrees");
        }
        trial.play(400, 1).expect("the run agrees at the end");
        assert_eq!(trial.machine.clock, MAX_NUMBER);
        assert_eq!(trial.book.count, MAX_NUMBER);
        let tally = &trial.tally;
        eprintln!("{tally:?}");
        assert_eq!(tally.invariant, tally.calls);
        assert!(tally.refused[1] > 100 && tally.reused > 10_000, "{tally:?}");
    }
}
