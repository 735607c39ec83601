//! Each mistake of document 01's "Where an implementer goes astray", two of
//! document 02's marks and those about its Relaxed Delete_Min and its Remove, put
//! in on purpose, are caught, and the right queue passes the very same calls.

use darthog_reference::book::Book;
use darthog_reference::calls::Call;
use darthog_reference::lists::{call_of, numbers_of};
use darthog_reference::misled::{Misled, MISLED};
use darthog_reference::mistakes::{Astray, Mistake, Wrong, ASTRAY};
use darthog_reference::queue::{fresh, Queue};
use darthog_reference::random::Random;
use darthog_reference::schedule::Sizes;
use darthog_reference::stated::items::no_node_free;
use darthog_reference::stated::lists::Turn;
use darthog_reference::stated::relaxed;
use darthog_reference::stated::removes;
use darthog_reference::stated::seeks;
use darthog_reference::stated::walks;
use darthog_reference::trial::{drain_bound, fresh_of, Failure, Machine, Trial};

const RUNS: u64 = 400;
const CALLS: u64 = 1500;

/// The seed and sizes of each run.
fn runs() -> Vec<(u64, Sizes)> {
    let mut random = Random::new(8);
    (0..RUNS)
        .map(|_| {
            let sizes = Sizes {
                processors: random.between(2, 4),
                nodes: random.between(2, 5),
                levels: random.between(1, 3),
            };
            (random.draw(), sizes)
        })
        .collect()
}

/// Plays a run by the book and drains it; gives the calls made.
fn play<M: Machine>(machine: M, seed: u64, sizes: Sizes) -> (Vec<Call>, Result<(), Failure>) {
    let mut trial = Trial::new(machine, seed, sizes);
    let mut end = trial.play_by_book(CALLS);
    if end.is_ok() {
        end = trial.drain(drain_bound(sizes)).map(|_| ());
    }
    (trial.calls, end)
}

/// The right queue takes these calls and agrees with the book.
fn right_takes(calls: &[Call], sizes: Sizes) {
    let mut queue = fresh_of(sizes);
    let mut book = Book::new();
    for call in calls {
        let outcome = queue.call_inner(call);
        book.enter(call, &outcome)
            .unwrap_or_else(|fault| panic!("{call:?} gave {outcome:?}: {fault}"));
    }
}

/// Runs the mistake and the right queue; gives what the mistake was caught at.
fn faults_of(mistake: Mistake) -> Vec<String> {
    let mut faults = Vec::new();
    for (seed, sizes) in runs() {
        let (_, right) = play(fresh_of(sizes), seed, sizes);
        if let Err(failure) = right {
            panic!("the right queue fails: {failure:?}");
        }
        let wrong = Wrong::new(fresh_of(sizes), mistake);
        let (calls, end) = play(wrong, seed, sizes);
        right_takes(&calls, sizes);
        if let Err(failure) = end {
            faults.push(failure.fault);
        }
    }
    eprintln!("{mistake:?}: caught in {} of {RUNS} runs", faults.len());
    faults
}

fn count(faults: &[String], words: &str) -> usize {
    faults.iter().filter(|fault| fault.contains(words)).count()
}

/// The searches go the wrong way: the book misses the pick. The walk sticks:
/// the book sees nothing, the drain does.
#[test]
fn copying_the_figures() {
    let faults = faults_of(Mistake::SearchWhileGreater);
    assert!(count(&faults, "not the pick") > 0, "{faults:?}");

    let faults = faults_of(Mistake::WalkSticks);
    assert!(!faults.is_empty());
    assert_eq!(count(&faults, "does not end"), faults.len(), "{faults:?}");
}

/// A Delete_Min begun between reading the clock and stamping takes an entry
/// filed during it.
#[test]
fn reading_the_clock_and_stamping_in_two_calls() {
    let faults = faults_of(Mistake::StampInTwoCalls);
    let marked = count(&faults, "marked, but there is no pick") + count(&faults, "not the pick");
    assert!(marked > 0, "{faults:?}");
}

/// An Insert that saved the removed node links behind it, and its entry is
/// never reached.
#[test]
fn leaving_a_removed_nodes_number_forward() {
    let faults = faults_of(Mistake::ForwardLeft);
    assert!(
        count(&faults, "EMPTY, but there is a pick") > 0,
        "{faults:?}"
    );
}

/// The head is marked as if it were an entry.
#[test]
fn a_walk_led_back_marks_the_head() {
    let faults = faults_of(Mistake::HeadMarked);
    let head = "Marked(Entry { due: 0, item: 0, ticket: 0 })";
    assert!(count(&faults, head) > 0, "{faults:?}");
}

/// A walk that tested the old entry's stamp marks the new entry, or is led
/// astray by the new forward numbers.
#[test]
fn an_unlinked_node_is_taken_at_once() {
    let faults = faults_of(Mistake::ReuseAtOnce);
    assert!(count(&faults, "marked, but") > 0, "{faults:?}");
}

/// The markers name another than who delivers the entry, and nothing else is
/// wrong.
#[test]
fn a_second_walk_takes_the_mark_over() {
    let faults = faults_of(Mistake::MarkTakenOver);
    let left_out = count(&faults, "markers without one that delivers an entry");
    let idle = count(&faults, "markers with one that delivers nothing");
    let twice = count(&faults, "markers with one that stands there twice");
    assert!(left_out > 0 && idle > 0 && twice > 0, "{faults:?}");
    assert_eq!(left_out + idle + twice, faults.len(), "{faults:?}");
}

/// A walk that tested the stamp of a node marks it once more after it is handed
/// out.
#[test]
fn a_mark_is_taken_off_with_the_hand_out() {
    let faults = faults_of(Mistake::MarkTakenOff);
    let again = count(&faults, "marked, but");
    assert!(again > 0, "{faults:?}");
}

/// What the book and the drain say of a mistake about the Relaxed Delete_Min.
/// One that tests the stamp marks what it may and finds nothing where it may: as
/// far as the book goes it is a Relaxed one, and a worse one.
#[test]
fn the_book_notices_what_it_can_of_a_relaxed_walk() {
    for astray in [Astray::BegunOrdinary, Astray::StampTested] {
        let faults = faults_of(Mistake::Relaxed(astray));
        assert_eq!(faults, Vec::<String>::new(), "{astray:?}");
    }
    for (astray, words) in [
        (Astray::HeadMarked, "marked, but no such entry is written"),
        (Astray::NextLeftOut, "answered before the begin is earlier"),
        (Astray::StampNotTested, "marked, but there is no pick"),
        (Astray::StampNotTested, "marked, but not the pick"),
        (Astray::LockTaken, "EMPTY, but"),
    ] {
        let faults = faults_of(Mistake::Relaxed(astray));
        assert!(count(&faults, words) > 0, "{astray:?}: {faults:?}");
    }
}

/// The watchers of the record see more: a walk that is begun as an ordinary one
/// has another stage than the book says, and a held lock must not be taken.
/// That RW3 tests the stamp is nothing to them: they follow what a queue may do,
/// and not that it does it.
#[test]
fn the_watchers_notice_what_they_can_of_a_relaxed_walk() {
    for astray in ASTRAY {
        let mut faults = Vec::new();
        for (seed, sizes) in runs().into_iter().take(100) {
            let wrong = Wrong::new(fresh_of(sizes), Mistake::Relaxed(astray));
            let mut trial = Trial::new(wrong, seed, sizes);
            if let Err(failure) = trial.play(CALLS, 1) {
                faults.push(failure.fault);
            }
        }
        let words = match astray {
            Astray::BegunOrdinary => "conjunct BookOpen does not hold",
            Astray::StampTested => {
                assert_eq!(faults, Vec::<String>::new());
                continue;
            }
            Astray::HeadMarked => "conjunct Sound does not hold",
            Astray::NextLeftOut => "conjunct WalkW3 does not hold",
            Astray::StampNotTested => "conjunct W3Stamp does not hold",
            Astray::LockTaken => "a held lock, but the step did not wait",
        };
        println!("{astray:?}: noticed in {} of 100 runs", faults.len());
        assert_eq!(
            count(&faults, words),
            faults.len(),
            "{astray:?}: {faults:?}"
        );
        assert!(faults.len() > 20, "{astray:?}: {faults:?}");
    }
}

/// Every one of these mistakes fails a stated run, two of them a stated step.
#[test]
fn a_relaxed_walk_astray_fails_what_is_stated() {
    for astray in ASTRAY {
        let mistake = Mistake::Relaxed(astray);
        let mut runs = Vec::new();
        for (run, _) in relaxed::runs() {
            let [p, n, l] = run.sizes.map(u64::from);
            let queue = fresh(p, n, l).expect("the sizes are in range");
            let mut wrong = Wrong::new(queue, mistake);
            let right = |(call, answer): &([u32; 5], [u32; 5])| {
                numbers_of(&wrong.call(&call_of(*call))) == answer[..4]
            };
            if !run.turns.iter().all(right) {
                runs.push(run.what);
            }
        }
        let mut steps = 0;
        for case in walks::cases() {
            let mut wrong = Wrong::new(case.queue.clone(), mistake);
            let processor = u64::from(case.processor);
            let outcome = wrong.call(&Call::Step { processor });
            let same = numbers_of(&outcome) == case.reply && *wrong.queue() == case.after;
            steps += u64::from(!same);
        }
        println!("{astray:?}: {steps} steps, {} runs: {runs:?}", runs.len());
        assert!(!runs.is_empty(), "{astray:?}");
        let about_steps = matches!(astray, Astray::StampTested | Astray::HeadMarked);
        assert_eq!(steps > 0, about_steps, "{astray:?}: {steps}");
    }
}

/// What the book and the drain say of a mistake about the Remove; nothing of one
/// that is refused another number, reads or searches more or less, or changes what
/// no answer tells.
#[test]
fn the_book_notices_what_it_can_of_a_remove() {
    for (misled, words) in [
        (Misled::FutureUnsound, "does not end"),
        (Misled::ZeroTaken, "another key than that of this Remove"),
        (Misled::BegunAsDeleteMin, "but no Delete_Min is open"),
        (Misled::BegunAsDeleteMin, "not the key of this Remove"),
        (Misled::KeyLeft, "not there, but it was answered"),
        (Misled::GivesUp, "not there, but it was answered"),
        (Misled::HeadIsAnother, "not there, but it was answered"),
        (Misled::DueAlone, "not the key of this Remove"),
        (Misled::TicketAlone, "not the key of this Remove"),
        (
            Misled::StampNotTested,
            "it was not answered before the begin",
        ),
        (Misled::MarkNotTested, "marked, but"),
        (Misled::MarkedAsZero, "markers with"),
        (Misled::HandedOut, "handed out, but no Delete_Min is open"),
        (Misled::OtherItem, "taken back, but not the entry that was"),
        (Misled::NoTicketTold, "another key than that of this Remove"),
    ] {
        let faults = faults_of(Mistake::Remove(misled));
        // X1 seldom reads a node before the key
        let seldom = matches!(misled, Misled::GivesUp | Misled::HeadIsAnother);
        let least = if seldom { 1 } else { 10 };
        assert!(count(&faults, words) >= least, "{misled:?}: {faults:?}");
    }
    for misled in [
        Misled::FutureRefused,
        Misled::KeyBeforeBusy,
        Misled::ReadsFromHead,
        Misled::StampAtBegin,
        Misled::NoSecondSearch,
        Misled::SavedLeft,
    ] {
        let faults = faults_of(Mistake::Remove(misled));
        assert_eq!(faults, Vec::<String>::new(), "{misled:?}");
    }
}

/// The watchers of the record see more: another refusal than the calls ask for,
/// another stage than the book says, a place or a mark that is not what it must be.
/// Where the read begins and whether a second Search is made is nothing to them,
/// nor what a processor has saved that is idle.
#[test]
fn the_watchers_notice_what_they_can_of_a_remove() {
    for misled in MISLED {
        let mut faults = Vec::new();
        for (seed, sizes) in runs().into_iter().take(50) {
            let wrong = Wrong::new(fresh_of(sizes), Mistake::Remove(misled));
            let mut trial = Trial::new(wrong, seed, sizes);
            if let Err(failure) = trial.play(CALLS, 1) {
                faults.push(failure.fault);
            }
        }
        let words = match misled {
            Misled::FutureRefused => "gave Refused(38), but refusal None was due",
            Misled::FutureUnsound => "gave Refused(21), but refusal",
            Misled::ZeroTaken => "but refusal Some(38) was due",
            Misled::KeyBeforeBusy => "gave Refused(38), but refusal Some(33) was due",
            Misled::BegunAsDeleteMin => "conjunct BookOpen does not hold",
            Misled::KeyLeft | Misled::GivesUp | Misled::HeadIsAnother => "not there, but it was",
            Misled::DueAlone | Misled::TicketAlone => "conjunct XKey does not hold",
            Misled::StampNotTested => "conjunct X3Stamp does not hold",
            Misled::MarkNotTested => "marked, but",
            Misled::MarkedAsZero => "has the marker 0",
            Misled::HandedOut => "conjunct BookOpen does not hold",
            Misled::OtherItem => "taken back, but not the entry that was marked",
            Misled::NoTicketTold => "another key than that of this Remove",
            Misled::ReadsFromHead
            | Misled::StampAtBegin
            | Misled::NoSecondSearch
            | Misled::SavedLeft => {
                assert_eq!(faults, Vec::<String>::new(), "{misled:?}");
                continue;
            }
        };
        println!("{misled:?}: noticed in {} of 50 runs", faults.len());
        let right = count(&faults, words);
        assert_eq!(right, faults.len(), "{misled:?}: {faults:?}");
        let seldom = matches!(misled, Misled::GivesUp | Misled::HeadIsAnother);
        assert!(seldom || right > 5, "{misled:?}: {faults:?}");
    }
}

/// Calls of a stated run that do not go as stated.
fn fails(queue: Queue, mistake: Mistake, turns: &[Turn]) -> bool {
    let mut wrong = Wrong::new(queue, mistake);
    let right = |(call, answer): &Turn| numbers_of(&wrong.call(&call_of(*call))) == answer[..4];
    !turns.iter().all(right)
}

/// How many stated runs, steps and refusals of Removes a mistake fails.
fn stated_failures(mistake: Mistake) -> [u64; 3] {
    let mut failed = [0; 3];
    for (run, _) in removes::runs() {
        let [p, n, l] = run.sizes.map(u64::from);
        let queue = fresh(p, n, l).expect("the sizes are in range");
        failed[0] += u64::from(fails(queue, mistake, &run.turns));
    }
    for case in seeks::cases() {
        let mut wrong = Wrong::new(case.queue.clone(), mistake);
        let processor = u64::from(case.processor);
        let outcome = wrong.call(&Call::Step { processor });
        let same = numbers_of(&outcome) == case.reply && *wrong.queue() == case.after;
        failed[1] += u64::from(!same);
    }
    let remove = |[p, due, ticket]: [u32; 3]| [5, p, due, ticket, 0];
    let refused = removes::REFUSED_CALLS.map(|(call, number)| (remove(call), number));
    let taken = removes::TAKEN_KEYS.map(|[due, ticket]| (remove([1, due, ticket]), 0));
    for (call, code) in refused.into_iter().chain(taken) {
        let first = if code == 0 { 2 } else { 0 };
        let turn = (call, [code, first, 0, 0, 0]);
        failed[2] += u64::from(fails(no_node_free(), mistake, &[turn]));
    }
    failed
}

/// Every one of these mistakes fails something that is stated: here which of runs,
/// steps and refusals.
#[test]
fn a_remove_misled_fails_what_is_stated() {
    for misled in MISLED {
        let failed = stated_failures(Mistake::Remove(misled));
        println!("{misled:?}: {failed:?} runs, steps, refusals");
        let expected = match misled {
            Misled::ZeroTaken | Misled::KeyBeforeBusy => [false, false, true],
            Misled::FutureRefused => [true, false, true],
            Misled::FutureUnsound => [true, true, false],
            Misled::BegunAsDeleteMin => [true, false, false],
            Misled::StampAtBegin | Misled::MarkedAsZero | Misled::SavedLeft => [false, true, false],
            _ => [true, true, false],
        };
        assert_eq!(failed.map(|count| count > 0), expected, "{misled:?}");
    }
    let right = Mistake::Remove(Misled::ZeroTaken);
    assert_eq!(stated_failures(right)[..2], [0, 0]);
}
