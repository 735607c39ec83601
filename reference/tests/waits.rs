//! Whom a step waits for (document 02, W1): the expectations that are written by
//! hand, one call at a time and as lists; and wrong holders, which these and the
//! watcher of the schedules notice.

use darthog_reference::answer::Answer;
use darthog_reference::calls::{Call, Outcome};
use darthog_reference::lists::{call_of, numbers_of, run, run_inner};
use darthog_reference::locks::{Attempt, Lock};
use darthog_reference::mistakes::{Misnamed, Mistake, Wrong, MISNAMED};
use darthog_reference::queue::{fresh, Place, Queue};
use darthog_reference::random::Random;
use darthog_reference::schedule::Sizes;
use darthog_reference::stated::lists::{split, Turn};
use darthog_reference::stated::waiting::runs;
use darthog_reference::stated::waits::{cases, At, Case};
use darthog_reference::trial::{fresh_of, Machine, Trial};
use darthog_reference::waits::Watch;
use std::collections::{BTreeMap, BTreeSet};

fn step(processor: u32) -> Call {
    let processor = u64::from(processor);
    Call::Step { processor }
}

/// The step of the stated letters, for the counts.
fn kind(at: At) -> &'static str {
    match at {
        At::InsertG2(..) => "G2 of an Insert",
        At::RemovalG2(..) => "G2 of a Delete_Min",
        At::L1 => "L1",
        At::L2(..) => "L2",
    }
}

#[test]
fn steps_take_and_wait_on_the_stated_records() {
    let mut counts: BTreeMap<(&str, u32), u64> = BTreeMap::new();
    let (mut holders, mut alone) = (BTreeSet::new(), 0);
    for case in cases() {
        let Case { what, queue, .. } = &case;
        assert!(queue.sound() && case.after.sound(), "{what}");
        let mut after = queue.clone();
        let outcome = after.call(&step(case.processor));
        assert_eq!(numbers_of(&outcome), case.reply, "{what}");
        assert!(after == case.after, "{what}: another record");
        let [code, holder, ..] = case.reply;
        *counts.entry((kind(case.at), code)).or_default() += 1;
        if code == 2 {
            holders.insert(holder);
            alone += u64::from(holder == case.processor);
        }
    }
    println!("{counts:?}, {alone} for the caller itself");
    assert_eq!(counts.len(), 8);
    assert!(counts.values().all(|&count| count >= 20), "{counts:?}");
    assert!(holders.len() > 12 && alone > 10, "{holders:?} {alone}");
}

/// The same as lists of one.
#[test]
fn lists_of_one_step_answer_as_stated() {
    for case in cases() {
        let (mut queue, mut inner) = (case.queue.clone(), case.queue.clone());
        let asked = [3, case.processor, 0, 0, 0];
        let (mut told, mut inner_told) = ([9; 5], [9; 5]);
        assert_eq!(run(&mut queue, &asked, &mut told), Ok(()));
        run_inner(&mut inner, &asked, &mut inner_told);
        let what = &case.what;
        assert_eq!(told[..4], case.reply, "{what}");
        assert_eq!(told[4], case.after.clock, "{what}");
        assert_eq!(told, inner_told, "{what}");
        assert!(queue == case.after && inner == case.after, "{what}");
    }
}

fn start([p, n, l]: [u32; 3]) -> Queue {
    fresh(p.into(), n.into(), l.into()).expect("the sizes are in range")
}

/// The waits of a run: who, and for whom.
fn pairs(turns: &[Turn]) -> impl Iterator<Item = (u32, u32)> + '_ {
    let waits = turns.iter().filter(|(_, answer)| answer[0] == 2);
    waits.map(|(call, answer)| (call[1], answer[1]))
}

#[test]
fn the_stated_runs_wait_for_the_stated_processors() {
    let mut waited = BTreeSet::new();
    for one in runs() {
        let what = &one.what;
        let mut queue = start(one.sizes);
        for (call, [code, first, second, third, clock]) in &one.turns {
            let got = numbers_of(&queue.call(&call_of(*call)));
            assert_eq!(got, [*code, *first, *second, *third], "{what}, at {clock}");
            assert_eq!(queue.clock, *clock, "{what}");
        }
        let (calls, answers) = split(&one.turns);
        let (mut told, mut inner) = (vec![9; answers.len()], vec![9; answers.len()]);
        let (mut listed, mut second) = (start(one.sizes), start(one.sizes));
        assert_eq!(run(&mut listed, &calls, &mut told), Ok(()));
        run_inner(&mut second, &calls, &mut inner);
        assert_eq!(told, answers, "{what}, as a list");
        assert_eq!(inner, answers, "{what}, as a list");
        assert!(listed == queue && second == queue, "{what}, as a list");
        waited.extend(pairs(&one.turns));
    }
    println!("{waited:?}");
    for pair in [(1, 0), (0, 1), (1, 3), (7, 15), (15, 0), (15, 7), (0, 15)] {
        assert!(waited.contains(&pair), "{pair:?} is in no run");
    }
}

/// Every lock of a node by every processor: a free one is taken, a held one
/// stays with whoever has it, who is named, and no other lock is touched.
#[test]
fn an_attempt_takes_a_free_lock_or_names_the_holder() {
    let (node, other) = (2, Place { node: 1, level: 1 });
    let levels = (1..=3).map(|level| Lock::Level(Place { node, level }));
    for lock in levels.chain([Lock::Node(node)]) {
        for p in 0..16 {
            let mut queue = fresh(16, 3, 3).expect("the sizes are in range");
            assert_eq!(queue.attempt(9, Lock::Level(other)), Attempt::Taken);
            assert_eq!(queue.attempt(p, lock), Attempt::Taken);
            let held = queue.clone();
            assert_eq!(held.lock(lock), p as u8 + 1);
            let of_node = &held.nodes[usize::from(node)];
            let sum: u8 = of_node.level_locks.iter().sum();
            assert_eq!(sum + of_node.node_lock, p as u8 + 1);
            for q in 0..16 {
                assert_eq!(queue.attempt(q, lock), Attempt::HeldBy(p as u8));
                assert!(queue == held, "{q} changed what {p} holds");
            }
        }
    }
}

/// Stated cases that a wrong holder fails, by their steps; and calls of stated
/// runs that it fails.
fn stated_failures(mistake: Misnamed) -> (BTreeMap<&'static str, u64>, u64) {
    let mut records: BTreeMap<&str, u64> = BTreeMap::new();
    for case in cases() {
        let mut wrong = Wrong::new(case.queue.clone(), Mistake::Misnamed(mistake));
        if numbers_of(&wrong.call(&step(case.processor))) != case.reply {
            *records.entry(kind(case.at)).or_default() += 1;
        }
    }
    let mut calls = 0;
    for one in runs() {
        let mut wrong = Wrong::new(start(one.sizes), Mistake::Misnamed(mistake));
        for (call, answer) in one.turns {
            calls += u64::from(numbers_of(&wrong.call(&call_of(call))) != answer[..4]);
        }
    }
    (records, calls)
}

/// Each step that the mistake is about, and no other, fails on some stated
/// record, and some call of a run fails.
#[test]
fn a_wrong_holder_fails_stated_cases_and_stated_runs() {
    let [insert, removal, node, own] = ["G2 of an Insert", "G2 of a Delete_Min", "L1", "L2"];
    for mistake in MISNAMED {
        let (records, calls) = stated_failures(mistake);
        println!("{mistake:?}: {records:?}, {calls} calls of runs");
        let steps: Vec<&str> = records.keys().copied().collect();
        let expected: &[&str] = match mistake {
            Misnamed::Caller | Misnamed::Zero | Misnamed::Stored => &[insert, removal, node, own],
            Misnamed::NodeLockAtG2 => &[insert, removal],
            Misnamed::NodeLockAtL2 | Misnamed::PlaceAtL2 => &[own],
            Misnamed::LevelLockAtL1 => &[node],
            Misnamed::OtherLevel => &[insert, removal, own],
        };
        let mut expected = expected.to_vec();
        expected.sort_unstable();
        assert_eq!(steps, expected, "{mistake:?}");
        assert!(calls > 0, "{mistake:?}");
    }
}

/// The watcher of the schedules notices each wrong holder, and nothing else.
#[test]
fn a_wrong_holder_is_noticed_in_schedules() {
    for mistake in MISNAMED {
        let mut random = Random::new(9);
        let mut noticed = 0;
        for _ in 0..60 {
            let sizes = Sizes::middle(&mut random);
            let wrong = Wrong::new(fresh_of(sizes), Mistake::Misnamed(mistake));
            let mut trial = Trial::new(wrong, random.draw(), sizes);
            if let Err(failure) = trial.play(1500, u64::MAX) {
                let words = "waits for another than the holder";
                assert!(failure.fault.ends_with(words), "{failure:?}");
                noticed += 1;
            }
        }
        println!("{mistake:?}: noticed in {noticed} of 60 runs");
        assert!(noticed > 10, "{mistake:?}: {noticed}");
    }
}

/// What the watcher says of other things that a step could do at a lock.
#[test]
fn the_watcher_knows_each_fault() {
    let of = |code: u32, l1: bool| {
        let wanted = |case: &&Case| case.reply[0] == code && (case.at == At::L1) == l1;
        let all = cases();
        let case = all.iter().find(wanted).expect("there is one");
        let watch = Watch::new(&case.queue, case.processor as usize);
        (watch, case.after.clone())
    };
    for l1 in [true, false] {
        let (watch, mut after) = of(2, l1);
        assert_eq!(watch.judge(Answer::Waits { holder: 0 }, &after), Ok(()));
        let fault = watch.judge(Answer::Waits { holder: 1 }, &after);
        assert_eq!(fault, Err("waits for another than the holder"));
        let fault = watch.judge(Answer::Moved, &after);
        assert_eq!(fault, Err("a held lock, but the step did not wait"));
        assert_eq!(watch.judge_holder(), Err("waits for itself"));
        after.nodes[1].mark = 1;
        let fault = watch.judge(Answer::Waits { holder: 0 }, &after);
        assert_eq!(fault, Err("waits and changes more than the clock"));

        let (watch, mut after) = of(1, l1);
        assert_eq!(watch.judge(Answer::Moved, &after), Ok(()));
        let fault = watch.judge(Answer::Waits { holder: 0 }, &after);
        assert_eq!(fault, Err("a free lock, but the step did not move"));
        (after.nodes[0].level_locks[0], after.nodes[1].node_lock) = (0, 0);
        let fault = watch.judge(Answer::Moved, &after);
        assert_eq!(fault, Err("moved past a free lock without taking it"));
    }
}

/// Who is waited for, on records that no call leads to: none that holds the lock
/// by its stage.
#[test]
fn the_watcher_knows_who_cannot_hold_a_lock() {
    let mut queue = fresh(3, 2, 1).expect("the sizes are in range");
    queue.begin_insert(0, 5, 1, 1).expect("a node is free");
    for _ in 0..2 {
        assert_eq!(queue.step(0), Ok(Answer::Moved));
    }
    queue.begin_insert(1, 6, 1, 1).expect("a node is free");
    let judged = |number: u8| {
        let mut queue = queue.clone();
        queue.nodes[0].level_locks[0] = number;
        Watch::new(&queue, 0).judge_holder()
    };
    assert_eq!(judged(0), Ok(()));
    assert_eq!(judged(1), Err("waits for itself"));
    let fault = Err("waits for one whose stage does not hold the lock");
    assert_eq!(judged(2), fault);
    assert_eq!(judged(3), Err("waits for an idle processor"));
    assert_eq!(judged(4), Err("waits for no processor"));
    // the begin of an Insert asks for no lock
    let watch = Watch::new(&queue, 1);
    assert_eq!(watch.judge(Answer::Moved, &queue), Ok(()));
    let fault = watch.judge(Answer::Waits { holder: 0 }, &queue);
    assert_eq!(fault, Err("waits where no lock is asked for"));
}

/// No lock is looked at when the clock has ended.
#[test]
fn a_held_lock_at_the_end_of_the_clock_is_31() {
    for case in cases() {
        let mut queue = case.queue.clone();
        queue.clock = 999_999;
        let before = queue.clone();
        let outcome = queue.call(&step(case.processor));
        assert_eq!(outcome, Outcome::Refused(31), "{}", case.what);
        assert!(queue == before, "{}", case.what);
    }
}
