//! The Remove (document 02, W5): the expectations that are written by hand, one
//! call at a time, as lists and as sheets, with backlog, images and the whole
//! invariant along the way; and what it shares with a Delete_Min.

mod counted;

use counted::{goes_as_stated, is_answered_as_a_list, start, step_as_stated};
use darthog_reference::answer::Answer;
use darthog_reference::any_record::any_record;
use darthog_reference::calls::{Call, Outcome};
use darthog_reference::image::{decode, encode, processor_at, PROCESSOR_BYTES};
use darthog_reference::lists::call_of;
use darthog_reference::queue::{fresh, Job, Operation, Queue, Stage};
use darthog_reference::random::Random;
use darthog_reference::sheet;
use darthog_reference::stated::items::no_node_free;
use darthog_reference::stated::removes::{
    images, runs, stored_bytes, taken_back, BEGUN, BEGUN_KEY, HISTORY, LOOKING, REFUSED,
    REFUSED_CALLS, REFUSED_HISTORY, REMOVING, SHEET, TAKEN_KEYS,
};
use darthog_reference::stated::seeks::cases;

#[test]
fn the_stated_runs_go_as_stated() {
    let mut codes = [0; 9];
    for one in runs() {
        goes_as_stated(&one);
        for (_, [code, ..]) in &one.0.turns {
            if let Some(count) = codes.get_mut(*code as usize) {
                *count += 1;
            }
        }
    }
    let [.., waits, empty, marked, _, handed, back, not_there] = codes;
    println!("{codes:?}");
    assert_eq!([waits, empty, marked, handed], [6, 11, 65, 12]);
    assert_eq!([back, not_there], [53, 76]);
}

#[test]
fn the_stated_runs_are_answered_as_lists() {
    runs().iter().for_each(is_answered_as_a_list);
}

#[test]
fn the_first_run_has_the_stated_images() {
    let mut queue = start([2, 1, 1]);
    let mut expected = images().into_iter().peekable();
    for (call, _) in taken_back(0, 1) {
        let before = queue.clock;
        queue.call(&call_of(call));
        if before == queue.clock {
            continue;
        }
        if let Some((_, image)) = expected.next_if(|(time, _)| *time == queue.clock) {
            assert_eq!(encode(&queue), image, "at {}", queue.clock);
            assert!(decode(&image) == Some(queue.clone()), "at {}", queue.clock);
        }
    }
    assert_eq!(expected.next(), None, "the run is shorter");
}

#[test]
fn steps_of_a_remove_do_as_stated_on_any_record() {
    let codes = step_as_stated(cases());
    assert_eq!(codes, [0, 129, 0, 0, 21, 0, 0, 3, 69]);
}

#[test]
fn the_stated_sheets_print_as_stated() {
    for (sheet, history) in [(SHEET, HISTORY), (REFUSED, REFUSED_HISTORY)] {
        let mut area = vec![7; 1000];
        let length = sheet::run(sheet.as_bytes(), &mut area).expect("it is accepted");
        assert_eq!(std::str::from_utf8(&area[..length]), Ok(history));
        assert!(area[length..].iter().all(|&byte| byte == 7));
    }
}

/// On a record where processor 0 is busy; at its end 31 comes first, and 21 before
/// that.
#[test]
fn removes_are_refused_in_their_order() {
    let before = no_node_free();
    for ([processor, due, ticket], number) in REFUSED_CALLS {
        let [p, due, ticket] = [processor, due, ticket].map(u64::from);
        let mut queue = before.clone();
        assert_eq!(queue.begin_remove(p, due, ticket), Err(number));
        assert!(queue == before, "{number} changed the record");
        queue.clock = 999_999;
        assert_eq!(queue.begin_remove(p, due, ticket), Err(31));
        queue.clock = 1_000_000;
        assert_eq!(queue.begin_remove(p, due, ticket), Err(21));
    }
    for number in [u64::from(u32::MAX) + 2, u64::MAX] {
        let mut queue = before.clone();
        assert_eq!(queue.begin_remove(1, 7, number), Err(38));
        assert_eq!(queue.begin_remove(1, number, 1), Err(38));
        assert_eq!(queue.begin_remove(number, 7, 1), Err(32));
    }
}

/// A key in range is taken whatever the clock is, and the begin changes the clock
/// and its processor alone.
#[test]
fn removes_begin_as_stated() {
    for [due, ticket] in TAKEN_KEYS {
        for clock in [1, 2, 999_998] {
            let mut queue = no_node_free();
            queue.clock = clock;
            let mut expected = encode(&queue);
            let began = queue.begin_remove(1, due.into(), ticket.into());
            assert_eq!(began, Ok(clock + 1), "{due} {ticket} at {clock}");
            assert!(queue.sound(), "{due} {ticket} at {clock}");
            let time = (clock + 1).to_le_bytes();
            expected[3..7].copy_from_slice(&time);
            let start = processor_at(1);
            expected[start..start + 4].copy_from_slice(&time);
            expected[start + 5..start + 8].copy_from_slice(&[29, 0, 2]);
            expected[start + 18..start + 22].copy_from_slice(&due.to_le_bytes());
            expected[start + 22..start + 26].copy_from_slice(&ticket.to_le_bytes());
            assert!(encode(&queue) == expected, "{due} {ticket} at {clock}");
        }
    }
    for (sizes, changed) in BEGUN {
        let [p, n, l] = sizes.map(u64::from);
        let mut queue = fresh(p, n, l).unwrap();
        let mut expected = encode(&queue);
        for (at, byte) in changed {
            expected[at] = byte;
        }
        let [due, ticket] = BEGUN_KEY.map(u64::from);
        assert_eq!(queue.begin_remove(p - 1, due, ticket), Ok(1));
        assert!(encode(&queue) == expected, "{sizes:?}");
    }
}

/// Whether the bytes are the image of a record that passes check 21.
fn taken(bytes: &[u8]) -> bool {
    decode(bytes).is_some_and(|mut queue| queue.call(&Call::Backlog) != Outcome::Refused(21))
}

#[test]
fn bytes_of_a_remove_are_taken_and_refused_as_stated() {
    let mut counts = [0, 0];
    for stored in LOOKING.iter().chain(&REMOVING) {
        let &(sizes, at, .., expected) = stored;
        let [p, n, l] = sizes.map(u64::from);
        let mut bytes = encode(&fresh(p, n, l).unwrap());
        let processor = stored_bytes(stored);
        assert_eq!(processor.len(), PROCESSOR_BYTES);
        bytes[at..at + PROCESSOR_BYTES].copy_from_slice(&processor);
        assert_eq!(taken(&bytes), expected, "{stored:?}");
        counts[usize::from(expected)] += 1;
    }
    assert!(counts[0] > 50 && counts[1] > 25, "{counts:?}");
}

/// The same record with the other job in the removal of processor 0, if it is in
/// one.
fn other_job(queue: &Queue) -> Option<Queue> {
    let other = |job: Job| match job {
        Job::HandOut => Job::TakeBack,
        Job::TakeBack => Job::HandOut,
    };
    let seek = |op: Operation| match op {
        Operation::Insert => None,
        Operation::Removal(job) => Some(Operation::Removal(other(job))),
    };
    let stage = match queue.processors[0].stage {
        Stage::Search(op, a) => Stage::Search(seek(op)?, a),
        Stage::G1Read(op, a) => Stage::G1Read(seek(op)?, a),
        Stage::G2Lock(op, a) => Stage::G2Lock(seek(op)?, a),
        Stage::G3Reread(op, a) => Stage::G3Reread(seek(op)?, a),
        Stage::G4Unlock(op, a, b) => Stage::G4Unlock(seek(op)?, a, b),
        Stage::L1LockNode(job) => Stage::L1LockNode(other(job)),
        Stage::L2LockOwn(job, a) => Stage::L2LockOwn(other(job), a),
        Stage::L3Unlink(job, a) => Stage::L3Unlink(other(job), a),
        Stage::L4PointBack(job, a) => Stage::L4PointBack(other(job), a),
        Stage::L5UnlockOwn(job, a) => Stage::L5UnlockOwn(other(job), a),
        Stage::L6Unlock(job, a) => Stage::L6Unlock(other(job), a),
        Stage::L7UnlockNode(job) => Stage::L7UnlockNode(other(job)),
        Stage::L8Retire(job) => Stage::L8Retire(other(job)),
        _ => return None,
    };
    let mut changed = queue.clone();
    changed.processors[0].stage = stage;
    Some(changed)
}

/// After its mark a Remove does what a Delete_Min does, but that L8 answers U in
/// the place of T.
#[test]
fn a_removal_is_the_same_for_both_but_for_its_answer() {
    let mut random = Random::new(12);
    let (mut same, mut ended) = (0, 0);
    for _ in 0..30_000 {
        let mut one = any_record(&mut random);
        let Some(mut two) = other_job(&one) else {
            continue;
        };
        let outcomes = (one.step(0), two.step(0));
        match outcomes {
            (Ok(Answer::HandedOut(first)), Ok(Answer::TakenBack(second)))
            | (Ok(Answer::TakenBack(first)), Ok(Answer::HandedOut(second))) => {
                assert_eq!(first, second);
                assert!(one == two, "another record after {first:?}");
                ended += 1;
            }
            (first, second) => {
                assert_eq!(first, second);
                assert!(other_job(&one) == Some(two), "another record, {first:?}");
                same += 1;
            }
        }
    }
    println!("{same} steps alike, {ended} ends");
    assert!(same > 3_000 && ended > 200, "{same} {ended}");
}

/// A Remove before its mark changes no node, whatever it finds.
#[test]
fn a_remove_that_does_not_mark_changes_its_processor_alone() {
    let mut random = Random::new(13);
    let mut counts = [0, 0, 0];
    for _ in 0..60_000 {
        let mut queue = any_record(&mut random);
        let stage = queue.processors[0].stage;
        let looks = matches!(
            stage,
            Stage::XSearch(..) | Stage::X1Read(..) | Stage::X2Test(..) | Stage::X3Mark(..)
        );
        if !looks {
            continue;
        }
        let before = queue.clone();
        match queue.step(0) {
            Ok(Answer::Marked(_)) => {
                counts[0] += 1;
                continue;
            }
            Ok(Answer::NotThere { .. }) => {
                counts[1] += 1;
                assert_eq!(queue.processors[0].stage, Stage::Idle);
            }
            Ok(Answer::Moved) => counts[2] += 1,
            other => assert_eq!(other, Err(31)),
        }
        assert!(queue.nodes == before.nodes, "{stage:?}");
        assert!(queue.processors[1..] == before.processors[1..], "{stage:?}");
    }
    println!("{counts:?} marked, not there, moved");
    assert!(counts.iter().all(|&count| count > 300), "{counts:?}");
}
