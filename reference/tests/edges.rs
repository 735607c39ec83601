//! The runs at the edges of document 01, by their numbers.

use darthog_reference::answer::{Answer, Entry};
use darthog_reference::queue::{due_from_seconds, fresh, Queue, Use};
use darthog_reference::stated::minutes::{MINUTES, TOO_MANY_SECONDS};

fn steps(queue: &mut Queue, processor: u64, count: u32) -> Answer {
    let mut last = Answer::Moved;
    for i in 0..count {
        last = queue.step(processor).expect("the step is accepted");
        let ends = !matches!(
            last,
            Answer::Moved | Answer::Waits { .. } | Answer::Marked(_)
        );
        assert!(!ends || i + 1 == count, "the operation ended early");
    }
    last
}

/// The printed run up to the first answer: Insert at 1, answered at 10.
fn one_entry(processors: u64) -> Queue {
    let mut queue = fresh(processors, 1, 1).unwrap();
    assert_eq!(queue.begin_insert(0, 7, 42, 1), Ok(1));
    assert_eq!(steps(&mut queue, 0, 9), Answer::Inserted(ENTRY));
    assert_eq!(queue.clock, 10);
    queue
}

const ENTRY: Entry = Entry {
    due: 7,
    item: 42,
    ticket: 1,
};

#[test]
fn run_1_sizes() {
    assert!(fresh(1, 200, 1).is_ok());
    assert_eq!(fresh(1, 201, 1), Err(12));
    assert_eq!(fresh(1, 0, 1), Err(12));
    assert!(fresh(16, 1, 8).is_ok());
    assert_eq!(fresh(0, 0, 0), Err(11));
    assert_eq!(fresh(17, 1, 1), Err(11));
    assert_eq!(fresh(1, 0, 0), Err(12));
    assert_eq!(fresh(1, 1, 0), Err(13));
    assert_eq!(fresh(1, 1, 9), Err(13));
    assert_eq!(fresh(u64::MAX, 1, 1), Err(11));
    assert_eq!(fresh(256 + 1, 1, 1), Err(11));
    assert_eq!(fresh(1, 256 + 1, 1), Err(12));
    assert_eq!(fresh(1, 1, 256 + 1), Err(13));
}

#[test]
fn run_1_a_fresh_queue_is_as_described() {
    let queue = fresh(2, 3, 2).unwrap();
    assert!(queue.sound());
    assert_eq!((queue.clock, queue.backlog()), (0, Ok(0)));
    for node in &queue.nodes {
        assert_eq!(node.forward, [4; 8]);
        assert_eq!((node.level_locks, node.node_lock), ([0; 8], 0));
        assert_eq!((node.mark, node.stamp, node.state), (0, None, Use::Never));
        assert_eq!(
            (node.due, node.ticket, node.item, node.height),
            (0, 0, 0, 1)
        );
    }
    for processor in &queue.processors {
        assert_eq!((processor.begin, processor.own), (0, 0));
        assert_eq!(processor.saved, [0; 8]);
    }
    assert_eq!(queue.busy().count(), 0);
}

#[test]
fn run_2_seconds() {
    for (seconds, minute) in MINUTES {
        assert_eq!(due_from_seconds(seconds), Ok(minute), "{seconds} seconds");
    }
    for seconds in TOO_MANY_SECONDS {
        assert_eq!(due_from_seconds(seconds), Err(35), "{seconds} seconds");
    }
}

/// The counts of the first and of the last five minutes: of all minutes the
/// given one is nearest, and even where another is as near.
#[test]
fn run_2_no_minute_is_nearer() {
    for seconds in (0..300).chain(59_999_670..=59_999_969) {
        let minute = u64::from(due_from_seconds(seconds).expect("the count is taken"));
        let given = seconds.abs_diff(60 * minute);
        for other in (0..=1_000_000).filter(|other| *other != minute) {
            let apart = seconds.abs_diff(60 * other);
            assert!(
                given < apart || given == apart && minute % 2 == 0,
                "{seconds} seconds: {minute}, and not {other}"
            );
        }
    }
}

#[test]
fn run_3_the_node_is_given_out_again_after_its_retirement() {
    let mut queue = one_entry(1);
    let before = queue.clone();
    assert_eq!(queue.begin_insert(0, 7, 42, 1), Err(37));
    assert_eq!(queue, before);
    assert_eq!(queue.begin_delete_min(0), Ok(11));
    assert_eq!(steps(&mut queue, 0, 3), Answer::Marked(ENTRY));
    assert_eq!(queue.clock, 14);
    assert_eq!(steps(&mut queue, 0, 12), Answer::HandedOut(ENTRY));
    assert_eq!((queue.clock, queue.backlog()), (26, Ok(0)));
    assert_eq!(queue.nodes[1].state, Use::Retired(26));
    assert_eq!(queue.begin_delete_min(0), Ok(27));
    assert_eq!(steps(&mut queue, 0, 1), Answer::Empty);
    assert_eq!(queue.clock, 28);
    assert_eq!(queue.begin_insert(0, 8, 43, 1), Ok(29));
    assert_eq!(queue.processors[0].own, 1);
    assert_eq!((queue.nodes[1].state, queue.backlog()), (Use::InUse, Ok(0)));
}

#[test]
fn run_4_an_entry_answered_after_the_begin_is_not_taken() {
    let mut queue = fresh(2, 1, 1).unwrap();
    queue.begin_insert(0, 7, 42, 1).unwrap();
    assert_eq!(steps(&mut queue, 0, 8), Answer::Moved);
    assert_eq!(queue.begin_delete_min(1), Ok(10));
    assert_eq!(steps(&mut queue, 0, 1), Answer::Inserted(ENTRY));
    assert_eq!(queue.clock, 11);
    assert_eq!(steps(&mut queue, 1, 3), Answer::Empty);
    assert_eq!(queue.clock, 14);
}

#[test]
fn run_5_a_node_waits_for_whoever_began_before_its_retirement() {
    let mut queue = one_entry(2);
    assert_eq!(queue.begin_delete_min(0), Ok(11));
    steps(&mut queue, 0, 8);
    assert_eq!(queue.begin_delete_min(1), Ok(20));
    assert_eq!(steps(&mut queue, 0, 7), Answer::HandedOut(ENTRY));
    assert_eq!(queue.clock, 27);
    assert_eq!(queue.begin_insert(0, 1, 1, 1), Err(37));
    assert_eq!(steps(&mut queue, 1, 1), Answer::Empty);
    assert_eq!(queue.clock, 28);
    assert_eq!(queue.begin_insert(0, 1, 1, 1), Ok(29));
}

#[test]
fn run_6_processors_that_are_not_there_or_idle() {
    let mut queue = fresh(2, 1, 1).unwrap();
    let before = queue.clone();
    assert_eq!(queue.step(2), Err(32));
    assert_eq!(queue.begin_insert(2, 0, 1, 1), Err(32));
    assert_eq!(queue.begin_delete_min(2), Err(32));
    assert_eq!(queue.begin_relaxed(2), Err(32));
    assert_eq!(queue.step(u64::MAX), Err(32));
    assert_eq!(queue.step(0), Err(34));
    assert_eq!(queue, before);
}

#[test]
fn refusals_come_in_their_order() {
    let mut queue = fresh(2, 1, 2).unwrap();
    queue.begin_insert(0, 999_999, 999_999, 2).unwrap();
    let before = queue.clone();
    assert_eq!(queue.begin_insert(0, 1_000_000, 0, 0), Err(33));
    assert_eq!(queue.begin_delete_min(0), Err(33));
    assert_eq!(queue.begin_relaxed(0), Err(33));
    assert_eq!(queue.begin_insert(1, 1_000_000, 0, 0), Err(35));
    assert_eq!(queue.begin_insert(1, 0, 1_000_000, 0), Err(35));
    assert_eq!(queue.begin_insert(1, 0, 0, 0), Err(39));
    assert_eq!(queue.begin_insert(1, 0, 1, 0), Err(36));
    assert_eq!(queue.begin_insert(1, 0, 1, 3), Err(36));
    assert_eq!(queue.begin_insert(1, 0, 1, 256 + 1), Err(36));
    assert_eq!(queue.begin_insert(1, 0, 1, 2), Err(37));
    assert_eq!(queue, before);
    queue.clock = 999_999;
    assert_eq!(queue.begin_insert(2, 1_000_000, 0, 0), Err(31));
    assert_eq!(queue.begin_delete_min(2), Err(31));
    assert_eq!(queue.begin_relaxed(2), Err(31));
    assert_eq!(queue.step(2), Err(31));
    assert_eq!(queue.backlog(), Ok(0));
    let mut area = [9; 3];
    assert_eq!(queue.markers(&mut area[..1]), Err(43));
    assert_eq!(area, [9; 3]);
    assert_eq!(queue.markers(&mut area), Ok(1));
    assert_eq!(area, [1, 255, 9]);
    queue.clock = 1_000_000;
    assert_eq!(queue.begin_insert(2, 1_000_000, 0, 0), Err(21));
    assert_eq!(queue.begin_relaxed(2), Err(21));
    assert_eq!(queue.backlog(), Err(21));
    assert_eq!(queue.markers(&mut area[..1]), Err(21));
    assert_eq!(queue.markers(&mut area), Err(21));
    assert_eq!(area, [1, 255, 9]);
}

#[test]
fn the_longest_retired_node_is_taken_and_the_lowest_on_a_tie() {
    let mut queue = fresh(2, 4, 1).unwrap();
    queue.clock = 50;
    for (number, time) in [(1, 30), (2, 20), (3, 20), (4, 40)] {
        queue.nodes[number].state = Use::Retired(time);
    }
    let mut waiting = queue.clone();
    assert_eq!(queue.begin_insert(0, 0, 1, 1), Ok(51));
    assert_eq!(queue.processors[0].own, 2);
    assert_eq!(queue.begin_insert(1, 0, 1, 1), Ok(52));
    assert_eq!(queue.processors[1].own, 3);

    // Who began at the very time of the retirement keeps the node back.
    waiting.begin_delete_min(1).unwrap();
    waiting.processors[1].begin = 20;
    assert_eq!(waiting.begin_insert(0, 0, 1, 1), Err(37));
    waiting.processors[1].begin = 21;
    assert_eq!(waiting.begin_insert(0, 0, 1, 1), Ok(52));

    // A never-used node comes first.
    waiting.nodes[4].state = Use::Never;
    waiting.processors[1] = waiting.processors[2];
    waiting.begin_insert(1, 0, 1, 1).unwrap();
    assert_eq!(waiting.processors[1].own, 4);
}

#[test]
fn an_insert_goes_on_to_i4_from_its_height_on() {
    use darthog_reference::queue::{Place, Stage};
    for (height, stage) in [(1, true), (2, true), (3, false)] {
        let mut queue = fresh(1, 1, 3).unwrap();
        queue.begin_insert(0, 0, 1, height).unwrap();
        queue.processors[0].stage = Stage::I3Unlock(Place { node: 0, level: 2 });
        assert_eq!(queue.step(0), Ok(Answer::Moved));
        let at_i4 = queue.processors[0].stage == Stage::I4UnlockNode;
        assert_eq!(at_i4, stage, "height {height}");
    }
}
