//! Item 0 (document 02, W10): which number refuses an Insert that has it, and
//! how a record that came to have such an entry before goes on.

use crate::answer::{Answer, Entry};
use crate::calls::{Call, Outcome};
use crate::queue::{Node, Operation, Place, Processor, Queue, Stage, Use};

/// A queue with one node for entries at time 1: processor 0 has begun an Insert
/// with due 7, this item and height 1, and the others are idle.
fn begun(processor_count: u8, level_count: u8, item: u32) -> Queue {
    let tail = 2;
    let free = Node {
        forward: [tail; 8],
        level_locks: [0; 8],
        node_lock: 0,
        mark: 0,
        stamp: None,
        due: 0,
        ticket: 0,
        item: 0,
        height: 1,
        state: Use::Never,
    };
    let idle = Processor {
        begin: 0,
        own: 0,
        stage: Stage::Idle,
        saved: [0; 8],
    };
    let start = Place {
        node: 0,
        level: level_count,
    };
    let mut queue = Queue {
        processor_count,
        node_count: 1,
        level_count,
        clock: 1,
        nodes: [free; 202],
        processors: [idle; 16],
    };
    queue.nodes[1] = Node {
        node_lock: 1,
        due: 7,
        ticket: 1,
        item,
        state: Use::InUse,
        ..free
    };
    queue.processors[0] = Processor {
        begin: 1,
        own: 1,
        stage: Stage::Search(Operation::Insert, start),
        ..idle
    };
    queue
}

/// Two processors and two levels; processor 0 is busy, and no node is free.
pub fn no_node_free() -> Queue {
    begun(2, 2, 42)
}

/// Processor, due, item and height of Inserts, and what refuses each on that
/// record: item 0 comes after 32, 33 and 35, and before 36 and 37.
pub const REFUSED: [([u64; 4], u32); 19] = [
    ([2, 7, 0, 1], 32),
    ([0, 7, 0, 1], 33),
    ([0, 7, 0, 0], 33),
    ([0, 1_000_000, 0, 1], 33),
    ([1, 1_000_000, 0, 1], 35),
    ([1, 1_000_000, 0, 0], 35),
    ([1, 1_000_000, 1, 1], 35),
    ([1, 7, 1_000_000, 1], 35),
    ([1, 7, 0, 1], 39),
    ([1, 0, 0, 2], 39),
    ([1, 999_999, 0, 1], 39),
    ([1, 7, 0, 0], 39),
    ([1, 7, 0, 3], 39),
    ([1, 7, 0, 257], 39),
    ([1, 7, 1, 0], 36),
    ([1, 7, 1, 3], 36),
    ([1, 7, 999_999, 257], 36),
    ([1, 7, 1, 1], 37),
    ([1, 7, 999_999, 2], 37),
];

/// One processor, one level; the Insert that is begun has item 0.
pub fn begun_with_item_0() -> Queue {
    begun(1, 1, 0)
}

/// The calls of the printed run from there on, with what each gives back. At
/// its end an Insert with item 0 is refused, and one with item 1 is taken.
pub fn goes_on() -> Vec<(Call, Outcome)> {
    let entry = Entry {
        due: 7,
        item: 0,
        ticket: 1,
    };
    let delete = Call::DeleteMin { processor: 0 };
    let insert = |item| Call::Insert {
        processor: 0,
        due: 7,
        item,
        height: 1,
    };
    let mut calls = Vec::new();
    let steps = |calls: &mut Vec<_>, moves: usize, last: Answer| {
        let step = Call::Step { processor: 0 };
        calls.extend(vec![(step, Outcome::Stepped(Answer::Moved)); moves]);
        calls.push((step, Outcome::Stepped(last)));
    };
    steps(&mut calls, 8, Answer::Inserted(entry));
    calls.push((Call::Backlog, Outcome::Count(1)));
    calls.push((delete, Outcome::Began(11)));
    steps(&mut calls, 2, Answer::Marked(entry));
    steps(&mut calls, 11, Answer::HandedOut(entry));
    calls.push((Call::Backlog, Outcome::Count(0)));
    calls.push((delete, Outcome::Began(27)));
    steps(&mut calls, 0, Answer::Empty);
    calls.push((insert(0), Outcome::Refused(39)));
    calls.push((insert(1), Outcome::Began(29)));
    calls
}
