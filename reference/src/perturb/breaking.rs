//! Changes that break check 21.

use super::{change, on_node, on_processor, stage_change};
use super::{remove_stages_at, stages_at, stages_without_place, walk_stages_at, Change};
use crate::queue::{Place, Queue, Stage, Use, Wanted, HEAD, MAX_NUMBER};
use crate::queue::{MAX_LEVELS, MAX_NODES, MAX_PROCESSORS, OPERATIONS};

/// Changes each of which breaks check 21: every looked-at field, one at a time,
/// just out of its range and far out.
pub fn breaking(queue: &Queue) -> Vec<Change> {
    let mut changes = Vec::new();
    for count in [0, MAX_PROCESSORS as u8 + 1, u8::MAX] {
        changes.push(change(format!("P {count}"), move |queue| {
            queue.processor_count = count
        }));
    }
    for count in [0, MAX_NODES as u8 + 1, u8::MAX] {
        changes.push(change(format!("N {count}"), move |queue| {
            queue.node_count = count
        }));
    }
    for count in [0, MAX_LEVELS as u8 + 1, u8::MAX] {
        changes.push(change(format!("L {count}"), move |queue| {
            queue.level_count = count
        }));
    }
    for clock in [MAX_NUMBER + 1, u32::MAX] {
        changes.push(change(format!("clock {clock}"), move |queue| {
            queue.clock = clock
        }));
    }
    for n in 0..=queue.tail() as usize {
        changes.extend(node_breaking(queue, n));
    }
    for p in 0..queue.processor_count as usize {
        changes.extend(processor_breaking(queue, p));
        changes.extend(stage_breaking(queue, p));
    }
    changes
}

fn node_breaking(queue: &Queue, n: usize) -> Vec<Change> {
    let mut changes = Vec::new();
    let levels = queue.level_count as usize;
    for i in 0..levels {
        for value in [queue.tail() + 1, u8::MAX] {
            changes.push(on_node(n, format!("forward[{i}] {value}"), move |node| {
                node.forward[i] = value
            }));
        }
        for value in [queue.processor_count + 1, u8::MAX] {
            changes.push(on_node(n, format!("lock[{i}] {value}"), move |node| {
                node.level_locks[i] = value
            }));
        }
    }
    for value in [queue.processor_count + 1, u8::MAX] {
        changes.push(on_node(n, format!("node lock {value}"), move |node| {
            node.node_lock = value
        }));
        changes.push(on_node(n, format!("mark {value}"), move |node| {
            node.mark = value
        }));
    }
    for value in [MAX_NUMBER + 1, u32::MAX] {
        changes.push(on_node(n, format!("due {value}"), move |node| {
            node.due = value
        }));
        changes.push(on_node(n, format!("item {value}"), move |node| {
            node.item = value
        }));
    }
    for value in [0, queue.level_count + 1, u8::MAX] {
        changes.push(on_node(n, format!("height {value}"), move |node| {
            node.height = value
        }));
    }
    for time in [queue.clock + 1, u32::MAX] {
        changes.push(on_node(n, format!("ticket {time}"), move |node| {
            node.ticket = time
        }));
        changes.push(on_node(n, format!("stamp {time}"), move |node| {
            node.stamp = Some(time)
        }));
        changes.push(on_node(n, format!("retired {time}"), move |node| {
            node.state = Use::Retired(time)
        }));
    }
    if n == HEAD as usize || n == queue.tail() as usize {
        for time in [0, queue.clock] {
            changes.push(on_node(n, format!("stamp {time} at an end"), move |node| {
                node.stamp = Some(time)
            }));
        }
    }
    changes
}

fn processor_breaking(queue: &Queue, p: usize) -> Vec<Change> {
    let mut changes = Vec::new();
    for time in [queue.clock + 1, u32::MAX] {
        changes.push(on_processor(p, format!("begin {time}"), move |processor| {
            processor.begin = time
        }));
    }
    for value in [queue.tail() + 1, u8::MAX] {
        changes.push(on_processor(p, format!("own {value}"), move |processor| {
            processor.own = value
        }));
        for j in 0..queue.level_count as usize {
            changes.push(on_processor(
                p,
                format!("saved[{j}] {value}"),
                move |processor| processor.saved[j] = value,
            ));
        }
    }
    changes
}

/// Keys that no Remove may carry: due minutes and tickets.
const BAD_KEYS: [(u32, u32); 6] = [
    (MAX_NUMBER + 1, 1),
    (u32::MAX, 1),
    (0, 0),
    (0, MAX_NUMBER + 1),
    (0, u32::MAX),
    (MAX_NUMBER + 1, 0),
];

const GOOD: Place = Place { node: 1, level: 1 };
const GOOD_KEY: Wanted = Wanted { due: 0, ticket: 1 };

fn stage_breaking(queue: &Queue, p: usize) -> Vec<Change> {
    let mut changes = place_breaking(queue, p);
    let tail = queue.tail();
    for (due, ticket) in BAD_KEYS {
        for stage in remove_stages_at(GOOD, Wanted { due, ticket }) {
            changes.push(stage_change(p, stage, 1));
        }
    }
    for own in [0, tail, tail + 1] {
        let with_place = stages_at(GOOD, 1).into_iter();
        for stage in with_place.chain(stages_without_place()) {
            changes.push(stage_change(p, stage, own));
        }
    }
    for op in OPERATIONS {
        changes.push(stage_change(p, Stage::G4Unlock(op, GOOD, tail + 1), 1));
    }
    changes
}

fn place_breaking(queue: &Queue, p: usize) -> Vec<Change> {
    let mut changes = Vec::new();
    let tail = queue.tail();
    let bad_places = [
        (tail + 1, 1),
        (u8::MAX, 1),
        (1, 0),
        (1, queue.level_count + 1),
        (1, u8::MAX),
    ];
    for (node, level) in bad_places {
        let bad = Place { node, level };
        let mut stages = stages_at(bad, 1);
        stages.extend(walk_stages_at(bad));
        stages.extend(remove_stages_at(bad, GOOD_KEY));
        changes.extend(stages.into_iter().map(|stage| stage_change(p, stage, 1)));
    }
    for node in [HEAD, tail] {
        let end = Place { node, level: 1 };
        changes.push(stage_change(p, Stage::W3Mark(end), 1));
        changes.push(stage_change(p, Stage::RW3Mark(end), 1));
        changes.push(stage_change(p, Stage::X3Mark(GOOD_KEY, end), 1));
    }
    changes
}
