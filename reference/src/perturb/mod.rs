//! Single changes to a record that passes check 21: those that break it, those
//! that bring a field to the edge of its range, and those past P, N+1 and L.

use crate::calls::Call;
use crate::queue::{Node, Operation, Place, Processor, Queue, Stage, Use, HEAD, MAX_NUMBER};
use crate::queue::{Wanted, JOBS, MAX_LEVELS, MAX_PROCESSORS, NODE_SLOTS, OPERATIONS, UNMARKED};
use crate::schedule::{Schedule, Sizes};
use crate::trial::fresh_of;

mod breaking;

pub use breaking::breaking;

/// Calls of every kind by processor 0, and calls that would be refused for
/// their numbers: check 21 comes before these.
pub const CALLS: [Call; 12] = [
    Call::Backlog,
    Call::Markers { room: 400 },
    Call::Markers { room: 0 },
    Call::Step { processor: 0 },
    Call::DeleteMin { processor: 0 },
    Call::Relaxed { processor: 0 },
    Call::Insert {
        processor: 0,
        due: 0,
        item: 1,
        height: 1,
    },
    Call::Step {
        processor: u64::MAX,
    },
    Call::Relaxed { processor: 99 },
    Call::Insert {
        processor: 99,
        due: u64::MAX,
        item: u64::MAX,
        height: 0,
    },
    Call::Remove {
        processor: 0,
        due: 0,
        ticket: 1,
    },
    Call::Remove {
        processor: 99,
        due: u64::MAX,
        ticket: 0,
    },
];

/// Records to change: fresh ones, and some in the middle of operations.
pub fn bases() -> Vec<(Sizes, Queue)> {
    let mut bases = Vec::new();
    for (processors, nodes, levels, calls) in [
        (1, 1, 1, 0),
        (1, 1, 1, 20),
        (2, 3, 2, 300),
        (3, 4, 3, 500),
        (5, 9, 7, 400),
        (15, 30, 8, 700),
        (16, 200, 8, 2000),
    ] {
        let sizes = Sizes {
            processors,
            nodes,
            levels,
        };
        let mut queue = fresh_of(sizes);
        let mut schedule = Schedule::new(calls, sizes);
        for _ in 0..calls {
            let call = schedule.next_call();
            let outcome = queue.call(&call);
            schedule.note(&call, &outcome);
        }
        assert!(queue.sound());
        bases.push((sizes, queue));
    }
    bases
}

/// One change with a name.
pub struct Change {
    /// What is changed, in words.
    pub name: String,
    /// Makes the change.
    pub make: Box<dyn Fn(&mut Queue)>,
}

fn change(name: String, make: impl Fn(&mut Queue) + 'static) -> Change {
    Change {
        name,
        make: Box::new(make),
    }
}

fn on_node(n: usize, name: String, make: impl Fn(&mut Node) + 'static) -> Change {
    change(format!("node {n} {name}"), move |queue| {
        make(&mut queue.nodes[n])
    })
}

fn on_processor(p: usize, name: String, make: impl Fn(&mut Processor) + 'static) -> Change {
    change(format!("processor {p} {name}"), move |queue| {
        make(&mut queue.processors[p])
    })
}

/// Every stage that stands at this place.
pub fn stages_at(a: Place, b: u8) -> Vec<Stage> {
    let mut stages = vec![Stage::I1PointOwn(a), Stage::I2Link(a), Stage::I3Unlock(a)];
    for job in JOBS {
        stages.push(Stage::L2LockOwn(job, a));
        stages.push(Stage::L3Unlink(job, a));
        stages.push(Stage::L4PointBack(job, a));
        stages.push(Stage::L5UnlockOwn(job, a));
        stages.push(Stage::L6Unlock(job, a));
    }
    for op in OPERATIONS {
        stages.push(Stage::Search(op, a));
        stages.push(Stage::G1Read(op, a));
        stages.push(Stage::G2Lock(op, a));
        stages.push(Stage::G3Reread(op, a));
        stages.push(Stage::G4Unlock(op, a, b));
    }
    stages
}

/// Every stage of a walk at this place, ordinary or Relaxed.
pub fn walk_stages_at(a: Place) -> Vec<Stage> {
    vec![
        Stage::W1Read(a),
        Stage::W2Compare(a),
        Stage::W3Mark(a),
        Stage::RW1Read(a),
        Stage::RW3Mark(a),
    ]
}

/// Every stage of a Remove up to its mark, at this place and with this key.
pub fn remove_stages_at(a: Place, wanted: Wanted) -> Vec<Stage> {
    vec![
        Stage::XSearch(wanted, a),
        Stage::X1Read(wanted, a),
        Stage::X2Test(wanted, a),
        Stage::X3Mark(wanted, a),
    ]
}

/// Every stage with an own node and no place.
pub fn stages_without_place() -> Vec<Stage> {
    let mut stages = vec![Stage::I4UnlockNode, Stage::I5Stamp];
    for job in JOBS {
        stages.push(Stage::L1LockNode(job));
        stages.push(Stage::L7UnlockNode(job));
        stages.push(Stage::L8Retire(job));
    }
    stages
}

fn stage_change(p: usize, stage: Stage, own: u8) -> Change {
    on_processor(p, format!("own {own} {stage:?}"), move |processor| {
        processor.stage = stage;
        processor.own = own;
    })
}

/// Changes that bring a field to the edge of its range and keep check 21.
pub fn to_the_edge(queue: &Queue) -> Vec<Change> {
    let (tail, last, levels) = (queue.tail(), queue.node_count, queue.level_count);
    let (clock, holders) = (queue.clock, queue.processor_count);
    let mut changes = Vec::new();
    for n in 0..=tail as usize {
        changes.push(on_node(n, "at its greatest".to_string(), move |node| {
            node.forward[..levels as usize].fill(tail);
            node.level_locks[..levels as usize].fill(holders);
            node.node_lock = holders;
            node.mark = holders;
            node.due = MAX_NUMBER;
            node.item = MAX_NUMBER;
            node.ticket = clock;
            node.height = levels;
            node.state = Use::Retired(clock);
        }));
        changes.push(on_node(n, "at its least".to_string(), move |node| {
            node.forward[..levels as usize].fill(HEAD);
            node.mark = UNMARKED;
            node.height = 1;
            node.state = Use::Retired(0);
            node.stamp = None;
        }));
    }
    for n in 1..=last as usize {
        changes.push(on_node(n, "stamp now".to_string(), move |node| {
            node.stamp = Some(clock)
        }));
    }
    for p in 0..holders as usize {
        changes.push(on_processor(p, "begin and saved".to_string(), move |it| {
            it.begin = clock;
            it.saved[..levels as usize].fill(tail);
        }));
        for node in [HEAD, tail] {
            let end = Place {
                node,
                level: levels,
            };
            for stage in stages_at(end, node) {
                changes.push(stage_change(p, stage, last));
            }
            changes.push(stage_change(p, Stage::W1Read(end), tail));
            changes.push(stage_change(p, Stage::W2Compare(end), 0));
            changes.push(stage_change(p, Stage::RW1Read(end), tail));
            changes.push(stage_change(p, Stage::Idle, node));
            for wanted in edge_keys() {
                changes.push(stage_change(p, Stage::XSearch(wanted, end), 0));
                changes.push(stage_change(p, Stage::X1Read(wanted, end), tail));
                changes.push(stage_change(p, Stage::X2Test(wanted, end), 0));
            }
        }
        for stage in stages_without_place() {
            changes.push(stage_change(p, stage, last));
        }
        for node in [1, last] {
            let entry = Place {
                node,
                level: levels,
            };
            changes.push(stage_change(p, Stage::W3Mark(entry), tail));
            changes.push(stage_change(p, Stage::RW3Mark(entry), tail));
            for wanted in edge_keys() {
                changes.push(stage_change(p, Stage::X3Mark(wanted, entry), tail));
            }
        }
    }
    changes
}

/// Keys of a Remove at the edges of their ranges, whatever the clock is.
fn edge_keys() -> [Wanted; 2] {
    [(0, 1), (MAX_NUMBER, MAX_NUMBER)].map(|(due, ticket)| Wanted { due, ticket })
}

/// Changes past P and N+1, one slot at a time, which no call may notice and no
/// image has: there these slots are as made.
pub fn past_slots(queue: &Queue) -> Vec<Change> {
    let mut changes = Vec::new();
    let far = Place {
        node: u8::MAX,
        level: u8::MAX,
    };
    for n in queue.tail() as usize + 1..NODE_SLOTS {
        changes.push(on_node(n, "past N+1".to_string(), |node| {
            *node = Node {
                forward: [u8::MAX; MAX_LEVELS],
                level_locks: [u8::MAX; MAX_LEVELS],
                node_lock: u8::MAX,
                mark: u8::MAX,
                stamp: Some(u32::MAX),
                due: u32::MAX,
                ticket: u32::MAX,
                item: u32::MAX,
                height: u8::MAX,
                state: Use::InUse,
            };
        }));
        changes.push(on_node(n, "never used past N+1".to_string(), |node| {
            node.height = 0;
            node.state = Use::Retired(0);
        }));
    }
    for p in queue.processor_count as usize..MAX_PROCESSORS {
        changes.push(on_processor(p, "past P".to_string(), move |processor| {
            *processor = Processor {
                begin: 0,
                own: u8::MAX,
                stage: Stage::Search(Operation::Insert, far),
                saved: [u8::MAX; MAX_LEVELS],
            };
        }));
        changes.push(on_processor(p, "late past P".to_string(), |processor| {
            processor.begin = u32::MAX
        }));
    }
    changes
}

/// Changes past L, one slot at a time, which no call may notice; images have
/// them.
pub fn past_levels(queue: &Queue) -> Vec<Change> {
    let mut changes = Vec::new();
    for i in queue.level_count as usize..MAX_LEVELS {
        for n in 0..=queue.tail() as usize {
            changes.push(on_node(n, format!("forward[{i}] past L"), move |node| {
                node.forward[i] = u8::MAX
            }));
            changes.push(on_node(n, format!("lock[{i}] past L"), move |node| {
                node.level_locks[i] = u8::MAX
            }));
        }
        for p in 0..queue.processor_count as usize {
            changes.push(on_processor(
                p,
                format!("saved[{i}] past L"),
                move |processor| processor.saved[i] = u8::MAX,
            ));
        }
    }
    changes
}
