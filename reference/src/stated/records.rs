//! The records of the tables, and where in them a field stands.

use super::rows::{Field, Filling, Table, NONE};
use crate::perturb::{remove_stages_at, stages_at, stages_without_place, walk_stages_at};
use crate::queue::{Node, Operation, Place, Processor, Queue, Stage, Use, Wanted, OPERATIONS};

/// One place where a field stands. Levels are numbered from 1.
#[derive(Clone, Copy, PartialEq, Eq, Debug)]
pub enum Spot {
    /// The record has it once.
    Record,
    /// Each node has it.
    Node(usize),
    /// Each node has it for each level.
    NodeLevel(usize, usize),
    /// Each processor has it.
    Processor(usize),
    /// Each processor has it for each level.
    ProcessorLevel(usize, usize),
    /// Each processor has it in some stages: which of them, by its number.
    Stage(usize, usize),
}

impl Spot {
    /// Whether an image for these sizes has the place: it has no node past N+1
    /// and no processor past P, and every level.
    pub fn stored(&self, [p, n, _]: [u8; 3]) -> bool {
        match *self {
            Spot::Record => true,
            Spot::Node(node) | Spot::NodeLevel(node, _) => node < usize::from(n) + 2,
            Spot::Processor(number) | Spot::ProcessorLevel(number, _) | Spot::Stage(number, _) => {
                number < usize::from(p)
            }
        }
    }
}

/// The record that the rows of a table change.
pub fn record(table: &Table) -> Queue {
    let [processor_count, node_count, level_count] = table.sizes;
    Queue {
        processor_count,
        node_count,
        level_count,
        clock: table.clock,
        nodes: std::array::from_fn(|number| node(table, number)),
        processors: std::array::from_fn(|number| processor(table, number)),
    }
}

fn node(table: &Table, number: usize) -> Node {
    let [p, n, l] = table.sizes;
    let (last, tail) = (usize::from(n), n + 1);
    match table.filling {
        Filling::Least => Node {
            forward: [0; 8],
            level_locks: [0; 8],
            node_lock: 0,
            mark: 0,
            stamp: None,
            due: 0,
            ticket: 0,
            item: 0,
            height: 1,
            state: Use::Never,
        },
        Filling::Greatest if number > usize::from(tail) => Node {
            forward: [255; 8],
            level_locks: [255; 8],
            node_lock: 255,
            mark: 255,
            stamp: Some(u32::MAX),
            due: u32::MAX,
            ticket: u32::MAX,
            item: u32::MAX,
            height: 255,
            state: Use::Retired(u32::MAX),
        },
        Filling::Greatest => Node {
            forward: up_to(l, tail),
            level_locks: up_to(l, p),
            node_lock: p,
            mark: p,
            stamp: (1..=last).contains(&number).then_some(table.clock),
            due: 999_999,
            ticket: table.clock,
            item: 999_999,
            height: l,
            state: Use::Retired(table.clock),
        },
    }
}

fn processor(table: &Table, number: usize) -> Processor {
    let [p, n, l] = table.sizes;
    match table.filling {
        Filling::Least => Processor {
            begin: 0,
            own: 0,
            stage: Stage::Idle,
            saved: [0; 8],
        },
        Filling::Greatest if number >= usize::from(p) => Processor {
            begin: u32::MAX,
            own: 255,
            stage: Stage::G4Unlock(Operation::Insert, at(255, 255), 255),
            saved: [255; 8],
        },
        Filling::Greatest => Processor {
            begin: table.clock,
            own: n,
            stage: Stage::G4Unlock(Operation::Insert, at(n + 1, l), n + 1),
            saved: up_to(l, n + 1),
        },
    }
}

/// A value for the levels 1 to `last`, 255 for those past it.
fn up_to(last: u8, value: u8) -> [u8; 8] {
    std::array::from_fn(|slot| if slot < usize::from(last) { value } else { 255 })
}

fn at(node: u8, level: u8) -> Place {
    Place { node, level }
}

/// Every place where check 21 looks at a field.
pub fn spots(table: &Table, field: Field) -> Vec<Spot> {
    let [p, n, l] = table.sizes.map(usize::from);
    let (nodes, processors): (Vec<usize>, Vec<usize>) = ((0..n + 2).collect(), (0..p).collect());
    let levels: Vec<usize> = (1..=l).collect();
    match field {
        Field::Processors | Field::Nodes | Field::Levels | Field::Clock => vec![Spot::Record],
        Field::HeadStamp => vec![Spot::Node(0)],
        Field::TailStamp => vec![Spot::Node(n + 1)],
        Field::Stamp => (1..=n).map(Spot::Node).collect(),
        _ => spots_of(field, &nodes, &processors, &levels),
    }
}

/// The first and the last place of a field past N+1, past P and past L, where
/// check 21 does not look.
pub fn spots_past(table: &Table, field: Field) -> Vec<Spot> {
    let [p, n, l] = table.sizes.map(usize::from);
    let (nodes, processors, levels) = (ends(n + 2, 201), ends(p, 15), ends(l + 1, 8));
    let mut spots = match field {
        Field::Processors | Field::Nodes | Field::Levels | Field::Clock => Vec::new(),
        Field::HeadStamp | Field::TailStamp => Vec::new(),
        _ => spots_of(field, &nodes, &processors, &[1, 8]),
    };
    if matches!(field, Field::Forward | Field::LevelLock | Field::Saved) {
        let (nodes, processors): (Vec<_>, Vec<_>) = ((0..n + 2).collect(), (0..p).collect());
        spots.extend(spots_of(field, &nodes, &processors, &levels));
    }
    spots
}

/// The first and the last of a range that may be empty.
fn ends(first: usize, last: usize) -> Vec<usize> {
    let mut ends: Vec<usize> = (first..=last).collect();
    if ends.len() > 2 {
        ends = vec![first, last];
    }
    ends
}

/// The places of a field in these nodes or processors, and at these levels
/// where it has one for each.
fn spots_of(field: Field, nodes: &[usize], processors: &[usize], levels: &[usize]) -> Vec<Spot> {
    let stages = stage_count(field);
    let mut spots = Vec::new();
    match field {
        Field::Forward | Field::LevelLock => {
            for &node in nodes {
                spots.extend(levels.iter().map(|&level| Spot::NodeLevel(node, level)));
            }
        }
        Field::Saved => {
            for &p in processors {
                spots.extend(levels.iter().map(|&level| Spot::ProcessorLevel(p, level)));
            }
        }
        Field::Begin => spots.extend(processors.iter().map(|&p| Spot::Processor(p))),
        _ if stages > 0 => {
            for &p in processors {
                spots.extend((0..stages).map(|stage| Spot::Stage(p, stage)));
            }
        }
        _ => spots.extend(nodes.iter().map(|&node| Spot::Node(node))),
    }
    spots
}

/// How many stages have a field; 0 for a field that is no stage's.
fn stage_count(field: Field) -> usize {
    match field {
        Field::Own => 36,
        Field::OwnOfNoStage => 10,
        Field::PlaceNode => 34,
        Field::MarkedNode => 3,
        Field::PlaceLevel => 37,
        Field::ReadNode => 3,
        Field::WantedDue | Field::WantedTicket => 4,
        _ => 0,
    }
}

/// The stages that have a field, with this place, this node of G3 and this key.
fn stages_of(field: Field, a: Place, read: u8, wanted: Wanted) -> Vec<Stage> {
    let mut stages = stages_at(a, read);
    let of_removes = remove_stages_at(a, wanted);
    match field {
        Field::Own => stages.extend(stages_without_place()),
        Field::PlaceNode => {
            stages.extend([Stage::W1Read(a), Stage::W2Compare(a), Stage::RW1Read(a)]);
            stages.extend(&of_removes[..3]);
        }
        Field::PlaceLevel => {
            stages.extend(walk_stages_at(a));
            stages.extend(of_removes);
        }
        Field::OwnOfNoStage => {
            stages = walk_stages_at(a);
            stages.extend(of_removes);
            stages.push(Stage::Idle);
        }
        Field::MarkedNode => {
            stages = vec![
                Stage::W3Mark(a),
                Stage::RW3Mark(a),
                Stage::X3Mark(wanted, a),
            ];
        }
        Field::WantedDue | Field::WantedTicket => stages = of_removes,
        _ => stages = OPERATIONS.map(|op| Stage::G4Unlock(op, a, read)).to_vec(),
    }
    assert_eq!(stages.len(), stage_count(field), "{field:?}");
    stages
}

/// Puts a value into a field at one place. A field of a stage brings the stage
/// with it; the rest of the stage is then node 1 and level 1, and of a Remove due
/// minute 0 and ticket 1.
pub fn put(queue: &mut Queue, field: Field, spot: Spot, value: u64) {
    match spot {
        Spot::Record => put_whole(queue, field, value),
        Spot::Node(node) => put_node(&mut queue.nodes[node], field, value),
        Spot::NodeLevel(node, level) => {
            let node = &mut queue.nodes[node];
            let list = match field {
                Field::Forward => &mut node.forward,
                _ => &mut node.level_locks,
            };
            list[level - 1] = byte(value);
        }
        Spot::Processor(p) => queue.processors[p].begin = number(value),
        Spot::ProcessorLevel(p, level) => queue.processors[p].saved[level - 1] = byte(value),
        Spot::Stage(p, stage) => put_stage(&mut queue.processors[p], field, stage, value),
    }
}

fn put_whole(queue: &mut Queue, field: Field, value: u64) {
    match field {
        Field::Processors => queue.processor_count = byte(value),
        Field::Nodes => queue.node_count = byte(value),
        Field::Levels => queue.level_count = byte(value),
        Field::Clock => queue.clock = number(value),
        _ => panic!("the record has no single {field:?}"),
    }
}

fn put_node(node: &mut Node, field: Field, value: u64) {
    match field {
        Field::NodeLock => node.node_lock = byte(value),
        Field::Mark => node.mark = byte(value),
        Field::Due => node.due = number(value),
        Field::Item => node.item = number(value),
        Field::Ticket => node.ticket = number(value),
        Field::Height => node.height = byte(value),
        Field::Retirement => node.state = Use::Retired(number(value)),
        Field::Stamp | Field::HeadStamp | Field::TailStamp => {
            node.stamp = (value != NONE).then(|| number(value));
        }
        _ => panic!("a node has no single {field:?}"),
    }
}

fn put_stage(processor: &mut Processor, field: Field, stage: usize, value: u64) {
    let (mut a, mut own, mut read) = (at(1, 1), 1, 1);
    let mut wanted = Wanted { due: 0, ticket: 1 };
    match field {
        Field::Own | Field::OwnOfNoStage => own = byte(value),
        Field::PlaceNode | Field::MarkedNode => a.node = byte(value),
        Field::PlaceLevel => a.level = byte(value),
        Field::ReadNode => read = byte(value),
        Field::WantedDue => wanted.due = number(value),
        Field::WantedTicket => wanted.ticket = number(value),
        _ => panic!("a stage has no {field:?}"),
    }
    processor.own = own;
    processor.stage = stages_of(field, a, read, wanted)[stage];
}

fn byte(value: u64) -> u8 {
    u8::try_from(value).expect("a number of one byte")
}

fn number(value: u64) -> u32 {
    u32::try_from(value).expect("a number of four bytes")
}
