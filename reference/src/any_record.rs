//! Random records that pass check 21, reached by a run or not. Slots past P,
//! N+1 and L hold anything.

use crate::queue::{
    Node, Operation, Place, Processor, Queue, Stage, Use, Wanted, HEAD, JOBS, MAX_LEVELS,
    MAX_NUMBER, MAX_PROCESSORS, NODE_SLOTS, UNMARKED,
};
use crate::random::Random;
use crate::schedule::Sizes;

/// A random record that passes check 21.
pub fn any_record(random: &mut Random) -> Queue {
    let sizes = match random.below(20) {
        0 => Sizes::large(random),
        1..=4 => Sizes::middle(random),
        _ => Sizes::small(random),
    };
    let mut maker = Maker {
        tail: sizes.nodes as u8 + 1,
        processors: sizes.processors as u8,
        levels: sizes.levels as u8,
        clock: random.among(&[0, 1, 5, 30, 1000, MAX_NUMBER - 1, MAX_NUMBER]),
        random,
    };
    let mut nodes = [maker.junk_node(); NODE_SLOTS];
    for (number, node) in nodes.iter_mut().enumerate() {
        *node = maker.junk_node();
        if number <= maker.tail as usize {
            maker.settle_node(number as u8, node);
        }
    }
    let mut processors = [maker.junk_processor(); MAX_PROCESSORS];
    for (number, processor) in processors.iter_mut().enumerate() {
        *processor = maker.junk_processor();
        if number < maker.processors as usize {
            let wanted = maker.wanted(&nodes);
            maker.settle_processor(processor, wanted);
        }
    }
    Queue {
        processor_count: maker.processors,
        node_count: sizes.nodes as u8,
        level_count: maker.levels,
        clock: maker.clock,
        nodes,
        processors,
    }
}

/// A random stage over this place, b and key; each is about equally likely.
pub fn any_stage(random: &mut Random, a: Place, b: u8, wanted: Wanted) -> Stage {
    let job = random.among(&JOBS);
    let op = random.among(&[Operation::Insert, Operation::Removal(job)]);
    let stages = [
        Stage::Idle,
        Stage::Search(Operation::Insert, a),
        Stage::Search(Operation::Removal(job), a),
        Stage::G1Read(op, a),
        Stage::G2Lock(op, a),
        Stage::G3Reread(op, a),
        Stage::G4Unlock(op, a, b),
        Stage::I1PointOwn(a),
        Stage::I2Link(a),
        Stage::I3Unlock(a),
        Stage::I4UnlockNode,
        Stage::I5Stamp,
        Stage::W1Read(a),
        Stage::W2Compare(a),
        Stage::W3Mark(a),
        Stage::RW1Read(a),
        Stage::RW3Mark(a),
        Stage::XSearch(wanted, a),
        Stage::X1Read(wanted, a),
        Stage::X2Test(wanted, a),
        Stage::X3Mark(wanted, a),
        Stage::L1LockNode(job),
        Stage::L2LockOwn(job, a),
        Stage::L3Unlink(job, a),
        Stage::L4PointBack(job, a),
        Stage::L5UnlockOwn(job, a),
        Stage::L6Unlock(job, a),
        Stage::L7UnlockNode(job),
        Stage::L8Retire(job),
    ];
    random.among(&stages)
}

struct Maker<'a> {
    random: &'a mut Random,
    tail: u8,
    processors: u8,
    levels: u8,
    clock: u32,
}

impl Maker<'_> {
    fn byte(&mut self) -> u8 {
        self.random.draw() as u8
    }

    fn word(&mut self) -> u32 {
        self.random.draw() as u32
    }

    /// Eight bytes of anything.
    fn bytes(&mut self) -> [u8; MAX_LEVELS] {
        self.random.draw().to_le_bytes()
    }

    fn up_to(&mut self, last: u8) -> u8 {
        self.random.between(0, u64::from(last)) as u8
    }

    /// Any time up to the clock, often one of the last.
    fn time(&mut self) -> u32 {
        let clock = u64::from(self.clock);
        let first = if self.random.one_in(2) {
            clock.saturating_sub(3)
        } else {
            0
        };
        self.random.between(first, clock) as u32
    }

    fn value(&mut self) -> u32 {
        let last = self.random.among(&[0, 2, u64::from(MAX_NUMBER)]);
        self.random.between(0, last) as u32
    }

    fn junk_node(&mut self) -> Node {
        Node {
            forward: self.bytes(),
            level_locks: self.bytes(),
            node_lock: self.byte(),
            mark: self.byte(),
            stamp: Some(self.word()),
            due: self.word(),
            ticket: self.word(),
            item: self.word(),
            height: self.byte(),
            state: Use::Retired(self.word()),
        }
    }

    fn junk_processor(&mut self) -> Processor {
        let place = Place {
            node: self.byte(),
            level: self.byte(),
        };
        let b = self.byte();
        let wanted = Wanted {
            due: self.word(),
            ticket: self.word(),
        };
        Processor {
            begin: self.word(),
            own: self.byte(),
            stage: any_stage(self.random, place, b, wanted),
            saved: self.bytes(),
        }
    }

    /// Brings the looked-at fields of a node into their ranges.
    fn settle_node(&mut self, number: u8, node: &mut Node) {
        let levels = self.levels as usize;
        let locked = self.random.one_in(3);
        for slot in 0..levels {
            node.forward[slot] = self.up_to(self.tail);
            node.level_locks[slot] = if locked { self.holder() } else { 0 };
        }
        node.node_lock = if locked { self.holder() } else { 0 };
        node.mark = if self.random.one_in(2) {
            self.holder()
        } else {
            UNMARKED
        };
        node.stamp = None;
        if number != HEAD && number != self.tail && self.random.one_in(2) {
            node.stamp = Some(self.time());
        }
        node.due = self.value();
        node.item = self.value();
        node.ticket = self.time();
        node.height = self.random.between(1, u64::from(self.levels)) as u8;
        node.state = match self.random.below(20) {
            0 => Use::Never,
            1..=9 => Use::InUse,
            _ => Use::Retired(self.time()),
        };
    }

    /// What a lock or a mark holds: a processor, or none.
    fn holder(&mut self) -> u8 {
        self.up_to(self.processors)
    }

    /// What a Remove looks for: mostly the key of some node, else any in range,
    /// its ticket above the clock too.
    fn wanted(&mut self, nodes: &[Node]) -> Wanted {
        let number = self.random.between(0, u64::from(self.tail)) as usize;
        let Node { due, ticket, .. } = nodes[number];
        let limit = u64::from(MAX_NUMBER);
        let other = match self.random.below(3) {
            0 => 1,
            1 => self.random.between(1, limit) as u32,
            _ => MAX_NUMBER,
        };
        match self.random.below(8) {
            0 => Wanted {
                due: self.value(),
                ticket: other,
            },
            1 => Wanted { due, ticket: other },
            2 => Wanted {
                due: self.value(),
                ticket: ticket.max(1),
            },
            _ => Wanted {
                due,
                ticket: ticket.max(1),
            },
        }
    }

    /// Brings the looked-at fields of a processor into their ranges.
    fn settle_processor(&mut self, processor: &mut Processor, wanted: Wanted) {
        for slot in 0..self.levels as usize {
            processor.saved[slot] = self.up_to(self.tail);
        }
        processor.begin = self.time();
        let place = Place {
            node: self.up_to(self.tail),
            level: self.random.between(1, u64::from(self.levels)) as u8,
        };
        let b = self.up_to(self.tail);
        processor.stage = any_stage(self.random, place, b, wanted);
        if self.random.one_in(4) {
            processor.stage = Stage::Idle;
        }
        let entry = self.random.between(1, u64::from(self.tail) - 1) as u8;
        processor.own = entry;
        match &mut processor.stage {
            Stage::Idle
            | Stage::W1Read(_)
            | Stage::W2Compare(_)
            | Stage::RW1Read(_)
            | Stage::XSearch(..)
            | Stage::X1Read(..)
            | Stage::X2Test(..) => {
                processor.own = self.up_to(self.tail);
            }
            Stage::W3Mark(place) | Stage::RW3Mark(place) | Stage::X3Mark(_, place) => {
                processor.own = self.up_to(self.tail);
                place.node = entry;
            }
            _ => {}
        }
    }
}

/// The fields that no call may look at or change: slots past P, N+1 and L.
/// Two records agree there if this gives equal lists.
pub fn slots_past(queue: &Queue) -> (Vec<Node>, Vec<Processor>, Vec<u8>) {
    let levels = queue.level_count as usize;
    let last = queue.tail() as usize;
    let count = queue.processor_count as usize;
    let mut past_levels = Vec::new();
    for node in &queue.nodes[..=last] {
        past_levels.extend_from_slice(&node.forward[levels..]);
        past_levels.extend_from_slice(&node.level_locks[levels..]);
    }
    for processor in &queue.processors[..count] {
        past_levels.extend_from_slice(&processor.saved[levels..]);
    }
    (
        queue.nodes[last + 1..].to_vec(),
        queue.processors[count..].to_vec(),
        past_levels,
    )
}
