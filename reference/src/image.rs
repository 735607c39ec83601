//! The record as bytes, in the layout of docs/IMAGE.md, and back.
//!
//! Every number is unsigned; one of four bytes has its lowest byte first. An
//! image has the processors below P and the nodes 0 to N+1, and so the length
//! that its sizes ask for. The record's other slots are as made, which is what
//! they are read as. Bytes are taken only if they are the image of the record
//! that they are read as. Whether the numbers are in their ranges is check 21.

use crate::queue::{
    Job, Node, Operation, Place, Processor, Queue, Stage, Use, Wanted, MAX_LEVELS, MAX_NODES,
    MAX_PROCESSORS, NODE_SLOTS,
};

/// Where the processors start, behind the sizes and the clock.
pub const PROCESSORS_AT: usize = 7;
/// How many bytes a processor has.
pub const PROCESSOR_BYTES: usize = 26;
/// How many bytes a node has.
pub const NODE_BYTES: usize = 41;

/// The length of an image for so many processors and entries; none where no
/// queue has these sizes.
pub fn image_length(processors: u64, entries: u64) -> Option<usize> {
    let made = (1..=MAX_PROCESSORS as u64).contains(&processors)
        && (1..=MAX_NODES as u64).contains(&entries);
    made.then(|| node_at(processors as usize, entries as usize + 2))
}

/// Where processor p starts.
pub fn processor_at(p: usize) -> usize {
    PROCESSORS_AT + PROCESSOR_BYTES * p
}

/// Where node x starts in the image of a queue for so many processors.
pub fn node_at(processors: usize, x: usize) -> usize {
    processor_at(processors) + NODE_BYTES * x
}

/// The image of a record. One whose P or N is more than a record has room for
/// has none: the bytes are its sizes and all its slots, which nothing takes.
pub fn encode(queue: &Queue) -> Vec<u8> {
    let sizes = [queue.processor_count, queue.node_count, queue.level_count];
    let mut bytes = sizes.to_vec();
    put_number(&mut bytes, queue.clock);
    let processors = usize::from(queue.processor_count);
    for processor in queue.processors.iter().take(processors) {
        put_processor(&mut bytes, processor);
    }
    let nodes = usize::from(queue.node_count) + 2;
    for node in queue.nodes.iter().take(nodes) {
        put_node(&mut bytes, node);
    }
    bytes
}

/// The record of an image, or none where the bytes are the image of no record.
pub fn decode(bytes: &[u8]) -> Option<Queue> {
    let (&processor_count, &node_count) = (bytes.first()?, bytes.get(1)?);
    let (processors, entries) = (usize::from(processor_count), usize::from(node_count));
    let room = processors <= MAX_PROCESSORS && entries <= MAX_NODES;
    if !room || bytes.len() != node_at(processors, entries + 2) {
        return None;
    }
    let mut reader = Reader { bytes: &bytes[2..] };
    let mut queue = Queue {
        processor_count,
        node_count,
        level_count: reader.byte(),
        clock: reader.number(),
        nodes: [Node::made(node_count + 1); NODE_SLOTS],
        processors: [Processor::made(); MAX_PROCESSORS],
    };
    for processor in &mut queue.processors[..processors] {
        *processor = reader.processor()?;
    }
    for node in &mut queue.nodes[..entries + 2] {
        *node = reader.node()?;
    }
    Some(queue)
}

/// The record with the slots past P and N+1 as made: the one that has the same
/// image.
pub fn stored(queue: &Queue) -> Queue {
    let mut stored = queue.clone();
    let processors = usize::from(queue.processor_count);
    for processor in stored.processors.iter_mut().skip(processors) {
        *processor = Processor::made();
    }
    let entries = usize::from(queue.node_count);
    for node in stored.nodes.iter_mut().skip(entries + 2) {
        *node = Node::made(queue.tail());
    }
    stored
}

fn put_number(bytes: &mut Vec<u8>, number: u32) {
    bytes.extend_from_slice(&number.to_le_bytes());
}

fn put_node(bytes: &mut Vec<u8>, node: &Node) {
    bytes.extend_from_slice(&node.forward);
    bytes.extend_from_slice(&node.level_locks);
    bytes.push(node.node_lock);
    bytes.push(node.mark);
    bytes.push(u8::from(node.stamp.is_some()));
    put_number(bytes, node.stamp.unwrap_or(0));
    put_number(bytes, node.due);
    put_number(bytes, node.ticket);
    put_number(bytes, node.item);
    bytes.push(node.height);
    let (tag, time) = match node.state {
        Use::Never => (0, 0),
        Use::InUse => (1, 0),
        Use::Retired(time) => (2, time),
    };
    bytes.push(tag);
    put_number(bytes, time);
}

fn put_processor(bytes: &mut Vec<u8>, processor: &Processor) {
    put_number(bytes, processor.begin);
    bytes.push(processor.own);
    let code = Code::of(&processor.stage);
    bytes.extend_from_slice(&[code.tag, code.place.node, code.place.level, code.ahead]);
    bytes.extend_from_slice(&processor.saved);
    bytes.push(code.job);
    put_number(bytes, code.wanted.due);
    put_number(bytes, code.wanted.ticket);
}

/// A stage in numbers.
#[derive(Clone, Copy, PartialEq, Eq)]
struct Code {
    tag: u8,
    /// The place; zeros where the stage has none.
    place: Place,
    /// The node that G3 read; 0 but at G4.
    ahead: u8,
    /// 1 in the removal of what a Remove has marked; 0 everywhere else.
    job: u8,
    /// The key that a Remove looks for; zeros but at XS to X3.
    wanted: Wanted,
}

impl Code {
    /// A stage with this tag and nothing else.
    const fn bare(tag: u8) -> Code {
        Code {
            tag,
            place: Place { node: 0, level: 0 },
            ahead: 0,
            job: 0,
            wanted: Wanted { due: 0, ticket: 0 },
        }
    }

    fn at(self, place: Place) -> Code {
        Code { place, ..self }
    }

    fn for_job(self, job: Job) -> Code {
        let job = match job {
            Job::HandOut => 0,
            Job::TakeBack => 1,
        };
        Code { job, ..self }
    }

    /// A stage of a Search or Lock-seek, whose tag depends on the operation.
    fn seek(operation: Operation, insert: u8, removal: u8, place: Place) -> Code {
        match operation {
            Operation::Insert => Code::bare(insert).at(place),
            Operation::Removal(job) => Code::bare(removal).at(place).for_job(job),
        }
    }

    /// A stage of a removal at a place.
    fn removal(tag: u8, job: Job, place: Place) -> Code {
        Code::bare(tag).at(place).for_job(job)
    }

    /// A stage of a Remove up to its mark.
    fn remove(tag: u8, wanted: Wanted, place: Place) -> Code {
        let code = Code::bare(tag).at(place);
        Code { wanted, ..code }
    }

    fn of(stage: &Stage) -> Code {
        match *stage {
            Stage::Idle => Code::bare(0),
            Stage::Search(operation, a) => Code::seek(operation, 1, 14, a),
            Stage::G1Read(operation, a) => Code::seek(operation, 2, 16, a),
            Stage::G2Lock(operation, a) => Code::seek(operation, 3, 17, a),
            Stage::G3Reread(operation, a) => Code::seek(operation, 4, 18, a),
            Stage::G4Unlock(operation, a, ahead) => {
                let code = Code::seek(operation, 5, 19, a);
                Code { ahead, ..code }
            }
            Stage::I1PointOwn(a) => Code::bare(6).at(a),
            Stage::I2Link(a) => Code::bare(7).at(a),
            Stage::I3Unlock(a) => Code::bare(8).at(a),
            Stage::I4UnlockNode => Code::bare(9),
            Stage::I5Stamp => Code::bare(10),
            Stage::W1Read(a) => Code::bare(11).at(a),
            Stage::W2Compare(a) => Code::bare(12).at(a),
            Stage::W3Mark(a) => Code::bare(13).at(a),
            Stage::L1LockNode(job) => Code::bare(15).for_job(job),
            Stage::L2LockOwn(job, a) => Code::removal(20, job, a),
            Stage::L3Unlink(job, a) => Code::removal(21, job, a),
            Stage::L4PointBack(job, a) => Code::removal(22, job, a),
            Stage::L5UnlockOwn(job, a) => Code::removal(23, job, a),
            Stage::L6Unlock(job, a) => Code::removal(24, job, a),
            Stage::L7UnlockNode(job) => Code::bare(25).for_job(job),
            Stage::L8Retire(job) => Code::bare(26).for_job(job),
            Stage::RW1Read(a) => Code::bare(27).at(a),
            Stage::RW3Mark(a) => Code::bare(28).at(a),
            Stage::XSearch(wanted, a) => Code::remove(29, wanted, a),
            Stage::X1Read(wanted, a) => Code::remove(30, wanted, a),
            Stage::X2Test(wanted, a) => Code::remove(31, wanted, a),
            Stage::X3Mark(wanted, a) => Code::remove(32, wanted, a),
        }
    }

    /// The stage of this tag, with whatever it has of the rest; none for an
    /// unknown tag or job.
    fn stage(&self) -> Option<Stage> {
        let job = match self.job {
            0 => Job::HandOut,
            1 => Job::TakeBack,
            _ => return None,
        };
        let (a, ahead) = (self.place, self.ahead);
        let insert = Operation::Insert;
        Some(match self.tag {
            0 => Stage::Idle,
            1 => Stage::Search(insert, a),
            2 => Stage::G1Read(insert, a),
            3 => Stage::G2Lock(insert, a),
            4 => Stage::G3Reread(insert, a),
            5 => Stage::G4Unlock(insert, a, ahead),
            6 => Stage::I1PointOwn(a),
            7 => Stage::I2Link(a),
            8 => Stage::I3Unlock(a),
            9 => Stage::I4UnlockNode,
            10 => Stage::I5Stamp,
            11 => Stage::W1Read(a),
            12 => Stage::W2Compare(a),
            13 => Stage::W3Mark(a),
            27 => Stage::RW1Read(a),
            28 => Stage::RW3Mark(a),
            29 => Stage::XSearch(self.wanted, a),
            30 => Stage::X1Read(self.wanted, a),
            31 => Stage::X2Test(self.wanted, a),
            32 => Stage::X3Mark(self.wanted, a),
            _ => return self.removal_stage(job),
        })
    }

    /// The stage of a removal; none for a tag that no stage has.
    fn removal_stage(&self, job: Job) -> Option<Stage> {
        let (a, removal) = (self.place, Operation::Removal(job));
        Some(match self.tag {
            14 => Stage::Search(removal, a),
            15 => Stage::L1LockNode(job),
            16 => Stage::G1Read(removal, a),
            17 => Stage::G2Lock(removal, a),
            18 => Stage::G3Reread(removal, a),
            19 => Stage::G4Unlock(removal, a, self.ahead),
            20 => Stage::L2LockOwn(job, a),
            21 => Stage::L3Unlink(job, a),
            22 => Stage::L4PointBack(job, a),
            23 => Stage::L5UnlockOwn(job, a),
            24 => Stage::L6Unlock(job, a),
            25 => Stage::L7UnlockNode(job),
            26 => Stage::L8Retire(job),
            _ => return None,
        })
    }
}

/// What is left to read. The whole length was tested before.
struct Reader<'a> {
    bytes: &'a [u8],
}

impl Reader<'_> {
    fn byte(&mut self) -> u8 {
        let (first, rest) = self.bytes.split_first().expect("the length was tested");
        self.bytes = rest;
        *first
    }

    fn number(&mut self) -> u32 {
        u32::from_le_bytes([self.byte(), self.byte(), self.byte(), self.byte()])
    }

    fn levels(&mut self) -> [u8; MAX_LEVELS] {
        let mut levels = [0; MAX_LEVELS];
        for level in &mut levels {
            *level = self.byte();
        }
        levels
    }

    fn node(&mut self) -> Option<Node> {
        let forward = self.levels();
        let level_locks = self.levels();
        let node_lock = self.byte();
        let mark = self.byte();
        let stamp = match (self.byte(), self.number()) {
            (0, 0) => None,
            (1, time) => Some(time),
            _ => return None,
        };
        let due = self.number();
        let ticket = self.number();
        let item = self.number();
        let height = self.byte();
        let state = match (self.byte(), self.number()) {
            (0, 0) => Use::Never,
            (1, 0) => Use::InUse,
            (2, time) => Use::Retired(time),
            _ => return None,
        };
        Some(Node {
            forward,
            level_locks,
            node_lock,
            mark,
            stamp,
            due,
            ticket,
            item,
            height,
            state,
        })
    }

    fn processor(&mut self) -> Option<Processor> {
        let begin = self.number();
        let own = self.byte();
        let tag = self.byte();
        let (node, level) = (self.byte(), self.byte());
        let ahead = self.byte();
        let saved = self.levels();
        let job = self.byte();
        let (due, ticket) = (self.number(), self.number());
        let code = Code {
            tag,
            place: Place { node, level },
            ahead,
            job,
            wanted: Wanted { due, ticket },
        };
        let stage = code.stage()?;
        (Code::of(&stage) == code).then_some(Processor {
            begin,
            own,
            stage,
            saved,
        })
    }
}
