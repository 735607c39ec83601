//! The queue record, and how a fresh one is made.
//!
//! Levels are numbered from 1; the slot of level i is i - 1. Node 0 is the
//! head and node N+1 the tail. A lock holds 0 while it is free and p + 1
//! while processor p holds it; a mark says in the same numbers who set it.
//! Every field is open, so that a test can put any value into it.

use std::cmp::Ordering;

/// The most processors a queue can have.
pub const MAX_PROCESSORS: usize = 16;
/// The most nodes for entries a queue can have.
pub const MAX_NODES: usize = 200;
/// The most levels a queue can have.
pub const MAX_LEVELS: usize = 8;
/// Node slots of a record: the entries, the head and the tail.
pub const NODE_SLOTS: usize = MAX_NODES + 2;
/// The last value of the clock, and the greatest due minute and item.
pub const MAX_NUMBER: u32 = 999_999;
/// The greatest count of seconds that becomes a due minute (document 02, W8).
pub const MAX_SECONDS: u64 = 59_999_969;
/// The number of the head.
pub const HEAD: u8 = 0;
/// What a lock holds while nobody has it.
pub const FREE: u8 = 0;
/// What a mark holds while nobody has set it.
pub const UNMARKED: u8 = 0;

/// The number of a refusal, from the table of document 01.
pub type Refusal = u32;

/// Whether a node may be taken by an Insert.
#[derive(Clone, Copy, PartialEq, Eq, Debug)]
pub enum Use {
    /// No Insert has taken it yet.
    Never,
    /// It holds an entry.
    InUse,
    /// It held an entry that was handed out, or taken back, at this time.
    Retired(u32),
}

/// One node of the queue.
#[derive(Clone, Copy, PartialEq, Eq, Debug)]
pub struct Node {
    /// The next node, for each level.
    pub forward: [u8; MAX_LEVELS],
    /// The holder of the lock, for each level.
    pub level_locks: [u8; MAX_LEVELS],
    /// The holder of the node lock.
    pub node_lock: u8,
    /// Who set the mark: the Delete_Min, ordinary or Relaxed, that takes this
    /// entry, or the Remove that takes it back (document 02, W6).
    pub mark: u8,
    /// The time at which the Insert answered, or none.
    pub stamp: Option<u32>,
    /// The due minute.
    pub due: u32,
    /// The time at which the Insert began.
    pub ticket: u32,
    /// The item.
    pub item: u32,
    /// On how many levels the node is linked.
    pub height: u8,
    /// Never used, in use or retired.
    pub state: Use,
}

/// Where an operation stands: a node and a level.
#[derive(Clone, Copy, PartialEq, Eq, Debug)]
pub struct Place {
    /// The node.
    pub node: u8,
    /// The level, from 1.
    pub level: u8,
}

/// The key that a Remove looks for (document 02, W5).
#[derive(Clone, Copy, PartialEq, Eq, Debug)]
pub struct Wanted {
    /// The due minute.
    pub due: u32,
    /// The ticket, which may lie above the clock.
    pub ticket: u32,
}

/// What a removal is for.
#[derive(Clone, Copy, PartialEq, Eq, Debug)]
pub enum Job {
    /// A Delete_Min, ordinary or Relaxed, hands out what it has marked.
    HandOut,
    /// A Remove takes back what it has marked (document 02, W5).
    TakeBack,
}

/// Every job.
pub const JOBS: [Job; 2] = [Job::HandOut, Job::TakeBack];

/// Which operation a Search or a Lock-seek belongs to.
#[derive(Clone, Copy, PartialEq, Eq, Debug)]
pub enum Operation {
    /// An Insert.
    Insert,
    /// The removal of a node that is marked.
    Removal(Job),
}

/// Every operation.
pub const OPERATIONS: [Operation; 3] = [
    Operation::Insert,
    Operation::Removal(Job::HandOut),
    Operation::Removal(Job::TakeBack),
];

/// What the next step of a processor does. The letters are document 01's; an R
/// in front of them is for the Relaxed walk (document 02, W3). XS to X3 are a
/// Remove's stages up to its mark (W5), and carry the key that it looks for.
#[derive(Clone, Copy, PartialEq, Eq, Debug)]
pub enum Stage {
    /// No operation.
    Idle,
    /// Search: read, then move or go down.
    Search(Operation, Place),
    /// G1: read, then move or try the lock.
    G1Read(Operation, Place),
    /// G2: take the place's lock.
    G2Lock(Operation, Place),
    /// G3: read again under the lock.
    G3Reread(Operation, Place),
    /// G4: free the lock and move to the node that G3 read.
    G4Unlock(Operation, Place, u8),
    /// I1: own forward number := the place's.
    I1PointOwn(Place),
    /// I2: the place's forward number := own node.
    I2Link(Place),
    /// I3: free the place's lock.
    I3Unlock(Place),
    /// I4: free the node lock.
    I4UnlockNode,
    /// I5: stamp and answer.
    I5Stamp,
    /// W1: read the next node of level 1.
    W1Read(Place),
    /// W2: compare the stamp with the begin time.
    W2Compare(Place),
    /// W3: set the mark.
    W3Mark(Place),
    /// RW1: read the next node of level 1, in a Relaxed walk.
    RW1Read(Place),
    /// RW3: set the mark, in a Relaxed walk.
    RW3Mark(Place),
    /// XS: Search for the key.
    XSearch(Wanted, Place),
    /// X1: read the next node of level 1, then move to it or give up.
    X1Read(Wanted, Place),
    /// X2: compare the stamp with the begin time.
    X2Test(Wanted, Place),
    /// X3: set the mark.
    X3Mark(Wanted, Place),
    /// L1: take the node lock.
    L1LockNode(Job),
    /// L2: take own lock of the level.
    L2LockOwn(Job, Place),
    /// L3: the place's forward number := own forward number.
    L3Unlink(Job, Place),
    /// L4: own forward number := the place.
    L4PointBack(Job, Place),
    /// L5: free own lock of the level.
    L5UnlockOwn(Job, Place),
    /// L6: free the place's lock.
    L6Unlock(Job, Place),
    /// L7: free the node lock.
    L7UnlockNode(Job),
    /// L8: retire the node and hand it out, or take it back.
    L8Retire(Job),
}

/// One processor of the queue.
#[derive(Clone, Copy, PartialEq, Eq, Debug)]
pub struct Processor {
    /// The time at which its operation began; 0 while idle.
    pub begin: u32,
    /// Its operation's own node; 0 while there is none.
    pub own: u8,
    /// What its next step does.
    pub stage: Stage,
    /// The saved node, for each level.
    pub saved: [u8; MAX_LEVELS],
}

/// The queue record.
#[derive(Clone, PartialEq, Eq, Debug)]
pub struct Queue {
    /// P, the number of processors.
    pub processor_count: u8,
    /// N, the number of nodes for entries.
    pub node_count: u8,
    /// L, the number of levels.
    pub level_count: u8,
    /// The clock: how many begins and steps were accepted.
    pub clock: u32,
    /// The nodes, by number.
    pub nodes: [Node; NODE_SLOTS],
    /// The processors, by number.
    pub processors: [Processor; MAX_PROCESSORS],
}

/// The order of nodes: the head, then entries by due and ticket, then the
/// tail. The order of the cases is the order of the keys.
#[derive(Clone, Copy, PartialEq, Eq, PartialOrd, Ord, Debug)]
pub enum Key {
    /// Before every entry.
    Head,
    /// Due minute, then ticket.
    Entry(u32, u32),
    /// After every entry.
    Tail,
}

impl Wanted {
    /// Where it stands in the order of nodes.
    pub fn key(&self) -> Key {
        Key::Entry(self.due, self.ticket)
    }

    /// Whether both numbers are in the ranges of refusal 38.
    pub fn in_range(&self) -> bool {
        self.due <= MAX_NUMBER && (1..=MAX_NUMBER).contains(&self.ticket)
    }
}

/// A fresh queue for `p` processors, `n` nodes and `l` levels.
/// Refused with 11, 12 or 13 when the first, second or third is out of range.
pub fn fresh(p: u64, n: u64, l: u64) -> Result<Queue, Refusal> {
    if p < 1 || p > MAX_PROCESSORS as u64 {
        return Err(11);
    }
    if n < 1 || n > MAX_NODES as u64 {
        return Err(12);
    }
    if l < 1 || l > MAX_LEVELS as u64 {
        return Err(13);
    }
    Ok(Queue {
        processor_count: p as u8,
        node_count: n as u8,
        level_count: l as u8,
        clock: 0,
        nodes: [Node::made(n as u8 + 1); NODE_SLOTS],
        processors: [Processor::made(); MAX_PROCESSORS],
    })
}

impl Node {
    /// A node as a fresh queue with this tail has it, in every slot.
    pub fn made(tail: u8) -> Node {
        Node {
            forward: [tail; MAX_LEVELS],
            level_locks: [FREE; MAX_LEVELS],
            node_lock: FREE,
            mark: UNMARKED,
            stamp: None,
            due: 0,
            ticket: 0,
            item: 0,
            height: 1,
            state: Use::Never,
        }
    }

    /// Whether somebody has set the mark.
    pub fn is_marked(&self) -> bool {
        self.mark != UNMARKED
    }

    /// The processor that has set the mark.
    pub fn marker(&self) -> Option<u8> {
        named(self.mark)
    }
}

impl Processor {
    /// A processor as a fresh queue has it, in every slot.
    pub fn made() -> Processor {
        Processor {
            begin: 0,
            own: 0,
            stage: Stage::Idle,
            saved: [HEAD; MAX_LEVELS],
        }
    }
}

/// The minute nearest to a count of seconds; half a minute goes to the even one
/// of its two. Refused with 35 above 59,999,969 seconds (document 02, W8).
pub fn due_from_seconds(seconds: u64) -> Result<u32, Refusal> {
    if seconds > MAX_SECONDS {
        return Err(35);
    }
    let below = (seconds / 60) as u32;
    Ok(match (seconds % 60).cmp(&30) {
        Ordering::Less => below,
        Ordering::Greater => below + 1,
        Ordering::Equal if below % 2 == 0 => below,
        Ordering::Equal => below + 1,
    })
}

/// The processor that a lock or a mark names by this number; none for 0.
pub fn named(number: u8) -> Option<u8> {
    number.checked_sub(1)
}

/// The array slot of a level.
pub fn slot(level: u8) -> usize {
    level as usize - 1
}

impl Queue {
    /// The number of the tail.
    pub fn tail(&self) -> u8 {
        self.node_count + 1
    }

    /// The key of a node.
    pub fn key(&self, node: u8) -> Key {
        if node == HEAD {
            Key::Head
        } else if node == self.tail() {
            Key::Tail
        } else {
            let node = &self.nodes[node as usize];
            Key::Entry(node.due, node.ticket)
        }
    }

    /// The processors of the queue that are in an operation.
    pub fn busy(&self) -> impl Iterator<Item = &Processor> {
        self.processors[..self.processor_count as usize]
            .iter()
            .filter(|processor| processor.stage != Stage::Idle)
    }

    /// The nodes for entries.
    fn entry_nodes(&self) -> impl Iterator<Item = &Node> {
        self.nodes[1..=self.node_count as usize].iter()
    }

    /// How many nodes are in use. No call gives this: the watchers look at it,
    /// and the benchmarks fill queues by it.
    pub fn in_use(&self) -> u32 {
        let used = |node: &&Node| node.state == Use::InUse;
        self.entry_nodes().filter(used).count() as u32
    }

    /// How many entries are answered and not marked, told by the nodes
    /// (document 02, W2), without check 21.
    pub fn backlog_inner(&self) -> u32 {
        let counts =
            |node: &&Node| node.state == Use::InUse && node.stamp.is_some() && !node.is_marked();
        self.entry_nodes().filter(counts).count() as u32
    }
}
