//! Check 21: every number that the record stores lies in its range.
//!
//! What lies past P, N + 1 or L may be anything.

use crate::queue::{
    Node, Place, Processor, Queue, Stage, Use, MAX_LEVELS, MAX_NODES, MAX_NUMBER, MAX_PROCESSORS,
};

type Levels = [u8; MAX_LEVELS];

/// Whether each number is at most the greatest for its level.
fn none_above(numbers: &Levels, greatest: &Levels) -> bool {
    let above = |sum: u8, (number, most): (&u8, &u8)| sum | u8::from(number > most);
    numbers.iter().zip(greatest).fold(0, above) == 0
}

impl Queue {
    /// Whether the record passes check 21. The levels of a node are compared
    /// without branches, so that the compiler takes several at once; the other
    /// tests end it where one fails, since a record mostly passes.
    pub fn sound(&self) -> bool {
        if !self.sizes_sound() {
            return false;
        }
        let nodes = &self.nodes[..=self.tail() as usize];
        let processors = &self.processors[..self.processor_count as usize];
        let links = self.on_levels(self.tail());
        let holders = self.on_levels(self.processor_count);
        let (first, last) = (&nodes[0], &nodes[nodes.len() - 1]);
        let ends = first.stamp.is_none() & last.stamp.is_none();
        ends && nodes
            .iter()
            .all(|node| self.node_sound(node, &links, &holders))
            && processors
                .iter()
                .all(|processor| self.processor_sound(processor, &links))
    }

    fn sizes_sound(&self) -> bool {
        (1..=MAX_PROCESSORS).contains(&(self.processor_count as usize))
            && (1..=MAX_NODES).contains(&(self.node_count as usize))
            && (1..=MAX_LEVELS).contains(&(self.level_count as usize))
            && self.clock <= MAX_NUMBER
    }

    /// The greatest number for each level: this one on the queue's levels, and
    /// any on those past them.
    fn on_levels(&self, greatest: u8) -> [u8; MAX_LEVELS] {
        let mut on = [u8::MAX; MAX_LEVELS];
        on[..self.level_count as usize].fill(greatest);
        on
    }

    fn node_sound(&self, node: &Node, links: &Levels, holders: &Levels) -> bool {
        let stamp_sound = node.stamp.unwrap_or(0) <= self.clock;
        let use_sound = match node.state {
            Use::Never | Use::InUse => true,
            Use::Retired(time) => time <= self.clock,
        };
        (none_above(&node.forward, links) & none_above(&node.level_locks, holders))
            && node.node_lock <= self.processor_count
            && node.mark <= self.processor_count
            && node.due <= MAX_NUMBER
            && node.item <= MAX_NUMBER
            && node.ticket <= self.clock
            && self.is_level(node.height)
            && stamp_sound
            && use_sound
    }

    fn processor_sound(&self, processor: &Processor, links: &Levels) -> bool {
        processor.begin <= self.clock
            && processor.own <= self.tail()
            && none_above(&processor.saved, links)
            && self.stage_sound(processor)
    }

    /// The own node, the place and the key that a Remove looks for, as far as the
    /// stage has them. Nothing ties that key to the clock (document 02, W5).
    fn stage_sound(&self, processor: &Processor) -> bool {
        let has_own = self.is_entry(processor.own);
        match processor.stage {
            Stage::Idle => true,
            Stage::W1Read(a) | Stage::W2Compare(a) | Stage::RW1Read(a) => self.is_place(a),
            Stage::W3Mark(a) | Stage::RW3Mark(a) => self.is_place(a) && self.is_entry(a.node),
            Stage::XSearch(wanted, a) | Stage::X1Read(wanted, a) | Stage::X2Test(wanted, a) => {
                wanted.in_range() && self.is_place(a)
            }
            Stage::X3Mark(wanted, a) => {
                wanted.in_range() && self.is_place(a) && self.is_entry(a.node)
            }
            Stage::I4UnlockNode
            | Stage::I5Stamp
            | Stage::L1LockNode(_)
            | Stage::L7UnlockNode(_)
            | Stage::L8Retire(_) => has_own,
            Stage::G4Unlock(_, a, b) => has_own && self.is_place(a) && b <= self.tail(),
            Stage::Search(_, a)
            | Stage::G1Read(_, a)
            | Stage::G2Lock(_, a)
            | Stage::G3Reread(_, a)
            | Stage::I1PointOwn(a)
            | Stage::I2Link(a)
            | Stage::I3Unlock(a)
            | Stage::L2LockOwn(_, a)
            | Stage::L3Unlink(_, a)
            | Stage::L4PointBack(_, a)
            | Stage::L5UnlockOwn(_, a)
            | Stage::L6Unlock(_, a) => has_own && self.is_place(a),
        }
    }

    fn is_entry(&self, node: u8) -> bool {
        1 <= node && node <= self.node_count
    }

    fn is_level(&self, level: u8) -> bool {
        (1 <= level) & (level <= self.level_count)
    }

    fn is_place(&self, place: Place) -> bool {
        place.node <= self.tail() && self.is_level(place.level)
    }
}
