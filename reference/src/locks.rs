//! Locks: which there are, and an attempt to take one (document 02, W1).

use crate::queue::{named, slot, Place, Queue};
use crate::stages::holder;

/// A lock of the record.
#[derive(Clone, Copy, PartialEq, Eq, Debug)]
pub enum Lock {
    /// The lock of this node at this level.
    Level(Place),
    /// The node lock of this node.
    Node(u8),
}

/// What an attempt to take a lock gives.
#[derive(Clone, Copy, PartialEq, Eq, Debug)]
pub enum Attempt {
    /// The lock was free and is the caller's now.
    Taken,
    /// The lock stays with this processor, which held it before.
    HeldBy(u8),
}

impl Queue {
    /// What a lock holds: 0 while it is free, p + 1 while processor p has it.
    pub fn lock(&self, lock: Lock) -> u8 {
        match lock {
            Lock::Level(a) => self.nodes[a.node as usize].level_locks[slot(a.level)],
            Lock::Node(node) => self.nodes[node as usize].node_lock,
        }
    }

    /// Takes a free lock for processor `p`. A held one is left alone, whoever
    /// has it, and be it `p` itself.
    pub fn attempt(&mut self, p: usize, lock: Lock) -> Attempt {
        let number = match lock {
            Lock::Level(a) => &mut self.nodes[a.node as usize].level_locks[slot(a.level)],
            Lock::Node(node) => &mut self.nodes[node as usize].node_lock,
        };
        match named(*number) {
            Some(other) => Attempt::HeldBy(other),
            None => {
                *number = holder(p);
                Attempt::Taken
            }
        }
    }
}
