//! What each stage claims: one function from a processor to a small record,
//! so that the invariant is stated for that record and not for each stage.

use crate::locks::Lock;
use crate::queue::{Job, Operation, Place, Processor, Stage, Wanted};

/// Which part a processor plays.
#[derive(Clone, Copy, PartialEq, Eq, Debug)]
pub enum Role {
    /// It is idle.
    Idle,
    /// It is in an Insert; its own node is the one that it fills in.
    Insert,
    /// It is in a Delete_Min that has not marked yet; it has no own node.
    Walk,
    /// It is in a Relaxed Delete_Min that has not marked yet; it has no own node.
    Relaxed,
    /// It is in a Remove that has not marked yet; it has no own node.
    Remove,
    /// It removes its own node, which it has marked: in a Delete_Min, ordinary or
    /// Relaxed, or in a Remove.
    Delete,
}

/// How many levels of the own node are linked.
#[derive(Clone, Copy, PartialEq, Eq, Debug)]
pub enum Linked {
    /// The stage does not say.
    Unsaid,
    /// Exactly so many, from level 1 up.
    Exactly(u8),
    /// As many as its height.
    Height,
    /// As many as its height, if its node lock is free.
    HeightIfFree,
}

/// What a stage claims.
#[derive(Clone, Copy, PartialEq, Eq, Debug)]
pub struct Claim {
    /// The part.
    pub role: Role,
    /// The begin time.
    pub begin: u32,
    /// The own node, where the role has one.
    pub own: u8,
    /// What a removal is for; of no meaning in the other roles.
    pub job: Job,
    /// The key that a Remove looks for, up to its mark.
    pub wanted: Option<Wanted>,
    /// The place; the walk stands on level 1 whatever its place says, and so does
    /// a Remove after its Search.
    pub place: Option<Place>,
    /// The place's key is before the own node's, or before the key that is wanted.
    pub before_own: bool,
    /// The place's lock at the level is held.
    pub holds_place: bool,
    /// The own node's lock at the level is held.
    pub holds_own: bool,
    /// The own node's node lock is held.
    pub holds_node: bool,
    /// How many levels of the own node are linked.
    pub linked: Linked,
    /// The lowest level whose saved node belongs to this operation.
    pub saved_from: u8,
}

impl Claim {
    /// Whether the stage says that its processor holds this lock.
    pub fn holds(&self, lock: Lock) -> bool {
        match lock {
            Lock::Node(node) => self.holds_node && self.own == node,
            Lock::Level(Place { node, level }) => {
                let at_level = self.place.is_some_and(|a| a.level == level);
                let as_place = self.holds_place && self.place.is_some_and(|a| a.node == node);
                let as_own = self.holds_own && self.own == node;
                at_level && (as_place || as_own)
            }
        }
    }
}

/// No saved node belongs to the operation.
const NONE_SAVED: u8 = u8::MAX;

/// What the stage of a processor claims.
pub fn claim(processor: &Processor) -> Claim {
    let quiet = Claim {
        role: Role::Idle,
        begin: processor.begin,
        own: processor.own,
        job: Job::HandOut,
        wanted: None,
        place: None,
        before_own: false,
        holds_place: false,
        holds_own: false,
        holds_node: false,
        linked: Linked::Unsaid,
        saved_from: NONE_SAVED,
    };
    quiet.at_stage(processor.stage)
}

/// A claim of no stage, and what a stage makes of it.
impl Claim {
    fn at_stage(self, stage: Stage) -> Claim {
        match stage {
            Stage::Idle => self,
            Stage::Search(operation, a) => self.search(operation, a),
            Stage::G1Read(operation, a) | Stage::G2Lock(operation, a) => {
                self.seek(operation, a, false)
            }
            Stage::G3Reread(operation, a) | Stage::G4Unlock(operation, a, _) => {
                self.seek(operation, a, true)
            }
            Stage::I1PointOwn(a) | Stage::I2Link(a) => self.insert(a, a.level - 1, true),
            Stage::I3Unlock(a) => self.insert(a, a.level, true),
            Stage::I4UnlockNode => Claim {
                role: Role::Insert,
                holds_node: true,
                linked: Linked::Height,
                ..self
            },
            Stage::I5Stamp => Claim {
                role: Role::Insert,
                ..self
            },
            Stage::W1Read(a) | Stage::W2Compare(a) | Stage::W3Mark(a) => self.walk(Role::Walk, a),
            Stage::RW1Read(a) | Stage::RW3Mark(a) => self.walk(Role::Relaxed, a),
            Stage::XSearch(wanted, a) => Claim {
                place: Some(a),
                saved_from: a.level + 1,
                ..self.remove(wanted, a, true)
            },
            Stage::X1Read(wanted, a) => self.remove(wanted, a, true),
            Stage::X2Test(wanted, a) | Stage::X3Mark(wanted, a) => self.remove(wanted, a, false),
            removal => self.at_removal(removal),
        }
    }

    /// A stage of a removal that is neither its Search nor its Lock-seek.
    fn at_removal(self, stage: Stage) -> Claim {
        match stage {
            Stage::L1LockNode(job) => Claim {
                saved_from: 1,
                ..self.delete(job, Linked::HeightIfFree)
            },
            Stage::L2LockOwn(job, a) => self.unlink(job, a, a.level, true, false),
            Stage::L3Unlink(job, a) => self.unlink(job, a, a.level, true, true),
            Stage::L4PointBack(job, a) | Stage::L5UnlockOwn(job, a) => {
                self.unlink(job, a, a.level - 1, true, true)
            }
            Stage::L6Unlock(job, a) => self.unlink(job, a, a.level - 1, true, false),
            Stage::L7UnlockNode(job) => Claim {
                holds_node: true,
                ..self.delete(job, Linked::Exactly(0))
            },
            Stage::L8Retire(job) => self.delete(job, Linked::Exactly(0)),
            _ => unreachable!("the other stages are no removal's alone"),
        }
    }

    fn search(self, operation: Operation, a: Place) -> Claim {
        match operation {
            Operation::Insert => Claim {
                saved_from: a.level + 1,
                ..self.insert(a, 0, false)
            },
            Operation::Removal(job) => Claim {
                place: Some(a),
                before_own: true,
                saved_from: a.level + 1,
                ..self.delete(job, Linked::HeightIfFree)
            },
        }
    }

    fn seek(self, operation: Operation, a: Place, holds_place: bool) -> Claim {
        match operation {
            Operation::Insert => self.insert(a, a.level - 1, holds_place),
            Operation::Removal(job) => self.unlink(job, a, a.level, holds_place, false),
        }
    }

    /// A stage of a walk, or of a Remove after its Search.
    fn walk(self, role: Role, a: Place) -> Claim {
        let node = a.node;
        Claim {
            role,
            place: Some(Place { node, level: 1 }),
            ..self
        }
    }

    /// A stage of a Remove before its mark.
    fn remove(self, wanted: Wanted, a: Place, before_own: bool) -> Claim {
        Claim {
            wanted: Some(wanted),
            before_own,
            ..self.walk(Role::Remove, a)
        }
    }

    /// A stage of an Insert that stands at a place.
    fn insert(self, a: Place, linked: u8, holds_place: bool) -> Claim {
        Claim {
            role: Role::Insert,
            place: Some(a),
            before_own: true,
            holds_place,
            holds_node: true,
            linked: Linked::Exactly(linked),
            saved_from: 1,
            ..self
        }
    }

    /// A stage of a removal.
    fn delete(self, job: Job, linked: Linked) -> Claim {
        Claim {
            role: Role::Delete,
            job,
            linked,
            ..self
        }
    }

    /// A stage of a removal past L1 that stands at a place.
    fn unlink(self, job: Job, a: Place, linked: u8, holds_place: bool, holds_own: bool) -> Claim {
        Claim {
            place: Some(a),
            before_own: true,
            holds_place,
            holds_own,
            holds_node: true,
            saved_from: 1,
            ..self.delete(job, Linked::Exactly(linked))
        }
    }
}
