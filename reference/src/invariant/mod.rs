//! The invariant of the proof, as separately named conjuncts over the record,
//! the ghost and the book.
//!
//! `on n i` says that node n is linked at level i now, `seen T n i` that it
//! was linked there at some time since T. A node is *eligible* for a walk
//! when it is in use, unmarked and stamped before the walk began.

mod books;
mod lists;
mod locks;
mod nodes;
mod owners;
mod walks;

use crate::book::Book;
use crate::claims::{claim, Claim, Role};
use crate::ghost::{Ghost, EVER};
use crate::queue::{slot, Key, Node, Processor, Queue, Use, HEAD, MAX_NODES, MAX_PROCESSORS};

/// A conjunct: its name and whether it holds.
pub type Conjunct = (&'static str, fn(&View) -> bool);

/// What the conjuncts look at.
pub struct View<'a> {
    queue: &'a Queue,
    ghost: &'a Ghost,
    book: &'a Book,
    claims: [Claim; MAX_PROCESSORS],
    /// The nodes that are not never-used, by key.
    order: [u8; MAX_NODES],
    used: usize,
}

/// The name of the first conjunct that does not hold.
pub fn first_broken(queue: &Queue, ghost: &Ghost, book: &Book) -> Option<&'static str> {
    if !queue.sound() {
        return Some("Sound");
    }
    let view = View::new(queue, ghost, book);
    families()
        .into_iter()
        .flatten()
        .find(|(_, holds)| !holds(&view))
        .map(|(name, _)| *name)
}

/// The names of all conjuncts that do not hold. `Sound` stands alone: the
/// others speak of a record that passes check 21.
pub fn all_broken(queue: &Queue, ghost: &Ghost, book: &Book) -> Vec<&'static str> {
    if !queue.sound() {
        return vec!["Sound"];
    }
    let view = View::new(queue, ghost, book);
    families()
        .into_iter()
        .flatten()
        .filter(|(_, holds)| !holds(&view))
        .map(|(name, _)| *name)
        .collect()
}

/// The names of all conjuncts.
pub fn names() -> Vec<&'static str> {
    let mut names = vec!["Sound"];
    names.extend(families().into_iter().flatten().map(|(name, _)| *name));
    names
}

fn families() -> [&'static [Conjunct]; 6] {
    [
        nodes::CONJUNCTS,
        owners::CONJUNCTS,
        lists::CONJUNCTS,
        locks::CONJUNCTS,
        walks::CONJUNCTS,
        books::CONJUNCTS,
    ]
}

impl<'a> View<'a> {
    fn new(queue: &'a Queue, ghost: &'a Ghost, book: &'a Book) -> View<'a> {
        let mut claims = [claim(&queue.processors[0]); MAX_PROCESSORS];
        for (p, claimed) in claims.iter_mut().enumerate() {
            *claimed = claim(&queue.processors[p]);
        }
        let mut order = [HEAD; MAX_NODES];
        let mut used = 0;
        for n in 1..=queue.node_count {
            if queue.nodes[n as usize].state != Use::Never {
                order[used] = n;
                used += 1;
            }
        }
        order[..used].sort_unstable_by_key(|&n| queue.key(n));
        View {
            queue,
            ghost,
            book,
            claims,
            order,
            used,
        }
    }

    fn node(&self, n: u8) -> &Node {
        &self.queue.nodes[n as usize]
    }

    fn key(&self, n: u8) -> Key {
        self.queue.key(n)
    }

    /// The key that an operation looks for: that of its own node, or the one that
    /// a Remove carries.
    fn sought(&self, p: &Claim) -> Key {
        p.wanted
            .map_or_else(|| self.key(p.own), |wanted| wanted.key())
    }

    fn forward(&self, n: u8, i: u8) -> u8 {
        self.node(n).forward[slot(i)]
    }

    fn until(&self, n: u8, i: u8) -> u32 {
        self.ghost.until[n as usize][slot(i)]
    }

    fn on(&self, n: u8, i: u8) -> bool {
        self.until(n, i) >= EVER
    }

    /// The head, or an entry's node linked at level i since `begin`.
    fn seen(&self, begin: u32, n: u8, i: u8) -> bool {
        n == HEAD || (n < self.queue.tail() && begin <= self.until(n, i))
    }

    fn levels(&self) -> std::ops::RangeInclusive<u8> {
        1..=self.queue.level_count
    }

    fn entry_nodes(&self) -> std::ops::RangeInclusive<u8> {
        1..=self.queue.node_count
    }

    /// Whether n is linked at levels 1 to `count` and no other.
    fn linked_exactly(&self, n: u8, count: u8) -> bool {
        self.levels().all(|i| self.on(n, i) == (i <= count))
    }

    fn linked_to_height(&self, n: u8) -> bool {
        self.linked_exactly(n, self.node(n).height)
    }

    /// Each processor of the queue with its claim.
    fn processors(&self) -> impl Iterator<Item = (usize, &Processor, &Claim)> {
        let count = self.queue.processor_count as usize;
        self.queue.processors[..count]
            .iter()
            .zip(&self.claims)
            .enumerate()
            .map(|(p, (processor, claim))| (p, processor, claim))
    }

    /// Each busy processor with its claim.
    fn busy(&self) -> impl Iterator<Item = (usize, &Processor, &Claim)> {
        self.processors()
            .filter(|(_, _, claim)| claim.role != Role::Idle)
    }

    /// Each processor that plays this part.
    fn of_role(&self, role: Role) -> impl Iterator<Item = (usize, &Processor, &Claim)> {
        self.processors()
            .filter(move |(_, _, claim)| claim.role == role)
    }

    /// Whether the node may be marked by a walk begun then.
    fn eligible(&self, n: u8, begin: u32) -> bool {
        let node = self.node(n);
        node.state == Use::InUse && !node.is_marked() && node.stamp.is_some_and(|time| time < begin)
    }
}
