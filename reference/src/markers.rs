//! Markers (document 02, W6): which processor has marked which node in use,
//! told in a lent area.

use crate::queue::{Queue, Refusal, Use};

/// What stands in the place of a marker where nobody has marked the node.
pub const NOBODY: u8 = 255;

/// How many bytes a node takes.
pub const PAIR: usize = 2;

/// What a call gave back that was lent an area: as `lent` before it.
#[derive(Clone, PartialEq, Eq, Debug)]
pub struct Listing {
    /// How many nodes are told of.
    pub nodes: u32,
    /// The whole area after the call.
    pub area: Vec<u8>,
}

/// What an area of so many bytes holds before the call.
pub fn lent(room: usize) -> Vec<u8> {
    (0..room)
        .map(|place| (place as u8).wrapping_mul(151) ^ 0xa5)
        .collect()
}

impl Listing {
    /// The nodes with their markers, as far as the area has them.
    pub fn pairs(&self) -> impl Iterator<Item = (u8, u8)> + '_ {
        self.area
            .chunks_exact(PAIR)
            .take(self.nodes as usize)
            .map(|pair| (pair[0], pair[1]))
    }

    /// Whether all that is behind the nodes is as it was lent.
    pub fn leaves_the_rest(&self) -> bool {
        let told = PAIR * self.nodes as usize;
        told <= self.area.len() && self.area[told..] == lent(self.area.len())[told..]
    }
}

impl Queue {
    /// Writes two bytes for each node of 1 to N in use to the front of the
    /// area, in node order: its number, and the processor that has marked it
    /// or `NOBODY`. Gives how many nodes these are. Refused with 21, then with
    /// 43 where the area is too short; then nothing is written.
    pub fn markers(&self, area: &mut [u8]) -> Result<u32, Refusal> {
        self.check()?;
        self.markers_inner(area)
    }

    /// As `markers`, without check 21.
    pub fn markers_inner(&self, area: &mut [u8]) -> Result<u32, Refusal> {
        let nodes = self.in_use();
        let front = area.get_mut(..PAIR * nodes as usize).ok_or(43u32)?;
        let used = |number: &u8| self.nodes[*number as usize].state == Use::InUse;
        let numbers = (1..=self.node_count).filter(used);
        for (number, pair) in numbers.zip(front.chunks_exact_mut(PAIR)) {
            let marker = self.nodes[number as usize].marker();
            pair.copy_from_slice(&[number, marker.unwrap_or(NOBODY)]);
        }
        Ok(nodes)
    }

    /// As `markers_inner`, with an area of so many bytes.
    pub(crate) fn listing(&self, room: usize) -> Result<Listing, Refusal> {
        let mut area = lent(room);
        let nodes = self.markers_inner(&mut area)?;
        Ok(Listing { nodes, area })
    }
}
