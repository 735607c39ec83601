//! Check 21 as a table: a field, the values at which a record is taken, and
//! the values at which every call is refused with 21. One table for each of
//! three sizes; each range has its last good and its first bad value.

use Field::*;

/// A number that check 21 looks at.
#[derive(Clone, Copy, PartialEq, Eq, PartialOrd, Ord, Debug)]
pub enum Field {
    /// P.
    Processors,
    /// N.
    Nodes,
    /// L.
    Levels,
    /// The clock.
    Clock,
    /// A forward number.
    Forward,
    /// The holder of a level's lock: 0 free, p + 1 for processor p.
    LevelLock,
    /// The holder of the node lock.
    NodeLock,
    /// Who set the mark: 0 for nobody, p + 1 for processor p.
    Mark,
    /// A due minute.
    Due,
    /// An item.
    Item,
    /// A ticket, which is a time.
    Ticket,
    /// A height.
    Height,
    /// The time of a stamp on a node from 1 to N.
    Stamp,
    /// A stamp on the head: its time, or `NONE`.
    HeadStamp,
    /// A stamp on the tail: its time, or `NONE`.
    TailStamp,
    /// The time of a retirement.
    Retirement,
    /// A processor's begin time.
    Begin,
    /// The own node where the stage has one.
    Own,
    /// The own node where the stage has none: idle, the walks, and a Remove up to
    /// its mark.
    OwnOfNoStage,
    /// A saved node.
    Saved,
    /// The node of a stage's place, but at W3, RW3 and X3.
    PlaceNode,
    /// The node of the place at W3, RW3 and X3.
    MarkedNode,
    /// The level of a stage's place.
    PlaceLevel,
    /// The node that G3 read, which G4 carries.
    ReadNode,
    /// The due minute that a Remove looks for (document 02, W5).
    WantedDue,
    /// The ticket that a Remove looks for, which is no stored time.
    WantedTicket,
}

/// Every field.
pub const FIELDS: [Field; 26] = [
    Processors,
    Nodes,
    Levels,
    Clock,
    Forward,
    LevelLock,
    NodeLock,
    Mark,
    Due,
    Item,
    Ticket,
    Height,
    Stamp,
    HeadStamp,
    TailStamp,
    Retirement,
    Begin,
    Own,
    OwnOfNoStage,
    Saved,
    PlaceNode,
    MarkedNode,
    PlaceLevel,
    ReadNode,
    WantedDue,
    WantedTicket,
];

/// No stamp.
pub const NONE: u64 = u64::MAX;

/// The greatest number of four bytes.
const FAR: u64 = u32::MAX as u64;

/// What the fields that a row does not change hold.
#[derive(Clone, Copy, PartialEq, Eq, Debug)]
pub enum Filling {
    /// The least value of their ranges, past P, N+1 and L too; all idle, never
    /// used and without a stamp. Such a record fits every size.
    Least,
    /// The greatest value of their ranges; all busy, retired, stamped. Past P,
    /// N+1 and L everything is out of its range.
    Greatest,
}

/// A field with the values that are taken and those that are refused with 21.
#[derive(Clone, Copy, Debug)]
pub struct Row {
    /// The field.
    pub field: Field,
    /// At these values the record is taken.
    pub taken: &'static [u64],
    /// At these values every call is refused with 21.
    pub refused: &'static [u64],
}

/// The rows for one size, clock and filling.
#[derive(Clone, Copy, Debug)]
pub struct Table {
    /// P, N and L.
    pub sizes: [u8; 3],
    /// The clock.
    pub clock: u32,
    /// What the other fields hold.
    pub filling: Filling,
    /// Rows of P, N, L and the clock.
    pub whole: &'static [Row],
    /// Rows of the nodes and processors.
    pub parts: &'static [Row],
}

impl Table {
    /// All rows.
    pub fn rows(&self) -> impl Iterator<Item = &'static Row> {
        self.whole.iter().chain(self.parts)
    }
}

const fn row(field: Field, taken: &'static [u64], refused: &'static [u64]) -> Row {
    Row {
        field,
        taken,
        refused,
    }
}

const fn table(
    sizes: [u8; 3],
    clock: u32,
    filling: Filling,
    whole: &'static [Row],
    parts: &'static [Row],
) -> Table {
    Table {
        sizes,
        clock,
        filling,
        whole,
        parts,
    }
}

/// Every table: the smallest sizes, small ones, the largest.
pub const TABLES: [Table; 6] = [
    table([1, 1, 1], 30, Filling::Least, &ANY_SIZE, &SMALLEST),
    table([1, 1, 1], 30, Filling::Greatest, &JUST_1_1_1, &SMALLEST),
    table([2, 3, 2], 30, Filling::Least, &ANY_SIZE, &SMALL),
    table([2, 3, 2], 30, Filling::Greatest, &JUST_2_3_2, &SMALL),
    table([16, 200, 8], 999_998, Filling::Least, &ANY_SIZE, &LARGEST),
    table(
        [16, 200, 8],
        999_998,
        Filling::Greatest,
        &JUST_16_200_8,
        &LARGEST,
    ),
];

/// A record at its least fits every size and every clock.
const ANY_SIZE: [Row; 4] = [
    row(Processors, &[1, 2, 15, 16], &[0, 17, 255]),
    row(Nodes, &[1, 2, 199, 200], &[0, 201, 255]),
    row(Levels, &[1, 2, 7, 8], &[0, 9, 255]),
    row(Clock, &[0, 1, 999_998, 999_999], &[1_000_000, FAR]),
];

/// A record at its greatest fits its own sizes alone: with less, a stored
/// number is out of range; with more, a slot comes in that is. Its clock may
/// be later, but not earlier than its times.
const JUST_1_1_1: [Row; 4] = [
    row(Processors, &[1], &[0, 2, 16, 17, 255]),
    row(Nodes, &[1], &[0, 2, 200, 201, 255]),
    row(Levels, &[1], &[0, 2, 8, 9, 255]),
    row(Clock, &[30, 31, 999_999], &[0, 29, 1_000_000, FAR]),
];

const JUST_2_3_2: [Row; 4] = [
    row(Processors, &[2], &[0, 1, 3, 16, 17, 255]),
    row(Nodes, &[3], &[0, 2, 4, 200, 201, 255]),
    row(Levels, &[2], &[0, 1, 3, 8, 9, 255]),
    row(Clock, &[30, 31, 999_999], &[0, 29, 1_000_000, FAR]),
];

const JUST_16_200_8: [Row; 4] = [
    row(Processors, &[16], &[0, 15, 17, 255]),
    row(Nodes, &[200], &[0, 199, 201, 255]),
    row(Levels, &[8], &[0, 7, 9, 255]),
    row(Clock, &[999_998, 999_999], &[0, 999_997, 1_000_000, FAR]),
];

/// One processor, one node, one level; the clock is 30. The tail is node 2.
const SMALLEST: [Row; 22] = [
    row(Forward, &[0, 1, 2], &[3, 255]),
    row(LevelLock, &[0, 1], &[2, 255]),
    row(NodeLock, &[0, 1], &[2, 255]),
    row(Mark, &[0, 1], &[2, 255]),
    row(Due, &[0, 999_999], &[1_000_000, FAR]),
    row(Item, &[0, 999_999], &[1_000_000, FAR]),
    row(Ticket, &[0, 30], &[31, FAR]),
    row(Height, &[1], &[0, 2, 255]),
    row(Stamp, &[0, 30], &[31, FAR]),
    row(HeadStamp, &[NONE], &[0, 30, 31, FAR]),
    row(TailStamp, &[NONE], &[0, 30, 31, FAR]),
    row(Retirement, &[0, 30], &[31, FAR]),
    row(Begin, &[0, 30], &[31, FAR]),
    row(Own, &[1], &[0, 2, 3, 255]),
    row(OwnOfNoStage, &[0, 1, 2], &[3, 255]),
    row(Saved, &[0, 1, 2], &[3, 255]),
    row(PlaceNode, &[0, 1, 2], &[3, 255]),
    row(MarkedNode, &[1], &[0, 2, 3, 255]),
    row(PlaceLevel, &[1], &[0, 2, 255]),
    row(ReadNode, &[0, 1, 2], &[3, 255]),
    row(WantedDue, &[0, 999_999], &[1_000_000, FAR]),
    row(WantedTicket, &[1, 30, 31, 999_999], &[0, 1_000_000, FAR]),
];

/// Two processors, three nodes, two levels; the clock is 30. The tail is node
/// 4.
const SMALL: [Row; 22] = [
    row(Forward, &[0, 1, 4], &[5, 255]),
    row(LevelLock, &[0, 1, 2], &[3, 255]),
    row(NodeLock, &[0, 1, 2], &[3, 255]),
    row(Mark, &[0, 1, 2], &[3, 255]),
    row(Due, &[0, 999_999], &[1_000_000, FAR]),
    row(Item, &[0, 999_999], &[1_000_000, FAR]),
    row(Ticket, &[0, 30], &[31, FAR]),
    row(Height, &[1, 2], &[0, 3, 255]),
    row(Stamp, &[0, 30], &[31, FAR]),
    row(HeadStamp, &[NONE], &[0, 30, 31, FAR]),
    row(TailStamp, &[NONE], &[0, 30, 31, FAR]),
    row(Retirement, &[0, 30], &[31, FAR]),
    row(Begin, &[0, 30], &[31, FAR]),
    row(Own, &[1, 3], &[0, 4, 5, 255]),
    row(OwnOfNoStage, &[0, 3, 4], &[5, 255]),
    row(Saved, &[0, 3, 4], &[5, 255]),
    row(PlaceNode, &[0, 3, 4], &[5, 255]),
    row(MarkedNode, &[1, 3], &[0, 4, 5, 255]),
    row(PlaceLevel, &[1, 2], &[0, 3, 255]),
    row(ReadNode, &[0, 3, 4], &[5, 255]),
    row(WantedDue, &[0, 999_999], &[1_000_000, FAR]),
    row(WantedTicket, &[1, 30, 31, 999_999], &[0, 1_000_000, FAR]),
];

/// Sixteen processors, 200 nodes, eight levels; the clock is 999,998. The tail
/// is node 201.
const LARGEST: [Row; 22] = [
    row(Forward, &[0, 201], &[202, 255]),
    row(LevelLock, &[0, 16], &[17, 255]),
    row(NodeLock, &[0, 16], &[17, 255]),
    row(Mark, &[0, 16], &[17, 255]),
    row(Due, &[0, 999_999], &[1_000_000, FAR]),
    row(Item, &[0, 999_999], &[1_000_000, FAR]),
    row(Ticket, &[0, 999_998], &[999_999, FAR]),
    row(Height, &[1, 8], &[0, 9, 255]),
    row(Stamp, &[0, 999_998], &[999_999, FAR]),
    row(HeadStamp, &[NONE], &[0, 999_998, 999_999, FAR]),
    row(TailStamp, &[NONE], &[0, 999_998, 999_999, FAR]),
    row(Retirement, &[0, 999_998], &[999_999, FAR]),
    row(Begin, &[0, 999_998], &[999_999, FAR]),
    row(Own, &[1, 200], &[0, 201, 202, 255]),
    row(OwnOfNoStage, &[0, 201], &[202, 255]),
    row(Saved, &[0, 201], &[202, 255]),
    row(PlaceNode, &[0, 201], &[202, 255]),
    row(MarkedNode, &[1, 200], &[0, 201, 202, 255]),
    row(PlaceLevel, &[1, 8], &[0, 9, 255]),
    row(ReadNode, &[0, 201], &[202, 255]),
    row(WantedDue, &[0, 999_999], &[1_000_000, FAR]),
    row(WantedTicket, &[1, 999_998, 999_999], &[0, 1_000_000, FAR]),
];
