//! Runs in which steps wait (document 02, W1), worked out by hand: the calls in
//! the numbers of a list, with the processor that each wait names.

use super::lists::{self, delete, moves, waits, Turn};
use super::relaxed;
use super::removes;

/// A run on a fresh queue.
pub struct Run {
    /// Who does what in it.
    pub what: String,
    /// P, N and L.
    pub sizes: [u32; 3],
    /// The calls with their answers.
    pub turns: Vec<Turn>,
}

/// Every run; at L1 steps wait in those with Relaxed Delete_Mins alone.
pub fn runs() -> Vec<Run> {
    let mut all = Vec::new();
    for (processors, p, q) in [(2, 0, 1), (2, 1, 0), (4, 3, 1), (16, 15, 7), (16, 0, 15)] {
        all.push(Run {
            what: format!("{p} and {q} insert at the head"),
            sizes: [processors, 3, 1],
            turns: two_inserts(p, q),
        });
    }
    for (processors, p, q) in [(2, 1, 0), (2, 0, 1), (4, 1, 3), (16, 7, 15), (16, 15, 2)] {
        all.push(Run {
            what: format!("{p} removes what {q} inserts in front of"),
            sizes: [processors, 2, 1],
            turns: insert_in_front(p, q),
        });
    }
    for (processors, p, q, r) in [(3, 0, 1, 2), (3, 1, 0, 2), (4, 1, 3, 0), (16, 8, 15, 3)] {
        all.push(Run {
            what: format!("{p} removes what {q} and {r} insert behind"),
            sizes: [processors, 3, 1],
            turns: inserts_behind(p, q, r),
        });
    }
    all.push(Run {
        what: "the locks of one node are those of three".to_string(),
        sizes: [16, 4, 2],
        turns: [on_two_levels(), on_two_levels_later()].concat(),
    });
    all.extend(relaxed::runs().into_iter().map(|(run, _)| run));
    all.extend(removes::runs().into_iter().map(|(run, _)| run));
    all
}

/// The begin of an Insert, with item 10 more than its due minute.
fn insert(p: u32, due: u32, height: u32, time: u32) -> Vec<Turn> {
    lists::insert(p, [due, due + 10, height], time)
}

/// The entry of this due minute and ticket is marked (4), inserted (5) or handed
/// out (6).
fn told(p: u32, code: u32, due: u32, ticket: u32, time: u32) -> Vec<Turn> {
    lists::told(p, code, [due, due + 10, ticket], time)
}

/// p has the head's lock from 4 (G2) to 14 (I3) and q waits for it; then q has
/// it from 15 to 24 (G4, since p's entry is in between), and p waits with its
/// second Insert, which goes to the front.
fn two_inserts(p: u32, q: u32) -> Vec<Turn> {
    [
        insert(p, 5, 1, 1),
        moves(p, 2, 4),
        insert(q, 6, 1, 5),
        moves(q, 6, 7),
        waits(q, p, 8),
        waits(q, p, 9),
        moves(p, 10, 12),
        waits(q, p, 13),
        moves(p, 14, 14),
        moves(q, 15, 15),
        moves(p, 16, 16),
        told(p, 5, 5, 1, 17),
        insert(p, 4, 1, 18),
        moves(p, 19, 20),
        waits(p, q, 21),
        moves(q, 22, 22),
        waits(p, q, 23),
        moves(q, 24, 24),
        moves(p, 25, 25),
        moves(q, 26, 26),
        moves(p, 27, 31),
        told(p, 5, 4, 18, 32),
        moves(q, 33, 37),
        told(q, 5, 6, 5, 38),
    ]
    .concat()
}

/// p files an entry, answered at 10, and has it marked at 14.
fn files_and_marks(p: u32) -> Vec<Turn> {
    [
        insert(p, 5, 1, 1),
        moves(p, 2, 9),
        told(p, 5, 5, 1, 10),
        delete(p, 11),
        moves(p, 12, 13),
        told(p, 4, 5, 1, 14),
    ]
    .concat()
}

/// p files an entry and removes it. Before its G2 at the head q takes the head's
/// lock, at 21, and has it to 27 (I3).
fn insert_in_front(p: u32, q: u32) -> Vec<Turn> {
    [
        files_and_marks(p),
        moves(p, 15, 17),
        insert(q, 4, 1, 18),
        moves(q, 19, 21),
        waits(p, q, 22),
        moves(q, 23, 25),
        waits(p, q, 26),
        moves(q, 27, 27),
        // the head leads to q's entry now: G4, and G2 at that
        moves(p, 28, 38),
        told(p, 6, 5, 1, 39),
        moves(q, 40, 40),
        told(q, 5, 4, 18, 41),
    ]
    .concat()
}

/// p files an entry and removes it: at 19 it has the head's lock and is about to
/// take its own (L2). q has that one from 24 (G2) to 30 (I3). Then p has it,
/// from 31 (L2) to 39 (L5), and r waits for it.
fn inserts_behind(p: u32, q: u32, r: u32) -> Vec<Turn> {
    [
        files_and_marks(p),
        moves(p, 15, 19),
        insert(q, 6, 1, 20),
        moves(q, 21, 24),
        waits(p, q, 25),
        moves(q, 26, 28),
        waits(p, q, 29),
        moves(q, 30, 30),
        moves(p, 31, 31),
        insert(r, 5, 1, 32),
        moves(r, 33, 35),
        waits(r, p, 36),
        moves(p, 37, 39),
        // r takes the removed node's lock, and is led back to the head, whose
        // lock p has to 46 (L6)
        moves(r, 40, 42),
        waits(r, p, 43),
        moves(q, 44, 44),
        waits(r, p, 45),
        moves(p, 46, 46),
        moves(r, 47, 47),
        moves(p, 48, 48),
        told(p, 6, 5, 1, 49),
        moves(r, 50, 54),
        told(r, 5, 5, 32, 55),
        told(q, 5, 6, 20, 56),
    ]
    .concat()
}

/// Node 1 is 2's entry, on both levels. 9 removes it and has its node lock from
/// 24. 15 inserts behind it and has its lock at level 1 from 31 to 43, at level 2
/// from 45 to 57. 4 and 11 insert behind it on level 1: 4 has that lock from 46
/// to 89, 11 from 90. 13 removes 15's entry, and waits at level 2 for 9 alone.
/// Up to 60, where 15's entry is answered.
fn on_two_levels() -> Vec<Turn> {
    [
        insert(2, 5, 2, 1),
        moves(2, 2, 16),
        told(2, 5, 5, 1, 17),
        delete(9, 18),
        moves(9, 19, 20),
        told(9, 4, 5, 1, 21),
        moves(9, 22, 25),
        insert(15, 6, 2, 26),
        moves(15, 27, 31),
        insert(4, 7, 1, 32),
        moves(4, 33, 36),
        waits(4, 15, 37),
        moves(9, 38, 39),
        moves(15, 40, 45),
        moves(4, 46, 46),
        // L2 at level 2
        waits(9, 15, 47),
        insert(11, 5, 1, 48),
        moves(11, 49, 52),
        waits(11, 4, 53),
        moves(15, 54, 57),
        moves(9, 58, 58),
        moves(15, 59, 59),
        told(15, 5, 6, 26, 60),
    ]
    .concat()
}

/// The same run from 61 on.
fn on_two_levels_later() -> Vec<Turn> {
    [
        delete(13, 61),
        moves(13, 62, 66),
        told(13, 4, 6, 26, 67),
        moves(13, 68, 72),
        waits(13, 9, 73),
        waits(11, 4, 74),
        moves(9, 75, 77),
        // node 1 leads back to the head, whose lock 9 has to 82 (L6)
        moves(13, 78, 80),
        waits(13, 9, 81),
        moves(9, 82, 82),
        moves(13, 83, 83),
        moves(9, 84, 86),
        // L2 at level 1
        waits(9, 4, 87),
        moves(4, 88, 89),
        moves(11, 90, 90),
        waits(9, 11, 91),
    ]
    .concat()
}
