//! The layout of docs/IMAGE.md, byte by byte: the length of an image, the
//! images of the printed run, where the pieces of a queue stand at the edges of
//! its sizes, and bytes that every call refuses with 21.

use crate::queue::{Job, Node, Operation, Place, Processor, Queue, Stage, Use, Wanted};

/// Processors and entries, and the length of their image; 0 where no queue has
/// these sizes.
pub const LENGTHS: [(u32, u32, usize); 21] = [
    (1, 1, 156),
    (1, 2, 197),
    (2, 1, 182),
    (2, 3, 264),
    (16, 1, 546),
    (1, 200, 8_315),
    (15, 200, 8_679),
    (16, 199, 8_664),
    (16, 200, 8_705),
    (0, 0, 0),
    (0, 1, 0),
    (1, 0, 0),
    (17, 1, 0),
    (1, 201, 0),
    (17, 201, 0),
    (257, 1, 0),
    (1, 257, 0),
    (65_537, 65_537, 0),
    (0x8000_0001, 1, 0),
    (1, u32::MAX, 0),
    (u32::MAX, u32::MAX, 0),
];

/// An idle processor.
const IDLE: [u8; 26] = [0; 26];

/// A node as made where the tail is node 2.
const AS_MADE: [u8; 41] = [
    2, 2, 2, 2, 2, 2, 2, 2, // forward
    0, 0, 0, 0, 0, 0, 0, 0, // level locks
    0, 0, // node lock, mark
    0, 0, 0, 0, 0, // stamp
    0, 0, 0, 0, // due
    0, 0, 0, 0, // ticket
    0, 0, 0, 0, // item
    1, // height
    0, 0, 0, 0, 0, // use
];

/// The printed run, one processor, one entry, one level: the image at these
/// times. At 1 the Insert has begun, at 10 it is answered, at 14 the Delete_Min
/// has marked the entry, at 26 it is handed out.
pub fn printed() -> Vec<(u32, Vec<u8>)> {
    let mut inserting = IDLE;
    inserting[..8].copy_from_slice(&[1, 0, 0, 0, 1, 1, 0, 1]);
    let mut removing = IDLE;
    removing[..8].copy_from_slice(&[11, 0, 0, 0, 1, 14, 0, 1]);
    let mut leading_to_1 = AS_MADE;
    leading_to_1[0] = 1;
    let begun = [
        2, 2, 2, 2, 2, 2, 2, 2, // forward
        0, 0, 0, 0, 0, 0, 0, 0, // level locks
        1, 0, // node lock, mark
        0, 0, 0, 0, 0, // stamp
        7, 0, 0, 0, // due
        1, 0, 0, 0, // ticket
        42, 0, 0, 0, // item
        1, // height
        1, 0, 0, 0, 0, // use
    ];
    let mut answered = begun;
    answered[16..23].copy_from_slice(&[0, 0, 1, 10, 0, 0, 0]);
    // marked by processor 0
    let mut marked = answered;
    marked[17] = 1;
    let mut retired = marked;
    retired[0] = 0;
    retired[36..41].copy_from_slice(&[2, 26, 0, 0, 0]);
    let image = |time: u8, processor: &[u8], head: &[u8], entry: &[u8]| {
        let front = [1, 1, 1, time, 0, 0, 0];
        let bytes = [&front, processor, head, entry, &AS_MADE].concat();
        (u32::from(time), bytes)
    };
    vec![
        image(0, &IDLE, &AS_MADE, &AS_MADE),
        image(1, &inserting, &AS_MADE, &begun),
        image(10, &IDLE, &leading_to_1, &answered),
        image(14, &removing, &leading_to_1, &marked),
        image(26, &IDLE, &AS_MADE, &retired),
    ]
}

/// Sizes, the length of their image, and where the first and the last
/// processor, the head and the tail start.
pub const PLACES: [([u8; 3], usize, [usize; 4]); 5] = [
    ([1, 1, 1], 156, [7, 7, 33, 115]),
    ([2, 3, 2], 264, [7, 33, 59, 223]),
    ([16, 1, 8], 546, [7, 397, 423, 505]),
    ([1, 200, 1], 8_315, [7, 7, 33, 8_274]),
    ([16, 200, 8], 8_705, [7, 397, 423, 8_664]),
];

/// A processor with another number in each of its bytes, as far as a removal has
/// them, which is that of a Remove.
const MANY: Processor = Processor {
    begin: 0x0403_0201,
    own: 5,
    stage: Stage::G4Unlock(
        Operation::Removal(Job::TakeBack),
        Place { node: 7, level: 8 },
        9,
    ),
    saved: [10, 11, 12, 13, 14, 15, 16, 17],
};
const MANY_BYTES: [u8; 26] = [
    1, 2, 3, 4, 5, 19, 7, 8, 9, // begin, own node, stage
    10, 11, 12, 13, 14, 15, 16, 17, // saved nodes
    1,  // job
    0, 0, 0, 0, 0, 0, 0, 0, // key
];

/// The same as far as a Remove at its mark has them.
const MARKING: Processor = Processor {
    begin: 0x0403_0201,
    own: 5,
    stage: Stage::X3Mark(
        Wanted {
            due: 0x1514_1312,
            ticket: 0x1918_1716,
        },
        Place { node: 7, level: 8 },
    ),
    saved: [10, 11, 12, 13, 14, 15, 16, 17],
};
const MARKING_BYTES: [u8; 26] = [
    1, 2, 3, 4, 5, 32, 7, 8, 0, // begin, own node, stage
    10, 11, 12, 13, 14, 15, 16, 17, // saved nodes
    0,  // job
    18, 19, 20, 21, 22, 23, 24, 25, // key
];

/// A node with another number in each of its bytes, but tags.
const FULL: Node = Node {
    forward: [1, 2, 3, 4, 5, 6, 7, 8],
    level_locks: [9, 10, 11, 12, 13, 14, 15, 16],
    node_lock: 17,
    mark: 18,
    stamp: Some(0x1716_1514),
    due: 0x1b1a_1918,
    ticket: 0x1f1e_1d1c,
    item: 0x2322_2120,
    height: 36,
    state: Use::Retired(0x2928_2726),
};
const FULL_BYTES: [u8; 41] = [
    1, 2, 3, 4, 5, 6, 7, 8, 9, 10, 11, 12, 13, 14, 15, 16, 17, 18, 1, 20, 21, 22, 23, 24, 25, 26,
    27, 28, 29, 30, 31, 32, 33, 34, 35, 36, 2, 38, 39, 40, 41,
];

/// A record whose numbers are all 0 but the sizes, with its slots past P and
/// N+1 as made.
fn zeros([processor_count, node_count, level_count]: [u8; 3]) -> Queue {
    let (tail, last) = (node_count + 1, usize::from(node_count) + 1);
    let made = Node {
        forward: [tail; 8],
        level_locks: [0; 8],
        node_lock: 0,
        mark: 0,
        stamp: None,
        due: 0,
        ticket: 0,
        item: 0,
        height: 1,
        state: Use::Never,
    };
    let zero = Node {
        forward: [0; 8],
        height: 0,
        ..made
    };
    let idle = Processor {
        begin: 0,
        own: 0,
        stage: Stage::Idle,
        saved: [0; 8],
    };
    Queue {
        processor_count,
        node_count,
        level_count,
        clock: 0,
        nodes: std::array::from_fn(|x| if x > last { made } else { zero }),
        processors: [idle; 16],
    }
}

/// Records with one piece that is not 0, and their images: the first and the
/// last processor, the head, the tail. Check 21 takes none of them.
pub fn pieces() -> Vec<(String, Queue, Vec<u8>)> {
    let mut all = Vec::new();
    for (sizes, length, starts) in PLACES {
        let [p, n, _] = sizes.map(usize::from);
        for (number, start) in starts.into_iter().enumerate() {
            let mut queue = zeros(sizes);
            let mut bytes = vec![0; length];
            bytes[..3].copy_from_slice(&sizes);
            let piece: &[u8] = match number {
                0 => &MANY_BYTES,
                1 => &MARKING_BYTES,
                _ => &FULL_BYTES,
            };
            match number {
                0 => queue.processors[0] = MANY,
                1 => queue.processors[p - 1] = MARKING,
                2 => queue.nodes[0] = FULL,
                _ => queue.nodes[n + 1] = FULL,
            }
            bytes[start..start + piece.len()].copy_from_slice(piece);
            all.push((format!("{sizes:?}, at {start}"), queue, bytes));
        }
    }
    all
}

/// A place in an image, and the byte there.
pub type ByteAt = (usize, u8);

/// Fresh queues and the begin of a Delete_Min by their last processor: sizes,
/// and all that differs from the fresh image.
pub const BEGUN: [([u8; 3], [ByteAt; 4]); 5] = [
    ([1, 1, 1], [(3, 1), (7, 1), (12, 11), (14, 1)]),
    ([2, 3, 2], [(3, 1), (33, 1), (38, 11), (40, 1)]),
    ([16, 1, 8], [(3, 1), (397, 1), (402, 11), (404, 1)]),
    ([1, 200, 1], [(3, 1), (7, 1), (12, 11), (14, 1)]),
    ([16, 200, 8], [(3, 1), (397, 1), (402, 11), (404, 1)]),
];

/// The same with the begin of a Relaxed Delete_Min.
pub const BEGUN_RELAXED: [([u8; 3], [ByteAt; 4]); 5] = [
    ([1, 1, 1], [(3, 1), (7, 1), (12, 27), (14, 1)]),
    ([2, 3, 2], [(3, 1), (33, 1), (38, 27), (40, 1)]),
    ([16, 1, 8], [(3, 1), (397, 1), (402, 27), (404, 1)]),
    ([1, 200, 1], [(3, 1), (7, 1), (12, 27), (14, 1)]),
    ([16, 200, 8], [(3, 1), (397, 1), (402, 27), (404, 1)]),
];

/// Four bytes of a fresh queue's image replaced: sizes, where the stage of the
/// last processor stands, its tag, node, level and node of G3, and whether the
/// calls take it. The walks, ordinary (11 to 13) and Relaxed (27, 28). At 29 to 32
/// a Remove carries a ticket, which is 0 here, and from 33 on there is no stage.
pub const STAGES: [([u8; 3], usize, [u8; 4], bool); 42] = [
    ([1, 1, 1], 12, [11, 0, 1, 0], true),
    ([1, 1, 1], 12, [13, 0, 1, 0], false),
    ([1, 1, 1], 12, [13, 1, 1, 0], true),
    ([1, 1, 1], 12, [27, 0, 1, 0], true),
    ([1, 1, 1], 12, [27, 1, 1, 0], true),
    ([1, 1, 1], 12, [27, 2, 1, 0], true),
    ([1, 1, 1], 12, [27, 3, 1, 0], false),
    ([1, 1, 1], 12, [27, 0, 0, 0], false),
    ([1, 1, 1], 12, [27, 0, 2, 0], false),
    ([1, 1, 1], 12, [27, 0, 1, 1], false),
    ([1, 1, 1], 12, [28, 1, 1, 0], true),
    ([1, 1, 1], 12, [28, 0, 1, 0], false),
    ([1, 1, 1], 12, [28, 2, 1, 0], false),
    ([1, 1, 1], 12, [28, 3, 1, 0], false),
    ([1, 1, 1], 12, [28, 1, 0, 0], false),
    ([1, 1, 1], 12, [28, 1, 2, 0], false),
    ([1, 1, 1], 12, [28, 1, 1, 1], false),
    ([1, 1, 1], 12, [29, 1, 1, 0], false),
    ([1, 1, 1], 12, [30, 1, 1, 0], false),
    ([1, 1, 1], 12, [255, 1, 1, 0], false),
    ([2, 3, 2], 38, [27, 0, 2, 0], true),
    ([2, 3, 2], 38, [27, 4, 2, 0], true),
    ([2, 3, 2], 38, [27, 5, 2, 0], false),
    ([2, 3, 2], 38, [27, 4, 3, 0], false),
    ([2, 3, 2], 38, [28, 1, 2, 0], true),
    ([2, 3, 2], 38, [28, 3, 1, 0], true),
    ([2, 3, 2], 38, [28, 0, 1, 0], false),
    ([2, 3, 2], 38, [28, 4, 1, 0], false),
    ([2, 3, 2], 38, [28, 3, 3, 0], false),
    ([2, 3, 2], 38, [29, 3, 1, 0], false),
    ([16, 200, 8], 402, [11, 201, 8, 0], true),
    ([16, 200, 8], 402, [13, 200, 8, 0], true),
    ([16, 200, 8], 402, [13, 201, 8, 0], false),
    ([16, 200, 8], 402, [27, 0, 8, 0], true),
    ([16, 200, 8], 402, [27, 201, 8, 0], true),
    ([16, 200, 8], 402, [27, 202, 8, 0], false),
    ([16, 200, 8], 402, [27, 0, 9, 0], false),
    ([16, 200, 8], 402, [28, 1, 1, 0], true),
    ([16, 200, 8], 402, [28, 200, 8, 0], true),
    ([16, 200, 8], 402, [28, 0, 8, 0], false),
    ([16, 200, 8], 402, [28, 201, 8, 0], false),
    ([16, 200, 8], 402, [29, 1, 1, 0], false),
];

/// One byte of a fresh queue's image replaced: sizes, place, byte, and whether
/// the calls take it. The last processor's own node (its fifth byte) and stage,
/// the head's first forward number, the tail's height and last byte, and the
/// marks of the head, of the last entry and of the tail: a mark is nobody's, or
/// one more than the processor that set it.
pub const EDITS: [([u8; 3], usize, u8, bool); 45] = [
    ([1, 1, 1], 11, 2, true),
    ([1, 1, 1], 11, 3, false),
    ([1, 1, 1], 12, 27, false),
    ([1, 1, 1], 12, 28, false),
    ([1, 1, 1], 12, 29, false),
    ([1, 1, 1], 33, 2, true),
    ([1, 1, 1], 33, 3, false),
    ([1, 1, 1], 50, 1, true),
    ([1, 1, 1], 50, 2, false),
    ([1, 1, 1], 91, 1, true),
    ([1, 1, 1], 91, 2, false),
    ([1, 1, 1], 132, 1, true),
    ([1, 1, 1], 132, 2, false),
    ([1, 1, 1], 132, 255, false),
    ([1, 1, 1], 155, 1, false),
    ([2, 3, 2], 37, 4, true),
    ([2, 3, 2], 37, 5, false),
    ([2, 3, 2], 38, 29, false),
    ([2, 3, 2], 38, 255, false),
    ([2, 3, 2], 59, 4, true),
    ([2, 3, 2], 59, 5, false),
    ([2, 3, 2], 76, 2, true),
    ([2, 3, 2], 76, 3, false),
    ([2, 3, 2], 199, 2, true),
    ([2, 3, 2], 199, 3, false),
    ([2, 3, 2], 240, 1, true),
    ([2, 3, 2], 240, 2, true),
    ([2, 3, 2], 240, 3, false),
    ([2, 3, 2], 240, 255, false),
    ([2, 3, 2], 263, 1, false),
    ([16, 200, 8], 401, 201, true),
    ([16, 200, 8], 401, 202, false),
    ([16, 200, 8], 402, 29, false),
    ([16, 200, 8], 402, 255, false),
    ([16, 200, 8], 423, 202, false),
    ([16, 200, 8], 440, 16, true),
    ([16, 200, 8], 440, 17, false),
    ([16, 200, 8], 8_640, 16, true),
    ([16, 200, 8], 8_640, 17, false),
    ([16, 200, 8], 8_681, 2, true),
    ([16, 200, 8], 8_681, 16, true),
    ([16, 200, 8], 8_681, 17, false),
    ([16, 200, 8], 8_681, 255, false),
    ([16, 200, 8], 8_699, 9, false),
    ([16, 200, 8], 8_704, 1, false),
];

/// Bytes as a fresh queue of any sizes would have them, also of sizes that no
/// queue has: P processors and so many nodes.
fn fresh_like(sizes: [u8; 3], nodes: usize) -> Vec<u8> {
    let mut node = AS_MADE;
    node[..8].fill(sizes[1].wrapping_add(1));
    let mut bytes = sizes.to_vec();
    bytes.extend([0; 4]);
    bytes.extend(IDLE.repeat(usize::from(sizes[0])));
    bytes.extend(node.repeat(nodes));
    bytes
}

/// Bytes that every call refuses with 21, each with its length.
pub fn refused() -> Vec<(&'static str, usize, Vec<u8>)> {
    let short = |length: usize| fresh_like([1, 1, 1], 3)[..length].to_vec();
    vec![
        ("nothing", 0, short(0)),
        ("P alone", 1, short(1)),
        ("sizes alone", 3, short(3)),
        ("no piece", 7, short(7)),
        ("a byte too few", 155, short(155)),
        ("a node too few", 115, fresh_like([1, 1, 1], 2)),
        ("a node too many", 197, fresh_like([1, 1, 1], 4)),
        ("no processor", 130, fresh_like([0, 1, 1], 3)),
        ("no entry", 115, fresh_like([1, 0, 1], 2)),
        ("neither", 89, fresh_like([0, 0, 1], 2)),
        ("no level", 156, fresh_like([1, 1, 0], 3)),
        ("9 levels", 156, fresh_like([1, 1, 9], 3)),
        ("17 processors", 572, fresh_like([17, 1, 1], 3)),
        ("201 entries", 8_356, fresh_like([1, 201, 1], 203)),
        ("255 of both", 17_174, fresh_like([255, 255, 1], 257)),
        (
            "the largest, a node more",
            8_746,
            fresh_like([16, 200, 8], 203),
        ),
    ]
}
