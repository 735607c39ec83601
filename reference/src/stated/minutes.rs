//! Counts of seconds with their due minutes, and counts that are refused
//! (document 01, run 2; document 02, W8).

/// The examples of the documents, halves of a minute under even and odd
/// minutes with the seconds beside them, and the last counts that are taken.
pub const MINUTES: [(u64, u32); 24] = [
    (0, 0),
    (1, 0),
    (29, 0),
    (30, 0),
    (31, 1),
    (59, 1),
    (60, 1),
    (61, 1),
    (89, 1),
    (90, 2),
    (91, 2),
    (120, 2),
    (149, 2),
    (150, 2),
    (151, 3),
    (209, 3),
    (210, 4),
    (211, 4),
    (270, 4),
    (425, 7),
    (59_999_909, 999_998),
    (59_999_910, 999_998),
    (59_999_911, 999_999),
    (59_999_969, 999_999),
];

/// The first counts that are refused, the last that was taken before W8 with
/// the next, and counts past 32 bits: the lower bits of two would be taken.
pub const TOO_MANY_SECONDS: [u64; 8] = [
    59_999_970,
    59_999_971,
    59_999_999,
    60_000_000,
    1 << 32,
    (1 << 32) + 59,
    u64::MAX - 1,
    u64::MAX,
];
