//! Lists of calls and answers as numbers, five for each: the printed run, with
//! calls in between that are refused.

/// Of a call its kind, processor, due, item and height; of its answer the code,
/// three values, and the clock after the call.
pub type Turn = ([u32; 5], [u32; 5]);

const STEP: [u32; 5] = [3, 0, 0, 0, 0];

/// The numbers of a list's calls, and of its answers.
pub fn split(turns: &[Turn]) -> (Vec<u32>, Vec<u32>) {
    let calls = turns.iter().flat_map(|turn| turn.0).collect();
    (calls, turns.iter().flat_map(|turn| turn.1).collect())
}

/// Steps of a processor that move it on, from a time to a time.
pub(super) fn moves(processor: u32, first: u32, last: u32) -> Vec<Turn> {
    steps(processor, [1, 0, 0, 0], first, last)
}

/// Steps of a processor with this code and these values, from a time to a time.
pub(super) fn steps(processor: u32, reply: [u32; 4], first: u32, last: u32) -> Vec<Turn> {
    let [code, one, two, three] = reply;
    (first..=last)
        .map(|time| ([3, processor, 0, 0, 0], [code, one, two, three, time]))
        .collect()
}

/// The begin of an Insert with this due minute, item and height.
pub(super) fn insert(p: u32, [due, item, height]: [u32; 3], time: u32) -> Vec<Turn> {
    vec![([1, p, due, item, height], [0, time, 0, 0, time])]
}

/// The begin of a Delete_Min.
pub(super) fn delete(p: u32, time: u32) -> Vec<Turn> {
    vec![([2, p, 0, 0, 0], [0, time, 0, 0, time])]
}

/// A step that waits for this processor.
pub(super) fn waits(p: u32, holder: u32, time: u32) -> Vec<Turn> {
    steps(p, [2, holder, 0, 0], time, time)
}

/// A step at which the entry is marked (4), inserted (5) or handed out (6).
pub(super) fn told(p: u32, code: u32, [due, item, ticket]: [u32; 3], time: u32) -> Vec<Turn> {
    steps(p, [code, due, item, ticket], time, time)
}

/// The printed run as one list, on a fresh queue for one processor, one entry
/// and one level. A call that is refused leaves the clock, and the list goes
/// on; numbers that a call has not are not looked at, and a kind that begins
/// nothing is a step.
pub fn printed() -> Vec<Turn> {
    let mut turns: Vec<Turn> = vec![
        ([0, 0, 0, 0, 0], [34, 0, 0, 0, 0]),
        ([1, 1, 7, 42, 1], [32, 0, 0, 0, 0]),
        ([1, 0, 7, 0, 1], [39, 0, 0, 0, 0]),
        ([1, 0, 7, 42, 1], [0, 1, 0, 0, 1]),
        ([1, 0, 7, 42, 1], [33, 0, 0, 0, 1]),
        ([2, 0, 0, 0, 0], [33, 0, 0, 0, 1]),
    ];
    turns.extend(moves(0, 2, 9));
    turns.extend([
        ([u32::MAX, 0, 9, 9, 9], [5, 7, 42, 1, 10]),
        ([1, 0, 1, 1, 1], [37, 0, 0, 0, 10]),
        ([2, 0, 9, 9, 9], [0, 11, 0, 0, 11]),
    ]);
    turns.extend(moves(0, 12, 13));
    turns.extend([
        ([0, 0, 0, 0, 0], [4, 7, 42, 1, 14]),
        ([3, u32::MAX, 0, 0, 0], [32, 0, 0, 0, 14]),
    ]);
    turns.extend(moves(0, 15, 25));
    turns.extend([
        (STEP, [6, 7, 42, 1, 26]),
        (STEP, [34, 0, 0, 0, 26]),
        ([1, 0, 1_000_000, 1, 1], [35, 0, 0, 0, 26]),
        ([1, 0, 1, 1, 2], [36, 0, 0, 0, 26]),
        ([2, 0, 0, 0, 0], [0, 27, 0, 0, 27]),
        ([6, 0, 0, 0, 0], [3, 0, 0, 0, 28]),
    ]);
    turns
}
