//! Records in the middle of operations, and the calls that are made on them.

use darthog_reference::calls::{Call, Outcome};
use darthog_reference::image::encode;
use darthog_reference::lists::{call_of, numbers_of, NUMBERS};
use darthog_reference::queue::{fresh, Queue, Stage};
use darthog_reference::random::Random;

/// How many levels each queue has.
pub const LEVELS: u64 = 8;
/// How many calls a case has for lists.
const CALLS: usize = 1000;
/// How many records a workload has.
const RECORDS: u64 = 32;

/// A record, its image, and what is called on it.
pub struct Case {
    /// The record.
    pub queue: Queue,
    /// Its image.
    pub image: Vec<u8>,
    /// The processors of single calls, one call of each.
    pub who: Vec<u32>,
    /// Begins and steps for lists, five numbers for each.
    pub calls: Vec<u32>,
}

/// Cases of queues of the same sizes.
pub struct Workload {
    /// P.
    pub processors: u64,
    /// N.
    pub entries: u64,
    /// The cases.
    pub cases: Vec<Case>,
}

impl Workload {
    /// Queues nine tenths of whose nodes are in use, after some thousand
    /// operations; every processor is somewhere in an Insert or a Delete_Min.
    pub fn filled(processors: u64, entries: u64) -> Workload {
        Workload {
            processors,
            entries,
            cases: (0..RECORDS)
                .map(|seed| Case::new(filled_record(processors, entries, seed), seed))
                .collect(),
        }
    }

    /// One processor, which has begun an operation on a queue for four entries
    /// that has three on all levels.
    pub fn small() -> Workload {
        Workload {
            processors: 1,
            entries: 4,
            cases: (0..RECORDS)
                .map(|seed| Case::new(small_record(seed), seed))
                .collect(),
        }
    }

    /// The records after their steps, all processors idle, as far as each of
    /// these finds a free node; one call of each.
    pub fn idle(&self) -> Workload {
        let cases = self.cases.iter().map(Case::idle);
        let room = |case: &Case| u64::from(case.queue.in_use()) + self.processors <= self.entries;
        Workload {
            cases: cases.filter(room).collect(),
            ..*self
        }
    }
}

impl Case {
    fn new(queue: Queue, seed: u64) -> Case {
        Case {
            image: encode(&queue),
            who: steps_to_the_end(queue.clone(), seed),
            calls: mixed_calls(queue.clone(), seed),
            queue,
        }
    }

    fn idle(&self) -> Case {
        let mut queue = self.queue.clone();
        for &p in &self.who {
            // Refused steps change nothing.
            let _ = queue.step_inner(u64::from(p));
        }
        Case {
            image: encode(&queue),
            who: (0..u32::from(queue.processor_count)).collect(),
            calls: Vec::new(),
            queue,
        }
    }

    /// Room for the answers to its calls.
    pub fn room(&self) -> Vec<u32> {
        vec![0; self.calls.len()]
    }
}

/// Steps of busy processors in random order until all are idle. One draw in 64
/// takes any processor, which may be idle: such a step is refused.
fn steps_to_the_end(mut queue: Queue, seed: u64) -> Vec<u32> {
    let mut random = Random::new(seed ^ 0x7374_6570);
    let mut who = Vec::new();
    loop {
        let busy = busy(&queue);
        if busy.is_empty() {
            return who;
        }
        let p = if random.one_in(64) {
            random.below(u64::from(queue.processor_count)) as u32
        } else {
            random.among(&busy)
        };
        // A refused step is meant to be in the list.
        let _ = queue.step_inner(u64::from(p));
        who.push(p);
    }
}

/// Begins and steps as they keep the queue as full as it is. One in 64 is a
/// step of any processor, which may be idle: it is refused.
fn mixed_calls(mut queue: Queue, seed: u64) -> Vec<u32> {
    let mut random = Random::new(seed ^ 0x6361_6c6c);
    let most = most_entries(u64::from(queue.node_count));
    let mut calls = Vec::new();
    while calls.len() < NUMBERS * CALLS {
        let call = if random.one_in(64) {
            let processor = random.below(u64::from(queue.processor_count));
            let call = Call::Step { processor };
            queue.call_inner(&call);
            call
        } else {
            advance(&mut queue, &mut random, most)
        };
        calls.extend_from_slice(&numbers_for(&call));
    }
    calls
}

/// A call as a list has it.
fn numbers_for(call: &Call) -> [u32; NUMBERS] {
    match *call {
        Call::Insert {
            processor,
            due,
            item,
            height,
        } => [1, processor, due, item, height].map(|number| number as u32),
        Call::DeleteMin { processor } => [2, processor as u32, 0, 0, 0],
        Call::Relaxed { processor } => [4, processor as u32, 0, 0, 0],
        Call::Remove {
            processor,
            due,
            ticket,
        } => [5, processor as u32, due as u32, ticket as u32, 0],
        Call::Step { processor } => [3, processor as u32, 0, 0, 0],
        Call::Backlog | Call::Markers { .. } => unreachable!("a list has begins and steps"),
    }
}

fn busy(queue: &Queue) -> Vec<u32> {
    (0..u32::from(queue.processor_count))
        .filter(|&p| queue.processors[p as usize].stage != Stage::Idle)
        .collect()
}

/// Nine tenths of the nodes.
fn most_entries(nodes: u64) -> u32 {
    (nodes * 9 / 10) as u32
}

fn filled_record(processors: u64, entries: u64, seed: u64) -> Queue {
    let mut random = Random::new(seed);
    let mut queue = fresh(processors, entries, LEVELS).expect("the sizes are in range");
    let most = most_entries(entries);
    // a filled queue, then some hundred operations, so that nodes are used again
    while queue.in_use() < most {
        advance(&mut queue, &mut random, entries as u32);
    }
    for _ in 0..20_000 {
        advance(&mut queue, &mut random, most);
    }
    while (busy(&queue).len() as u64) < processors {
        advance(&mut queue, &mut random, most);
    }
    queue
}

/// One accepted call of a random processor, which it gives: a step, or the
/// begin of an Insert while fewer nodes than `most` are in use and one is free,
/// and of a Delete_Min otherwise.
fn advance(queue: &mut Queue, random: &mut Random, most: u32) -> Call {
    let processor = random.below(u64::from(queue.processor_count));
    if queue.processors[processor as usize].stage != Stage::Idle {
        let step = Call::Step { processor };
        queue.call_inner(&step);
        return step;
    }
    if queue.in_use() < most {
        let insert = any_insert(random, processor);
        if let Outcome::Began(_) = queue.call_inner(&insert) {
            return insert;
        }
    }
    let delete = Call::DeleteMin { processor };
    queue.call_inner(&delete);
    delete
}

fn any_insert(random: &mut Random, processor: u64) -> Call {
    Call::Insert {
        processor,
        due: random.below(1_000_000),
        item: random.between(1, 999_999),
        height: any_height(random),
    }
}

/// As a coin falls: half of the nodes have height 1, a quarter 2, and so on.
fn any_height(random: &mut Random) -> u64 {
    let mut height = 1;
    while height < LEVELS && random.one_in(2) {
        height += 1;
    }
    height
}

fn small_record(seed: u64) -> Queue {
    let mut random = Random::new(seed);
    let mut queue = fresh(1, 4, LEVELS).expect("the sizes are in range");
    for _ in 0..3 {
        begin_on_all_levels(&mut queue, &mut random);
        while queue.processors[0].stage != Stage::Idle {
            queue.step_inner(0).expect("a busy processor's step");
        }
    }
    if seed & 1 == 0 {
        begin_on_all_levels(&mut queue, &mut random);
    } else {
        queue.begin_delete_min_inner(0).expect("an idle processor");
    }
    queue
}

fn begin_on_all_levels(queue: &mut Queue, random: &mut Random) {
    let due = random.below(1_000_000);
    let begun = queue.begin_insert_inner(0, due, 1, LEVELS);
    begun.expect("a free node");
}

/// What the calls of a list are answered.
#[derive(Clone, Copy, Default, Debug)]
pub struct Shares {
    /// All calls.
    pub calls: u64,
    /// Begins.
    pub begun: u64,
    /// Steps that moved.
    pub moved: u64,
    /// Steps that waited.
    pub waits: u64,
    /// Steps that marked, inserted, handed out or answered EMPTY.
    pub answered: u64,
    /// Calls that were refused.
    pub refused: u64,
}

impl Shares {
    /// Of the single steps of a workload.
    pub fn of_steps(workload: &Workload) -> Shares {
        let mut shares = Shares::default();
        for case in &workload.cases {
            let calls = case.who.iter().map(|&p| Call::Step {
                processor: u64::from(p),
            });
            shares.add(case.queue.clone(), calls);
        }
        shares
    }

    /// Of the calls for lists of a workload.
    pub fn of_calls(workload: &Workload) -> Shares {
        let mut shares = Shares::default();
        for case in &workload.cases {
            let calls = case.calls.chunks_exact(NUMBERS);
            let calls = calls.map(|call| call_of(call.try_into().expect("five numbers")));
            shares.add(case.queue.clone(), calls);
        }
        shares
    }

    fn add(&mut self, mut queue: Queue, calls: impl Iterator<Item = Call>) {
        for call in calls {
            self.calls += 1;
            let [code, ..] = numbers_of(&queue.call_inner(&call));
            *match code {
                0 => &mut self.begun,
                1 => &mut self.moved,
                2 => &mut self.waits,
                3..=6 => &mut self.answered,
                _ => &mut self.refused,
            } += 1;
        }
    }
}
