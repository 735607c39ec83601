//! Any record that passes check 21, be it one that no run leads to: every step
//! does what is defined, and leaves such a record.

use darthog_reference::answer::{Answer, Entry};
use darthog_reference::any_record::{any_record, slots_past};
use darthog_reference::calls::{Call, Outcome};
use darthog_reference::markers::{Listing, NOBODY, PAIR};
use darthog_reference::queue::{Queue, Stage, Use, MAX_NUMBER, UNMARKED};
use darthog_reference::random::Random;
use darthog_reference::waits::{asked, Watch, ASKERS};
use std::collections::HashMap;
use std::mem::{discriminant, Discriminant};

const RECORDS: u64 = 100_000;
const CALLS_EACH: u64 = 8;

/// A room for markers: just enough, a byte less or more, none, or plenty.
fn any_room(random: &mut Random, queue: &Queue) -> usize {
    let enough = PAIR * queue.in_use() as usize;
    random.among(&[enough, enough.saturating_sub(1), enough + 1, 0, 500])
}

fn any_call(random: &mut Random, queue: &Queue) -> Call {
    let processor = random.below(u64::from(queue.processor_count) + 1);
    match random.below(15) {
        0 => Call::Backlog,
        9 => Call::Relaxed { processor },
        14 => Call::Remove {
            processor,
            due: random.among(&[0, 1, 999_999, 1_000_000]),
            ticket: random.among(&[0, 1, 2, 999_999, 1_000_000]),
        },
        8 => Call::Markers {
            room: any_room(random, queue),
        },
        1 => Call::DeleteMin { processor },
        2 | 3 => Call::Insert {
            processor,
            due: random.among(&[0, 1, 999_999, 1_000_000]),
            item: random.among(&[0, 1, 999_999, 1_000_000]),
            height: random.below(u64::from(queue.level_count) + 2),
        },
        _ => Call::Step { processor },
    }
}

/// The numbers of the nodes and of the processors that differ.
fn differing(before: &Queue, after: &Queue) -> (Vec<usize>, Vec<usize>) {
    let nodes = (0..before.nodes.len())
        .filter(|&n| before.nodes[n] != after.nodes[n])
        .collect();
    let processors = (0..before.processors.len())
        .filter(|&p| before.processors[p] != after.processors[p])
        .collect();
    (nodes, processors)
}

/// The form without check 21 does the same.
fn check_inner(before: &Queue, call: &Call, outcome: &Outcome, after: &Queue) {
    let mut inner = before.clone();
    assert_eq!(inner.call_inner(call), *outcome);
    assert!(inner == *after, "the inner form does something else");
}

fn check_call(before: &Queue, call: &Call, outcome: &Outcome, after: &Queue) {
    assert!(after.sound(), "{call:?} {outcome:?}");
    let processor = match (*call, outcome) {
        (_, Outcome::Refused(number)) => {
            assert_ne!(*number, 21);
            assert!(
                before == after,
                "{call:?} was refused and changed something"
            );
            return;
        }
        (Call::Backlog | Call::Markers { .. }, _) => {
            assert!(before == after, "{call:?} changed something");
            return;
        }
        (Call::Insert { processor, .. } | Call::Remove { processor, .. }, _) => processor,
        (Call::DeleteMin { processor } | Call::Relaxed { processor }, _) => processor,
        (Call::Step { processor }, _) => processor,
    };
    assert_eq!(after.clock, before.clock + 1);
    assert_eq!(after.processor_count, before.processor_count);
    assert_eq!(after.node_count, before.node_count);
    assert_eq!(after.level_count, before.level_count);
    let (nodes, processors) = differing(before, after);
    assert!(nodes.len() <= 1, "{call:?} changed nodes {nodes:?}");
    assert!(
        processors.iter().all(|&p| p as u64 == processor),
        "{call:?} changed processors {processors:?}"
    );
    assert!(slots_past(before) == slots_past(after), "{call:?}");
    check_marks(before, call, outcome, after);
}

/// A mark that is set stays, but where an Insert takes the node, which is then
/// unmarked; a mark that is not set is set by a step that reports it, and is
/// that of its processor.
fn check_marks(before: &Queue, call: &Call, outcome: &Outcome, after: &Queue) {
    for (number, (old, new)) in before.nodes.iter().zip(&after.nodes).enumerate() {
        let expected = match (*call, outcome) {
            (Call::Insert { processor, .. }, _)
                if usize::from(after.processors[processor as usize].own) == number =>
            {
                UNMARKED
            }
            (Call::Step { processor }, Outcome::Stepped(Answer::Marked(_)))
                if usize::from(after.processors[processor as usize].own) == number =>
            {
                assert_eq!(old.mark, UNMARKED, "{call:?}: node {number} was marked");
                processor as u8 + 1
            }
            _ => old.mark,
        };
        assert_eq!(new.mark, expected, "{call:?}: the mark of node {number}");
    }
}

/// A number for each begin, from 0 to 3.
fn begin_kind(begin: &Call) -> usize {
    match begin {
        Call::Insert { .. } => 0,
        Call::DeleteMin { .. } => 1,
        Call::Relaxed { .. } => 2,
        _ => 3,
    }
}

#[test]
fn every_call_keeps_check_21_on_any_record() {
    let mut random = Random::new(5);
    let mut steps: HashMap<Discriminant<Stage>, u64> = HashMap::new();
    let (mut taken, mut waits) = ([0u64; 5], Waits::default());
    let mut refusals: HashMap<u32, u64> = HashMap::new();
    for _ in 0..RECORDS {
        let mut queue = any_record(&mut random);
        assert!(queue.sound());
        for _ in 0..CALLS_EACH {
            let call = any_call(&mut random, &queue);
            let before = queue.clone();
            let outcome = queue.call(&call);
            check_inner(&before, &call, &outcome, &queue);
            check_call(&before, &call, &outcome, &queue);
            match (call, outcome) {
                (Call::Step { processor }, Outcome::Stepped(answer)) => {
                    let stage = before.processors[processor as usize].stage;
                    *steps.entry(discriminant(&stage)).or_default() += 1;
                    waits.check(&before, processor as usize, answer, &queue);
                }
                (begin, Outcome::Began(_)) => taken[begin_kind(&begin)] += 1,
                (Call::Markers { .. }, Outcome::Listed(listing)) => {
                    check_listing(&before, &listing);
                    taken[4] += 1;
                }
                (_, Outcome::Refused(number)) => *refusals.entry(number).or_default() += 1,
                _ => {}
            }
        }
    }
    assert_eq!(steps.len(), 27, "some stage never stepped");
    assert!(steps.values().all(|&count| count > 1000), "{steps:?}");
    assert!(taken.iter().all(|&count| count > 1000), "{taken:?}");
    for number in [31, 32, 33, 34, 35, 36, 37, 38, 39, 43] {
        assert!(refusals[&number] > 1000, "{refusals:?}");
    }
    waits.must_be_many();
}

/// How often a step took a lock or waited, by the step.
#[derive(Default)]
struct Waits {
    taken: [u64; ASKERS],
    waited: [u64; ASKERS],
    /// By whom was waited for: the caller, an idle processor, another.
    holders: [u64; 3],
}

impl Waits {
    /// The step takes a free lock; at a held one it waits and names the holder,
    /// who may be anybody here.
    fn check(&mut self, before: &Queue, p: usize, answer: Answer, after: &Queue) {
        let judged = Watch::new(before, p).judge(answer, after);
        assert_eq!(judged, Ok(()), "{:?} {answer:?}", before.processors[p]);
        let Some((asker, _)) = asked(&before.processors[p]) else {
            return;
        };
        let Answer::Waits { holder } = answer else {
            self.taken[asker as usize] += 1;
            return;
        };
        self.waited[asker as usize] += 1;
        let idle = before.processors[usize::from(holder)].stage == Stage::Idle;
        let kind = match (usize::from(holder) == p, idle) {
            (true, _) => 0,
            (false, true) => 1,
            (false, false) => 2,
        };
        self.holders[kind] += 1;
    }

    fn must_be_many(&self) {
        let (taken, waited, holders) = (self.taken, self.waited, self.holders);
        println!("{taken:?} locks taken, {waited:?} waited for, {holders:?} by holder");
        let counts = [&taken[..], &waited, &holders].concat();
        assert!(counts.iter().all(|&count| count > 1000), "{counts:?}");
    }
}

/// Node by node: a node in use has its pair, another has none.
fn check_listing(queue: &Queue, listing: &Listing) {
    let mut pairs = listing.pairs();
    for number in 1..=queue.node_count {
        let node = &queue.nodes[usize::from(number)];
        if node.state == Use::InUse {
            let marker = if node.mark == 0 { 255 } else { node.mark - 1 };
            assert_eq!(pairs.next(), Some((number, marker)), "node {number}");
        }
    }
    assert_eq!(pairs.next(), None, "one node too many");
    assert!(listing.leaves_the_rest(), "written past the nodes");
}

/// The walk, ordinary or Relaxed, and X1 of a Remove read level 1 whatever level
/// their place holds.
#[test]
fn the_walk_reads_level_1_whatever_its_place_says() {
    let mut random = Random::new(6);
    let mut seen = [0, 0, 0];
    while seen.iter().any(|&count| count < 2000) {
        let queue = any_record(&mut random);
        if queue.clock == MAX_NUMBER {
            continue;
        }
        let mut first = queue.clone();
        let mut second = queue.clone();
        match &mut second.processors[0].stage {
            Stage::W1Read(place) => {
                place.level = 1;
                seen[0] += 1;
            }
            Stage::RW1Read(place) => {
                place.level = 1;
                seen[1] += 1;
            }
            Stage::X1Read(_, place) => {
                place.level = 1;
                seen[2] += 1;
            }
            _ => continue,
        }
        assert_eq!(first.step(0), second.step(0));
        assert!(first == second);
    }
}

/// A Relaxed walk with the stages of an ordinary one in place of its own.
fn ordinary(queue: &Queue) -> Queue {
    let mut other = queue.clone();
    let stage = &mut other.processors[0].stage;
    *stage = match *stage {
        Stage::RW1Read(a) => Stage::W1Read(a),
        Stage::RW3Mark(a) => Stage::W3Mark(a),
        unchanged => unchanged,
    };
    other
}

/// A Relaxed walk does what an ordinary one does in its place, but where it reads
/// a node that is not the tail: there it stands at that node's W3, or at W1 of
/// the head, and the ordinary one at its W2.
#[test]
fn a_relaxed_walk_goes_as_an_ordinary_one_but_for_w2() {
    let mut random = Random::new(10);
    let (mut same, mut at_w3, mut at_head) = (0, 0, 0);
    for _ in 0..RECORDS {
        let mut relaxed = any_record(&mut random);
        let walks = matches!(
            relaxed.processors[0].stage,
            Stage::RW1Read(_) | Stage::RW3Mark(_)
        );
        if !walks {
            continue;
        }
        let mut other = ordinary(&relaxed);
        assert_eq!(relaxed.step(0), other.step(0));
        if let Stage::W2Compare(b) = other.processors[0].stage {
            let head = b.node == 0;
            other.processors[0].stage = if head {
                Stage::W1Read(b)
            } else {
                Stage::W3Mark(b)
            };
            (at_w3, at_head) = (at_w3 + u64::from(!head), at_head + u64::from(head));
        } else {
            same += 1;
        }
        assert!(ordinary(&relaxed) == other);
    }
    println!("{same} as the ordinary one, {at_w3} at W3, {at_head} at the head");
    assert!(same > 1000 && at_w3 > 1000 && at_head > 300);
}

/// The same record with another item in place of each.
fn renamed(queue: &Queue, name: impl Fn(u32) -> u32) -> Queue {
    let mut other = queue.clone();
    for node in &mut other.nodes {
        node.item = name(node.item);
    }
    other
}

/// The same outcome with another item in place of each.
fn renamed_outcome(outcome: &Outcome, name: impl Fn(u32) -> u32) -> Outcome {
    let other = |entry: Entry| Entry {
        item: name(entry.item),
        ..entry
    };
    match *outcome {
        Outcome::Stepped(Answer::Marked(entry)) => Outcome::Stepped(Answer::Marked(other(entry))),
        Outcome::Stepped(Answer::Inserted(entry)) => {
            Outcome::Stepped(Answer::Inserted(other(entry)))
        }
        Outcome::Stepped(Answer::HandedOut(entry)) => {
            Outcome::Stepped(Answer::HandedOut(other(entry)))
        }
        Outcome::Stepped(Answer::TakenBack(entry)) => {
            Outcome::Stepped(Answer::TakenBack(other(entry)))
        }
        _ => outcome.clone(),
    }
}

/// Small items all become 0: every call but an Insert leaves and gives what it
/// did before, with 0 for each of them.
#[test]
fn no_rule_looks_at_the_item_of_an_entry() {
    let mut random = Random::new(6);
    let name = |item: u32| if item < 1000 { 0 } else { item };
    let mut told = 0;
    for _ in 0..RECORDS {
        let mut queue = any_record(&mut random);
        for node in &mut queue.nodes {
            node.item = random.among(&[0, 1, 999, 1000, node.item]);
        }
        let mut other = renamed(&queue, name);
        assert_eq!(queue.sound(), other.sound());
        for _ in 0..CALLS_EACH {
            let call = any_call(&mut random, &queue);
            if matches!(call, Call::Insert { .. }) {
                continue;
            }
            let outcome = queue.call(&call);
            let expected = renamed_outcome(&outcome, name);
            assert_eq!(other.call(&call), expected, "{call:?}");
            assert!(other == renamed(&queue, name), "{call:?} {outcome:?}");
            told += u64::from(outcome != expected);
        }
    }
    println!("{told} answers had another item");
    assert!(told > 1000, "only {told} answers had another item");
}

/// The same record with each set mark as that of another processor.
fn marked_by_others(queue: &Queue, random: &mut Random) -> Queue {
    let mut other = queue.clone();
    let last = usize::from(queue.tail());
    for node in &mut other.nodes[..=last] {
        if node.is_marked() {
            node.mark = random.between(1, u64::from(queue.processor_count)) as u8;
        }
    }
    other
}

/// The same record with each set mark as that of processor 0.
fn anonymous(queue: &Queue) -> Queue {
    let mut other = queue.clone();
    for node in &mut other.nodes {
        node.mark = node.mark.min(1);
    }
    other
}

/// The same outcome with each marker as processor 0.
fn anonymous_outcome(outcome: &Outcome) -> Outcome {
    let mut other = outcome.clone();
    if let Outcome::Listed(listing) = &mut other {
        let told = PAIR * listing.nodes as usize;
        for pair in listing.area[..told].chunks_exact_mut(PAIR) {
            if pair[1] != NOBODY {
                pair[1] = 0;
            }
        }
    }
    other
}

/// Whoever set the marks: every call gives and leaves the same, but for the
/// markers themselves.
#[test]
fn no_rule_looks_at_who_set_a_mark() {
    let mut random = Random::new(7);
    let (mut told, mut differ) = (0, 0);
    for _ in 0..RECORDS {
        let mut queue = any_record(&mut random);
        let mut other = marked_by_others(&queue, &mut random);
        assert!(other.sound());
        for _ in 0..CALLS_EACH {
            let call = any_call(&mut random, &queue);
            let (outcome, others) = (queue.call(&call), other.call(&call));
            let same = anonymous_outcome(&outcome) == anonymous_outcome(&others);
            assert!(same, "{call:?} gave {outcome:?} and {others:?}");
            assert!(anonymous(&queue) == anonymous(&other), "{call:?}");
            told += u64::from(outcome != others);
            differ += u64::from(queue != other);
        }
    }
    println!("{differ} calls on other marks, {told} told other markers");
    assert!(told > 1000 && differ > 100_000, "{told} {differ}");
}

/// The locks of the record's nodes, as far as check 21 looks at them.
fn locks(queue: &mut Queue) -> impl Iterator<Item = &mut u8> {
    let (last, levels) = (usize::from(queue.tail()), usize::from(queue.level_count));
    queue.nodes[..=last].iter_mut().flat_map(move |node| {
        let of_levels = node.level_locks[..levels].iter_mut();
        of_levels.chain([&mut node.node_lock])
    })
}

/// The same record with each lock held by the processor that stands for its
/// holder.
fn held_by(queue: &Queue, standing: &[u8]) -> Queue {
    let mut other = queue.clone();
    for lock in locks(&mut other).filter(|lock| **lock != 0) {
        *lock = standing[usize::from(*lock) - 1] + 1;
    }
    other
}

/// The same record with each held lock as that of processor 0.
fn held_by_nobody_in_particular(queue: &Queue) -> Queue {
    held_by(queue, &[0; 16])
}

/// Whoever holds the locks: every call gives and leaves the same, but that a
/// wait names who stands for the holder.
#[test]
fn no_rule_looks_at_who_holds_a_lock() {
    let mut random = Random::new(8);
    let (mut waits, mut differ) = (0, 0);
    for _ in 0..RECORDS {
        let queue = any_record(&mut random);
        let last = u64::from(queue.processor_count) - 1;
        let standing: Vec<u8> = (0..=last).map(|_| random.between(0, last) as u8).collect();
        let call = any_call(&mut random, &queue);
        let (mut one, mut two) = (queue.clone(), held_by(&queue, &standing));
        let (outcome, got) = (one.call(&call), two.call(&call));
        let expected = match outcome {
            Outcome::Stepped(Answer::Waits { holder }) => {
                let holder = standing[usize::from(holder)];
                Outcome::Stepped(Answer::Waits { holder })
            }
            _ => outcome.clone(),
        };
        assert_eq!(got, expected, "{call:?}");
        let [one, two] = [one, two].map(|left| held_by_nobody_in_particular(&left));
        assert!(one == two, "{call:?} {outcome:?}");
        waits += u64::from(matches!(outcome, Outcome::Stepped(Answer::Waits { .. })));
        differ += u64::from(outcome != expected);
    }
    println!("{waits} waits, {differ} for another");
    assert!(waits > 500 && differ > 200, "{waits} {differ}");
}
