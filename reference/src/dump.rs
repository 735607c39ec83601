//! Calls, answers and records in words that a script can read.

use crate::answer::{Answer, Entry};
use crate::calls::{Call, Outcome};
use crate::markers::Listing;
use crate::queue::{Job, Operation, Place, Processor, Queue, Stage, Use, Wanted};

/// A call: its name and numbers.
pub fn call_words(call: &Call) -> String {
    match *call {
        Call::Insert {
            processor,
            due,
            item,
            height,
        } => format!("insert {processor} {due} {item} {height}"),
        Call::DeleteMin { processor } => format!("delete {processor}"),
        Call::Relaxed { processor } => format!("relaxed {processor}"),
        Call::Remove {
            processor,
            due,
            ticket,
        } => format!("remove {processor} {due} {ticket}"),
        Call::Step { processor } => format!("step {processor}"),
        Call::Backlog => "backlog".to_string(),
        Call::Markers { room } => format!("markers {room}"),
    }
}

/// What a call gave back: a word and numbers (an entry as due, item, ticket).
pub fn outcome_words(outcome: &Outcome) -> String {
    match outcome {
        Outcome::Began(time) => format!("began {time}"),
        Outcome::Count(count) => format!("{count}"),
        Outcome::Listed(listing) => listing_words(listing),
        Outcome::Refused(number) => format!("refused {number}"),
        Outcome::Stepped(answer) => answer_words(answer),
    }
}

/// How many nodes, then each with its marker.
fn listing_words(listing: &Listing) -> String {
    let mut words = format!("{} nodes", listing.nodes);
    for (node, marker) in listing.pairs() {
        words += &format!(" {node}:{marker}");
    }
    words
}

fn answer_words(answer: &Answer) -> String {
    match answer {
        Answer::Moved => "moved".to_string(),
        Answer::Waits { holder } => format!("waits {holder}"),
        Answer::Empty => "empty".to_string(),
        Answer::Marked(entry) => format!("marked {}", entry_words(entry)),
        Answer::Inserted(entry) => format!("inserted {}", entry_words(entry)),
        Answer::HandedOut(entry) => format!("handed {}", entry_words(entry)),
        Answer::TakenBack(entry) => format!("takenback {}", entry_words(entry)),
        Answer::NotThere { due, ticket } => format!("notthere {due} {ticket}"),
    }
}

fn entry_words(entry: &Entry) -> String {
    format!("{} {} {}", entry.due, entry.item, entry.ticket)
}

/// The record, one line for the sizes and one for each node and processor.
/// Slots past P and N+1 are left out; all eight levels are told.
pub fn record_words(queue: &Queue) -> String {
    let mut text = format!(
        "queue {} {} {} clock {}\n",
        queue.processor_count, queue.node_count, queue.level_count, queue.clock
    );
    for (number, node) in queue.nodes[..=queue.tail() as usize].iter().enumerate() {
        let usage = match node.state {
            Use::Never => "never".to_string(),
            Use::InUse => "inuse".to_string(),
            Use::Retired(time) => format!("retired:{time}"),
        };
        let stamp = node.stamp.map_or("none".to_string(), |t| t.to_string());
        text += &format!(
            "node {number} {usage} mark {} stamp {stamp} nodelock {} due {} item {} ticket {} \
             height {} forward {} locks {}\n",
            node.mark,
            node.node_lock,
            node.due,
            node.item,
            node.ticket,
            node.height,
            numbers(&node.forward),
            numbers(&node.level_locks),
        );
    }
    let count = queue.processor_count as usize;
    for (number, processor) in queue.processors[..count].iter().enumerate() {
        text += &format!("processor {number} {}\n", processor_words(processor));
    }
    text
}

fn processor_words(processor: &Processor) -> String {
    format!(
        "begin {} own {} stage {} saved {}",
        processor.begin,
        processor.own,
        stage_words(&processor.stage),
        numbers(&processor.saved),
    )
}

/// A stage: document 01's letters, `r` in front of them for a Relaxed walk, `x`
/// for a Remove up to its mark, then `insert`, `delete` or `remove` where a
/// Search or Lock-seek needs it (and `remove` at L1 to L8 of a Remove), then node
/// and level, then the b of G4, or the due minute and ticket that a Remove looks
/// for.
pub fn stage_words(stage: &Stage) -> String {
    match *stage {
        Stage::Idle => "idle".to_string(),
        Stage::Search(op, a) => format!("search {} {}", operation(op), place(a)),
        Stage::G1Read(op, a) => format!("g1 {} {}", operation(op), place(a)),
        Stage::G2Lock(op, a) => format!("g2 {} {}", operation(op), place(a)),
        Stage::G3Reread(op, a) => format!("g3 {} {}", operation(op), place(a)),
        Stage::G4Unlock(op, a, b) => format!("g4 {} {} {b}", operation(op), place(a)),
        Stage::I1PointOwn(a) => format!("i1 {}", place(a)),
        Stage::I2Link(a) => format!("i2 {}", place(a)),
        Stage::I3Unlock(a) => format!("i3 {}", place(a)),
        Stage::I4UnlockNode => "i4".to_string(),
        Stage::I5Stamp => "i5".to_string(),
        Stage::W1Read(a) => format!("w1 {}", place(a)),
        Stage::W2Compare(a) => format!("w2 {}", place(a)),
        Stage::W3Mark(a) => format!("w3 {}", place(a)),
        Stage::RW1Read(a) => format!("rw1 {}", place(a)),
        Stage::RW3Mark(a) => format!("rw3 {}", place(a)),
        Stage::XSearch(wanted, a) => format!("xs {} {}", place(a), key(wanted)),
        Stage::X1Read(wanted, a) => format!("x1 {} {}", place(a), key(wanted)),
        Stage::X2Test(wanted, a) => format!("x2 {} {}", place(a), key(wanted)),
        Stage::X3Mark(wanted, a) => format!("x3 {} {}", place(a), key(wanted)),
        Stage::L1LockNode(job) => format!("l1{}", of_job(job)),
        Stage::L2LockOwn(job, a) => format!("l2{} {}", of_job(job), place(a)),
        Stage::L3Unlink(job, a) => format!("l3{} {}", of_job(job), place(a)),
        Stage::L4PointBack(job, a) => format!("l4{} {}", of_job(job), place(a)),
        Stage::L5UnlockOwn(job, a) => format!("l5{} {}", of_job(job), place(a)),
        Stage::L6Unlock(job, a) => format!("l6{} {}", of_job(job), place(a)),
        Stage::L7UnlockNode(job) => format!("l7{}", of_job(job)),
        Stage::L8Retire(job) => format!("l8{}", of_job(job)),
    }
}

fn operation(operation: Operation) -> &'static str {
    match operation {
        Operation::Insert => "insert",
        Operation::Removal(Job::HandOut) => "delete",
        Operation::Removal(Job::TakeBack) => "remove",
    }
}

fn of_job(job: Job) -> &'static str {
    match job {
        Job::HandOut => "",
        Job::TakeBack => " remove",
    }
}

fn key(Wanted { due, ticket }: Wanted) -> String {
    format!("{due} {ticket}")
}

fn place(place: Place) -> String {
    format!("{} {}", place.node, place.level)
}

fn numbers(values: &[u8]) -> String {
    let words: Vec<String> = values.iter().map(|value| value.to_string()).collect();
    words.join(" ")
}
