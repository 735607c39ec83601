//! Lists of calls and answers as plain numbers, five for each, as a host hands
//! them to the library: of a call its kind, processor, due, item and height, or
//! a ticket in the item's place; of an answer its code, three values and the
//! clock after the call.

use crate::answer::{Answer, Entry};
use crate::calls::{Call, Outcome};
use crate::queue::{Queue, Refusal};

/// How many numbers a call has, and an answer.
pub const NUMBERS: usize = 5;

/// The call of these numbers: kind 1 begins an Insert, kind 2 a Delete_Min,
/// kind 4 a Relaxed one (document 02, W3), kind 5 a Remove, whose ticket stands
/// where an Insert has its item (W5); any other is a step.
pub fn call_of(numbers: [u32; NUMBERS]) -> Call {
    let [kind, processor, due, item, height] = numbers.map(u64::from);
    match kind {
        1 => Call::Insert {
            processor,
            due,
            item,
            height,
        },
        2 => Call::DeleteMin { processor },
        4 => Call::Relaxed { processor },
        5 => Call::Remove {
            processor,
            due,
            ticket: item,
        },
        _ => Call::Step { processor },
    }
}

/// An outcome's code and its values; 0 for a value that it has not.
pub fn numbers_of(outcome: &Outcome) -> [u32; 4] {
    match *outcome {
        Outcome::Began(value) | Outcome::Count(value) => valued(Ok(value)),
        Outcome::Listed(ref listing) => valued(Ok(listing.nodes)),
        Outcome::Stepped(answer) => stepped(Ok(answer)),
        Outcome::Refused(number) => refused(number),
    }
}

fn refused(number: Refusal) -> [u32; 4] {
    [number, 0, 0, 0]
}

fn valued(value: Result<u32, Refusal>) -> [u32; 4] {
    value.map_or_else(refused, |value| [0, value, 0, 0])
}

fn stepped(answer: Result<Answer, Refusal>) -> [u32; 4] {
    let of = |code: u32, entry: Entry| [code, entry.due, entry.item, entry.ticket];
    match answer {
        Err(number) => refused(number),
        Ok(Answer::Moved) => [1, 0, 0, 0],
        Ok(Answer::Waits { holder }) => [2, u32::from(holder), 0, 0],
        Ok(Answer::Empty) => [3, 0, 0, 0],
        Ok(Answer::Marked(entry)) => of(4, entry),
        Ok(Answer::Inserted(entry)) => of(5, entry),
        Ok(Answer::HandedOut(entry)) => of(6, entry),
        Ok(Answer::TakenBack(entry)) => of(7, entry),
        Ok(Answer::NotThere { due, ticket }) => [8, due, ticket, 0],
    }
}

/// Makes the calls of a list, one at a time, as many as both lists have five
/// numbers for, and writes their answers. Refused with 21 before the first;
/// then no answer is written.
pub fn run(queue: &mut Queue, calls: &[u32], answers: &mut [u32]) -> Result<(), Refusal> {
    queue.backlog()?;
    make_each(queue, calls, answers, |queue, asked| {
        numbers_of(&queue.call(&call_of(asked)))
    });
    Ok(())
}

/// As `run`, without check 21, and without outcomes in between.
pub fn run_inner(queue: &mut Queue, calls: &[u32], answers: &mut [u32]) {
    make_each(queue, calls, answers, |queue, asked| {
        let [kind, processor, due, item, height] = asked.map(u64::from);
        match kind {
            1 => valued(queue.begin_insert_inner(processor, due, item, height)),
            2 => valued(queue.begin_delete_min_inner(processor)),
            4 => valued(queue.begin_relaxed_inner(processor)),
            5 => valued(queue.begin_remove_inner(processor, due, item)),
            _ => stepped(queue.step_inner(processor)),
        }
    });
}

fn make_each(
    queue: &mut Queue,
    calls: &[u32],
    answers: &mut [u32],
    make: impl Fn(&mut Queue, [u32; NUMBERS]) -> [u32; 4],
) {
    let turns = calls.chunks_exact(NUMBERS);
    for (asked, told) in turns.zip(answers.chunks_exact_mut(NUMBERS)) {
        let asked = asked.try_into().expect("five numbers");
        told[..4].copy_from_slice(&make(queue, asked));
        told[4] = queue.clock;
    }
}
