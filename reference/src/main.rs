//! The program. Without an argument it runs the sheet on standard input; with
//! `trace SEED P N L CALLS` it prints a random schedule, call by call; with
//! `record` and the same numbers it prints the record at the end as well.

use darthog_reference::dump::{call_words, outcome_words, record_words};
use darthog_reference::queue::{fresh, Queue};
use darthog_reference::schedule::{Schedule, Sizes};
use darthog_reference::sheet;
use std::io::{self, BufWriter, Read, Write};
use std::process::ExitCode;

/// How much of the sheet is read, and how much is lent for the history.
const AREA: usize = 64 * 1024;

/// How many different dues a printed schedule has.
const TRACE_DUES: u64 = 3;

fn main() -> ExitCode {
    let arguments: Vec<String> = std::env::args().skip(1).collect();
    let done = match arguments.split_first() {
        None => run_sheet(),
        Some((word, numbers)) => match (word.as_str(), read_numbers(numbers)) {
            ("trace", Some(numbers)) => print_schedule(numbers, false),
            ("record", Some(numbers)) => print_schedule(numbers, true),
            _ => Err(io::Error::other(
                "state: darthog-reference [trace|record SEED P N L CALLS]",
            )),
        },
    };
    match done {
        Ok(()) => ExitCode::SUCCESS,
        Err(error) => {
            eprintln!("{error}");
            ExitCode::FAILURE
        }
    }
}

fn run_sheet() -> io::Result<()> {
    let mut sheet_bytes = Vec::new();
    io::stdin()
        .take(AREA as u64)
        .read_to_end(&mut sheet_bytes)?;
    let mut area = vec![0; AREA];
    let mut out = io::stdout();
    match sheet::run(&sheet_bytes, &mut area) {
        Ok(length) => out.write_all(&area[..length]),
        Err(refusal) => writeln!(out, "{} {}", refusal.number, refusal.line),
    }
}

fn read_numbers(words: &[String]) -> Option<[u64; 5]> {
    let numbers: Option<Vec<u64>> = words.iter().map(|word| word.parse().ok()).collect();
    numbers?.try_into().ok()
}

fn print_schedule(numbers: [u64; 5], with_record: bool) -> io::Result<()> {
    let [seed, processors, nodes, levels, calls] = numbers;
    let sizes = Sizes {
        processors,
        nodes,
        levels,
    };
    let mut out = BufWriter::new(io::stdout());
    let mut queue: Queue = match fresh(processors, nodes, levels) {
        Ok(queue) => queue,
        Err(number) => return writeln!(out, "refused {number}"),
    };
    let mut schedule = Schedule::new(seed, sizes).with_dues(TRACE_DUES);
    for _ in 0..calls {
        let call = schedule.next_call();
        let outcome = queue.call_inner(&call);
        schedule.note(&call, &outcome);
        writeln!(out, "{} -> {}", call_words(&call), outcome_words(&outcome))?;
    }
    if with_record {
        write!(out, "{}", record_words(&queue))?;
    }
    out.flush()
}
