//! Nanoseconds a call of the library and of the reference, in one run.
//!
//! First every way is compared with the reference on every record: the same
//! images and the same answers, or nothing is measured. Then each is timed. A
//! row is the name of what is measured, P and N of its queues (L is 8), how
//! many calls are handed over with one test (0 where the test is not counted),
//! nanoseconds a call of the reference and of the library, and their ratio.
//! Other lines start with `#`.

use darthog_benchmark::library;
use darthog_benchmark::ways::{cost, BareSteps, Cost, Lists, Order, Single, Way};
use darthog_benchmark::workload::{Shares, Workload};
use darthog_reference::answer::Answer;
use darthog_reference::calls::Outcome;
use darthog_reference::markers::{Listing, PAIR};
use darthog_reference::queue::{Queue, MAX_NODES};
use std::hint::black_box;
use std::process::ExitCode;

/// How many calls a list has.
const LISTS: [usize; 4] = [1, 10, 100, 1000];
/// N of the queues that tell how a call's cost grows.
const ENTRIES: [u64; 5] = [10, 25, 50, 100, 200];
/// The list that tells it.
const USUAL_LIST: usize = 100;

fn main() -> ExitCode {
    match measure_all() {
        Ok(()) => ExitCode::SUCCESS,
        Err(words) => {
            eprintln!("{words}");
            ExitCode::FAILURE
        }
    }
}

fn measure_all() -> Result<(), String> {
    println!(
        "{:<16}{:>4}{:>5}{:>7}{:>11}{:>9}{:>8}",
        "# what", "P", "N", "list", "reference", "library", "ratio"
    );
    for processors in [16, 2] {
        for entries in ENTRIES {
            let workload = Workload::filled(processors, entries);
            if (processors, entries) == (16, 200) {
                all_ways(&workload)?;
            } else {
                growing_ways(&workload)?;
            }
        }
    }
    all_ways(&Workload::small())
}

/// What grows with N: a step alone, and a list.
fn growing_ways(workload: &Workload) -> Result<(), String> {
    row("step", workload, 1, &step())?;
    row("calls", workload, USUAL_LIST, &lists(USUAL_LIST))
}

fn all_ways(workload: &Workload) -> Result<(), String> {
    tell_shares("steps", workload, &Shares::of_steps(workload));
    tell_shares("calls", workload, &Shares::of_calls(workload));
    refuses_damaged(workload)?;
    row("bare-step", workload, 0, &BareSteps)?;
    row_again("bare-step-again", workload, 0, &BareSteps)?;
    for at_once in LISTS {
        row("calls", workload, at_once, &lists(at_once))?;
    }
    row_again("calls-again", workload, USUAL_LIST, &lists(USUAL_LIST))?;
    row("step", workload, 1, &step())?;
    row("insert", &workload.idle(), 1, &insert())?;
    row("backlog", workload, 1, &backlog())?;
    row("markers", workload, 1, &markers())?;
    row("refused", workload, 1, &refused())
}

fn lists(at_once: usize) -> Lists {
    Lists { at_once }
}

fn step() -> impl Way {
    Single {
        library: library::step,
        reference: |queue: &mut Queue, p| stepped(queue.step(u64::from(p))),
    }
}

/// A step of a processor that no queue has: refused with 32, after the test.
fn refused() -> impl Way {
    Single {
        library: |image: &mut [u8], _| library::step(image, u32::MAX),
        reference: |queue: &mut Queue, _| stepped(queue.step(u64::from(u32::MAX))),
    }
}

fn insert() -> impl Way {
    const DUE: u32 = 500_000;
    const ITEM: u32 = 7;
    const HEIGHT: u32 = 4;
    Single {
        library: |image: &mut [u8], p| library::begin_insert(image, p, DUE, ITEM, HEIGHT),
        reference: |queue: &mut Queue, p: u32| {
            queue
                .begin_insert(p.into(), DUE.into(), ITEM.into(), HEIGHT.into())
                .map_or_else(Outcome::Refused, Outcome::Began)
        },
    }
}

fn backlog() -> impl Way {
    Single {
        library: |image: &mut [u8], _| library::backlog(image),
        reference: |queue: &mut Queue, _| {
            queue
                .backlog()
                .map_or_else(Outcome::Refused, Outcome::Count)
        },
    }
}

/// Both with an area that is enough for every queue.
fn markers() -> impl Way {
    const ROOM: usize = PAIR * MAX_NODES;
    Single {
        library: |image: &mut [u8], _| {
            let mut area = [0; ROOM];
            let reply = library::markers(image, black_box(&mut area));
            black_box(&area);
            reply
        },
        reference: |queue: &mut Queue, _| {
            let mut area = [0; ROOM];
            let nodes = queue.markers(black_box(&mut area));
            black_box(&area);
            // the area is not told on: that would allocate
            let listed = |nodes| {
                Outcome::Listed(Listing {
                    nodes,
                    area: Vec::new(),
                })
            };
            nodes.map_or_else(Outcome::Refused, listed)
        },
    }
}

fn stepped(answer: Result<Answer, u32>) -> Outcome {
    answer.map_or_else(Outcome::Refused, Outcome::Stepped)
}

/// The row of a way whose cases are run in turn.
fn row(name: &str, workload: &Workload, list: usize, way: &impl Way) -> Result<(), String> {
    print_row(name, workload, list, way, Order::InTurn)
}

/// The row of a way whose cases are run many times in a row each.
fn row_again(name: &str, workload: &Workload, list: usize, way: &impl Way) -> Result<(), String> {
    print_row(name, workload, list, way, Order::Again)
}

/// Compares a way with the reference on every case, times it and prints its
/// row.
fn print_row(
    name: &str,
    workload: &Workload,
    list: usize,
    way: &impl Way,
    order: Order,
) -> Result<(), String> {
    let (p, n) = (workload.processors, workload.entries);
    if let Some(number) = workload.cases.iter().position(|case| !way.agrees(case)) {
        return Err(format!(
            "{name}, P {p}, N {n}, list {list}: another answer or image in case {number}"
        ));
    }
    let Cost { reference, library } = cost(workload, way, order);
    let ratio = library / reference;
    println!("{name:<16}{p:>4}{n:>5}{list:>7}{reference:>11.2}{library:>9.2}{ratio:>8.3}");
    Ok(())
}

/// Both lists refuse bytes that are no image with 21, and change nothing.
fn refuses_damaged(workload: &Workload) -> Result<(), String> {
    for case in &workload.cases {
        let mut damaged = case.image.clone();
        damaged[0] = 17;
        let (mut image, mut answers) = (damaged.clone(), case.room());
        let codes = [
            library::bare_steps(&mut image, &case.who),
            library::calls(&mut image, &case.calls, &mut answers),
        ];
        if codes != [21, 21] || image != damaged || answers != case.room() {
            return Err("damaged bytes are not refused as they should be".to_string());
        }
    }
    Ok(())
}

fn tell_shares(name: &str, workload: &Workload, shares: &Shares) {
    let percent = |count: u64| 100.0 * count as f64 / shares.calls as f64;
    println!(
        "# P {}, N {}: {} records, {} {name}: {:.1} % begun, {:.1} % moved, {:.1} % waits, \
         {:.1} % answered, {:.1} % refused",
        workload.processors,
        workload.entries,
        workload.cases.len(),
        shares.calls,
        percent(shares.begun),
        percent(shares.moved),
        percent(shares.waits),
        percent(shares.answered),
        percent(shares.refused)
    );
}
