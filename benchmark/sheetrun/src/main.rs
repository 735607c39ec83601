//! Microseconds a sheet of the proved run and of the reference's, in one run.
//!
//! A round runs every way once on every sheet, so that what slows the machine
//! slows them alike; of the rounds the quickest and the middle one are
//! printed, each with its ratio to the reference's.
//!
//! With two arguments (a workload's name; `proved`, `reference`, `form` or
//! `again`) it only runs those sheets once, for a counter of instructions.
//! `form` is the proved run of the sheets with their last lines out of form,
//! which checks the form and no more; `again` that of longer sheets, whose last
//! lines are read again. `form-fields` and `again-fields` print how many fields
//! these read.

use darthog_sheetrun::runs::{counted_reference, proved, reference, Run, SheetReply};
use darthog_sheetrun::workload::{Case, Workload};
use std::hint::black_box;
use std::process::ExitCode;
use std::time::Instant;

const ROUNDS: usize = 61;

/// How long a way runs in a round, in seconds: the sheets are repeated until
/// they take about this long.
const ROUND_TIME: f64 = 0.02;

/// What fills an area before a run.
const UNTOUCHED: u8 = 0xa5;

/// One way to run the sheets.
struct Way {
    name: &'static str,
    run: Run,
    cases: Vec<Case>,
}

fn main() -> ExitCode {
    let arguments: Vec<String> = std::env::args().skip(1).collect();
    if let [name, which] = &arguments[..] {
        return once(name, which);
    }
    for workload in Workload::all() {
        if let Err(words) = compare(&workload) {
            eprintln!("{}: {words}", workload.name);
            return ExitCode::FAILURE;
        }
        print_workload(&workload);
    }
    ExitCode::SUCCESS
}

/// Runs the sheets of a workload once, or prints how many fields they have.
fn once(name: &str, which: &str) -> ExitCode {
    let all = Workload::all();
    let Some(workload) = all.iter().find(|workload| workload.name == name) else {
        return ExitCode::FAILURE;
    };
    let (run, cases): (Run, Vec<Case>) = match which {
        "proved" => (proved, same(workload)),
        "form" => (proved, damaged_ends(workload)),
        "reference" => (|sheet, area| counted_reference(sheet, area), same(workload)),
        "again" => (proved, workload.longer().cases),
        "form-fields" => {
            println!("{}", workload.fields());
            return ExitCode::SUCCESS;
        }
        "again-fields" => {
            println!("{}", workload.longer().fields_again());
            return ExitCode::SUCCESS;
        }
        _ => return ExitCode::FAILURE,
    };
    for case in &cases {
        let mut area = vec![UNTOUCHED; case.area];
        black_box(run(black_box(&case.sheet), black_box(&mut area)));
    }
    ExitCode::SUCCESS
}

/// The reply and the area after a run.
fn outcome(run: Run, sheet: &[u8], area: usize) -> (SheetReply, Vec<u8>) {
    let mut bytes = vec![UNTOUCHED; area];
    let reply = run(sheet, &mut bytes);
    (reply, bytes)
}

/// Before anything is measured: both give the same reply and leave the same
/// bytes in the area, for the sheets as they are, for longer ones and for those
/// that are refused.
fn compare(workload: &Workload) -> Result<(), String> {
    let short = short_areas(workload);
    let damaged = damaged_ends(workload);
    let longer = workload.longer().cases;
    for (cases, number) in [
        (&workload.cases, 0),
        (&longer, 0),
        (&short, 43),
        (&damaged, 41),
    ] {
        for (at, case) in cases.iter().enumerate() {
            let (reply, bytes) = outcome(reference, &case.sheet, case.area);
            if reply.number != number {
                return Err(format!("sheet {at}: the reference gives {reply:?}"));
            }
            let found = outcome(proved, &case.sheet, case.area);
            if found.0 != reply {
                return Err(format!("sheet {at}: {:?}, and not {reply:?}", found.0));
            }
            if found.1 != bytes {
                return Err(format!("sheet {at}: another area, of reply {reply:?}"));
            }
        }
    }
    Ok(())
}

/// The same sheets, each with an area that is one byte too short for its
/// history.
fn short_areas(workload: &Workload) -> Vec<Case> {
    let short = |case: &Case| {
        let (reply, _) = outcome(reference, &case.sheet, case.area);
        Case {
            sheet: case.sheet.clone(),
            area: reply.value - 1,
        }
    };
    workload.cases.iter().map(short).collect()
}

/// The same sheets, the end of each last line out of form.
fn damaged_ends(workload: &Workload) -> Vec<Case> {
    let damaged = |case: &Case| {
        let mut sheet = case.sheet.clone();
        *sheet.last_mut().expect("a sheet has lines") = b' ';
        Case {
            sheet,
            area: case.area,
        }
    };
    workload.cases.iter().map(damaged).collect()
}

fn same(workload: &Workload) -> Vec<Case> {
    let copy = |case: &Case| Case {
        sheet: case.sheet.clone(),
        area: case.area,
    };
    workload.cases.iter().map(copy).collect()
}

/// Seconds of all sheets, each run `times` times.
fn seconds(way: &Way, area: &mut [u8], times: u32) -> f64 {
    let start = Instant::now();
    for case in &way.cases {
        for _ in 0..times {
            let lent = &mut area[..case.area];
            black_box((way.run)(black_box(&case.sheet), black_box(lent)));
        }
    }
    start.elapsed().as_secs_f64()
}

fn print_workload(workload: &Workload) {
    println!("{}: {}", workload.name, workload.words);
    println!("{}", workload.describe());
    let steps = workload.steps();
    println!(
        "{} steps that are not refused, {} of them wait",
        steps.accepted, steps.waits
    );
    let ways = [
        Way {
            name: "reference",
            run: reference,
            cases: same(workload),
        },
        Way {
            name: "proved",
            run: proved,
            cases: same(workload),
        },
        Way {
            name: "proved, the area one byte too short (43)",
            run: proved,
            cases: short_areas(workload),
        },
        Way {
            name: "proved, the last line out of form (41)",
            run: proved,
            cases: damaged_ends(workload),
        },
    ];
    let most = workload.cases.iter().map(|case| case.area).max();
    let mut area = vec![UNTOUCHED; most.unwrap_or(0)];
    let mut measured: Vec<(u32, Vec<f64>)> = Vec::new();
    for way in &ways {
        let once = (0..3)
            .map(|_| seconds(way, &mut area, 1))
            .fold(f64::MAX, f64::min);
        measured.push(((ROUND_TIME / once).ceil() as u32, Vec::new()));
    }
    for _ in 0..ROUNDS {
        for (way, (times, rounds)) in ways.iter().zip(&mut measured) {
            rounds.push(seconds(way, &mut area, *times));
        }
    }
    let scale = 1e6 / workload.cases.len() as f64;
    let mut figures = Vec::new();
    for (times, rounds) in &mut measured {
        rounds.sort_by(f64::total_cmp);
        let at = |i: usize| rounds[i] * scale / f64::from(*times);
        figures.push((at(0), at(ROUNDS / 2)));
    }
    println!(
        "{:<44}{:>10}{:>8}{:>10}{:>8}",
        "microseconds a sheet", "quickest", "ratio", "middle", "ratio"
    );
    let (least, usual) = figures[0];
    for (way, (quickest, middle)) in ways.iter().zip(&figures) {
        println!(
            "{:<44}{quickest:>10.1}{:>8.2}{middle:>10.1}{:>8.2}",
            way.name,
            quickest / least,
            middle / usual
        );
    }
    println!();
}
