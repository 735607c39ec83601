//! The comparer of programs: it passes the reference's own program, and finds
//! programs that are wrong in one thing.

use darthog_reference::answer::{Answer, Entry};
use darthog_reference::calls::{Call, Outcome};
use darthog_reference::compare::{compare, Counts, Ended};
use darthog_reference::misled::{Misled, MISLED};
use darthog_reference::mistakes::{Astray, Mistake, Wrong};
use darthog_reference::program::{printed, Printed, AREA};
use darthog_reference::queue::{fresh, Queue};
use darthog_reference::sheet;
use darthog_reference::sheets::{HISTORY_LINE, LINE};
use darthog_reference::trial::Machine;
use std::process::Command;

const SEED: u64 = 7;
const SHEETS: u64 = 2_000;

/// The first sheet for which a program differs.
fn found(run: impl Fn(&[u8]) -> Vec<u8>) -> Option<u64> {
    match compare(SEED, SHEETS, |_, sheet| Ok(run(sheet))).unwrap() {
        Ended::Same(_) => None,
        Ended::Differs(difference) => Some(difference.number),
    }
}

fn right(sheet: &[u8]) -> Vec<u8> {
    printed(sheet).bytes()
}

#[test]
fn every_kind_occurs_in_the_sheets() {
    let ended = compare(SEED, SHEETS, |_, sheet| Ok(right(sheet))).unwrap();
    let Ended::Same(counts) = ended else {
        panic!("the reference differs from itself");
    };
    println!("{counts}");
    assert_eq!(counts.sheets, SHEETS);
    assert_eq!(counts.missing(), Vec::<String>::new());
    assert_eq!(Counts::default().missing().len(), 31);
}

/// The lines of a sheet, changed one by one.
fn on_lines(input: &[u8], change: impl Fn(&mut Vec<u8>)) -> Vec<u8> {
    let mut lines = Vec::new();
    for line in input.chunks(LINE) {
        let mut line = line.to_vec();
        change(&mut line);
        lines.extend(line);
    }
    right(&lines)
}

fn with_area(input: &[u8], length: usize) -> Vec<u8> {
    let mut area = vec![0; length];
    match sheet::run(&input[..input.len().min(AREA)], &mut area) {
        Ok(length) => area[..length].to_vec(),
        Err(refusal) => Printed::Refusal(refusal).bytes(),
    }
}

#[test]
fn a_program_that_reads_sheets_in_another_way_is_found() {
    let lower = |sheet: &[u8]| on_lines(sheet, |line| line[0] = line[0].to_ascii_uppercase());
    assert!(found(lower).is_some(), "small letters taken");
    let zeros = |sheet: &[u8]| {
        on_lines(sheet, |line| {
            for field in line[1..].chunks_mut(7).filter(|field| field.len() == 7) {
                for i in 0..6 {
                    if field[i] == b'0' && field[..i].iter().all(|&byte| byte == b' ') {
                        field[i] = b' ';
                    }
                }
            }
        })
    };
    assert!(found(zeros).is_some(), "leading zeros taken");
    let end = |sheet: &[u8]| {
        on_lines(sheet, |line| {
            if line.len() == LINE {
                line[LINE - 1] = b'\n';
            }
        })
    };
    assert!(found(end).is_some(), "any end of a line taken");
    let short = |sheet: &[u8]| right(&sheet[..sheet.len() - sheet.len() % LINE]);
    assert!(found(short).is_some(), "a short last line dropped");
    let all = |sheet: &[u8]| with_area(&sheet[..sheet.len().min(65_520)], AREA);
    assert!(found(all).is_some(), "lines past 64 KiB dropped");
    let least = |sheet: &[u8]| with_area(sheet, AREA - HISTORY_LINE);
    assert!(found(least).is_some(), "a full history refused");
    let most = |sheet: &[u8]| with_area(sheet, AREA + HISTORY_LINE);
    assert!(found(most).is_some(), "a history too long printed");
    let empty = |sheet: &[u8]| {
        if sheet.is_empty() {
            Vec::new()
        } else {
            right(sheet)
        }
    };
    assert!(found(empty).is_some(), "an empty sheet accepted");
}

#[test]
fn a_program_that_takes_an_unused_field_is_found() {
    for (letter, field) in [
        (b'Q', 3),
        (b'D', 1),
        (b'D', 2),
        (b'D', 3),
        (b'L', 1),
        (b'L', 2),
        (b'L', 3),
        (b'X', 3),
        (b'S', 2),
        (b'S', 3),
    ] {
        let wrong = |sheet: &[u8]| {
            on_lines(sheet, |line| {
                if line.len() == LINE && line[0] == letter {
                    line[1 + 7 * field..8 + 7 * field].copy_from_slice(b"      0");
                }
            })
        };
        let name = char::from(letter);
        assert!(found(wrong).is_some(), "field {field} of {name} taken");
    }
}

#[test]
fn a_program_that_looks_at_the_sizes_before_the_letters_is_found() {
    let wrong = |sheet: &[u8]| {
        let first = right(&sheet[..sheet.len().min(LINE)]);
        let whole = right(sheet);
        if whole.starts_with(b"42 ") && first.starts_with(b"1") {
            return first;
        }
        whole
    };
    assert!(found(wrong).is_some(), "11 to 13 before 42");
}

#[test]
fn a_program_that_prints_another_refusal_is_found() {
    for number in [11, 12, 13, 31, 32, 33, 34, 35, 38, 39, 36, 37, 41, 42, 43] {
        let wrong = |sheet: &[u8]| other_number(right(sheet), number);
        assert!(found(wrong).is_some(), "{number} printed as 99");
    }
    assert_eq!(found(right), None);
}

/// The same output with a refusal's number replaced by 99.
fn other_number(mut output: Vec<u8>, number: u32) -> Vec<u8> {
    let digits = number.to_string().into_bytes();
    if output.starts_with(&digits) {
        output[..2].fill(b'9');
        return output;
    }
    for line in output.chunks_mut(HISTORY_LINE) {
        if line[0] == b'R' && line[20..22] == digits {
            line[20..22].fill(b'9');
        }
    }
    output
}

/// The history of an accepted sheet by any machine.
fn history(machine: &mut dyn Machine, lines: &[u8]) -> Vec<u8> {
    let mut history = String::new();
    for line in lines.chunks(LINE) {
        let field = |i: usize| -> u64 {
            let text = std::str::from_utf8(&line[1 + 7 * i..8 + 7 * i]).unwrap();
            text.trim().parse().unwrap()
        };
        let processor = field(0);
        let call = match line[0] {
            b'I' => Call::Insert {
                processor,
                due: field(1),
                item: field(2),
                height: field(3),
            },
            b'D' => Call::DeleteMin { processor },
            b'L' => Call::Relaxed { processor },
            b'X' => Call::Remove {
                processor,
                due: field(1),
                ticket: field(2),
            },
            _ => Call::Step { processor },
        };
        let times = if line[0] == b'S' { field(1) } else { 1 };
        for _ in 0..times {
            let outcome = machine.call(&call);
            let time = u64::from(machine.queue().clock);
            let event = event(&call, &outcome);
            if let Some((letter, [a, b, c])) = event {
                history += &format!("{letter}{time:7}{processor:7}{a:7}{b:7}{c:7}\n");
            }
            if matches!(outcome, Outcome::Refused(_)) {
                break;
            }
        }
    }
    history.into_bytes()
}

fn event(call: &Call, outcome: &Outcome) -> Option<(char, [u64; 3])> {
    let values = |e: &Entry| [u64::from(e.due), u64::from(e.item), u64::from(e.ticket)];
    match (outcome, *call) {
        (Outcome::Refused(number), _) => Some(('R', [u64::from(*number), 0, 0])),
        (
            Outcome::Began(_),
            Call::Insert {
                due, item, height, ..
            },
        ) => Some(('I', [due, item, height])),
        (Outcome::Began(_), Call::Relaxed { .. }) => Some(('L', [0, 0, 0])),
        (Outcome::Began(_), Call::Remove { due, ticket, .. }) => Some(('X', [due, ticket, 0])),
        (Outcome::Began(_), _) => Some(('D', [0, 0, 0])),
        (Outcome::Stepped(Answer::Empty), _) => Some(('E', [0, 0, 0])),
        (Outcome::Stepped(Answer::Marked(e)), _) => Some(('M', values(e))),
        (Outcome::Stepped(Answer::Inserted(e)), _) => Some(('A', values(e))),
        (Outcome::Stepped(Answer::HandedOut(e)), _) => Some(('T', values(e))),
        (Outcome::Stepped(Answer::TakenBack(e)), _) => Some(('U', values(e))),
        (&Outcome::Stepped(Answer::NotThere { due, ticket }), _) => {
            Some(('N', [u64::from(due), u64::from(ticket), 0]))
        }
        _ => None,
    }
}

/// What a program prints whose queue is the machine made of a fresh one;
/// sheets that are refused before the queue runs, and long ones, are left
/// alone.
fn by_machine<M: Machine>(input: &[u8], made: impl Fn(Queue) -> M) -> Vec<u8> {
    let Printed::History(expected) = printed(input) else {
        return right(input);
    };
    if input.len() > 200 * LINE {
        return expected;
    }
    let field = |i: usize| -> u64 {
        let text = std::str::from_utf8(&input[1 + 7 * i..8 + 7 * i]).unwrap();
        text.trim().parse().unwrap()
    };
    let queue = fresh(field(0), field(1), field(2)).unwrap();
    history(&mut made(queue), &input[LINE..])
}

#[test]
fn a_program_whose_queue_is_mistaken_is_found() {
    let mistakes = [
        Mistake::SearchWhileGreater,
        Mistake::WalkSticks,
        Mistake::StampInTwoCalls,
        Mistake::ForwardLeft,
        Mistake::HeadMarked,
        Mistake::ReuseAtOnce,
        Mistake::Relaxed(Astray::BegunOrdinary),
        Mistake::Relaxed(Astray::StampTested),
        Mistake::Relaxed(Astray::HeadMarked),
        Mistake::Relaxed(Astray::NextLeftOut),
        Mistake::Relaxed(Astray::StampNotTested),
        Mistake::Relaxed(Astray::LockTaken),
    ];
    let numbers: Vec<Option<u64>> = mistakes
        .iter()
        .map(|&mistake| found(|sheet| by_machine(sheet, |queue| Wrong::new(queue, mistake))))
        .collect();
    println!("first found at sheets {numbers:?}");
    assert!(numbers.iter().all(Option::is_some), "{numbers:?}");
    assert_eq!(found(|sheet| by_machine(sheet, |queue| queue)), None);
}

/// No history tells who has marked, what an idle processor has saved, or what a
/// stamp of the begin's own time does, which no call gives.
#[test]
fn a_program_whose_removes_are_misled_is_found() {
    for misled in MISLED {
        let wrong = |queue| Wrong::new(queue, Mistake::Remove(misled));
        let number = found(|sheet| by_machine(sheet, wrong));
        println!("{misled:?} is first found at sheet {number:?}");
        let untold = matches!(
            misled,
            Misled::MarkedAsZero | Misled::SavedLeft | Misled::StampAtBegin
        );
        assert_eq!(number.is_none(), untold, "{misled:?}");
    }
}

fn compare_program(program: &str, count: &str) -> (Option<i32>, String) {
    let output = Command::new(env!("CARGO_BIN_EXE_compare"))
        .args([program, "3", count])
        .output()
        .unwrap();
    let text = String::from_utf8(output.stdout).unwrap();
    (output.status.code(), text)
}

#[test]
fn the_comparer_runs_programs() {
    let (status, text) = compare_program(env!("CARGO_BIN_EXE_darthog-reference"), "200");
    assert_eq!(status, Some(0), "{text}");
    assert!(text.starts_with("seed 3, 200 sheets\n200 sheets compared: "));
    // in ten sheets some kinds do not occur
    let (status, text) = compare_program(env!("CARGO_BIN_EXE_darthog-reference"), "10");
    assert_eq!(status, Some(1), "{text}");
    assert!(text.contains("did not occur: a call refused with 31\n"));
    let (status, text) = compare_program("cat", "200");
    assert_eq!(status, Some(1), "{text}");
    assert!(text.contains("first at line 1\n"), "{text}");
    let name = text
        .split_whitespace()
        .find(|word| word.ends_with(".sheet"));
    let kept = std::fs::read(name.unwrap()).unwrap();
    assert_eq!(kept, darthog_reference::sheets::sheet(3, 0));
    let (status, text) = compare_program("false", "200");
    assert_eq!(status, Some(1), "{text}");
    assert!(text.contains("ended with exit status: 1"), "{text}");
    let (status, _) = compare_program("no-such-program", "1");
    assert_eq!(status, Some(2));
}
