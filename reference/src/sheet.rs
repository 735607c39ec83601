//! Runs a sheet of calls and writes its history.
//!
//! A line of the sheet has thirty bytes: a letter, four numbers in columns of
//! seven, a line feed. A line of the history has thirty-seven: a letter, five
//! such numbers, a line feed.

use crate::answer::{Answer, Entry};
use crate::queue::{fresh, Queue, Refusal};

const COLUMN: usize = 7;
const FIELDS: usize = 4;
const LINE: usize = 1 + FIELDS * COLUMN + 1;
const MOST_STEPS: u64 = 999;

/// For each letter, how many of its four fields it uses; the others hold 0.
const USED_FIELDS: [(u8, usize); 6] = [
    (b'Q', 3),
    (b'I', 4),
    (b'D', 1),
    (b'L', 1),
    (b'X', 3),
    (b'S', 2),
];

/// A refused sheet: the number of the refusal and the line.
#[derive(Clone, Copy, PartialEq, Eq, Debug)]
pub struct SheetRefusal {
    /// The number of the refusal.
    pub number: Refusal,
    /// The line, from 1; 0 for refusal 43.
    pub line: usize,
}

/// One line of the sheet, in form.
struct Line {
    letter: u8,
    fields: [u64; FIELDS],
}

/// Runs a sheet and writes the history to the front of `area`; gives its
/// length in bytes. On a refusal (41, 42, 11, 12, 13, 43) nothing is written.
pub fn run(sheet: &[u8], area: &mut [u8]) -> Result<usize, SheetRefusal> {
    let lines = read_lines(sheet)?;
    check_letters(&lines)?;
    let [p, n, l, _] = lines[0].fields;
    let mut queue = fresh(p, n, l).map_err(|number| SheetRefusal { number, line: 1 })?;
    let mut history = Vec::new();
    for line in &lines[1..] {
        run_line(&mut queue, line, &mut history);
    }
    if history.len() > area.len() {
        return Err(SheetRefusal {
            number: 43,
            line: 0,
        });
    }
    area[..history.len()].copy_from_slice(&history);
    Ok(history.len())
}

/// All lines, or 41 with the first line that is not in form.
fn read_lines(sheet: &[u8]) -> Result<Vec<Line>, SheetRefusal> {
    let mut lines = Vec::new();
    for bytes in sheet.chunks(LINE) {
        match read_line(bytes) {
            Some(line) => lines.push(line),
            None => {
                return Err(SheetRefusal {
                    number: 41,
                    line: lines.len() + 1,
                })
            }
        }
    }
    Ok(lines)
}

/// A line in form, or none.
fn read_line(bytes: &[u8]) -> Option<Line> {
    if bytes.len() != LINE || bytes[LINE - 1] != b'\n' {
        return None;
    }
    let letter = bytes[0];
    let (_, used) = *USED_FIELDS.iter().find(|(known, _)| *known == letter)?;
    let mut fields = [0; FIELDS];
    for (i, field) in fields.iter_mut().enumerate() {
        let start = 1 + i * COLUMN;
        *field = read_field(&bytes[start..start + COLUMN])?;
    }
    if fields[used..].iter().any(|&field| field != 0) {
        return None;
    }
    if letter == b'S' && !(1..=MOST_STEPS).contains(&fields[1]) {
        return None;
    }
    Some(Line { letter, fields })
}

/// A number in form (spaces, then digits, at least one, no leading zero but
/// the single digit 0), or none.
fn read_field(column: &[u8]) -> Option<u64> {
    let spaces = column.iter().take_while(|&&byte| byte == b' ').count();
    let digits = &column[spaces..];
    if digits.is_empty() || !digits.iter().all(u8::is_ascii_digit) {
        return None;
    }
    if digits.len() > 1 && digits[0] == b'0' {
        return None;
    }
    let mut number = 0;
    for digit in digits {
        number = number * 10 + u64::from(digit - b'0');
    }
    Some(number)
}

/// 42: the first line is Q and no other line is.
fn check_letters(lines: &[Line]) -> Result<(), SheetRefusal> {
    let is_q = |line: &Line| line.letter == b'Q';
    if lines.is_empty() || !is_q(&lines[0]) {
        return Err(SheetRefusal {
            number: 42,
            line: 1,
        });
    }
    match lines[1..].iter().position(is_q) {
        None => Ok(()),
        Some(i) => Err(SheetRefusal {
            number: 42,
            line: i + 2,
        }),
    }
}

/// Makes the calls of one line. The record comes from `fresh` and from calls
/// alone, so it passes check 21 and the inner forms serve.
fn run_line(queue: &mut Queue, line: &Line, history: &mut Vec<u8>) {
    let [processor, second, third, fourth] = line.fields;
    match line.letter {
        b'I' => match queue.begin_insert_inner(processor, second, third, fourth) {
            Ok(time) => write_line(history, b'I', time, processor, [second, third, fourth]),
            Err(number) => write_refusal(history, queue, processor, number),
        },
        b'D' => match queue.begin_delete_min_inner(processor) {
            Ok(time) => write_line(history, b'D', time, processor, [0, 0, 0]),
            Err(number) => write_refusal(history, queue, processor, number),
        },
        b'L' => match queue.begin_relaxed_inner(processor) {
            Ok(time) => write_line(history, b'L', time, processor, [0, 0, 0]),
            Err(number) => write_refusal(history, queue, processor, number),
        },
        b'X' => match queue.begin_remove_inner(processor, second, third) {
            Ok(time) => write_line(history, b'X', time, processor, [second, third, 0]),
            Err(number) => write_refusal(history, queue, processor, number),
        },
        _ => run_steps(queue, processor, second, history),
    }
}

/// Makes the steps of an S line, up to the first that is refused.
fn run_steps(queue: &mut Queue, processor: u64, steps: u64, history: &mut Vec<u8>) {
    for _ in 0..steps {
        match queue.step_inner(processor) {
            Ok(answer) => write_answer(history, queue, processor, &answer),
            Err(number) => {
                write_refusal(history, queue, processor, number);
                return;
            }
        }
    }
}

/// Makes the calls of a line by its bytes, if it is in form, and gives what it
/// prints: for who writes a sheet and must know how it goes.
pub(crate) fn run_bytes(queue: &mut Queue, bytes: &[u8]) -> Vec<u8> {
    let mut history = Vec::new();
    if let Some(line) = read_line(bytes) {
        run_line(queue, &line, &mut history);
    }
    history
}

/// Moves and waits print nothing.
fn write_answer(history: &mut Vec<u8>, queue: &Queue, processor: u64, answer: &Answer) {
    let time = queue.clock;
    match answer {
        Answer::Moved | Answer::Waits { .. } => {}
        Answer::Empty => write_line(history, b'E', time, processor, [0, 0, 0]),
        Answer::Marked(entry) => write_line(history, b'M', time, processor, numbers(entry)),
        Answer::Inserted(entry) => write_line(history, b'A', time, processor, numbers(entry)),
        Answer::HandedOut(entry) => write_line(history, b'T', time, processor, numbers(entry)),
        Answer::TakenBack(entry) => write_line(history, b'U', time, processor, numbers(entry)),
        Answer::NotThere { due, ticket } => {
            let values = [u64::from(*due), u64::from(*ticket), 0];
            write_line(history, b'N', time, processor, values);
        }
    }
}

fn numbers(entry: &Entry) -> [u64; 3] {
    [
        u64::from(entry.due),
        u64::from(entry.item),
        u64::from(entry.ticket),
    ]
}

fn write_refusal(history: &mut Vec<u8>, queue: &Queue, processor: u64, number: Refusal) {
    let values = [u64::from(number), 0, 0];
    write_line(history, b'R', queue.clock, processor, values);
}

fn write_line(history: &mut Vec<u8>, letter: u8, time: u32, processor: u64, values: [u64; 3]) {
    let [a, b, c] = values;
    let text = format!("{time:7}{processor:7}{a:7}{b:7}{c:7}\n");
    history.push(letter);
    history.extend_from_slice(text.as_bytes());
}
