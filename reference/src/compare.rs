//! Compares what a program prints for many sheets with what the reference
//! prints, and counts what occurred.

use crate::program::{printed, Printed, AREA};
use crate::sheets::{sheet, HISTORY_LINE, LINE};
use std::collections::BTreeMap;
use std::fmt;
use std::io;

/// The refusals of a sheet.
const SHEET_REFUSALS: [u32; 6] = [11, 12, 13, 41, 42, 43];
/// The refusals of a call.
const CALL_REFUSALS: [u32; 9] = [31, 32, 33, 34, 35, 38, 39, 36, 37];
/// The letters of a history.
const LETTERS: [char; 11] = ['I', 'D', 'L', 'X', 'A', 'M', 'T', 'U', 'E', 'N', 'R'];

/// What occurred in the sheets.
#[derive(Clone, Default, Debug)]
pub struct Counts {
    /// All sheets.
    pub sheets: u64,
    /// Accepted sheets.
    pub histories: u64,
    /// Refused sheets, by number.
    pub refusals: BTreeMap<u32, u64>,
    /// Refused calls in the histories, by number.
    pub calls: BTreeMap<u32, u64>,
    /// History lines, by letter.
    pub letters: BTreeMap<char, u64>,
    /// Empty sheets.
    pub empty: u64,
    /// Accepted sheets with as many lines as 64 KiB hold.
    pub full_sheets: u64,
    /// Sheets longer than 64 KiB.
    pub long_sheets: u64,
    /// Histories with as many lines as 64 KiB hold.
    pub full_histories: u64,
}

/// A sheet for which the program printed something else.
#[derive(Clone, Debug)]
pub struct Difference {
    /// The number of the sheet.
    pub number: u64,
    /// The sheet.
    pub sheet: Vec<u8>,
    /// The first line that differs, from 1.
    pub line: usize,
    /// That line as the reference prints it; empty past its end.
    pub expected: Vec<u8>,
    /// That line as the program prints it; empty past its end.
    pub found: Vec<u8>,
}

/// How a comparison ended.
pub enum Ended {
    /// No difference.
    Same(Counts),
    /// The first difference.
    Differs(Box<Difference>),
}

/// Compares a program on sheets 0 to `count` - 1 of a seed. `run` gives what
/// it prints for a sheet; it is told the sheet's number too.
pub fn compare(
    seed: u64,
    count: u64,
    mut run: impl FnMut(u64, &[u8]) -> io::Result<Vec<u8>>,
) -> io::Result<Ended> {
    let mut counts = Counts::default();
    for number in 0..count {
        let sheet = sheet(seed, number);
        let expected = printed(&sheet);
        let found = run(number, &sheet)?;
        if let Some((line, expected, found)) = first_difference(&expected.bytes(), &found) {
            return Ok(Ended::Differs(Box::new(Difference {
                number,
                sheet,
                line,
                expected,
                found,
            })));
        }
        counts.count(&sheet, &expected);
    }
    Ok(Ended::Same(counts))
}

/// The first line that differs, from 1, with both lines.
fn first_difference(expected: &[u8], found: &[u8]) -> Option<(usize, Vec<u8>, Vec<u8>)> {
    if expected == found {
        return None;
    }
    let lines = |bytes: &[u8]| -> Vec<Vec<u8>> {
        bytes
            .split_inclusive(|&byte| byte == b'\n')
            .map(<[u8]>::to_vec)
            .collect()
    };
    let (expected, found) = (lines(expected), lines(found));
    let mut i = 0;
    while expected.get(i) == found.get(i) {
        i += 1;
    }
    let line = |lines: &[Vec<u8>]| lines.get(i).cloned().unwrap_or_default();
    Some((i + 1, line(&expected), line(&found)))
}

impl Counts {
    fn count(&mut self, sheet: &[u8], printed: &Printed) {
        self.sheets += 1;
        self.empty += u64::from(sheet.is_empty());
        self.long_sheets += u64::from(sheet.len() > AREA);
        match printed {
            Printed::Refusal(refusal) => *self.refusals.entry(refusal.number).or_default() += 1,
            Printed::History(history) => {
                self.histories += 1;
                self.full_sheets += u64::from(sheet.len() / LINE == AREA / LINE);
                self.full_histories +=
                    u64::from(history.len() / HISTORY_LINE == AREA / HISTORY_LINE);
                for line in history.chunks(HISTORY_LINE) {
                    self.count_line(line);
                }
            }
        }
    }

    fn count_line(&mut self, line: &[u8]) {
        *self.letters.entry(char::from(line[0])).or_default() += 1;
        if line[0] == b'R' {
            let field = String::from_utf8_lossy(&line[15..22]);
            if let Ok(number) = field.trim().parse() {
                *self.calls.entry(number).or_default() += 1;
            }
        }
    }

    /// What should have occurred and did not.
    pub fn missing(&self) -> Vec<String> {
        let mut missing = Vec::new();
        for number in SHEET_REFUSALS {
            if !self.refusals.contains_key(&number) {
                missing.push(format!("a sheet refused with {number}"));
            }
        }
        for number in CALL_REFUSALS {
            if !self.calls.contains_key(&number) {
                missing.push(format!("a call refused with {number}"));
            }
        }
        for letter in LETTERS {
            if !self.letters.contains_key(&letter) {
                missing.push(format!("a history line {letter}"));
            }
        }
        let single = [
            (self.histories, "a history"),
            (self.empty, "an empty sheet"),
            (self.full_sheets, "a full sheet"),
            (self.long_sheets, "a sheet longer than 64 KiB"),
            (self.full_histories, "a full history"),
        ];
        for (count, name) in single {
            if count == 0 {
                missing.push(name.to_string());
            }
        }
        missing
    }
}

fn list<K: fmt::Display>(counts: &BTreeMap<K, u64>) -> String {
    let words: Vec<String> = counts
        .iter()
        .map(|(key, count)| format!("{key} {count} times"))
        .collect();
    words.join(", ")
}

impl fmt::Display for Counts {
    fn fmt(&self, f: &mut fmt::Formatter<'_>) -> fmt::Result {
        write!(
            f,
            "{} sheets compared: {} histories, refusals {}; in the histories {}; refused calls {}; {} empty sheets, {} full ones, {} longer than 64 KiB, {} full histories",
            self.sheets,
            self.histories,
            list(&self.refusals),
            list(&self.letters),
            list(&self.calls),
            self.empty,
            self.full_sheets,
            self.long_sheets,
            self.full_histories
        )
    }
}
