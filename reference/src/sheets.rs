//! Random sheets, right ones and damaged ones. A seed and a number determine
//! the sheet; the number alone determines its kind, so that every kind comes
//! in each hundred sheets.

use crate::queue::{Queue, MAX_NUMBER};
use crate::random::Random;
use crate::schedule::Sizes;
use crate::sheet::run_bytes;
use crate::trial::fresh_of;

/// The bytes of a line.
pub const LINE: usize = 30;
/// The bytes of a history line.
pub const HISTORY_LINE: usize = 37;
/// The greatest number that a field can hold.
const MOST: u64 = 9_999_999;
/// As many lines as 64 KiB hold whole.
const FULL_SHEET: usize = 64 * 1024 / LINE;
/// As many history lines as 64 KiB hold whole.
const FULL_HISTORY: usize = 64 * 1024 / HISTORY_LINE;

/// What is particular about a sheet.
#[derive(Clone, Copy, PartialEq, Eq, Debug)]
pub enum Kind {
    /// Nothing: calls of all sorts, refused ones too.
    Calls,
    /// No line.
    Empty,
    /// The Q line alone.
    OnlyQ,
    /// One byte is another.
    OtherByte,
    /// One byte more or less, so that all that follows is shifted.
    Shifted,
    /// The last line is short, or has no line feed.
    ShortEnd,
    /// A number stands one column to the left.
    WrongColumn,
    /// A number has leading zeros.
    LeadingZero,
    /// A field of spaces alone.
    BlankField,
    /// A letter that no line has.
    WrongLetter,
    /// A field that the letter does not use is not 0.
    UnusedField,
    /// An S line with 0 steps, or with 1,000 or more.
    WrongSteps,
    /// Another end of a line than a line feed.
    WrongEnd,
    /// Bytes at random.
    AnyBytes,
    /// The first line is no Q.
    NoQ,
    /// A second Q.
    SecondQ,
    /// A second Q, and a line out of form after it.
    SecondQAndDamage,
    /// P, N or L is out of range.
    WrongSizes,
    /// P, N or L is out of range, and a line is out of form.
    WrongSizesAndDamage,
    /// P, N or L is out of range, and there is a second Q.
    WrongSizesAndSecondQ,
    /// The clock is spent by S lines of 999 steps.
    SpentClock,
    /// The history fills its area as far as lines can.
    FullHistory,
    /// The history is one line longer than its area.
    LongHistory,
    /// The sheet fills 64 KiB as far as lines can.
    FullSheet,
    /// The sheet is longer than 64 KiB by less than a line, or by more.
    LongSheet,
}

/// The kinds that a hundred sheets have, beside those that run calls.
const DAMAGED: [Kind; 35] = [
    Kind::Empty,
    Kind::OnlyQ,
    Kind::OtherByte,
    Kind::OtherByte,
    Kind::OtherByte,
    Kind::Shifted,
    Kind::Shifted,
    Kind::ShortEnd,
    Kind::ShortEnd,
    Kind::WrongColumn,
    Kind::WrongColumn,
    Kind::LeadingZero,
    Kind::LeadingZero,
    Kind::BlankField,
    Kind::WrongLetter,
    Kind::WrongLetter,
    Kind::UnusedField,
    Kind::UnusedField,
    Kind::WrongSteps,
    Kind::WrongSteps,
    Kind::WrongEnd,
    Kind::AnyBytes,
    Kind::NoQ,
    Kind::SecondQ,
    Kind::SecondQAndDamage,
    Kind::WrongSizes,
    Kind::WrongSizes,
    Kind::WrongSizes,
    Kind::WrongSizes,
    Kind::WrongSizesAndDamage,
    Kind::FullHistory,
    Kind::LongHistory,
    Kind::FullSheet,
    Kind::LongSheet,
    Kind::WrongSizesAndSecondQ,
];

/// The kind of sheet number `number`. Once in two hundred the clock is spent.
pub fn kind(number: u64) -> Kind {
    if number % 200 == 99 {
        return Kind::SpentClock;
    }
    let place = (number % 100) as usize;
    if place & 1 == 0 || place / 2 >= DAMAGED.len() {
        Kind::Calls
    } else {
        DAMAGED[place / 2]
    }
}

/// Sheet number `number` of a seed.
pub fn sheet(seed: u64, number: u64) -> Vec<u8> {
    let mut random = Random::new(Random::new(seed).draw() ^ number);
    let random = &mut random;
    match kind(number) {
        Kind::Calls => calls(random, 60),
        Kind::Empty => Vec::new(),
        Kind::OnlyQ => q_line(sizes(random)),
        Kind::OtherByte => other_byte(random),
        Kind::Shifted => shifted(random),
        Kind::ShortEnd => short_end(random),
        Kind::WrongColumn => damaged(random, wrong_column),
        Kind::LeadingZero => damaged(random, leading_zero),
        Kind::BlankField => damaged(random, |random, line| {
            field_of(random, line).fill(b' ');
        }),
        Kind::WrongLetter => damaged(random, |random, line| {
            line[0] = random.among(b"qidlxsARTEMNUY 0\n");
        }),
        Kind::UnusedField => with_line(random, unused_field),
        Kind::WrongSteps => with_line(random, wrong_steps),
        Kind::WrongEnd => damaged(random, |random, line| {
            line[LINE - 1] = random.among(b"\r 0\x00\x0b\x8a");
        }),
        Kind::AnyBytes => any_bytes(random),
        Kind::NoQ => calls(random, 20)[LINE..].to_vec(),
        Kind::SecondQ => with_line(random, |random| q_line(sizes(random))),
        Kind::SecondQAndDamage => second_q_and_damage(random),
        Kind::WrongSizes => wrong_sizes(random),
        Kind::WrongSizesAndDamage => {
            let mut sheet = wrong_sizes(random);
            sheet.extend_from_slice(&wrong_steps(random));
            sheet
        }
        Kind::WrongSizesAndSecondQ => {
            let mut sheet = wrong_sizes(random);
            sheet.extend_from_slice(&q_line(sizes(random)));
            sheet
        }
        Kind::SpentClock => spent_clock(random),
        Kind::FullHistory => lines_of_events(random, FULL_HISTORY),
        Kind::LongHistory => lines_of_events(random, FULL_HISTORY + 1),
        Kind::FullSheet => full_sheet(random, FULL_SHEET),
        Kind::LongSheet => long_sheet(random),
    }
}

/// A line in form.
fn line(letter: u8, fields: [u64; 4]) -> Vec<u8> {
    let [a, b, c, d] = fields;
    let mut bytes = vec![letter];
    bytes.extend_from_slice(format!("{a:7}{b:7}{c:7}{d:7}\n").as_bytes());
    bytes
}

fn q_line(sizes: Sizes) -> Vec<u8> {
    line(b'Q', [sizes.processors, sizes.nodes, sizes.levels, 0])
}

fn sizes(random: &mut Random) -> Sizes {
    match random.below(4) {
        0 | 1 => Sizes::small(random),
        2 => Sizes::middle(random),
        _ => Sizes::large(random),
    }
}

/// A processor of the queue, now and then one that it does not have.
fn processor(random: &mut Random, sizes: Sizes) -> u64 {
    if random.one_in(25) {
        let far = [sizes.processors, 16, 17, 255, 256, 65_536, MOST];
        return random.among(&far);
    }
    random.below(sizes.processors)
}

/// A due minute and a ticket.
type Key = (u64, u64);

/// An X line, mostly for one of these entries, now and then with a number that is
/// refused.
fn remove_line(random: &mut Random, processor: u64, keys: &[Key]) -> Vec<u8> {
    let limit = u64::from(MAX_NUMBER);
    let (mut due, mut ticket) = if keys.is_empty() || random.one_in(6) {
        (random.among(&[0, 2, 7, limit]), random.between(1, 40))
    } else {
        random.among(keys)
    };
    match random.below(16) {
        0 => due = random.among(&[due + 1, limit, limit + 1, MOST]),
        1 => ticket = random.among(&[0, 1, ticket + 1, limit, limit + 1, MOST]),
        _ => {}
    }
    line(b'X', [processor, due, ticket, 0])
}

fn begin_line(random: &mut Random, sizes: Sizes, keys: &[Key]) -> Vec<u8> {
    let processor = processor(random, sizes);
    match random.below(100) {
        0..=34 => return line(random.among(b"DL"), [processor, 0, 0, 0]),
        35..=54 => return remove_line(random, processor, keys),
        _ => {}
    }
    let limit = u64::from(MAX_NUMBER);
    let mut due = random.among(&[0, 1, 2, 2, 7, limit - 1, limit]);
    let mut item = random.between(1, limit);
    let mut height = random.between(1, sizes.levels);
    if random.one_in(12) {
        match random.below(4) {
            0 => due = random.among(&[limit + 1, limit + 2, MOST]),
            1 => item = random.among(&[limit + 1, MOST]),
            2 => item = 0,
            _ => height = random.among(&[0, sizes.levels + 1, 9, 256, 257, MOST]),
        }
        if random.one_in(4) {
            item = 0;
        }
    }
    line(b'I', [processor, due, item, height])
}

fn step_line(random: &mut Random, sizes: Sizes) -> Vec<u8> {
    let most = random.among(&[1, 3, 10, 30, 30, 100, 999]);
    let steps = random.between(1, most);
    line(b'S', [processor(random, sizes), steps, 0, 0])
}

/// A sheet that is being written, with the entries that its lines file: their
/// tickets are times, so that its calls are made as they come.
struct Draft {
    sheet: Vec<u8>,
    queue: Queue,
    keys: Vec<Key>,
}

impl Draft {
    fn new(sizes: Sizes) -> Draft {
        Draft {
            sheet: q_line(sizes),
            queue: fresh_of(sizes),
            keys: Vec::new(),
        }
    }

    fn push(&mut self, line: &[u8]) {
        let printed = run_bytes(&mut self.queue, line);
        if printed.first() == Some(&b'I') {
            let number = |at: usize| -> u64 {
                let text = String::from_utf8_lossy(&printed[at..at + 7]);
                text.trim().parse().expect("a number of a history")
            };
            self.keys.push((number(15), number(1)));
        }
        self.sheet.extend_from_slice(line);
    }
}

/// Lines that begin operations and step them, after a Q line.
fn calls(random: &mut Random, most: u64) -> Vec<u8> {
    let sizes = sizes(random);
    let mut draft = Draft::new(sizes);
    for _ in 0..random.between(1, most) {
        let begin = random.below(5) < 2;
        let line = if begin {
            begin_line(random, sizes, &draft.keys)
        } else {
            step_line(random, sizes)
        };
        draft.push(&line);
    }
    draft.sheet
}

/// Where a line of the sheet starts, at random.
fn some_line(random: &mut Random, sheet: &[u8]) -> usize {
    random.below((sheet.len() / LINE) as u64) as usize * LINE
}

/// A sheet with one line changed.
fn damaged(random: &mut Random, change: impl Fn(&mut Random, &mut [u8])) -> Vec<u8> {
    let mut sheet = calls(random, 20);
    let start = some_line(random, &sheet);
    change(random, &mut sheet[start..start + LINE]);
    sheet
}

/// A sheet with one line more, after the first or later.
fn with_line(random: &mut Random, made: impl Fn(&mut Random) -> Vec<u8>) -> Vec<u8> {
    let mut sheet = calls(random, 20);
    let at = some_line(random, &sheet) + LINE;
    let new = made(random);
    sheet.splice(at..at, new);
    sheet
}

/// The seven columns of a field at random.
fn field_of<'a>(random: &mut Random, line: &'a mut [u8]) -> &'a mut [u8] {
    let start = 1 + 7 * random.below(4) as usize;
    &mut line[start..start + 7]
}

fn wrong_column(random: &mut Random, line: &mut [u8]) {
    let field = field_of(random, line);
    if field[0] == b' ' {
        field.rotate_left(1);
    } else {
        field[3] = b' ';
    }
}

fn leading_zero(random: &mut Random, line: &mut [u8]) {
    let field = field_of(random, line);
    let spaces = field.iter().take_while(|&&byte| byte == b' ').count();
    if spaces == 0 {
        field[0] = b'0';
    } else {
        let zeros = random.between(1, spaces as u64) as usize;
        field[spaces - zeros..spaces].fill(b'0');
    }
}

fn unused_field(random: &mut Random) -> Vec<u8> {
    let value = random.among(&[1, 2, 10, MOST]);
    let walk = random.among(b"DL");
    match random.below(7) {
        0 => line(b'Q', [1, 1, 1, value]),
        6 => line(b'X', [0, 1, 1, value]),
        1 => line(walk, [0, value, 0, 0]),
        2 => line(walk, [0, 0, value, 0]),
        3 => line(walk, [0, 0, 0, value]),
        4 => line(b'S', [0, 1, value, 0]),
        _ => line(b'S', [0, 1, 0, value]),
    }
}

fn wrong_steps(random: &mut Random) -> Vec<u8> {
    line(
        b'S',
        [0, random.among(&[0, 1000, 1001, 65_536, MOST]), 0, 0],
    )
}

fn other_byte(random: &mut Random) -> Vec<u8> {
    let mut sheet = calls(random, 20);
    let at = random.below(sheet.len() as u64) as usize;
    let near = b" 0123456789QIDLXS-+.\n\r\t";
    sheet[at] = if random.one_in(3) {
        random.below(256) as u8
    } else {
        random.among(near)
    };
    sheet
}

fn shifted(random: &mut Random) -> Vec<u8> {
    let mut sheet = calls(random, 20);
    let at = random.below(sheet.len() as u64) as usize;
    if random.one_in(2) {
        sheet.remove(at);
    } else {
        sheet.insert(at, random.among(b" 0\n"));
    }
    sheet
}

fn short_end(random: &mut Random) -> Vec<u8> {
    let mut sheet = calls(random, 20);
    let left = sheet.len() - random.between(1, LINE as u64 - 1) as usize;
    sheet.truncate(left);
    sheet
}

fn any_bytes(random: &mut Random) -> Vec<u8> {
    let length = random.below(200);
    (0..length).map(|_| random.below(256) as u8).collect()
}

fn second_q_and_damage(random: &mut Random) -> Vec<u8> {
    let mut sheet = with_line(random, |random| q_line(sizes(random)));
    sheet.extend(wrong_steps(random));
    sheet
}

/// One of the sizes, or more than one, out of range.
fn wrong_sizes(random: &mut Random) -> Vec<u8> {
    let mut sheet = calls(random, 10);
    let mut wrong = [1, 1, 1, 0];
    let tops = [16, 200, 8];
    let first = random.below(3) as usize;
    for (i, top) in tops.iter().enumerate() {
        if i == first || random.one_in(4) {
            wrong[i] = random.among(&[0, top + 1, 256, 257, MOST]);
        } else {
            wrong[i] = random.between(1, *top);
        }
    }
    sheet[..LINE].copy_from_slice(&line(b'Q', wrong));
    sheet
}

/// Processor 0 holds the head's lock at level 1, and 1 waits for it until the
/// clock is 999,999. Then calls are refused with 31.
fn spent_clock(random: &mut Random) -> Vec<u8> {
    let sizes = Sizes {
        processors: random.between(2, 4),
        nodes: random.between(2, 20),
        levels: 1,
    };
    let mut sheet = q_line(sizes);
    sheet.extend(line(b'I', [0, 5, 1, 1]));
    sheet.extend(line(b'S', [0, 3, 0, 0]));
    sheet.extend(line(b'I', [1, 6, 2, 1]));
    for _ in 0..1001 {
        sheet.extend(line(b'S', [1, 999, 0, 0]));
    }
    for _ in 0..random.between(3, 20) {
        let begin = random.one_in(2);
        sheet.extend(if begin {
            begin_line(random, sizes, &[(5, 1), (6, 5)])
        } else {
            step_line(random, sizes)
        });
    }
    sheet
}

/// So many lines after the Q line, each of which writes one history line.
fn lines_of_events(random: &mut Random, lines: usize) -> Vec<u8> {
    let sizes = sizes(random);
    let mut sheet = q_line(sizes);
    for _ in 0..lines {
        sheet.extend(if random.one_in(3) {
            let stranger = random.between(sizes.processors, MOST);
            line(b'S', [stranger, random.between(1, 999), 0, 0])
        } else {
            begin_line(random, sizes, &[])
        });
    }
    sheet
}

/// So many lines, of which few write a history line.
fn full_sheet(random: &mut Random, lines: usize) -> Vec<u8> {
    let sizes = sizes(random);
    let mut sheet = q_line(sizes);
    for _ in 1..lines {
        let p = random.below(sizes.processors);
        sheet.extend(match random.below(10) {
            0 if random.one_in(4) => remove_line(random, p, &[]),
            0 => line(random.among(b"DL"), [p, 0, 0, 0]),
            1 => line(
                b'I',
                [p, random.below(3), 1, random.between(1, sizes.levels)],
            ),
            _ => line(b'S', [p, 1, 0, 0]),
        });
    }
    sheet
}

/// Longer than 64 KiB, or shorter by less than a line: the last line that is
/// read is short, unless a line before it is out of form.
fn long_sheet(random: &mut Random) -> Vec<u8> {
    let lines = FULL_SHEET + random.among(&[1, 1, 2, 100]);
    let mut sheet = full_sheet(random, lines);
    if random.one_in(2) {
        let length = random.between((FULL_SHEET * LINE) as u64 + 1, 64 * 1024 + 2);
        sheet.truncate(length as usize);
    }
    if random.one_in(4) {
        let at = some_line(random, &sheet[..FULL_SHEET * LINE]);
        sheet[at] = b'Y';
    }
    sheet
}
