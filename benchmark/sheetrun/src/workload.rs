//! The sheets that are run.

use crate::runs::reference;
use darthog_reference::answer::Answer;
use darthog_reference::queue::{fresh, Queue, Stage};
use darthog_reference::random::Random;

/// The bytes of a line.
const LINE: usize = 30;
/// The fields of a line.
const FIELDS: usize = 4;
/// As many lines as 64 KiB hold whole.
const FULL_SHEET: usize = 64 * 1024 / LINE;
/// What the program lends for a history.
const AREA: usize = 64 * 1024;

/// A sheet and the length of the area that its history is written to.
pub struct Case {
    /// The sheet.
    pub sheet: Vec<u8>,
    /// How many bytes are lent.
    pub area: usize,
}

/// Some sheets with a name.
pub struct Workload {
    /// A short name.
    pub name: &'static str,
    /// What they are.
    pub words: &'static str,
    /// The sheets.
    pub cases: Vec<Case>,
}

impl Workload {
    /// All that is measured.
    pub fn all() -> Vec<Workload> {
        vec![
            Workload {
                name: "short",
                words: "the printed sheet, and 31 sheets of 10 to 30 lines of mixed calls",
                cases: short_sheets(),
            },
            Workload {
                name: "clock",
                words: "64 KiB: S lines of 999 steps, which wait for a lock until the clock is spent; then refused",
                cases: vec![lent(AREA, clock_sheet())],
            },
            Workload {
                name: "begins",
                words: "64 KiB: I and D lines, nearly all refused; 128 KiB lent for the history",
                cases: vec![lent(2 * AREA, begins_sheet())],
            },
            Workload {
                name: "begins-cut",
                words: "as many lines of it as give a history of 64 KiB",
                cases: vec![lent(AREA, cut(begins_sheet()))],
            },
            Workload {
                name: "day",
                words: "64 KiB: a working day of 16 processors, 200 nodes, 8 levels; I and D lines, S lines of 5 to 40 steps; 128 KiB lent",
                cases: vec![lent(2 * AREA, day_sheet())],
            },
            Workload {
                name: "day-cut",
                words: "as many lines of it as give a history of 64 KiB",
                cases: vec![lent(AREA, cut(day_sheet()))],
            },
        ]
    }

    /// The history's lines, what occurs in them, and the calls of the sheets.
    pub fn describe(&self) -> String {
        let mut counts = [0usize; 256];
        let (mut lines, mut bytes, mut printed) = (0, 0, 0);
        for case in &self.cases {
            let mut area = vec![0; case.area];
            let reply = reference(&case.sheet, &mut area);
            assert_eq!(reply.number, 0, "{}: an accepted sheet", self.name);
            lines += case.sheet.len() / LINE;
            bytes += case.sheet.len();
            printed += reply.value / 37;
            for line in area[..reply.value].chunks(37) {
                counts[usize::from(line[0])] += 1;
            }
        }
        let of = |letter: u8| counts[usize::from(letter)];
        format!(
            "{} sheets, {bytes} bytes, {lines} lines; {printed} history lines: I {} D {} A {} M {} T {} E {} R {}",
            self.cases.len(),
            of(b'I'),
            of(b'D'),
            of(b'A'),
            of(b'M'),
            of(b'T'),
            of(b'E'),
            of(b'R')
        )
    }

    /// How many fields the lines of the sheets have.
    pub fn fields(&self) -> usize {
        let lines = |case: &Case| case.sheet.len() / LINE;
        FIELDS * self.cases.iter().map(lines).sum::<usize>()
    }

    /// Longer sheets, with the lines after Q three times over. A run reads the
    /// lines behind the first `FULL_SHEET` again, and Q.
    pub fn longer(&self) -> Workload {
        let longer = |case: &Case| {
            let (q, lines) = case.sheet.split_at(LINE);
            lent(8 * AREA, [q, lines, lines, lines].concat())
        };
        Workload {
            name: self.name,
            words: "its lines three times over",
            cases: self.cases.iter().map(longer).collect(),
        }
    }

    /// How many fields are read again by the two runs of such sheets.
    pub fn fields_again(&self) -> usize {
        let again = |case: &Case| 1 + 2 * (case.sheet.len() / LINE).saturating_sub(FULL_SHEET);
        FIELDS * self.cases.iter().map(again).sum::<usize>()
    }

    /// The steps that the sheets make, and what they are answered.
    pub fn steps(&self) -> Steps {
        let mut steps = Steps::default();
        for case in &self.cases {
            steps.count(&case.sheet);
        }
        steps
    }
}

/// How many steps sheets make.
#[derive(Clone, Copy, Default, Debug)]
pub struct Steps {
    /// All that are not refused.
    pub accepted: u64,
    /// Those that wait.
    pub waits: u64,
}

impl Steps {
    /// Makes the calls of a sheet, and counts its steps.
    fn count(&mut self, sheet: &[u8]) {
        let lines: Vec<(u8, [u64; 4])> = sheet.chunks(LINE).map(numbers).collect();
        let [p, n, l, _] = lines[0].1;
        let mut queue = fresh(p, n, l).expect("the sizes are in range");
        for (letter, [p, second, third, fourth]) in &lines[1..] {
            // What a begin answers does not matter here.
            match letter {
                b'I' => drop(queue.begin_insert_inner(*p, *second, *third, *fourth)),
                b'D' => drop(queue.begin_delete_min_inner(*p)),
                _ => self.line(&mut queue, *p, *second),
            }
        }
    }

    fn line(&mut self, queue: &mut Queue, p: u64, steps: u64) {
        for _ in 0..steps {
            match queue.step_inner(p) {
                Err(_) => return,
                Ok(answer) => {
                    self.accepted += 1;
                    self.waits += u64::from(matches!(answer, Answer::Waits { .. }));
                }
            }
        }
    }
}

/// The letter and the numbers of a line that is in form.
fn numbers(line: &[u8]) -> (u8, [u64; 4]) {
    let field = |i: usize| {
        let digits = line[1 + 7 * i..8 + 7 * i].iter().filter(|&&c| c != b' ');
        digits.fold(0, |n, &c| n * 10 + u64::from(c - b'0'))
    };
    (line[0], [field(0), field(1), field(2), field(3)])
}

fn lent(area: usize, sheet: Vec<u8>) -> Case {
    Case { sheet, area }
}

/// The most lines of a sheet whose history is not longer than 64 KiB.
fn cut(mut sheet: Vec<u8>) -> Vec<u8> {
    let (mut fits, mut too_long) = (1, sheet.len() / LINE);
    let mut area = vec![0; AREA];
    while fits + 1 < too_long {
        let middle = (fits + too_long) / 2;
        if reference(&sheet[..middle * LINE], &mut area).number == 0 {
            fits = middle;
        } else {
            too_long = middle;
        }
    }
    sheet.truncate(fits * LINE);
    sheet
}

/// A line in form.
fn line(letter: u8, fields: [u64; 4]) -> Vec<u8> {
    let [a, b, c, d] = fields;
    let mut bytes = vec![letter];
    bytes.extend_from_slice(format!("{a:7}{b:7}{c:7}{d:7}\n").as_bytes());
    bytes
}

fn short_sheets() -> Vec<Case> {
    let printed = include_bytes!("../../../docs/printed.sheet").to_vec();
    let mut cases = vec![lent(AREA, printed)];
    for seed in 0..31 {
        cases.push(lent(AREA, short_sheet(&mut Random::new(seed))));
    }
    cases
}

/// Ten to thirty lines on queues of all sizes.
fn short_sheet(random: &mut Random) -> Vec<u8> {
    let lines = random.between(10, 30);
    let processors = random.between(1, 16);
    let levels = random.between(1, 8);
    let mut sheet = line(b'Q', [processors, random.between(1, 200), levels, 0]);
    for _ in 1..lines {
        let p = random.below(processors);
        let fields = [
            p,
            random.below(1_000_000),
            random.below(1_000_000),
            height(random, levels),
        ];
        sheet.extend(match random.below(5) {
            0 => line(b'I', fields),
            1 => line(b'D', [p, 0, 0, 0]),
            _ => line(b'S', [p, random.between(1, 40), 0, 0]),
        });
    }
    sheet
}

/// Processor 0 takes the head's lock at level 1 and keeps it; the others wait
/// for it.
fn clock_sheet() -> Vec<u8> {
    let mut sheet = line(b'Q', [16, 200, 8, 0]);
    sheet.extend(line(b'I', [0, 500, 1, 1]));
    sheet.extend(line(b'S', [0, 10, 0, 0]));
    for p in 1..16 {
        sheet.extend(line(b'I', [p, 500 + p, 1, 1]));
    }
    for i in sheet.len() / LINE..FULL_SHEET {
        sheet.extend(line(b'S', [1 + i as u64 % 15, 999, 0, 0]));
    }
    sheet
}

/// Begins alone: sixteen are accepted, and nearly all others refused, for a
/// busy processor, a processor that the queue has not, or a number.
fn begins_sheet() -> Vec<u8> {
    let mut random = Random::new(0x6265_6769);
    let mut sheet = line(b'Q', [16, 200, 8, 0]);
    for i in 1..FULL_SHEET {
        let p = random.below(18);
        sheet.extend(if i % 2 == 0 {
            line(b'D', [p, 0, 0, 0])
        } else {
            let due = random.below(1_100_000);
            line(
                b'I',
                [p, due, random.below(1_100_000), random.between(0, 9)],
            )
        });
    }
    sheet
}

/// As a coin falls: half of the nodes have height 1, a quarter 2, and so on.
fn height(random: &mut Random, levels: u64) -> u64 {
    let mut height = 1;
    while height < levels && random.one_in(2) {
        height += 1;
    }
    height
}

/// A processor: two times in three a busy one, if there is one, and else any.
fn some_processor(queue: &Queue, random: &mut Random) -> u64 {
    let busy: Vec<u64> = (0..16)
        .filter(|&p| queue.processors[p as usize].stage != Stage::Idle)
        .collect();
    if busy.is_empty() || random.one_in(3) {
        return random.below(16);
    }
    random.among(&busy)
}

/// The next line of a working day: a step line of a processor that is busy, a
/// begin of one that is idle. The queue fills to some 150 entries.
fn day_line(queue: &mut Queue, random: &mut Random) -> Vec<u8> {
    let p = some_processor(queue, random);
    if queue.processors[p as usize].stage != Stage::Idle {
        let steps = random.between(5, 40);
        for _ in 0..steps {
            if queue.step_inner(p).is_err() {
                break;
            }
        }
        return line(b'S', [p, steps, 0, 0]);
    }
    if queue.in_use() < 150 && random.below(3) < 2 {
        let (due, item) = (random.below(1_000_000), random.between(1, 999_999));
        let height = height(random, 8);
        // A refused Insert is in the sheet too.
        let _ = queue.begin_insert_inner(p, due, item, height);
        return line(b'I', [p, due, item, height]);
    }
    queue
        .begin_delete_min_inner(p)
        .expect("an idle processor's begin");
    line(b'D', [p, 0, 0, 0])
}

fn day_sheet() -> Vec<u8> {
    let mut random = Random::new(0x64_6179);
    let mut queue = fresh(16, 200, 8).expect("the sizes are in range");
    let mut sheet = line(b'Q', [16, 200, 8, 0]);
    for _ in 1..FULL_SHEET {
        sheet.extend(day_line(&mut queue, &mut random));
    }
    sheet
}
