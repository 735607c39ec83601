//! Workers of one process share a queue. They are woken in a random order that
//! follows from a seed, and each makes one call when it is woken. The last of
//! them warms a cache: it takes withdrawals by Relaxed Delete_Mins, which need
//! not wait until the filing is answered. Now and then a studio renews, and the
//! worker that filed its withdrawal takes it back, if nobody has taken it.
//!
//!     darthog-workers SEED [SHEET]
//!
//! prints the history of the run, and on standard error which worker waits for
//! which, with the time, and which worker holds a withdrawal at the end that it
//! has not delivered. With a second argument the same calls are written to that
//! file as a sheet, for which the program prints the same history.

mod lines;
mod random;

use darthog_host::{Entry, Queue, Refusal, Step};
use lines::{History, Sheet};
use random::Random;
use std::process::ExitCode;

/// How often a worker is woken: the sheet and the history stay below the 64
/// KiB that the program has for each.
const WAKES: u32 = 1_700;

/// A queue with its workers, and the two records of what they did.
struct Run {
    queue: Queue,
    levels: u32,
    busy: Vec<bool>,
    /// What each worker has filed last, until its studio renews.
    filed: Vec<Option<Entry>>,
    /// What each worker has marked last.
    marked: Vec<Option<Entry>>,
    history: History,
    /// A line for each step that waits; the history has none.
    waits: Vec<String>,
    sheet: Sheet,
}

impl Run {
    fn new(processors: u32, entries: u32, levels: u32) -> Result<Run, Refusal> {
        Ok(Run {
            queue: Queue::new(processors, entries, levels)?,
            levels,
            busy: vec![false; processors as usize],
            filed: vec![None; processors as usize],
            marked: vec![None; processors as usize],
            history: History(String::new()),
            waits: Vec::new(),
            sheet: Sheet::new(processors, entries, levels),
        })
    }

    /// A worker is woken: it takes a step of its operation, or begins one.
    /// One call in sixty is one that should be refused.
    fn wake(&mut self, worker: u32, random: &mut Random) {
        if random.one_in(60) {
            self.bad_call(worker, random);
        } else if self.busy[worker as usize] {
            self.step(worker);
        } else if random.one_in(6) {
            self.renew(worker);
        } else if random.one_in(2) {
            self.insert(worker, random.below(50), 1 + random.below(999_999), random);
        } else {
            self.take(worker);
        }
    }

    /// A call that is mostly refused.
    fn bad_call(&mut self, worker: u32, random: &mut Random) {
        let unknown = self.busy.len() as u32 + random.below(100);
        match random.below(8) {
            7 => self.remove(worker, 5, 1_000_000 * random.below(2)),
            0 => self.step(unknown),
            1 => self.step(worker),
            2 => self.take(worker),
            3 => self.insert(worker, 1_000_000 + random.below(2), 5, random),
            4 => self.insert(worker, 5, 9_999_999, random),
            5 => self.insert(worker, 5, 0, random),
            _ => self.insert_with(worker, 5, 6, self.levels + 1),
        }
    }

    fn insert(&mut self, worker: u32, due: u32, item: u32, random: &mut Random) {
        let mut height = 1;
        while height < self.levels && random.one_in(2) {
            height += 1;
        }
        self.insert_with(worker, due, item, height);
    }

    fn insert_with(&mut self, worker: u32, due: u32, item: u32, height: u32) {
        self.sheet.line('I', [worker, due, item, height]);
        match self.queue.begin_insert(worker, due, item, height) {
            Ok(time) => {
                self.busy[worker as usize] = true;
                self.history.line('I', time, worker, [due, item, height]);
            }
            Err(refusal) => self.refused(worker, refusal),
        }
    }

    /// Takes back what the worker has filed last; where that was taken back
    /// already, or nothing was filed, it looks for a ticket that is not there.
    fn renew(&mut self, worker: u32) {
        let filed = self.filed[worker as usize].take();
        let (due, ticket) = filed.map_or((7, 999_999), |entry| (entry.due, entry.ticket));
        self.remove(worker, due, ticket);
    }

    fn remove(&mut self, worker: u32, due: u32, ticket: u32) {
        self.sheet.line('X', [worker, due, ticket, 0]);
        match self.queue.begin_remove(worker, due, ticket) {
            Ok(time) => {
                self.busy[worker as usize] = true;
                self.history.line('X', time, worker, [due, ticket, 0]);
            }
            Err(refusal) => self.refused(worker, refusal),
        }
    }

    fn take(&mut self, worker: u32) {
        let warms = worker as usize + 1 == self.busy.len();
        let (letter, begun) = if warms {
            ('L', self.queue.begin_relaxed(worker))
        } else {
            ('D', self.queue.begin_delete_min(worker))
        };
        self.sheet.line(letter, [worker, 0, 0, 0]);
        match begun {
            Ok(time) => {
                self.busy[worker as usize] = true;
                self.history.line(letter, time, worker, [0; 3]);
            }
            Err(refusal) => self.refused(worker, refusal),
        }
    }

    fn step(&mut self, worker: u32) {
        let stepped = self.queue.step(worker);
        self.sheet.step(worker, stepped.is_err());
        let time = self.queue.clock();
        match stepped {
            Ok(Step::Moved) => {}
            Ok(Step::Waits { holder }) => {
                let line = format!("worker {worker} waits for worker {holder}");
                self.waits.push(format!("at {time} {line}"));
            }
            Ok(Step::Marked(entry)) => {
                self.marked[worker as usize] = Some(entry);
                self.history.entry('M', time, worker, entry);
            }
            Ok(Step::Empty) => {
                self.busy[worker as usize] = false;
                self.history.line('E', time, worker, [0; 3]);
            }
            Ok(Step::NotThere { due, ticket }) => {
                self.busy[worker as usize] = false;
                self.history.line('N', time, worker, [due, ticket, 0]);
            }
            Ok(Step::Inserted(entry)) => {
                self.filed[worker as usize] = Some(entry);
                self.ends('A', worker, entry);
            }
            Ok(Step::HandedOut(entry)) => self.ends('T', worker, entry),
            Ok(Step::TakenBack(entry)) => self.ends('U', worker, entry),
            Err(refusal) => self.refused(worker, refusal),
        }
    }

    /// The worker's operation ends with this entry.
    fn ends(&mut self, letter: char, worker: u32, entry: Entry) {
        self.busy[worker as usize] = false;
        self.history
            .entry(letter, self.queue.clock(), worker, entry);
    }

    fn refused(&mut self, worker: u32, refusal: Refusal) {
        self.history.refused(self.queue.clock(), worker, refusal);
    }

    /// Which worker holds what: a line for each node that is marked, with the
    /// worker that has marked it and its withdrawal.
    fn holders(&self) -> Result<Vec<String>, Refusal> {
        let nodes = self.queue.markers()?;
        let line = |worker: u8| {
            let Entry { due, item, ticket } = self.marked[usize::from(worker)]?;
            let withdrawal = format!("withdrawal {due} {item} {ticket}");
            Some(format!("worker {worker} holds {withdrawal}"))
        };
        let markers = nodes.iter().filter_map(|node| node.marker);
        Ok(markers.filter_map(line).collect())
    }
}

fn run_of(seed: u64) -> Result<Run, Refusal> {
    let mut random = Random::new(seed);
    let workers = 1 + random.below(8);
    let mut run = Run::new(workers, 1 + random.below(20), 1 + random.below(4))?;
    for _ in 0..WAKES {
        let worker = random.below(workers);
        run.wake(worker, &mut random);
    }
    Ok(run)
}

fn main() -> ExitCode {
    let words: Vec<String> = std::env::args().skip(1).collect();
    let seed = words.first().and_then(|word| word.parse().ok());
    let (Some(seed), true) = (seed, words.len() <= 2) else {
        eprintln!("usage: darthog-workers SEED [SHEET]");
        return ExitCode::from(2);
    };
    let run = match run_of(seed) {
        Ok(run) => run,
        Err(refusal) => {
            eprintln!("making the queue: {refusal}");
            return ExitCode::FAILURE;
        }
    };
    print!("{}", run.history.0);
    run.waits.iter().for_each(|line| eprintln!("{line}"));
    match run.holders() {
        Ok(lines) => lines.iter().for_each(|line| eprintln!("{line}")),
        Err(refusal) => {
            eprintln!("asking who holds what: {refusal}");
            return ExitCode::FAILURE;
        }
    }
    if let Some(path) = words.get(1) {
        if let Err(error) = std::fs::write(path, run.sheet.finish()) {
            eprintln!("{path}: {error}");
            return ExitCode::FAILURE;
        }
    }
    ExitCode::SUCCESS
}
