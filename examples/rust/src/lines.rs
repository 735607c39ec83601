//! The lines of a history and of a sheet: a letter, numbers in columns of
//! seven, a line feed.

use darthog_host::{Entry, Refusal};

/// What is printed.
pub struct History(pub String);

impl History {
    /// A line: time and processor, then three values.
    pub fn line(&mut self, letter: char, time: u32, processor: u32, values: [u32; 3]) {
        let [a, b, c] = values;
        self.0
            .push_str(&format!("{letter}{time:7}{processor:7}{a:7}{b:7}{c:7}\n"));
    }

    /// A line about an entry.
    pub fn entry(&mut self, letter: char, time: u32, processor: u32, entry: Entry) {
        let values = [entry.due, entry.item, entry.ticket];
        self.line(letter, time, processor, values);
    }

    /// A refused call; the clock stands.
    pub fn refused(&mut self, time: u32, processor: u32, refusal: Refusal) {
        self.line('R', time, processor, [refusal.number(), 0, 0]);
    }
}

/// The calls as a sheet. Steps of one processor that follow each other are one
/// line, up to a refused one, which would end the line.
pub struct Sheet {
    text: String,
    steps: Option<(u32, u32)>,
}

/// The most steps that a line can have.
const MOST_STEPS: u32 = 999;

impl Sheet {
    /// A sheet for a queue of these sizes.
    pub fn new(processors: u32, entries: u32, levels: u32) -> Sheet {
        let mut sheet = Sheet {
            text: String::new(),
            steps: None,
        };
        sheet.line('Q', [processors, entries, levels, 0]);
        sheet
    }

    /// A line of another call than a step.
    pub fn line(&mut self, letter: char, values: [u32; 4]) {
        self.end_steps();
        let [a, b, c, d] = values;
        self.text
            .push_str(&format!("{letter}{a:7}{b:7}{c:7}{d:7}\n"));
    }

    /// A step of a processor.
    pub fn step(&mut self, processor: u32, refused: bool) {
        match &mut self.steps {
            Some((p, count)) if *p == processor && *count < MOST_STEPS => *count += 1,
            _ => {
                self.end_steps();
                self.steps = Some((processor, 1));
            }
        }
        if refused {
            self.end_steps();
        }
    }

    fn end_steps(&mut self) {
        if let Some((processor, count)) = self.steps.take() {
            self.line('S', [processor, count, 0, 0]);
        }
    }

    /// The whole sheet.
    pub fn finish(mut self) -> String {
        self.end_steps();
        self.text
    }
}
