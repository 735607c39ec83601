//! The tables' rows, one record for each value and each place, and a count that
//! shows that no field was left out.

use super::records::{put, record, spots, spots_past, Spot};
use super::rows::{Field, Row, Table, FIELDS};
use crate::queue::Queue;
use std::collections::BTreeMap;

/// A record with one field changed, and what is expected of it.
pub struct Case {
    /// The field.
    pub field: Field,
    /// Where it stands.
    pub spot: Spot,
    /// What it holds.
    pub value: u64,
    /// Whether it is taken; if not, every call is refused with 21.
    pub taken: bool,
    /// Whether the place is past P, N+1 or L.
    pub past: bool,
    /// The record.
    pub queue: Queue,
}

impl Case {
    /// The processor that the field is about; 0 for a field of no processor,
    /// and for one past P.
    pub fn processor(&self) -> u32 {
        match self.spot {
            Spot::Processor(p) | Spot::ProcessorLevel(p, _) | Spot::Stage(p, _) if !self.past => {
                p as u32
            }
            _ => 0,
        }
    }

    /// Field, place, value and expectation in words.
    pub fn words(&self, table: &Table) -> String {
        let (sizes, filling) = (table.sizes, table.filling);
        let (field, spot, value) = (self.field, self.spot, self.value);
        let expected = if self.taken { "taken" } else { "21" };
        let place = match spot {
            Spot::Stage(p, _) => format!("processor {p}, {:?}", self.queue.processors[p].stage),
            _ => format!("{spot:?}"),
        };
        format!("{sizes:?} {filling:?}: {field:?} at {place} is {value}, expected {expected}")
    }
}

/// Hands on a case for each value and place of each row, and counts them. Past
/// P, N+1 and L the values that are refused elsewhere are taken.
pub fn each_case(table: &Table, mut judge: impl FnMut(&Case)) -> Seen {
    let base = record(table);
    let mut seen = Seen::default();
    let mut hand_on = |row: &Row, spot: Spot, value: u64, taken: bool, past: bool| {
        let mut queue = base.clone();
        put(&mut queue, row.field, spot, value);
        let case = Case {
            field: row.field,
            spot,
            value,
            taken,
            past,
            queue,
        };
        judge(&case);
        seen.note(&case);
    };
    for row in table.rows() {
        for spot in spots(table, row.field) {
            for &value in row.taken {
                hand_on(row, spot, value, true, false);
            }
            for &value in row.refused {
                hand_on(row, spot, value, false, false);
            }
        }
        for spot in spots_past(table, row.field) {
            for &value in row.refused {
                hand_on(row, spot, value, true, true);
            }
        }
    }
    seen
}

/// How often each field was taken, refused, and taken past P, N+1 or L.
#[derive(Default, Debug)]
pub struct Seen(BTreeMap<Field, [u64; 3]>);

impl Seen {
    fn note(&mut self, case: &Case) {
        let column = match (case.past, case.taken) {
            (true, _) => 2,
            (false, taken) => usize::from(!taken),
        };
        self.0.entry(case.field).or_default()[column] += 1;
    }

    /// Prints the counts, and fails if a field was not taken or not refused,
    /// or not tried past the sizes where the table has such places.
    pub fn must_have_all(&self, table: &Table) {
        println!("{:?} {:?}:", table.sizes, table.filling);
        for field in FIELDS {
            let [taken, refused, past] = self.0.get(&field).copied().unwrap_or_default();
            println!("{field:>12?}: {taken:>5} taken, {refused:>5} with 21, {past:>4} past");
            assert!(taken > 0, "{field:?} was never taken");
            assert!(refused > 0, "{field:?} was never refused with 21");
            let once = matches!(
                field,
                Field::Processors
                    | Field::Nodes
                    | Field::Levels
                    | Field::Clock
                    | Field::HeadStamp
                    | Field::TailStamp
            );
            let none_past = once || table.sizes == [16, 200, 8];
            assert_eq!(past == 0, none_past, "{field:?} past the sizes: {past}");
        }
    }

    /// How many cases there were.
    pub fn total(&self) -> u64 {
        self.0.values().flatten().sum()
    }
}
