//! What the program prints for a sheet.

use crate::sheet::{self, SheetRefusal};

/// How much of the sheet is read, and how much is lent for the history.
pub const AREA: usize = 64 * 1024;

/// What the program prints.
#[derive(Clone, PartialEq, Eq, Debug)]
pub enum Printed {
    /// The history of an accepted sheet.
    History(Vec<u8>),
    /// The refusal of the sheet.
    Refusal(SheetRefusal),
}

impl Printed {
    /// The printed bytes.
    pub fn bytes(&self) -> Vec<u8> {
        match self {
            Printed::History(bytes) => bytes.clone(),
            Printed::Refusal(refusal) => {
                format!("{} {}\n", refusal.number, refusal.line).into_bytes()
            }
        }
    }
}

/// Runs the sheet on standard input `input`, of which the first 64 KiB are
/// read.
pub fn printed(input: &[u8]) -> Printed {
    let read = &input[..input.len().min(AREA)];
    let mut area = vec![0; AREA];
    match sheet::run(read, &mut area) {
        Ok(length) => {
            area.truncate(length);
            Printed::History(area)
        }
        Err(refusal) => Printed::Refusal(refusal),
    }
}
