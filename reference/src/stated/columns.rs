//! Seven columns with their number, or out of form; and what a sheet prints
//! that has them in one of its fields.

use super::sheets::Q;

/// Seven columns, and the number that they hold.
pub const COLUMNS: [(&[u8; 7], Option<u32>); 54] = [
    (b"      0", Some(0)),
    (b"      1", Some(1)),
    (b"      9", Some(9)),
    (b"     10", Some(10)),
    (b"     42", Some(42)),
    (b"    100", Some(100)),
    (b"    909", Some(909)),
    (b"    999", Some(999)),
    (b"   1000", Some(1_000)),
    (b"  12345", Some(12_345)),
    (b"  99999", Some(99_999)),
    (b" 100000", Some(100_000)),
    (b" 999999", Some(999_999)),
    (b"1000000", Some(1_000_000)),
    (b"1234567", Some(1_234_567)),
    (b"9000009", Some(9_000_009)),
    (b"9999999", Some(9_999_999)),
    (b"       ", None), // no digit
    (b"     00", None), // a 0 before the number
    (b"     01", None),
    (b"    007", None),
    (b" 012345", None),
    (b"0000000", None),
    (b"0000001", None),
    (b"0123456", None),
    (b"     0 ", None), // a space behind a digit
    (b"0      ", None),
    (b"1      ", None),
    (b" 1     ", None),
    (b"    10 ", None),
    (b"    1 0", None),
    (b"1 23456", None),
    (b"12345 6", None),
    (b"123456 ", None),
    (b"      /", None), // beside the digits
    (b"      :", None),
    (b"     1/", None),
    (b"     :1", None),
    (b"/999999", None),
    (b"999:999", None),
    (b"     -1", None),
    (b"     +1", None),
    (b"    1.0", None),
    (b"    0x1", None),
    (b"      a", None),
    (b"\t     1", None), // beside the space
    (b"     !1", None),
    (b"\n     1", None),
    (b"\0\0\0\0\0\01", None),
    (b"      \0", None),
    (b"      \x11", None), // the low bits of a 1
    (b"      \xb1", None),
    (b"\xa0\xa0\xa0\xa0\xa0\xa01", None), // those of a space
    (b"\xb1\xb2\xb3\xb4\xb5\xb6\xb7", None),
];

/// A sheet whose second line has given columns in one of its fields, and what
/// it prints; none if that line is out of form.
pub struct Field {
    /// The sheet.
    pub sheet: Vec<u8>,
    /// Its history.
    pub history: Option<Vec<u8>>,
}

/// A line of a sheet with these columns in place of those of a field.
fn with(line: &str, field: usize, columns: &[u8; 7]) -> Vec<u8> {
    let mut line = line.as_bytes().to_vec();
    line[1 + 7 * field..8 + 7 * field].copy_from_slice(columns);
    line
}

/// What a call of the processor of these columns prints, which the queue has not.
fn stranger(columns: &[u8; 7]) -> Vec<u8> {
    let mut line = b"R      0      0     32      0      0\n".to_vec();
    line[8..15].copy_from_slice(columns);
    line
}

/// What an Insert by processor 0 prints with these columns in one of its
/// fields (processor, due, item, height).
fn inserted(field: usize, columns: &[u8; 7], number: u32) -> Vec<u8> {
    let begun = b"I      1      0      7     42      1\n".to_vec();
    let refused = |refusal: u32| format!("R      0      0{refusal:7}      0      0\n").into_bytes();
    let printed = |at: usize| {
        let mut line = begun.clone();
        line[at..at + 7].copy_from_slice(columns);
        line
    };
    match (field, number) {
        (0, 0) | (3, 1) => begun,
        (0, _) => stranger(columns),
        (1, 0..=999_999) => printed(15),
        (2, 1..=999_999) => printed(22),
        (1 | 2, 1_000_000..) => refused(35),
        (2, 0) => refused(39),
        _ => refused(36),
    }
}

/// What the begin of a Delete_Min by processor 0, ordinary (D) or Relaxed (L),
/// prints with these columns in one of its fields; it uses the first alone.
fn begun(letter: u8, field: usize, columns: &[u8; 7], number: u32) -> Option<Vec<u8>> {
    match (field, number) {
        (_, 0) => Some([&[letter], &b"      1      0      0      0      0\n"[..]].concat()),
        (0, _) => Some(stranger(columns)),
        _ => None,
    }
}

/// Each of the columns in each field of an Insert's line; as the step count of
/// an S line; and in each field of a D and of an L line, which use the first.
pub fn fields() -> Vec<Field> {
    let mut fields = Vec::new();
    let mut add = |line: Vec<u8>, history| {
        let sheet = [Q.as_bytes(), &line].concat();
        fields.push(Field { sheet, history });
    };
    for (columns, number) in COLUMNS {
        for field in 0..4 {
            let line = with("I      0      7     42      1\n", field, columns);
            add(line, number.map(|number| inserted(field, columns, number)));
        }
        let idle = b"R      0      0     34      0      0\n".to_vec();
        let steps = number.filter(|steps| (1..=999).contains(steps));
        let line = with("S      0      1      0      0\n", 1, columns);
        add(line, steps.map(|_| idle));
        for letter in [b'D', b'L'] {
            for field in 0..4 {
                let line = with("D      0      0      0      0\n", field, columns);
                let history = number.and_then(|number| begun(letter, field, columns, number));
                add([&[letter], &line[1..]].concat(), history);
            }
        }
    }
    fields
}
