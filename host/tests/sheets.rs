//! The run of a sheet by its entry for hosts (include/darthog_sheet.h), with
//! what is expected written by hand: areas as long as the history, a byte less
//! and a byte more, below and above 65,536 bytes, where the code runs a sheet
//! once and twice; and refused sheets. Every byte around the area and in it is
//! looked at. The reference must say the same. `.ci/archive host_sheet` writes
//! the library that is linked here.

use darthog_reference::sheet::{run, SheetRefusal};
use darthog_reference::stated::columns::fields;
use darthog_reference::stated::sheets::{areas, refused};

/// What a run gives back: 0 and the length of the history, or the number of the
/// refusal and its line.
#[repr(C)]
#[derive(Clone, Copy, PartialEq, Eq, Debug)]
struct SheetReply {
    number: u32,
    value: usize,
}

// Both pointers are not null, and point to so many bytes that nobody else uses
// during the call, those of the history to be written.
#[link(name = "host_sheet", kind = "static")]
extern "C" {
    fn darthog_run_sheet(
        sheet: *const u8,
        sheet_length: usize,
        history: *mut u8,
        history_length: usize,
    ) -> SheetReply;
}

/// Guard bytes before and after an area.
const GUARD: usize = 96;

/// What stands at a place before a run, in the area and around it.
fn junk(length: usize) -> Vec<u8> {
    let byte = |place: usize| (place % 251) as u8 ^ 0xa5;
    (0..length).map(byte).collect()
}

/// Runs a sheet with an area of this length between guards: the reply, and all
/// bytes afterwards.
fn lent(sheet: &[u8], length: usize) -> (SheetReply, Vec<u8>) {
    let mut bytes = junk(GUARD + length + GUARD);
    let area = &mut bytes[GUARD..GUARD + length];
    // Safe: the sheet and the area are lent with their lengths; a slice's pointer is not null.
    let reply =
        unsafe { darthog_run_sheet(sheet.as_ptr(), sheet.len(), area.as_mut_ptr(), area.len()) };
    (reply, bytes)
}

/// The reference's run, in the same form.
fn by_reference(sheet: &[u8], length: usize) -> (SheetReply, Vec<u8>) {
    let mut bytes = junk(GUARD + length + GUARD);
    let reply = match run(sheet, &mut bytes[GUARD..GUARD + length]) {
        Ok(value) => SheetReply { number: 0, value },
        Err(SheetRefusal { number, line }) => SheetReply {
            number,
            value: line,
        },
    };
    (reply, bytes)
}

/// Runs a sheet: the reply and every byte are those that are expected, and the
/// reference's.
fn judge(sheet: &[u8], length: usize, reply: SheetReply, history: &[u8], what: &str) {
    let mut expected = junk(GUARD + length + GUARD);
    expected[GUARD..GUARD + history.len()].copy_from_slice(history);
    for (who, (got, bytes)) in [
        ("the entry", lent(sheet, length)),
        ("the reference", by_reference(sheet, length)),
    ] {
        assert_eq!(got, reply, "{what}, area of {length}: {who}");
        let place = bytes.iter().zip(&expected).position(|(a, b)| a != b);
        if let Some(place) = place {
            let (is, should) = (bytes[place], expected[place]);
            let at = place as i64 - GUARD as i64;
            panic!("{what}, area of {length}: byte {at} of {who} is {is}, expected {should}");
        }
    }
}

#[test]
fn a_history_fits_into_the_stated_areas() {
    let no_room = SheetReply {
        number: 43,
        value: 0,
    };
    // with room and without, in areas of at most 65,536 bytes and in longer ones
    let mut made = [[0, 0], [0, 0]];
    for case in areas() {
        let ran = SheetReply {
            number: 0,
            value: case.history.len(),
        };
        for &length in case.fits {
            judge(&case.sheet, length, ran, &case.history, case.name);
            made[0][usize::from(length > 65_536)] += 1;
        }
        for &length in case.too_short {
            judge(&case.sheet, length, no_room, &[], case.name);
            made[1][usize::from(length > 65_536)] += 1;
        }
    }
    println!(
        "areas to 65,536 bytes and longer, with room {:?}, without {:?}",
        made[0], made[1]
    );
    assert_eq!(made, [[28, 29], [42, 17]]);
}

#[test]
fn a_refused_sheet_leaves_every_area_as_it_was() {
    let mut numbers = [0; 5];
    let known = [11, 12, 13, 41, 42];
    for (sheet, number, line) in refused() {
        let reply = SheetReply {
            number,
            value: line,
        };
        let words = String::from_utf8_lossy(&sheet).into_owned();
        for length in [0, 1, 37, 65_536, 65_537] {
            judge(&sheet, length, reply, &[], &words);
        }
        let place = known.iter().position(|&other| other == number);
        numbers[place.expect("a refusal of a sheet")] += 1;
    }
    println!("refused sheets by number, {known:?}: {numbers:?}");
    assert!(numbers.iter().all(|&count| count > 0), "{numbers:?}");
}

#[test]
fn columns_are_read_as_stated() {
    let out_of_form = SheetReply {
        number: 41,
        value: 2,
    };
    let printed = SheetReply {
        number: 0,
        value: 37,
    };
    let mut made = [0, 0];
    for field in fields() {
        let words = String::from_utf8_lossy(&field.sheet).into_owned();
        let (reply, history) = match field.history {
            None => (out_of_form, Vec::new()),
            Some(history) => (printed, history),
        };
        for length in [37, 65_537] {
            judge(&field.sheet, length, reply, &history, &words);
        }
        made[usize::from(reply == printed)] += 1;
    }
    println!("columns in a field of a line, out of form and in form: {made:?}");
    assert!(made.iter().all(|&count| count > 0), "{made:?}");
}
