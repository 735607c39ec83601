//! The expectations that are written by hand, against the reference: each
//! field of check 21 at the ends of its range, and sheets.

use darthog_reference::any_record::slots_past;
use darthog_reference::calls::{Call, Outcome};
use darthog_reference::markers::{lent, Listing};
use darthog_reference::perturb::CALLS;
use darthog_reference::queue::{fresh, Queue};
use darthog_reference::sheet::{run, SheetRefusal};
use darthog_reference::stated::backlogs;
use darthog_reference::stated::cases::each_case;
use darthog_reference::stated::columns;
use darthog_reference::stated::items;
use darthog_reference::stated::markers;
use darthog_reference::stated::records::record;
use darthog_reference::stated::rows::{Field, Filling, Row, FIELDS, TABLES};
use darthog_reference::stated::sheets::{areas, refused};

/// Makes every call on a copy of its own: 21 where that is expected and no
/// change; else never 21, and Backlog counts 0 and markers tell of 0 nodes,
/// since none is in use.
fn judge(queue: &Queue, taken: bool, what: &str) {
    for call in &CALLS {
        let mut after = queue.clone();
        let got = after.call(call);
        if !taken {
            assert_eq!(got, Outcome::Refused(21), "{what}, {call:?}");
            assert!(after == *queue, "{what}, {call:?} changed the record");
            continue;
        }
        assert_ne!(got, Outcome::Refused(21), "{what}, {call:?}");
        if *call == Call::Backlog {
            assert_eq!(got, Outcome::Count(0), "{what}, {call:?}");
        }
        if let Call::Markers { room } = *call {
            let (nodes, area) = (0, lent(room));
            let untouched = Outcome::Listed(Listing { nodes, area });
            assert_eq!(got, untouched, "{what}, {call:?}");
        }
        let same = slots_past(&after) == slots_past(queue);
        assert!(same, "{what}, {call:?} changed a slot past the sizes");
    }
}

#[test]
fn each_field_is_taken_and_refused_as_stated() {
    let mut total = 0;
    for table in &TABLES {
        let base = format!("{:?} {:?} as it is", table.sizes, table.filling);
        judge(&record(table), true, &base);
        let seen = each_case(table, |case| {
            judge(&case.queue, case.taken, &case.words(table));
        });
        seen.must_have_all(table);
        total += seen.total();
    }
    println!("{total} cases");
    assert!(total > 45_000, "only {total} cases");
}

#[test]
fn every_table_has_one_row_for_each_field() {
    for table in &TABLES {
        let mut fields: Vec<Field> = table.rows().map(|row| row.field).collect();
        fields.sort_unstable();
        assert_eq!(fields, FIELDS, "{:?}", table.sizes);
        let full = |row: &Row| !row.taken.is_empty() && !row.refused.is_empty();
        assert!(table.rows().all(full), "{:?}", table.sizes);
    }
    let fillings = [Filling::Least, Filling::Greatest];
    assert!(TABLES
        .chunks(2)
        .all(|pair| [pair[0].filling, pair[1].filling] == fillings));
}

/// What an area holds before a run.
fn junk(length: usize) -> Vec<u8> {
    (0..length)
        .map(|place| (place % 251) as u8 | 0x80)
        .collect()
}

#[test]
fn a_history_fits_into_the_stated_areas() {
    let (mut fitted, mut short) = (0, 0);
    for case in areas() {
        let name = case.name;
        for &length in case.fits {
            let mut area = junk(length);
            let mut expected = area.clone();
            expected[..case.history.len()].copy_from_slice(&case.history);
            let got = run(&case.sheet, &mut area);
            assert_eq!(got, Ok(case.history.len()), "{name}, area of {length}");
            assert!(area == expected, "{name}, area of {length}: other bytes");
            fitted += 1;
        }
        for &length in case.too_short {
            let mut area = junk(length);
            let expected = SheetRefusal {
                number: 43,
                line: 0,
            };
            let got = run(&case.sheet, &mut area);
            assert_eq!(got, Err(expected), "{name}, area of {length}");
            assert!(area == junk(length), "{name}, area of {length}: touched");
            short += 1;
        }
    }
    println!("{fitted} areas with room, {short} without");
    assert_eq!((fitted, short), (57, 59));
}

#[test]
fn sheets_are_refused_as_stated() {
    let mut numbers: Vec<u32> = Vec::new();
    for (sheet, number, line) in refused() {
        for length in [0, 1, 65_536, 65_537] {
            let mut area = junk(length);
            let expected = SheetRefusal { number, line };
            let words = String::from_utf8_lossy(&sheet);
            let got = run(&sheet, &mut area);
            assert_eq!(got, Err(expected), "area of {length}: {words}");
            assert!(area == junk(length), "area of {length}: touched: {words}");
        }
        numbers.push(number);
    }
    numbers.sort_unstable();
    numbers.dedup();
    assert_eq!(numbers, [11, 12, 13, 41, 42]);
}

#[test]
fn an_insert_with_item_0_is_refused_in_its_place() {
    let before = items::no_node_free();
    for ([processor, due, item, height], number) in items::REFUSED {
        let mut queue = before.clone();
        let refused = queue.begin_insert(processor, due, item, height);
        assert_eq!(refused, Err(number), "{processor} {due} {item} {height}");
        assert!(queue == before, "{number} changed the record");
    }
    let mut ended = before;
    ended.clock = 999_999;
    assert_eq!(ended.begin_insert(1, 7, 0, 1), Err(31));
    ended.clock = 1_000_000;
    assert_eq!(ended.begin_insert(1, 7, 0, 1), Err(21));
}

#[test]
fn an_entry_with_item_0_goes_on_as_any_other() {
    let mut queue = items::begun_with_item_0();
    for (call, outcome) in items::goes_on() {
        assert_eq!(queue.call(&call), outcome, "{call:?} at {}", queue.clock);
    }
    assert_eq!(queue.clock, 29);
}

#[test]
fn backlog_counts_the_stated_nodes() {
    let mut cases = 0;
    for backlogs::Counted { what, queue, count } in backlogs::records() {
        assert_eq!(queue.backlog(), Ok(count), "{what}");
        cases += 1;
    }
    println!("{cases} records");
    assert!(cases > 400, "only {cases} records");
}

#[test]
fn backlog_is_as_stated_along_the_printed_run() {
    let mut queue = fresh(1, 1, 1).expect("the sizes are in range");
    let mut calls = backlogs::printed().into_iter();
    for (from, to, count) in backlogs::PRINTED {
        for time in from..=to {
            assert_eq!((queue.clock, queue.backlog()), (time, Ok(count)));
            if let Some(call) = calls.next() {
                queue.call(&call);
            }
        }
    }
    assert_eq!(calls.next(), None, "the run is longer");
}

/// Areas that are enough and areas that are not, each with what is told.
fn judge_areas(queue: &Queue, bytes: &[u8], what: &str) -> (u64, u64) {
    let nodes = bytes.len() / 2;
    let (enough, too_short) = markers::rooms(nodes);
    for &length in enough {
        let mut area = junk(length);
        let mut expected = junk(length);
        expected[..bytes.len()].copy_from_slice(bytes);
        assert_eq!(
            queue.markers(&mut area),
            Ok(nodes as u32),
            "{what}, {length}"
        );
        assert!(area == expected, "{what}, area of {length}: other bytes");
    }
    for &length in too_short {
        let mut area = junk(length);
        assert_eq!(queue.markers(&mut area), Err(43), "{what}, {length}");
        assert!(area == junk(length), "{what}, area of {length}: touched");
    }
    (enough.len() as u64, too_short.len() as u64)
}

#[test]
fn markers_tell_of_the_stated_nodes() {
    let (mut cases, mut fitted, mut short) = (0, 0, 0);
    for markers::Told { what, queue, bytes } in markers::records() {
        let (enough, too_short) = judge_areas(&queue, &bytes, &what);
        (cases, fitted, short) = (cases + 1, fitted + enough, short + too_short);
    }
    println!("{cases} records, {fitted} areas with room, {short} without");
    assert!(cases > 700, "only {cases} records");
    assert!(fitted > 3_000 && short > 2_000, "{fitted} {short}");
}

#[test]
fn markers_are_as_stated_along_the_runs() {
    for run in markers::runs() {
        let mut queue = fresh(run.processors.into(), 1, 1).expect("the sizes are in range");
        let mut calls = run.calls.into_iter();
        for (from, to, bytes, mark) in run.spans {
            for time in *from..=*to {
                let what = format!("{}, at {time}", run.what);
                assert_eq!((queue.clock, queue.nodes[1].mark), (time, *mark), "{what}");
                judge_areas(&queue, bytes, &what);
                if let Some(call) = calls.next() {
                    queue.call(&call);
                }
            }
        }
        assert_eq!(calls.next(), None, "{} is longer", run.what);
    }
}

#[test]
fn columns_are_read_as_stated() {
    let out_of_form = Err(SheetRefusal {
        number: 41,
        line: 2,
    });
    for field in columns::fields() {
        let words = String::from_utf8_lossy(&field.sheet).into_owned();
        let mut area = [0xa5; 37];
        let ran = run(&field.sheet, &mut area);
        match field.history {
            None => {
                assert_eq!(ran, out_of_form, "{words}");
                assert_eq!(area, [0xa5; 37], "{words}");
            }
            Some(history) => {
                assert_eq!(ran, Ok(37), "{words}");
                assert_eq!(area[..], history[..], "{words}");
            }
        }
    }
}
