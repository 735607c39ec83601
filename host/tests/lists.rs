//! Lists of calls in one entry: every answer, and the bytes afterwards, are
//! those of the reference, which makes one call at a time. Areas for answers
//! are too short, too long and of no whole number of answers, and what a list
//! does not write stays.

mod common;

use common::{any_call, area_with, compare_list, edge, expected_list, junk, reply, seed};
use common::{Call, Counts, Lent, MARGIN};
use darthog_reference::any_record::any_record;
use darthog_reference::image::encode;
use darthog_reference::queue::{fresh, Queue, MAX_NUMBER};
use darthog_reference::random::Random;
use darthog_reference::schedule::{Schedule, Sizes};
use darthog_reference::stated::images;
use darthog_reference::stated::lists::{printed, split, Turn};
use darthog_reference::trial::fresh_of;

#[test]
fn the_printed_run_is_answered_as_stated() {
    let mut random = Random::new(seed());
    let fresh_image = images::printed().remove(0).1;
    for (time, image) in images::printed() {
        let turns: Vec<Turn> = printed()
            .into_iter()
            .filter(|(_, answer)| answer[4] <= time)
            .collect();
        let (calls, answers) = split(&turns);
        let mut lent = Lent::new(&fresh_image, &mut random);
        let room = answers.len();
        let got = lent.list(&calls, room);
        assert_eq!(got, (0, area_with(&answers, room)), "to {time}");
        assert_eq!(lent.now(), image, "at {time}");
    }
    let (calls, answers) = split(&printed());
    let got = Lent::new(&fresh_image, &mut random).list(&calls, answers.len());
    assert_eq!(got, (0, area_with(&answers, answers.len())));
}

/// So many calls are made as there are five numbers for in both lists, whatever
/// is left over in either.
#[test]
fn as_many_calls_are_made_as_both_lists_have_numbers_for() {
    let mut random = Random::new(seed());
    let (calls, answers) = split(&printed());
    let image = encode(&fresh(1, 1, 1).expect("sizes in range"));
    for asked in 0..=calls.len() {
        for room in [0, 1, 4, 5, 6, 9, 10, 14, asked, asked + 1, asked + 5, 400] {
            let made = 5 * (asked / 5).min(room / 5);
            let area = compare_list(&image, &calls[..asked], room, &mut random);
            assert_eq!(area, area_with(&answers[..made], room), "{asked} {room}");
        }
    }
}

/// A call's numbers as a list may have them: any kind but 1, 2, 4 and 5 is a step,
/// and numbers that the call has not hold anything.
fn strange_numbers(call: &Call, random: &mut Random) -> Option<[u32; 5]> {
    let [mut kind, processor, mut due, mut item, mut height] = call.numbers()?;
    if let Call::Step(_) = call {
        let kinds = [0, 3, 6, 7, 255, 256, 257, 258, 260, 261, 65_537, 65_541];
        kind = random.among(&kinds);
        if random.one_in(5) {
            kind = random.among(&[1 << 31, (1 << 31) + 4, (1 << 31) + 5, u32::MAX]);
        }
    }
    match call {
        Call::Insert(..) => {}
        Call::Remove(..) => height = edge(random),
        _ => (due, item, height) = (edge(random), edge(random), edge(random)),
    }
    Some([kind, processor, due, item, height])
}

/// A list of any calls on a record of these sizes.
fn any_list(length: u64, record: &Queue, random: &mut Random) -> Vec<u32> {
    let mut calls = Vec::new();
    for _ in 0..length {
        let call = any_call(random, record);
        calls.extend(strange_numbers(&call, random).into_iter().flatten());
    }
    // numbers that are no whole call
    calls.extend((0..random.below(5)).map(|_| edge(random)));
    calls
}

/// Room for the answers to a list: mostly what they take, else more or less.
fn any_room(calls: &[u32], random: &mut Random) -> usize {
    let right = calls.len() / 5 * 5;
    match random.below(4) {
        0 => random.below(right as u64 + 1) as usize,
        1 => right + random.below(40) as usize,
        _ => right,
    }
}

/// Notes the codes of a list's answers.
fn note(counts: &mut Counts, calls: &[u32], area: &[u32], room: usize) {
    let answers = area[MARGIN..MARGIN + room].chunks_exact(5);
    for (call, answer) in calls.chunks_exact(5).zip(answers) {
        let entry = match call[0] {
            1 => "insert",
            2 => "delete_min",
            4 => "relaxed",
            5 => "remove",
            _ => "step",
        };
        counts.note_reply(entry, &reply([answer[0], answer[1], answer[2], answer[3]]));
    }
}

#[test]
fn lists_on_any_record_do_what_the_reference_does_call_by_call() {
    let mut random = Random::new(seed());
    let mut counts = Counts::default();
    for _ in 0..6_000 {
        let record = any_record(&mut random);
        let mut bytes = encode(&record);
        for _ in 0..3 {
            let length = random.among(&[0, 1, 2, 3, 10, 40]);
            let calls = any_list(length, &record, &mut random);
            let room = any_room(&calls, &mut random);
            let area = compare_list(&bytes, &calls, room, &mut random);
            note(&mut counts, &calls, &area, room);
            bytes = expected_list(&bytes, &calls, room).2;
        }
    }
    counts.must_have(&[
        ("insert", &[0, 31, 32, 33, 35, 39, 36, 37]),
        ("delete_min", &[0, 31, 32, 33]),
        ("relaxed", &[0, 31, 32, 33]),
        ("remove", &[0, 31, 32, 33, 38]),
        ("step", &[1, 2, 3, 4, 5, 6, 7, 8, 31, 32, 34]),
    ]);
    counts.must_wait_for(8);
}

/// A schedule in lists of any length, on one queue.
fn run(number: u64, random: &mut Random, counts: &mut Counts) {
    let sizes = match number % 3 {
        0 => Sizes::small(random),
        1 => Sizes::middle(random),
        _ => Sizes::large(random),
    };
    let mut record = fresh_of(sizes);
    // one schedule in five runs into the end of the clock
    if number % 5 == 4 {
        record.clock = MAX_NUMBER - 400;
    }
    let mut lent = Lent::new(&encode(&record), random);
    let mut schedule = Schedule::new(random.draw(), sizes);
    for _ in 0..12 {
        let before = lent.now().to_vec();
        let mut calls = Vec::new();
        for _ in 0..random.among(&[1, 7, 60, 300]) {
            let asked = schedule.next_call();
            let numbers = Call::of(&asked).numbers();
            let outcome = record.call(&asked);
            schedule.note(&asked, &outcome);
            calls.extend(numbers.into_iter().flatten());
        }
        let room = calls.len();
        let (code, area, after) = expected_list(&before, &calls, room);
        assert_eq!(lent.list(&calls, room), (code, area.clone()), "{number}");
        assert!(lent.now() == after, "schedule {number}: other bytes");
        assert!(after == encode(&record), "schedule {number}: the schedule");
        note(counts, &calls, &area, room);
    }
}

#[test]
fn a_schedule_in_lists_does_what_the_reference_does_call_by_call() {
    let mut random = Random::new(seed());
    let mut counts = Counts::default();
    for number in 0..200 {
        run(number, &mut random, &mut counts);
    }
    counts.must_have(&[
        ("insert", &[0, 31, 32, 33, 35, 39, 36, 37]),
        ("delete_min", &[0, 31, 32, 33]),
        ("relaxed", &[0, 31, 32, 33]),
        ("remove", &[0, 31, 32, 33, 38]),
        ("step", &[1, 2, 3, 4, 5, 6, 7, 8, 31, 32, 34]),
    ]);
    counts.must_wait_for(16);
}

/// Each byte of an image damaged: 21 before the first call and nothing touched,
/// or the reference's answers.
#[test]
fn damaged_bytes_refuse_a_whole_list() {
    let mut random = Random::new(seed());
    let (mut taken, mut refused) = (0, 0);
    for (p, n, l) in [(1, 1, 1), (3, 5, 4), (16, 20, 8)] {
        let mut record = fresh(p, n, l).expect("sizes in range");
        let calls = any_list(30, &record, &mut random);
        record.begin_insert(0, 1, 2, l).expect("a node is free");
        record.step(0).expect("it is busy");
        let image = encode(&record);
        for at in 0..image.len() {
            for value in [image[at] ^ 1, image[at] ^ 0x80, random.draw() as u8] {
                let mut bytes = image.clone();
                bytes[at] = value;
                let room = calls.len();
                let area = compare_list(&bytes, &calls, room, &mut random);
                // an empty list looks at the bytes too
                compare_list(&bytes, &[], 0, &mut random);
                if area == junk(room) {
                    refused += 1;
                } else {
                    taken += 1;
                }
            }
        }
    }
    println!("{taken} lists taken, {refused} refused with 21");
    assert!(taken > 500 && refused > 500, "{taken} {refused}");
}

/// The clock ends within a list: the calls up to there are made, those behind
/// are refused with 31.
#[test]
fn the_clock_ends_within_a_list() {
    let mut random = Random::new(seed());
    let mut record = fresh(2, 1, 1).expect("sizes in range");
    record.clock = 999_997;
    let calls = [
        [2, 0, 0, 0, 0],
        [2, 0, 0, 0, 0],
        [3, 0, 0, 0, 0],
        [3, 0, 0, 0, 0],
        [2, 9, 0, 0, 0],
        [1, 9, 0, 0, 0],
        [4, 9, 0, 0, 0],
        [5, 9, 0, 0, 0],
    ];
    let answers = [
        [0, 999_998, 0, 0, 999_998],
        [33, 0, 0, 0, 999_998],
        [3, 0, 0, 0, 999_999],
        [31, 0, 0, 0, 999_999],
        [31, 0, 0, 0, 999_999],
        [31, 0, 0, 0, 999_999],
        [31, 0, 0, 0, 999_999],
        [31, 0, 0, 0, 999_999],
    ];
    let area = compare_list(&encode(&record), calls.as_flattened(), 40, &mut random);
    assert_eq!(area, area_with(answers.as_flattened(), 40));
}
