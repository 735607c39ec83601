//! Lists of calls as numbers: the stated one, and how many calls are made.

use darthog_reference::any_record::any_record;
use darthog_reference::image::encode;
use darthog_reference::lists::{run, run_inner};
use darthog_reference::queue::fresh;
use darthog_reference::random::Random;
use darthog_reference::stated::images;
use darthog_reference::stated::lists::{printed, split, Turn};
use std::collections::BTreeSet;

/// What an area for answers holds before a run.
fn junk(length: usize) -> Vec<u32> {
    (0..length as u32)
        .map(|place| place ^ 0xa5a5_a5a5)
        .collect()
}

#[test]
fn the_printed_run_is_answered_as_stated() {
    let (calls, answers) = split(&printed());
    let mut queue = fresh(1, 1, 1).unwrap();
    let mut area = junk(answers.len());
    assert_eq!(run(&mut queue, &calls, &mut area), Ok(()));
    assert_eq!(area, answers);
    let mut codes: Vec<u32> = answers.chunks(5).map(|answer| answer[0]).collect();
    codes.sort_unstable();
    codes.dedup();
    assert_eq!(codes, [0, 1, 3, 4, 5, 6, 32, 33, 34, 35, 36, 37, 39]);
}

/// The list up to a time leaves the image that is stated for it.
#[test]
fn the_printed_run_leaves_the_stated_images() {
    for (time, image) in images::printed() {
        let turns: Vec<Turn> = printed()
            .into_iter()
            .filter(|(_, answer)| answer[4] <= time)
            .collect();
        let (calls, answers) = split(&turns);
        let mut queue = fresh(1, 1, 1).unwrap();
        let mut area = junk(answers.len());
        assert_eq!(run(&mut queue, &calls, &mut area), Ok(()));
        assert_eq!(encode(&queue), image, "at {time}");
        assert_eq!(area, answers, "at {time}");
    }
}

#[test]
fn as_many_calls_are_made_as_both_lists_have_numbers_for() {
    let (calls, answers) = split(&printed());
    for asked in 0..calls.len() {
        for room in [0, 4, 5, 9, 10, 11, asked, asked + 4, asked + 5, 300] {
            let made = (asked / 5).min(room / 5);
            let mut queue = fresh(1, 1, 1).unwrap();
            let mut area = junk(room);
            assert_eq!(run(&mut queue, &calls[..asked], &mut area), Ok(()));
            let mut expected = junk(room);
            expected[..5 * made].copy_from_slice(&answers[..5 * made]);
            assert_eq!(area, expected, "{asked} numbers, room for {room}");
            let clock = made.checked_sub(1).map_or(0, |last| answers[5 * last + 4]);
            assert_eq!(queue.clock, clock);
        }
    }
}

/// Calls that are refused too, on records that no run reached.
#[test]
fn the_inner_form_does_the_same() {
    let mut random = Random::new(3);
    let mut codes = BTreeSet::new();
    for _ in 0..3_000 {
        let queue = any_record(&mut random);
        let processors = u64::from(queue.processor_count);
        let calls: Vec<u32> = (0..20)
            .flat_map(|_| {
                let kind = random.below(7);
                let processor = random.below(processors + 1);
                let (due, item) = (random.among(&[7, 1_000_000]), random.below(3));
                [kind, processor, due, item, random.below(4)].map(|number| number as u32)
            })
            .collect();
        let (mut first, mut second) = (queue.clone(), queue);
        let (mut told, mut inner) = (junk(calls.len()), junk(calls.len()));
        assert_eq!(run(&mut first, &calls, &mut told), Ok(()));
        run_inner(&mut second, &calls, &mut inner);
        assert_eq!(told, inner);
        assert!(first == second, "another record");
        codes.extend(told.chunks(5).map(|answer| answer[0]));
    }
    let all = [
        0, 1, 2, 3, 4, 5, 6, 7, 8, 31, 32, 33, 34, 35, 36, 37, 38, 39,
    ];
    assert_eq!(codes, BTreeSet::from(all));
}

#[test]
fn a_record_that_check_21_refuses_makes_no_call() {
    let (calls, answers) = split(&printed());
    let mut queue = fresh(1, 1, 1).unwrap();
    queue.clock = 1_000_000;
    let before = queue.clone();
    for asked in [0, calls.len()] {
        let mut area = junk(answers.len());
        assert_eq!(run(&mut queue, &calls[..asked], &mut area), Err(21));
        assert_eq!(area, junk(answers.len()));
        assert!(queue == before);
    }
}
