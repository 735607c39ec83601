//! The Relaxed Delete_Min (document 02, W3): the expectations that are written by
//! hand, one call at a time, as lists and as sheets, with backlog, images and the
//! whole invariant along the way.

mod counted;

use counted::{goes_as_stated, is_answered_as_a_list, start, step_as_stated};
use darthog_reference::image::encode;
use darthog_reference::lists::call_of;
use darthog_reference::sheet;
use darthog_reference::stated::relaxed::{before_its_answer, images, runs};
use darthog_reference::stated::relaxed::{HISTORY, REFUSED, REFUSED_HISTORY, SHEET};
use darthog_reference::stated::walks::cases;

#[test]
fn the_stated_runs_go_as_stated() {
    let (mut late, mut waits) = (0, 0);
    for one in runs() {
        goes_as_stated(&one);
        let mut handed = Vec::new();
        for (_, [code, _, _, third, _]) in &one.0.turns {
            match code {
                6 => handed.push(*third),
                5 if handed.contains(third) => late += 1,
                2 => waits += 1,
                _ => {}
            }
        }
    }
    println!("{late} entries answered after their hand-out, {waits} waits");
    assert_eq!((late, waits), (13, 25));
}

#[test]
fn the_stated_runs_are_answered_as_lists() {
    runs().iter().for_each(is_answered_as_a_list);
}

#[test]
fn the_first_run_has_the_stated_images() {
    let mut queue = start([2, 1, 1]);
    let mut expected = images().into_iter().peekable();
    for (call, _) in before_its_answer(0, 1) {
        let before = queue.clock;
        queue.call(&call_of(call));
        if let Some((_, image)) = expected.next_if(|(time, _)| *time == queue.clock) {
            assert!(before < queue.clock, "the call is accepted");
            assert_eq!(encode(&queue), image, "at {}", queue.clock);
        }
    }
    assert_eq!(expected.next(), None, "the run is shorter");
}

#[test]
fn steps_of_a_relaxed_walk_do_as_stated_on_any_record() {
    let codes = step_as_stated(cases());
    assert_eq!(codes, [0, 30, 0, 6, 12]);
}

#[test]
fn the_stated_sheets_print_as_stated() {
    for (sheet, history) in [(SHEET, HISTORY), (REFUSED, REFUSED_HISTORY)] {
        let mut area = vec![7; 1000];
        let length = sheet::run(sheet.as_bytes(), &mut area).expect("it is accepted");
        assert_eq!(std::str::from_utf8(&area[..length]), Ok(history));
        assert!(area[length..].iter().all(|&byte| byte == 7));
    }
}

/// Each letter of the sheet against each of the history, by what it begins.
#[test]
fn an_l_line_begins_as_a_d_line_does() {
    let with = |letter: char| {
        let lines = SHEET.replace("\nL", &format!("\n{letter}"));
        let mut area = vec![0; 1000];
        let length = sheet::run(lines.as_bytes(), &mut area).expect("it is accepted");
        String::from_utf8(area[..length].to_vec()).expect("it is text")
    };
    assert_eq!(with('L'), HISTORY);
    let ordinary = with('D');
    assert_eq!(ordinary.lines().next(), HISTORY.lines().next());
    assert!(ordinary.contains("\nD      8      1      0      0      0\n"));
    // the ordinary one of 1 finds nothing: 0 has not answered
    assert!(
        ordinary.contains("\nE     11      1      0      0      0\n"),
        "{ordinary}"
    );
}
