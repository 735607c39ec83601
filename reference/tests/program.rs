//! The program: what it reads, lends and prints.

mod common;

use common::{D, HISTORY, PRINTED, Q};
use std::io::Write;
use std::process::{Command, Stdio};

fn program(input: &[u8]) -> String {
    let mut child = Command::new(env!("CARGO_BIN_EXE_darthog-reference"))
        .stdin(Stdio::piped())
        .stdout(Stdio::piped())
        .spawn()
        .unwrap();
    let mut stdin = child.stdin.take().unwrap();
    let input = input.to_vec();
    // The program stops reading after 64 KiB, so the rest may find no reader.
    let writer = std::thread::spawn(move || drop(stdin.write_all(&input)));
    let output = child.wait_with_output().unwrap();
    writer.join().unwrap();
    assert!(output.status.success());
    String::from_utf8(output.stdout).unwrap()
}

#[test]
fn the_program_prints_the_history_or_number_and_line() {
    assert_eq!(program(PRINTED.as_bytes()), HISTORY);
    assert_eq!(program(b""), "42 1\n");
    assert_eq!(program(&PRINTED.as_bytes()[..200]), "41 7\n");
    assert_eq!(program(b"Q      1    201      1      0\n"), "12 1\n");
}

#[test]
fn the_program_reads_64_kib_and_lends_64_kib() {
    // 2,184 whole lines fit into 64 KiB; one line more is cut short.
    let mut sheet = Q.to_string();
    for _ in 0..2183 {
        sheet += "S      0      1      0      0\n";
    }
    assert_eq!(sheet.len(), 65_520);
    // 2,183 R lines of 37 bytes do not fit into 64 KiB; 1,771 do.
    assert_eq!(program(sheet.as_bytes()), "43 0\n");
    let fits = &sheet.as_bytes()[..30 * (1 + 1771)];
    assert_eq!(program(fits).len(), 1771 * 37);
    let full = &sheet.as_bytes()[..30 * (1 + 1772)];
    assert_eq!(program(full), "43 0\n");
    sheet += D;
    assert_eq!(program(sheet.as_bytes()), "41 2185\n");
    sheet += &sheet.clone()[30..];
    assert_eq!(program(sheet.as_bytes()), "41 2185\n");
    sheet.replace_range(60..61, "Y");
    assert_eq!(program(sheet.as_bytes()), "41 3\n");
}

fn printed(arguments: &[&str]) -> String {
    let output = Command::new(env!("CARGO_BIN_EXE_darthog-reference"))
        .args(arguments)
        .output()
        .unwrap();
    assert!(output.status.success(), "{arguments:?}");
    String::from_utf8(output.stdout).unwrap()
}

#[test]
fn a_trace_has_one_line_for_each_call_and_follows_from_its_seed() {
    let trace = printed(&["trace", "11", "3", "4", "2", "500"]);
    assert_eq!(trace.lines().count(), 500);
    for line in trace.lines() {
        let (call, answer) = line.split_once(" -> ").expect("a call and its answer");
        let word = call.split(' ').next().unwrap();
        assert!(
            ["insert", "delete", "relaxed", "remove", "step", "backlog", "markers"].contains(&word)
        );
        assert!(!answer.is_empty());
    }
    assert_eq!(printed(&["trace", "11", "3", "4", "2", "500"]), trace);
    assert_ne!(printed(&["trace", "12", "3", "4", "2", "500"]), trace);
    assert_eq!(
        printed(&["trace", "1", "1", "201", "1", "5"]),
        "refused 12\n"
    );

    // The record comes after the same lines: sizes, six nodes, three processors.
    let record = printed(&["record", "11", "3", "4", "2", "500"]);
    let dump = record.strip_prefix(&trace).expect("the same calls");
    let words: Vec<&str> = dump
        .lines()
        .map(|line| line.split(' ').next().unwrap())
        .collect();
    assert_eq!(words[0], "queue");
    assert_eq!(words[1..7], ["node"; 6]);
    assert_eq!(words[7..], ["processor"; 3]);
}

#[test]
fn other_arguments_are_an_error() {
    for arguments in [&["trace"][..], &["trace", "1", "2", "3", "4"], &["walk"]] {
        let output = Command::new(env!("CARGO_BIN_EXE_darthog-reference"))
            .args(arguments)
            .output()
            .unwrap();
        assert!(!output.status.success() && output.stdout.is_empty());
    }
}
