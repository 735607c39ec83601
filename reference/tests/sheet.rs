//! The sheet: the printed one, every refusal with its line.

mod common;

use common::{D, HISTORY, PRINTED, Q};
use darthog_reference::sheet::{run, SheetRefusal};
use darthog_reference::stated::sheets::{spent_clock, OUT_OF_FORM, SPENT_CLOCK_HISTORY};

/// The history of an accepted sheet; the rest of the area is untouched.
fn history(sheet: &str) -> String {
    let mut area = vec![7; 100_000];
    let length = run(sheet.as_bytes(), &mut area).expect("the sheet is accepted");
    assert!(area[length..].iter().all(|&byte| byte == 7));
    String::from_utf8(area[..length].to_vec()).unwrap()
}

/// The number and line of a refused sheet; the area is untouched.
fn refusal(sheet: &[u8]) -> (u32, usize) {
    let mut area = vec![7; 5000];
    let SheetRefusal { number, line } = run(sheet, &mut area).expect_err("the sheet is refused");
    assert!(area.iter().all(|&byte| byte == 7));
    (number, line)
}

#[test]
fn the_printed_sheet() {
    assert_eq!(history(PRINTED), HISTORY);
}

#[test]
fn refusal_41_a_line_not_in_form() {
    for bad in OUT_OF_FORM {
        assert_eq!(bad.len(), 30, "{bad:?}");
        assert_eq!(refusal(format!("{Q}{bad}").as_bytes()), (41, 2), "{bad:?}");
        let late = format!("{Q}{D}{D}{bad}{bad}");
        assert_eq!(refusal(late.as_bytes()), (41, 4), "{bad:?}");
        assert_eq!(refusal(bad.as_bytes()), (41, 1), "{bad:?}");
    }
}

#[test]
fn refusal_41_a_short_last_line() {
    let sheet = format!("{Q}{D}{D}");
    for length in 1..sheet.len() {
        let cut = &sheet.as_bytes()[..length];
        if length % 30 != 0 {
            assert_eq!(refusal(cut), (41, length / 30 + 1), "{length}");
        } else {
            assert!(run(cut, &mut [0; 5000]).is_ok(), "{length}");
        }
    }
    assert_eq!(refusal(b"\n"), (41, 1));
}

#[test]
fn refusal_41_comes_before_all_others() {
    let bad_q = "Q      0      0      0      0\n";
    assert_eq!(refusal(format!("{D}{Q}X").as_bytes()), (41, 3));
    assert_eq!(refusal(format!("{bad_q}{Q}X").as_bytes()), (41, 3));
}

#[test]
fn refusal_42_q_missing_or_in_a_later_line() {
    assert_eq!(refusal(b""), (42, 1));
    assert_eq!(refusal(D.as_bytes()), (42, 1));
    assert_eq!(refusal(format!("{D}{Q}").as_bytes()), (42, 1));
    assert_eq!(refusal(format!("{Q}{Q}").as_bytes()), (42, 2));
    assert_eq!(refusal(format!("{Q}{D}{D}{Q}{Q}").as_bytes()), (42, 4));
    // 42 comes before 11, 12, 13.
    let bad_q = "Q      0      0      0      0\n";
    assert_eq!(refusal(format!("{bad_q}{D}{Q}").as_bytes()), (42, 3));
}

#[test]
fn refusals_11_12_13_of_the_q_line() {
    for (p, n, l, number) in [
        (0, 0, 0, 11),
        (17, 1, 1, 11),
        (9_999_999, 1, 1, 11),
        (1, 0, 0, 12),
        (1, 201, 1, 12),
        (16, 200, 0, 13),
        (16, 200, 9, 13),
    ] {
        let sheet = format!("Q{p:7}{n:7}{l:7}      0\n{D}");
        assert_eq!(refusal(sheet.as_bytes()), (number, 1));
    }
    assert_eq!(history("Q     16    200      8      0\n"), "");
}

#[test]
fn refusal_43_history_longer_than_its_area() {
    let exact = HISTORY.len();
    for length in [0, 1, 36, 37, exact - 1] {
        let mut area = vec![7; length];
        let refused = run(PRINTED.as_bytes(), &mut area);
        let expected = SheetRefusal {
            number: 43,
            line: 0,
        };
        assert_eq!(refused, Err(expected), "{length}");
        assert!(area.iter().all(|&byte| byte == 7));
    }
    let mut area = vec![7; exact];
    assert_eq!(run(PRINTED.as_bytes(), &mut area), Ok(exact));
    assert_eq!(area, HISTORY.as_bytes());
    assert_eq!(run(Q.as_bytes(), &mut []), Ok(0));
}

#[test]
fn refused_calls_print_an_r_line_and_end_their_line_only() {
    let sheet = "\
Q      2      1      1      0
S      0    999      0      0
S      2      1      0      0
D9999999      0      0      0
I      01000000      0      1
I      0      09999999      0
I      0      0      0      1
I      0      0      1      2
I      0      7     42      1
I      0      7     42      1
I      1      7     42      1
S      0     12      0      0
D      0      0      0      0
";
    let expected = "\
R      0      0     34      0      0
R      0      2     32      0      0
R      09999999     32      0      0
R      0      0     35      0      0
R      0      0     35      0      0
R      0      0     39      0      0
R      0      0     36      0      0
I      1      0      7     42      1
R      1      0     33      0      0
R      1      1     37      0      0
A     10      0      7     42      1
R     10      0     34      0      0
D     11      0      0      0      0
";
    assert_eq!(history(sheet), expected);
}

/// Processor 1 waits for the head's lock until the clock ends.
#[test]
fn refusal_31_at_the_end_of_the_clock() {
    let sheet = String::from_utf8(spent_clock()).unwrap();
    assert_eq!(history(&sheet), SPENT_CLOCK_HISTORY);
}
