//! Sheets with what they print or why they are refused.

use super::relaxed;
use super::removes;

/// A Q line for the smallest queue.
pub const Q: &str = "Q      1      1      1      0\n";

/// Lines that are not in form.
pub const OUT_OF_FORM: [&str; 41] = [
    "D     00      0      0      0\n", // leading zero
    "D             0      0      0\n", // a field of spaces
    "D0            0      0      0\n", // spaces after digits
    "D     +1      0      0      0\n",
    "D     1a      0      0      0\n",
    "D    1 1      0      0      0\n",
    "D\t     0      0      0      0\n",
    "d      0      0      0      0\n", // another letter
    "Y      0      0      0      0\n",
    "U      0      7     42      1\n", // letters of a history alone
    "N      0      7      1      0\n",
    "       0      0      0      0\n",
    "D      0      0      0      0 ", // no line feed
    "D      0      0      0      0\r",
    "Q      1      1      1      1\n", // unused fields hold 0
    "Q      1      1      19999999\n",
    "D      0      1      0      0\n",
    "D      0      0      1      0\n",
    "D      0      0      0      1\n",
    "D      0      1      1      1\n",
    "L      0      1      0      0\n",
    "L      0      0      1      0\n",
    "L      0      0      0      1\n",
    "L      0      7     42      1\n",
    "L     00      0      0      0\n",
    "L             0      0      0\n",
    "l      0      0      0      0\n",
    "L      0      0      0      0 ",
    "X      0      7      1      1\n", // a Remove has no fourth field
    "X      0      7      19999999\n",
    "X      0      7     01      0\n",
    "X      0      7             0\n",
    "X      0    7 1      1      0\n",
    "x      0      7      1      0\n",
    "X      0      7      1      0 ",
    "S      0      1      1      0\n",
    "S      0      1      0      1\n",
    "S      0      0      0      0\n", // step counts
    "S      0   1000      0      0\n",
    "S      0   1001      0      0\n",
    "S      09999999      0      0\n",
];

/// A sheet with the lines of the printed one after Q, so many times over. Each
/// run takes 28 calls and leaves the queue empty and its node retired.
pub fn printed_runs(times: u32) -> Vec<u8> {
    let run = "\
I      0      7     42      1
S      0      9      0      0
D      0      0      0      0
S      0     15      0      0
D      0      0      0      0
S      0      1      0      0
";
    format!("{Q}{}", run.repeat(times as usize)).into_bytes()
}

/// The history of that sheet: the printed one, 28 later each time.
pub fn printed_histories(times: u32) -> Vec<u8> {
    let mut history = String::new();
    for run in 0..times {
        let at = |time: u32| 28 * run + time;
        let entry = format!("      0      7     42{:7}\n", at(1));
        let none = "      0      0      0      0\n";
        history += &format!("I{:7}      0      7     42      1\n", at(1));
        history += &format!("A{:7}{entry}", at(10));
        history += &format!("D{:7}{none}", at(11));
        history += &format!("M{:7}{entry}", at(14));
        history += &format!("T{:7}{entry}", at(26));
        history += &format!("D{:7}{none}", at(27));
        history += &format!("E{:7}{none}", at(28));
    }
    history.into_bytes()
}

/// A sheet with so many lines after Q that call a processor which the queue
/// has not.
pub fn strangers(lines: usize) -> Vec<u8> {
    let line = "S      1      1      0      0\n";
    format!("{Q}{}", line.repeat(lines)).into_bytes()
}

/// The history of that sheet: a refusal with 32 for each line.
pub fn strangers_history(lines: usize) -> Vec<u8> {
    let line = "R      0      1     32      0      0\n";
    line.repeat(lines).into_bytes()
}

/// A sheet with so many lines after Q, each of which calls a processor by its
/// own number, from 1.
pub fn numbered(lines: usize) -> Vec<u8> {
    let line = |number| format!("S{number:7}      1      0      0\n");
    let lines: String = (1..=lines).map(line).collect();
    format!("{Q}{lines}").into_bytes()
}

/// The history of that sheet: a refusal with 32 for each line.
pub fn numbered_history(lines: usize) -> Vec<u8> {
    let line = |number| format!("R      0{number:7}     32      0      0\n");
    let lines: String = (1..=lines).map(line).collect();
    lines.into_bytes()
}

/// A sheet whose processor 1 waits for the head's lock until the clock is
/// 999,999: 7 calls, 1000 lines of 999 steps, 992 steps. Then come a step, two
/// begins, an Insert with item 0, and a Remove of no ticket.
pub fn spent_clock() -> Vec<u8> {
    let mut sheet = "\
Q      2      2      1      0
I      0      0      1      1
S      0      3      0      0
I      1      0      1      1
S      1      2      0      0
"
    .to_string();
    sheet += &"S      1    999      0      0\n".repeat(1000);
    sheet += "S      1    992      0      0\n";
    sheet += "S      1      1      0      0\n";
    sheet += "D      9      0      0      0\n";
    sheet += "L      9      0      0      0\n";
    sheet += "I      0      7      0      1\n";
    sheet += "X      0      7      0      0\n";
    sheet.into_bytes()
}

/// The history of that sheet.
pub const SPENT_CLOCK_HISTORY: &str = "\
I      1      0      0      1      1
I      5      1      0      1      1
R 999999      1     31      0      0
R 999999      9     31      0      0
R 999999      9     31      0      0
R 999999      0     31      0      0
R 999999      0     31      0      0
";

/// Refused sheets with number and line: the order of 41, 42 and 11 to 13.
pub fn refused() -> Vec<(Vec<u8>, u32, usize)> {
    let d = "D      0      0      0      0\n";
    let bad = "S      0      0      0      0\n";
    let mut refused = vec![
        (String::new(), 42, 1),
        (d.to_string(), 42, 1),
        (format!("{d}{Q}"), 42, 1),
        (format!("{Q}{Q}"), 42, 2),
        (format!("{Q}{d}{d}{Q}{Q}"), 42, 4),
        (format!("{Q}{Q}{bad}"), 41, 3),
        (format!("{d}{Q}{bad}"), 41, 3),
        (format!("{Q}{d}{bad}{bad}"), 41, 3),
    ];
    for (sizes, number) in [
        ("      0      1      1", 11),
        ("     17      1      1", 11),
        ("      0      0      0", 11),
        ("9999999      1      1", 11),
        ("      1      0      1", 12),
        ("      1    201      1", 12),
        ("      1      0      0", 12),
        ("     169999999      1", 12),
        ("      1      1      0", 13),
        ("     16    200      9", 13),
        ("     16    2009999999", 13),
    ] {
        let wrong = format!("Q{sizes}      0\n");
        refused.push((wrong.clone(), number, 1));
        refused.push((format!("{wrong}{d}"), number, 1));
        refused.push((format!("{wrong}{d}{Q}"), 42, 3));
        refused.push((format!("{Q}{wrong}"), 42, 2));
        refused.push((format!("{d}{wrong}"), 42, 1));
        refused.push((format!("{wrong}{d}{d}{bad}"), 41, 4));
        refused.push((format!("{wrong}{Q}{bad}"), 41, 3));
        refused.push((format!("{wrong}{d}X"), 41, 3));
    }
    for bad in OUT_OF_FORM {
        refused.push((bad.to_string(), 41, 1));
        refused.push((format!("{Q}{bad}"), 41, 2));
        refused.push((format!("{Q}{d}{d}{bad}{bad}"), 41, 4));
        refused.push((format!("{Q}{Q}{bad}"), 41, 3));
    }
    let with_bytes =
        |(sheet, number, line): (String, u32, usize)| (sheet.into_bytes(), number, line);
    refused.into_iter().map(with_bytes).collect()
}

/// A sheet, its history, and areas: how long each is, and what the run gives
/// back, the history's length or 43.
pub struct Areas {
    /// In words.
    pub name: &'static str,
    /// The sheet.
    pub sheet: Vec<u8>,
    /// Its history.
    pub history: Vec<u8>,
    /// Lengths of areas that it fits into.
    pub fits: &'static [usize],
    /// Lengths of areas that give 43.
    pub too_short: &'static [usize],
}

/// Areas for a sheet and its history, which is so long.
fn of(
    name: &'static str,
    sheet: Vec<u8>,
    history: Vec<u8>,
    length: usize,
    fits: &'static [usize],
    too_short: &'static [usize],
) -> Areas {
    assert_eq!(history.len(), length, "{name}");
    Areas {
        name,
        sheet,
        history,
        fits,
        too_short,
    }
}

/// Areas as long as a history, one byte less and one more, below and above
/// 65,536 bytes, with the lengths in numbers.
pub fn areas() -> Vec<Areas> {
    let mut all = runs_and_refusals();
    all.extend(relaxed_areas());
    all.extend(remove_areas());
    all
}

fn remove_areas() -> [Areas; 2] {
    [
        of(
            "an entry that is taken back",
            removes::SHEET.into(),
            removes::HISTORY.into(),
            481,
            &[481, 482, 65_536, 65_537],
            &[0, 37, 444, 480],
        ),
        of(
            "refused X lines",
            removes::REFUSED.into(),
            removes::REFUSED_HISTORY.into(),
            555,
            &[555, 556, 65_537],
            &[0, 518, 554],
        ),
    ]
}

fn relaxed_areas() -> [Areas; 2] {
    [
        of(
            "an entry handed out before its Insert answers",
            relaxed::SHEET.into(),
            relaxed::HISTORY.into(),
            592,
            &[592, 593, 65_536, 65_537],
            &[0, 37, 555, 591],
        ),
        of(
            "refused L lines",
            relaxed::REFUSED.into(),
            relaxed::REFUSED_HISTORY.into(),
            444,
            &[444, 445, 65_537],
            &[0, 407, 443],
        ),
    ]
}

fn runs_and_refusals() -> Vec<Areas> {
    let runs = |times| (printed_runs(times), printed_histories(times));
    let (q, none) = runs(0);
    let (one, one_history) = runs(1);
    let (below, below_history) = runs(253);
    let (above, above_history) = runs(254);
    let (double, double_history) = runs(506);
    let (more, more_history) = runs(507);
    vec![
        of("no call", q, none, 0, &[0, 1, 65_536, 65_537, 131_072], &[]),
        of(
            "the printed run",
            one,
            one_history,
            259,
            &[259, 260, 65_535, 65_536, 65_537, 131_072],
            &[0, 1, 36, 37, 222, 257, 258],
        ),
        of(
            "253 printed runs",
            below,
            below_history,
            65_527,
            &[65_527, 65_528, 65_535, 65_536, 65_537, 131_072],
            &[0, 259, 65_490, 65_525, 65_526],
        ),
        of(
            "254 printed runs",
            above,
            above_history,
            65_786,
            &[65_786, 65_787, 131_072],
            &[0, 65_527, 65_536, 65_537, 65_749, 65_784, 65_785],
        ),
        of(
            "506 printed runs",
            double,
            double_history,
            131_054,
            &[131_054, 131_055, 131_072],
            &[0, 65_536, 65_537, 131_017, 131_052, 131_053],
        ),
        of(
            "507 printed runs",
            more,
            more_history,
            131_313,
            &[131_313, 131_314],
            &[65_536, 65_537, 131_072, 131_276, 131_312],
        ),
        of(
            "1 refused line",
            strangers(1),
            strangers_history(1),
            37,
            &[37, 38, 65_537],
            &[0, 1, 36],
        ),
        of(
            "1772 refused lines",
            strangers(1772),
            strangers_history(1772),
            65_564,
            &[65_564, 65_565, 131_072],
            &[65_527, 65_536, 65_537, 65_562, 65_563],
        ),
        of(
            "64 lines, each with its number",
            numbered(63),
            numbered_history(63),
            2_331,
            &[2_331, 65_537],
            &[2_330],
        ),
        of(
            "65 lines, each with its number",
            numbered(64),
            numbered_history(64),
            2_368,
            &[2_368, 65_537],
            &[2_367],
        ),
        of(
            "2184 lines, each with its number",
            numbered(2_183),
            numbered_history(2_183),
            80_771,
            &[80_771, 131_072],
            &[80_770],
        ),
        of(
            "2190 lines, each with its number",
            numbered(2_189),
            numbered_history(2_189),
            80_993,
            &[80_993, 131_072],
            &[80_992],
        ),
        of(
            "a spent clock",
            spent_clock(),
            SPENT_CLOCK_HISTORY.into(),
            259,
            &[259, 260, 65_536, 65_537],
            &[0, 222, 258],
        ),
    ]
}
