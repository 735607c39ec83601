//! The sheet that document 01 prints, its history, and two lines that many sheets start with.

pub const PRINTED: &str = include_str!("../../../docs/printed.sheet");

pub const HISTORY: &str = "\
I      1      0      7     42      1
A     10      0      7     42      1
D     11      0      0      0      0
M     14      0      7     42      1
T     26      0      7     42      1
D     27      0      0      0      0
E     28      0      0      0      0
";

pub const Q: &str = "Q      1      1      1      0\n";
pub const D: &str = "D      0      0      0      0\n";
