//! What the benchmark measures: the library's functions, the records and calls
//! that they and the reference are run on, the ways to make these calls, and
//! the rounds in which they are timed.

#![warn(missing_docs)]

pub mod library;
pub mod rounds;
pub mod ways;
pub mod workload;
