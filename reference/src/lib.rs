//! A second, independent SkipQueue run one step at a time, written from
//! documents 01 and 02 alone. The proved implementation is compared with this
//! one.

#![warn(missing_docs)]

pub mod answer;
pub mod any_record;
pub mod book;
pub mod calls;
pub mod check;
pub mod claims;
pub mod compare;
pub mod dump;
pub mod followed;
pub mod ghost;
pub mod image;
pub mod invariant;
pub mod lists;
pub mod locks;
pub mod markers;
pub mod misled;
pub mod mistakes;
pub mod perturb;
pub mod program;
pub mod queue;
pub mod random;
pub mod refusals;
pub mod schedule;
pub mod sheet;
pub mod sheets;
pub mod stages;
pub mod stated;
pub mod tally;
pub mod trial;
pub mod waits;
