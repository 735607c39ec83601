//! What the documents say, in numbers written by hand: which values of each
//! stored field check 21 takes, which columns hold a number, what some sheets
//! print, which minute some counts of seconds give, what refuses an Insert, what
//! Backlog counts, what markers tell, whom a step waits for, what Relaxed
//! Delete_Mins and Removes do, where in an image its numbers stand, and a list of
//! calls with its answers.
//! Nothing here asks the queue, so that the queue and the code that is compared
//! with it can not both be wrong in one way without a test that sees it.

pub mod backlogs;
pub mod cases;
pub mod columns;
pub mod images;
pub mod items;
pub mod lists;
pub mod markers;
pub mod minutes;
pub mod records;
pub mod relaxed;
pub mod removes;
pub mod rows;
pub mod seeks;
pub mod sheets;
pub mod waiting;
pub mod waits;
pub mod walks;
