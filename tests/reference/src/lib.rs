//! A second, deliberately naive reading of documents 01 and 02, the two-shift ward planner.
//! Nothing here is proved. It is run beside the proved planner and compared with it.

pub mod check;
pub mod days;
pub mod history;
pub mod keeping;
pub mod nights;
pub mod operations;
pub mod pairs;
pub mod penalty;
pub mod phase;
pub mod program;
pub mod record;
pub mod rows;
pub mod samples;
pub mod tally;
pub mod ward;

#[cfg(test)]
mod tests;
