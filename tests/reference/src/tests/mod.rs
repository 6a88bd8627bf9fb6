//! The examples of documents 01 and 02, every question once, and the naive ways against each
//! other.

mod checks;
mod day_lists;
mod edition_one;
mod files;
mod keepings;
mod night_lists;
mod pair_checks;
mod pair_files;
mod pair_lists;
mod pair_questions;
mod pair_searches;
mod past_zero;
mod programs;
mod questions;
mod searches;
