//! The roster program on the ward files. The large one and the weekends are run in release only.

use crate::program::run;
use crate::samples::*;

#[test]
fn worked_out() {
    assert_eq!(run(WORKED), "1 Nn/\n2 --/\nzero 2 2\n");
    assert_eq!(run(WORKED), include_str!("../../wards/worked.out"));
}

#[test]
fn stuck_out() {
    assert_eq!(run(STUCK), include_str!("../../wards/stuck.out"));
}

#[test]
fn dead_ends_out() {
    assert_eq!(run(DEAD_ENDS), include_str!("../../wards/dead-ends.out"));
}

#[test]
fn surgical_out() {
    // over its nights nurse 27 has no day pattern since other duty counts in a run
    assert_eq!(run(SURGICAL), "no 10 27\n");
    assert_eq!(run(SURGICAL), include_str!("../../wards/surgical.out"));
}

#[test]
fn redated_out() {
    let text = run(REDATED);
    assert!(text.ends_with("zero 371 39\n"));
    assert_eq!(text, include_str!("../../wards/redated.out"));
}

#[test]
#[cfg_attr(debug_assertions, ignore)]
fn large_out() {
    assert_eq!(run(LARGE), include_str!("../../wards/large.out"));
}

/// Edition two (document 02, job 2).
#[test]
fn pairs_out() {
    assert_eq!(run(PAIRS), "1 Nn//\n2 --//\nzero 2 2\n");
    assert_eq!(run(PAIRS), include_str!("../../wards/pairs.out"));
    assert_eq!(run(PAIRS_NONE), "left 1 2 2\n");
    assert_eq!(run(PAIRS_NONE), include_str!("../../wards/pairs-none.out"));
    let refused = include_bytes!("../../wards/pairs-refused.ward");
    assert_eq!(run(refused), "no 3 58\n");
    assert_eq!(run(refused), include_str!("../../wards/pairs-refused.out"));
    let no_edition = include_bytes!("../../wards/edition-refused.ward");
    assert_eq!(run(no_edition), "no 3 1\n");
    assert_eq!(run(no_edition), include_str!("../../wards/edition-refused.out"));
}

/// A month with a weekend every week, and one with ten pairs.
#[test]
fn months_with_pairs_out() {
    let month = run(PAIRS_MONTH);
    assert!(month.ends_with("zero 300 22\n"));
    assert_eq!(month, include_str!("../../wards/pairs-month.out"));
    let ten = run(PAIRS_TEN);
    assert!(ten.ends_with("zero 15 687\n"));
    assert_eq!(ten, include_str!("../../wards/pairs-ten.out"));
}

#[test]
#[cfg_attr(debug_assertions, ignore)]
fn weekends_out() {
    assert_eq!(run(WEEKENDS), "left 1 1 1000\n");
    assert_eq!(run(WEEKENDS), include_str!("../../wards/weekends.out"));
}

#[test]
fn a_refusal_prints_only_no() {
    assert_eq!(run(b""), "no 1 0\n");
    assert_eq!(run(&WORKED[..49]), "no 1 49\n");
}

/// Nurse 2 wants two rests: she takes 1, nurse 1 takes 0, she takes 2, she takes 0; then
/// 1 and 2 are given up by her in the last two steps, and nurse 1 has only 0.
#[test]
fn left_in_the_second_phase() {
    let mut numbers = WORKED_NUMBERS;
    numbers[39] = 2;
    assert_eq!(run(&file_of(&numbers)), "left 2 2 4\n");
}
