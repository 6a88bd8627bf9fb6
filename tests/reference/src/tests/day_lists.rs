//! Day patterns: the rules one by one, filter against walk.

use super::edition_one::days::*;
use crate::nights;
use crate::samples::*;
use crate::ward::parse;

fn day_ward(days: u64) -> One {
    One::new(days, 15, 3, [1, 1, 1])
}

#[test]
fn worked_lists() {
    let ward = worked();
    assert_eq!(list_capped(&ward, 0, 1, 1), Some(vec![0]));
    assert_eq!(list_capped(&ward, 1, 0, 4), Some(vec![0, 1, 2, 3]));
    assert_eq!(list_capped(&ward, 1, 0, 3), None);
}

#[test]
fn run_of_day_duty() {
    let mut one = day_ward(3);
    one.day_run = 2;
    assert!(hers(&one.ward(), 0, 0, 0b011));
    assert!(!hers(&one.ward(), 0, 0, 0b111));
    one.before = [0, 0, 0, 0, 0, 1, 1];
    assert!(!hers(&one.ward(), 0, 0, 0b001));
    // a night ends a run and is no rest
    one.before = [0, 0, 0, 1, 1, 2, 3];
    one.marks = vec![0, 2, 0];
    assert!(hers(&one.ward(), 0, 0, 0b110));
}

/// Document 02, job 1: with D 3 "- - + -" is too long and "- + /" is fine.
#[test]
fn other_duty_in_a_run() {
    let mut one = day_ward(4);
    one.day_run = 3;
    one.marks = vec![0, 0, 4, 0];
    assert!(!hers(&one.ward(), 0, 0, 0b1011)); // --+-
    assert!(hers(&one.ward(), 0, 0, 0b0010)); // /-+/
    one.marks = vec![0, 4, 0, 0];
    assert_eq!(list_by_filter(&one.ward(), 0, 0), [0, 1, 4, 5, 8, 9, 12]);
    // other duty alone
    one.marks = vec![4, 4, 4, 0];
    assert_eq!(list_by_filter(&one.ward(), 0, 0), [0]);
    one.marks = vec![4; 4];
    assert_eq!(list_by_filter(&one.ward(), 0, 0), []);
    // before the month
    let mut one = day_ward(2);
    one.day_run = 3;
    one.before = [0, 0, 0, 0, 4, 1, 4];
    assert_eq!(list_by_filter(&one.ward(), 0, 0), [0, 2]);
    // a run that ended before the month is not judged
    one.before = [0, 4, 1, 4, 1, 4, 0];
    assert_eq!(list_by_filter(&one.ward(), 0, 0), [0, 1, 2, 3]);
}

#[test]
fn rest_in_every_seven_days() {
    // nights keep the run short: seven day or other duties break D whatever it is
    let mut one = day_ward(2);
    one.before = [0, 4, 2, 3, 4, 1, 4];
    assert!(!hers(&one.ward(), 0, 0, 0b01));
    assert!(hers(&one.ward(), 0, 0, 0b10));
    one.before = [4, 0, 2, 3, 4, 1, 4];
    assert!(hers(&one.ward(), 0, 0, 0b01));
    assert!(!hers(&one.ward(), 0, 0, 0b11));
}

#[test]
fn rest_day_rest_day_rest() {
    let one = day_ward(5);
    assert!(!hers(&one.ward(), 0, 0, 0b01010));
    assert!(hers(&one.ward(), 0, 0, 0b11010));
    let mut one = day_ward(1);
    one.before = [0, 0, 0, 0, 1, 0, 1];
    assert!(!hers(&one.ward(), 0, 0, 0));
    assert!(hers(&one.ward(), 0, 0, 1));
    // other duty is not day duty
    one.before = [0, 0, 0, 0, 1, 0, 4];
    assert!(hers(&one.ward(), 0, 0, 0));
}

#[test]
fn rests_within_her_bounds() {
    let mut one = day_ward(4);
    one.rests = (2, 3);
    one.marks = vec![0, 4, 1, 0];
    // other is no rest
    assert!(hers(&one.ward(), 0, 0, 0b0001));
    assert!(!hers(&one.ward(), 0, 0, 0b1001));
    // N n R -: one rest
    one.marks = vec![0; 4];
    assert!(!hers(&one.ward(), 0, 0b0001, 0b1000));
    assert!(hers(&one.ward(), 0, 0b0001, 0b0000));
}

#[test]
fn available_days_with_every_mark_2() {
    let mut one = day_ward(4);
    one.marks = vec![2, 6, 5, 1];
    // after a rest on day 0 the second would be rest-day-rest-day-rest
    assert_eq!(list_by_filter(&one.ward(), 0, 0), [0b0001]);
    one.before[6] = 4;
    let ward = one.ward();
    assert_eq!(list_by_filter(&ward, 0, 0), [0b0001, 0b0101]);
    assert_eq!(list_by_walk(&ward, 0, 0), [0b0001, 0b0101]);
    assert!(!hers(&ward, 0, 0, 0b0011));
    assert!(!hers(&ward, 0, 0, 1 << 31 | 1));
}

#[test]
fn filter_and_walk_agree() {
    let mut dice = Dice(77);
    let mut seen = 0;
    for _ in 0..400 {
        let ward = random_ward(&mut dice, 3, 11);
        let common = nights::common(&ward);
        for nurse in 0..ward.nurse_count {
            for night in nights::her_list(&ward, nurse, &common).into_iter().take(3) {
                let list = list_by_filter(&ward, nurse, night);
                assert_eq!(list, list_by_walk(&ward, nurse, night));
                assert_eq!(list.len() as u64, count(&ward, nurse, night));
                let all = 0..list.len() as u64;
                let mut each: Vec<u32> = all.map(|at| nth(&ward, nurse, night, at)).collect();
                each.sort_unstable();
                assert_eq!(list, each);
                seen += list.len();
            }
        }
    }
    assert!(seen > 10_000);
}

#[test]
fn longer_months_agree() {
    let ward = day_ward(17).ward();
    assert_eq!(list_by_filter(&ward, 0, 0), list_by_walk(&ward, 0, 0));
    assert_eq!(list_capped(&ward, 0, 0, usize::MAX), Some(list_by_filter(&ward, 0, 0)));
}

#[test]
fn very_long_lists_are_refused_fast() {
    let ward = day_ward(31).ward();
    assert!(count(&ward, 0, 0) > 100_000_000);
    assert_eq!(list_capped(&ward, 0, 0, 16_384), None);
}

#[test]
fn dead_ends_are_empty() {
    let ward = parse(DEAD_ENDS).unwrap();
    assert_eq!(count(&ward, 0, 0), 0);
    assert_eq!(list_capped(&ward, 0, 0, 16_384), Some(vec![]));
}
