//! Night patterns: the counts and cases of document 01, filter against recursion.

use crate::nights::*;
use crate::rows::{letters, states, State};
use crate::samples::*;

fn starts(days: &[usize]) -> u32 {
    days.iter().map(|day| 1 << (day - 1)).sum()
}

#[test]
fn eleven_patterns() {
    let ward = One::new(7, 2, 1, [3, 1, 1]).ward();
    assert_eq!(common(&ward).len(), 11);
    assert_eq!(common_by_recursion(&ward).len(), 11);
}

#[test]
fn six_thousand_nine_hundred_and_fifty_eight() {
    let ward = One::new(30, 5, 1, [3, 1, 1]).ward();
    assert_eq!(common(&ward).len(), 6_958);
    assert_eq!(common_count_capped(&ward, 6_958), 6_958);
    assert_eq!(common_count_capped(&ward, 6_957), 6_958);
    assert_eq!(common_count_capped(&ward, 10), 11);
    assert!(common_capped(&ward, 6_957).is_none());
}

#[test]
fn gap_cases() {
    let ward = One::new(12, 5, 2, [3, 4, 1]).ward();
    assert!(is_common(&ward, starts(&[1, 6])));
    assert!(!is_common(&ward, starts(&[1, 5])));
    assert!(is_common(&ward, starts(&[1, 3, 9])));
    assert!(!is_common(&ward, starts(&[1, 3, 8])));
}

#[test]
fn runs_of_at_most_l() {
    let ward = One::new(9, 5, 2, [1, 1, 1]).ward();
    assert!(is_common(&ward, starts(&[1, 3])));
    assert!(!is_common(&ward, starts(&[1, 3, 5])));
    assert!(!is_common(&ward, starts(&[1, 2])));
}

#[test]
fn worked_lists() {
    let ward = worked();
    let list = common(&ward);
    assert_eq!(list, [0, 1, 2, 4]);
    assert_eq!(her_list(&ward, 0, &list), [0, 1, 2, 4]);
    assert_eq!(her_list(&ward, 1, &list), [0, 1]);
}

#[test]
fn last_months_night_on_day_1() {
    let mut one = One::new(4, 2, 1, [1, 1, 1]);
    one.before[6] = 2;
    let ward = one.ward();
    assert_eq!(letters(&ward, 0, 0, 0), b"n///");
    assert_eq!(states(&ward, 0, 0)[..3], [State::Second, State::OwedRest, State::Open]);
    // its run ends at day 0: day 2 would lengthen it, day 3 keeps the gap
    assert!(!hers(&ward, 0, starts(&[1])));
    assert!(!hers(&ward, 0, starts(&[2])));
    assert!(hers(&ward, 0, starts(&[3])));
    one.marks[0] = 4;
    assert!(!hers(&one.ward(), 0, 0));
    one.marks[0] = 5;
    assert!(hers(&one.ward(), 0, 0));
    one.marks[1] = 2;
    assert!(!hers(&one.ward(), 0, 0));
}

#[test]
fn a_run_beyond_three_takes_g3() {
    let mut one = One::new(8, 2, 3, [5, 5, 1]);
    one.before = [2, 3, 2, 3, 2, 3, 2];
    let ward = one.ward();
    assert!(!hers(&ward, 0, starts(&[2])));
    assert!(hers(&ward, 0, starts(&[3])));
}

/// A longer run may have the smaller gap: the joint rule does not imply the common one.
#[test]
fn common_list_is_asked_as_well() {
    let mut one = One::new(9, 3, 3, [5, 1, 1]);
    one.before = [0, 0, 0, 0, 0, 2, 3];
    let ward = one.ward();
    assert!(hers(&ward, 0, starts(&[1, 8])));
    assert!(!hers(&ward, 0, starts(&[1, 4])));
}

#[test]
fn numbers_beyond_the_month_are_not_hers() {
    let ward = worked();
    for pattern in [8, 9, 1 << 30, 1 << 31, u32::MAX] {
        assert!(!hers(&ward, 0, pattern));
    }
    let whole_month = One::new(31, 15, 3, [1, 1, 1]).ward();
    assert!(hers(&whole_month, 0, 1 << 30));
    assert!(!hers(&whole_month, 0, 1 << 31));
}

#[test]
fn her_bounds_count_the_last_day() {
    let mut one = One::new(3, 3, 1, [1, 1, 1]);
    one.nights = (1, 1);
    assert!(hers(&one.ward(), 0, starts(&[3])));
    assert!(!hers(&one.ward(), 0, 0));
}

#[test]
fn filter_and_recursion_agree() {
    let mut dice = Dice(5);
    for _ in 0..200 {
        let ward = random_ward(&mut dice, 1, 16);
        let list = common_by_filter(&ward);
        assert_eq!(list, common_by_recursion(&ward));
        assert_eq!(common_count_capped(&ward, list.len()), list.len());
        let fewer = list.len() - 1;
        assert_eq!(common_count_capped(&ward, fewer), list.len());
    }
}

#[test]
fn long_lists_are_refused_fast() {
    let ward = One::new(31, 15, 3, [1, 1, 1]).ward();
    assert_eq!(common_count_capped(&ward, 16_384), 16_385);
}
