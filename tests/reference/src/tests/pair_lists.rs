//! Patterns with pairs (document 02, job 2): hers, their order, and day patterns beside them.

use crate::pairs::*;
use crate::rows::{available_days, states, State};
use crate::samples::*;
use crate::ward::Ward;
use crate::{days, nights};

pub fn pattern(days: u32, pair: u32) -> Pattern {
    Pattern { days, pair }
}

/// A night pattern of hers and its pair, each as in the test.
fn list(ward: &Ward, nurse: usize) -> Vec<(u32, u32)> {
    let hers = her_list(ward, nurse, &nights::common(ward));
    hers.into_iter().map(|pattern| (pattern.days, pattern.pair)).collect()
}

/// One nurse over some days, with one pair.
fn one_pair(one: &One, first_day: u64) -> Ward {
    ward_of(&with_pairs(&one.ward().numbers, &[first_day]))
}

#[test]
fn lists_of_the_ward_with_two_pairs() {
    let ward = two_pairs();
    assert_eq!(nights::common(&ward), [0, 1, 2, 4, 8]);
    assert_eq!(list(&ward, 0), [(0, 1), (0, 2), (1, 2), (8, 1)]);
    assert_eq!(list(&ward, 1), [(0, 1), (0, 2), (1, 2)]);
    let by_day = |nurse, night| days::list_capped(&ward, nurse, night, 9).unwrap();
    assert_eq!(by_day(0, pattern(1, 2)), [0]);
    assert_eq!(by_day(1, pattern(0, 2)), [0, 1, 2, 3]);
    assert_eq!(by_day(1, pattern(0, 1)), [0, 1]);
}

/// "Compared in that order": the night first, then the pair.
#[test]
fn order() {
    assert!(pattern(0, 10) < pattern(1, 1));
    assert!(pattern(1, 1) < pattern(1, 2));
    assert!(pattern(1, u32::MAX) < pattern(2, 0));
}

/// A pair number from 1, and 0 in a ward without pairs.
#[test]
fn numbers_of_the_ward() {
    let ward = two_pairs();
    for other in [0, 3, 11, u32::MAX] {
        assert!(!hers(&ward, 0, pattern(0, other)), "{other}");
    }
    for ward in [worked(), ward_of(&with_pairs(&WORKED_NUMBERS, &[]))] {
        assert!(hers(&ward, 0, pattern(1, 0)));
        for other in [1, 2, u32::MAX] {
            assert!(!hers(&ward, 0, pattern(1, other)), "{other}");
        }
    }
    // a night pattern that is not hers, whatever the pair
    for pair in 0..3 {
        assert!(!hers(&ward, 1, pattern(8, pair)));
        assert!(!hers(&ward, 0, pattern(16, pair)));
    }
}

/// "Being O or R under mark 0, 1, 5 or 6": the one as well as the other, of both days.
#[test]
fn states_and_marks() {
    let mut one = One::new(5, 1, 1, [1, 1, 1]);
    for mark in 0..7 {
        for (day, first_day) in [(2, 2), (3, 2)] {
            one.marks = vec![0; 5];
            one.marks[day - 1] = mark;
            let ward = one_pair(&one, first_day);
            let may = [0, 1, 5, 6].contains(&mark);
            assert_eq!(fits(&ward, 0, pattern(0, 1)), may, "mark {mark}, open day {day}");
        }
        // day 3 is owed rest after a start on day 1, and day 4 is open
        one.marks = vec![0, 0, mark, 0, 0];
        let may = [0, 1, 5, 6].contains(&mark);
        assert_eq!(fits(&one_pair(&one, 3), 0, pattern(1, 1)), may, "mark {mark}, owed rest");
    }
    one.marks = vec![0; 5];
    let fitting = |first_day| -> Vec<u32> {
        let ward = one_pair(&one, first_day);
        [0, 1, 2, 4, 8, 16].into_iter().filter(|&p| fits(&ward, 0, pattern(p, 1))).collect()
    };
    // no start on the day before, on either day, or on the first day's day before
    assert_eq!(fitting(1), [0, 4, 8, 16]);
    assert_eq!(fitting(2), [0, 8, 16]);
    assert_eq!(fitting(3), [0, 1, 16]);
    assert_eq!(fitting(4), [0, 1, 2]);
}

/// Day 1 after last month's night: n is no rest, R is one.
#[test]
fn after_last_months_night() {
    let mut one = One::new(3, 1, 1, [1, 1, 1]);
    one.before = [0, 0, 0, 0, 0, 0, 2];
    assert!(!hers(&one_pair(&one, 1), 0, pattern(0, 1)));
    assert!(hers(&one_pair(&one, 2), 0, pattern(0, 1)));
    one.before = [0, 0, 0, 0, 0, 2, 3];
    let ward = one_pair(&one, 1);
    assert_eq!(states(&ward, 0, 0)[..2], [State::OwedRest, State::Open]);
    assert!(hers(&ward, 0, pattern(0, 1)));
}

/// Both days of the pair are "no longer available".
#[test]
fn availability() {
    let mut one = One::new(5, 1, 1, [1, 1, 1]);
    one.marks = vec![0, 5, 0, 6, 2];
    let ward = one_pair(&one, 2);
    assert_eq!(available_days(&ward, 0, pattern(0, 1)), 0b10001);
    assert_eq!(available_days(&ward, 0, pattern(0, 0)), 0b10111);
    assert_eq!(available_days(&one_pair(&one, 3), 0, pattern(0, 1)), 0b10011);
    assert_eq!(days::list_by_filter(&ward, 0, pattern(0, 1)), [0b10000, 0b10001]);
    // a rest all the same: its bounds count it
    one.rests = (4, 4);
    assert_eq!(days::list_by_filter(&one_pair(&one, 2), 0, pattern(0, 1)), [0b10000]);
}

/// Her list is every pattern of hers, by trying each night with every pair number, in order.
#[test]
fn lists_by_filter() {
    let mut dice = Dice(53);
    let mut seen = 0;
    for _ in 0..400 {
        let ward = random_ward_with_pairs(&mut dice, 3, 7);
        let common = nights::common(&ward);
        for nurse in 0..ward.nurse_count {
            let nights = 0..1u32 << ward.day_count;
            let all = nights.flat_map(|days| (0..12).map(move |pair| pattern(days, pair)));
            let by_filter: Vec<Pattern> = all.filter(|&p| hers(&ward, nurse, p)).collect();
            let list = her_list(&ward, nurse, &common);
            assert!(list.is_sorted());
            assert_eq!(list, by_filter);
            seen += list.iter().filter(|pattern| pattern.pair > 0).count();
        }
    }
    assert!(seen > 1_000, "{seen}");
}

/// A day pattern over a pair is one without it that leaves both of its days.
#[test]
fn day_lists_leave_the_pair() {
    let mut dice = Dice(59);
    let mut seen = 0;
    for _ in 0..300 {
        let ward = random_ward_with_pairs(&mut dice, 3, 10);
        let common = nights::common(&ward);
        for nurse in 0..ward.nurse_count {
            for night in her_list(&ward, nurse, &common).into_iter().take(5) {
                let mut without = days::list_by_filter(&ward, nurse, night.days.into());
                without.retain(|days| days & days_off(&ward, night.pair) == 0);
                assert_eq!(days::list_by_filter(&ward, nurse, night), without);
                assert_eq!(days::list_by_walk(&ward, nurse, night), without);
                assert_eq!(days::count(&ward, nurse, night), without.len() as u64);
                seen += without.len();
            }
        }
    }
    assert!(seen > 5_000, "{seen}");
}
