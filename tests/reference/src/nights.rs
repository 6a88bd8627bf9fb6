//! Night patterns: the common list and hers ("Night patterns").

use crate::rows::{day_bit, has_day, mark_allows, states};
use crate::ward::Ward;

/// Months this short are listed by filter over all numbers below 2^n.
pub const FILTER_DAYS: usize = 12;

/// Start days of the month in order.
fn month_starts(ward: &Ward, pattern: u32) -> Vec<i64> {
    (1..=ward.day_count).filter(|&day| has_day(pattern, day)).map(|day| day as i64).collect()
}

/// The 2s of her seven days, as days -6 to 0.
fn starts_before(ward: &Ward, nurse: usize) -> Vec<i64> {
    let before = &ward.nurses[nurse].before;
    (0..7).filter(|&at| before[at] == 2).map(|at| at as i64 - 6).collect()
}

/// g1, g2 or g3 by run length, g3 beyond three.
fn gap_after(ward: &Ward, run: u64) -> i64 {
    let which = run.min(3) as usize - 1;
    ward.gaps[which] as i64
}

/// The gap and run rule on starts in order, judged where the later start is in the month.
fn keeps_rule(ward: &Ward, starts: &[i64]) -> bool {
    let mut run = 1;
    for pair in starts.windows(2) {
        let (earlier, later) = (pair[0], pair[1]);
        let same_run = later - earlier == 2;
        let kept = if same_run {
            run < ward.longest_night_run
        } else {
            later - earlier >= 2 + gap_after(ward, run)
        };
        if later >= 1 && !kept {
            return false;
        }
        run = if same_run { run + 1 } else { 1 };
    }
    true
}

/// Is the number in the common list? Any number may be asked.
pub fn is_common(ward: &Ward, pattern: u32) -> bool {
    u64::from(pattern) < 1u64 << ward.day_count
        && u64::from(pattern.count_ones()) <= ward.most_nights
        && keeps_rule(ward, &month_starts(ward, pattern))
}

/// The common list by filter over all numbers below 2^n.
pub fn common_by_filter(ward: &Ward) -> Vec<u32> {
    (0..1u32 << ward.day_count).filter(|&pattern| is_common(ward, pattern)).collect()
}

/// Adds `pattern` and all that it grows into by starts from `first_day` on, while `found` is
/// within the cap. A pattern that breaks the rule is not mended by later starts.
fn grow(ward: &Ward, pattern: u32, first_day: usize, cap: usize, found: &mut Vec<u32>) {
    found.push(pattern);
    for day in first_day..=ward.day_count {
        let longer = pattern | day_bit(day);
        if found.len() <= cap && is_common(ward, longer) {
            grow(ward, longer, day + 1, cap, found);
        }
    }
}

/// The common list by recursion, sorted.
pub fn common_by_recursion(ward: &Ward) -> Vec<u32> {
    let mut found = Vec::new();
    grow(ward, 0, 1, usize::MAX, &mut found);
    found.sort_unstable();
    found
}

/// The common list, ascending.
pub fn common(ward: &Ward) -> Vec<u32> {
    if ward.day_count <= FILTER_DAYS {
        common_by_filter(ward)
    } else {
        common_by_recursion(ward)
    }
}

/// The list's length, or `cap` + 1 where it is longer than `cap`.
pub fn common_count_capped(ward: &Ward, cap: usize) -> usize {
    let mut found = Vec::new();
    grow(ward, 0, 1, cap, &mut found);
    found.len()
}

/// The common list where it has at most `cap` patterns.
pub fn common_capped(ward: &Ward, cap: usize) -> Option<Vec<u32>> {
    if common_count_capped(ward, cap) > cap {
        return None;
    }
    Some(common(ward))
}

fn keeps_with_last_month(ward: &Ward, nurse: usize, pattern: u32) -> bool {
    let mut starts = starts_before(ward, nurse);
    starts.extend(month_starts(ward, pattern));
    keeps_rule(ward, &starts)
}

fn marks_allow(ward: &Ward, nurse: usize, pattern: u32) -> bool {
    let marks = &ward.nurses[nurse].marks;
    states(ward, nurse, pattern)
        .into_iter()
        .zip(marks)
        .all(|(state, &mark)| mark_allows(mark, state))
}

fn within_her_bounds(ward: &Ward, nurse: usize, pattern: u32) -> bool {
    let nights = u64::from(pattern.count_ones());
    let her = &ward.nurses[nurse];
    her.least_nights <= nights && nights <= her.most_nights
}

/// Is the night pattern hers? Any number may be asked.
pub fn hers(ward: &Ward, nurse: usize, pattern: u32) -> bool {
    is_common(ward, pattern)
        && keeps_with_last_month(ward, nurse, pattern)
        && marks_allow(ward, nurse, pattern)
        && within_her_bounds(ward, nurse, pattern)
}

/// Her part of the common list, ascending.
pub fn her_list(ward: &Ward, nurse: usize, common: &[u32]) -> Vec<u32> {
    common.iter().copied().filter(|&pattern| hers(ward, nurse, pattern)).collect()
}
