//! Weekend pairs (document 02, job 2): a nurse's pattern is a night pattern and a pair's number.

use crate::nights;
use crate::rows::{has_day, states, State};
use crate::ward::Ward;

/// A set of days and a pair's number, "compared in that order". The number is 0 in a ward without
/// pairs, and by day.
#[derive(Clone, Copy, Debug, Default, PartialEq, Eq, PartialOrd, Ord)]
pub struct Pattern {
    pub days: u32,
    pub pair: u32,
}

/// Days without a pair.
impl From<u32> for Pattern {
    fn from(days: u32) -> Pattern {
        Pattern { days, pair: 0 }
    }
}

/// A pair's number, and its two days as a set.
#[derive(Clone, Copy, Debug, PartialEq, Eq)]
pub struct Pair {
    pub number: u32,
    pub days: u32,
}

/// "A pair number (from 1; 0 in a ward without pairs)".
pub fn pairs_of(first_days: &[u64]) -> Vec<Pair> {
    if first_days.is_empty() {
        return vec![Pair { number: 0, days: 0 }];
    }
    // day d has bit d - 1
    let days = |first: u64| (0b11 << first >> 1) as u32;
    let numbers = 1..=first_days.len() as u32;
    numbers.zip(first_days).map(|(number, &first)| Pair { number, days: days(first) }).collect()
}

/// Both days of the pair, "no longer available"; none where there is no such pair.
pub fn days_off(ward: &Ward, number: u32) -> u32 {
    ward.pairs.iter().find(|pair| pair.number == number).map_or(0, |pair| pair.days)
}

/// "Both days of the pair being O or R under mark 0, 1, 5 or 6".
fn may_be_off(ward: &Ward, nurse: usize, row: &[State], pair: &Pair) -> bool {
    let marks = &ward.nurses[nurse].marks;
    (1..=ward.day_count).filter(|&day| has_day(pair.days, day)).all(|day| {
        ward.pair_states.contains(&row[day - 1]) && ward.pair_marks.contains(&marks[day - 1])
    })
}

/// Does the ward have the pair, and may she have it off? Any number may be asked.
pub fn fits(ward: &Ward, nurse: usize, pattern: Pattern) -> bool {
    let row = states(ward, nurse, pattern.days);
    let mut pairs = ward.pairs.iter().filter(|pair| pair.number == pattern.pair);
    pairs.any(|pair| may_be_off(ward, nurse, &row, pair))
}

/// Is the pattern hers: a night pattern of hers with a pair of hers?
pub fn hers(ward: &Ward, nurse: usize, pattern: Pattern) -> bool {
    nights::hers(ward, nurse, pattern.days) && fits(ward, nurse, pattern)
}

/// Her part of the common list, each with every pair of hers, ascending.
pub fn her_list(ward: &Ward, nurse: usize, common: &[u32]) -> Vec<Pattern> {
    let mut list = Vec::new();
    for days in nights::her_list(ward, nurse, common) {
        let row = states(ward, nurse, days);
        let hers = ward.pairs.iter().filter(|pair| may_be_off(ward, nurse, &row, pair));
        list.extend(hers.map(|pair| Pattern { days, pair: pair.number }));
    }
    list
}
