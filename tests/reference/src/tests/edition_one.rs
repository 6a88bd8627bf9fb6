//! Calls as edition one has them: a pattern is a number, without a pair.

use crate::history::Call;
use crate::pairs::Pattern;
use crate::penalty::Penalty;
use crate::record::{self, Answer, Record};
use crate::ward::{Refusal, Ward};

fn patterns(numbers: &[u32]) -> Vec<Pattern> {
    numbers.iter().map(|&number| number.into()).collect()
}

fn in_use(numbers: &[Option<u32>]) -> Vec<Option<Pattern>> {
    numbers.iter().map(|number| number.map(Pattern::from)).collect()
}

pub mod days {
    use crate::days;
    use crate::ward::Ward;

    pub fn hers(ward: &Ward, nurse: usize, night: u32, pattern: u32) -> bool {
        days::hers(ward, nurse, night.into(), pattern)
    }

    pub fn list_by_filter(ward: &Ward, nurse: usize, night: u32) -> Vec<u32> {
        days::list_by_filter(ward, nurse, night.into())
    }

    pub fn list_by_walk(ward: &Ward, nurse: usize, night: u32) -> Vec<u32> {
        days::list_by_walk(ward, nurse, night.into())
    }

    pub fn list_capped(ward: &Ward, nurse: usize, night: u32, cap: usize) -> Option<Vec<u32>> {
        days::list_capped(ward, nurse, night.into(), cap)
    }

    pub fn count(ward: &Ward, nurse: usize, night: u32) -> u64 {
        days::count(ward, nurse, night.into())
    }

    pub fn nth(ward: &Ward, nurse: usize, night: u32, index: u64) -> u32 {
        days::nth(ward, nurse, night.into(), index)
    }
}

pub mod penalty {
    use super::*;

    pub fn night(ward: &Ward, numbers: &[Option<u32>]) -> Penalty {
        crate::penalty::night(ward, &in_use(numbers))
    }

    pub fn day(ward: &Ward, nights: &[u32], numbers: &[Option<u32>]) -> Penalty {
        crate::penalty::day(ward, &patterns(nights), &in_use(numbers))
    }
}

pub fn advance_day(
    file: &[u8],
    nights: &[u32],
    record: &Record,
    call: Call,
) -> Result<Answer, Refusal> {
    record::advance_day(file, &patterns(nights), record, call)
}
