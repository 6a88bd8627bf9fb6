//! The roster check ("Roster check and writer", question 12; pairs by document 02, job 2).

use crate::days;
use crate::pairs::{self, Pattern};
use crate::penalty::{columns, OnDuty};
use crate::rows::{day_bit, letters};
use crate::ward::{parse, refusal, Demand, Refusal, Ward};

/// The days of a row with one letter, as a number.
fn days_with(row: &[u8], letter: u8) -> u32 {
    (1..=row.len()).filter(|&day| row[day - 1] == letter).map(day_bit).sum()
}

/// Question 12: the first bad index, else the count given.
fn ask_letters(ward: &Ward, roster: &[u8]) -> Result<(), Refusal> {
    if let Some(bad) = roster.iter().position(|letter| !b"/-Nn+".contains(letter)) {
        return refusal(12, bad);
    }
    if roster.len() != ward.nurse_count * ward.day_count {
        return refusal(12, roster.len());
    }
    Ok(())
}

/// A row follows from a night pattern of hers, with some pair, and a day pattern of hers.
pub fn row_follows(ward: &Ward, nurse: usize, row: &[u8]) -> bool {
    let (night, day) = (days_with(row, b'N'), days_with(row, b'-'));
    ward.pairs.iter().any(|pair| {
        let night = Pattern { days: night, pair: pair.number };
        pairs::hers(ward, nurse, night)
            && days::hers(ward, nurse, night, day)
            && letters(ward, nurse, night.days, day) == row
    })
}

fn shift_holds(demand: &Demand, groups: &[u64], on: u64) -> bool {
    let members = |group: &u64| u64::from((on & group).count_ones());
    u64::from(on.count_ones()) >= demand.need
        && demand
            .bounds
            .iter()
            .zip(groups)
            .all(|(b, g)| b.low <= members(g) && members(g) <= b.high)
}

/// "Every day's needs, lows and highs hold."
fn day_holds(ward: &Ward, on_duty: &[OnDuty], day: usize) -> bool {
    let at = &ward.days[day - 1];
    let (nights, days) = columns(on_duty, day);
    shift_holds(&at.night, &ward.groups, nights) && shift_holds(&at.day, &ward.groups, days)
}

/// Yes or no, on a ward already read.
pub fn check_in(ward: &Ward, roster: &[u8]) -> Result<bool, Refusal> {
    ask_letters(ward, roster)?;
    let rows: Vec<&[u8]> = roster.chunks(ward.day_count).collect();
    let on_duty: Vec<OnDuty> = rows
        .iter()
        .map(|row| OnDuty { nights: days_with(row, b'N'), days: days_with(row, b'-') })
        .collect();
    Ok((0..ward.nurse_count).all(|nurse| row_follows(ward, nurse, rows[nurse]))
        && (1..=ward.day_count).all(|day| day_holds(ward, &on_duty, day)))
}

/// Yes or no: the ward as file bytes, questions 1 to 5 first.
pub fn check(file: &[u8], roster: &[u8]) -> Result<bool, Refusal> {
    check_in(&parse(file)?, roster)
}
