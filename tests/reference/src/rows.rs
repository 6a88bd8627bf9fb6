//! A nurse's row: states, marks, availability and duty letters ("A nurse's row").

use crate::pairs::{days_off, Pattern};
use crate::ward::{Nurse, Ward};

/// Row state of one day.
#[derive(Clone, Copy, Debug, PartialEq, Eq)]
pub enum State {
    /// O
    Open,
    /// N, a night's first day
    Start,
    /// n, a night's second day
    Second,
    /// R
    OwedRest,
}

/// What a nurse does on one day.
#[derive(Clone, Copy, Debug, PartialEq, Eq, Hash)]
pub enum Duty {
    Rest,
    Day,
    NightFirst,
    NightSecond,
    Other,
}

/// The mark table: rows are marks, columns O, N, n, R.
const ALLOWED: [[bool; 4]; 7] = [
    [true, true, true, true],    // 0 free
    [true, false, false, true],  // 1 rest
    [true, false, false, false], // 2 day
    [false, true, false, false], // 3 night
    [true, false, false, false], // 4 other
    [true, false, true, true],   // 5 no night
    [true, true, true, true],    // 6 no day
];

/// Day d has bit d - 1.
pub fn has_day(pattern: u32, day: usize) -> bool {
    pattern >> (day - 1) & 1 == 1
}

pub fn day_bit(day: usize) -> u32 {
    1 << (day - 1)
}

/// "Day 0 is read from the seven days": only 2 and 3 bind day 1.
fn state_of_day_0(nurse: &Nurse) -> State {
    match nurse.before[6] {
        2 => State::Start,
        3 => State::Second,
        _ => State::Open,
    }
}

/// The state of a day from its start and the state of the day before.
fn state_after(before: State, started: bool) -> State {
    match (started, before) {
        (true, _) => State::Start,
        (false, State::Start) => State::Second,
        (false, State::Second) => State::OwedRest,
        (false, _) => State::Open,
    }
}

/// States of days 1 to n, day d at d - 1.
pub fn states(ward: &Ward, nurse: usize, starts: u32) -> Vec<State> {
    let mut before = state_of_day_0(&ward.nurses[nurse]);
    let mut row = Vec::new();
    for day in 1..=ward.day_count {
        before = state_after(before, has_day(starts, day));
        row.push(before);
    }
    row
}

pub fn mark_allows(mark: u64, state: State) -> bool {
    let column = match state {
        State::Open => 0,
        State::Start => 1,
        State::Second => 2,
        State::OwedRest => 3,
    };
    ALLOWED[mark as usize][column]
}

/// "Available on O days marked 0, 2 or 5".
pub fn is_available(mark: u64, state: State) -> bool {
    state == State::Open && matches!(mark, 0 | 2 | 5)
}

/// The days with one mark, as a number.
pub fn marked_days(ward: &Ward, nurse: usize, mark: u64) -> u32 {
    let marks = &ward.nurses[nurse].marks;
    (1..=ward.day_count).filter(|&day| marks[day - 1] == mark).map(day_bit).sum()
}

/// The N days of a row, as a number.
pub fn start_days(states: &[State]) -> u32 {
    (1..=states.len()).filter(|&day| states[day - 1] == State::Start).map(day_bit).sum()
}

/// The available days of a row, as a number, without the pair's.
pub fn available_days(ward: &Ward, nurse: usize, night: Pattern) -> u32 {
    let marks = &ward.nurses[nurse].marks;
    let row = states(ward, nurse, night.days);
    let available = |&day: &usize| is_available(marks[day - 1], row[day - 1]);
    let days: u32 = (1..=ward.day_count).filter(available).map(day_bit).sum();
    days & !days_off(ward, night.pair)
}

/// "Other O days are other under mark 4, else rest; R is rest".
pub fn duty(mark: u64, state: State, worked: bool) -> Duty {
    match state {
        State::Start => Duty::NightFirst,
        State::Second => Duty::NightSecond,
        State::OwedRest => Duty::Rest,
        State::Open if worked => Duty::Day,
        State::Open if mark == 4 => Duty::Other,
        State::Open => Duty::Rest,
    }
}

/// Duties of days 1 to n over one night and one day pattern.
pub fn duties(ward: &Ward, nurse: usize, starts: u32, worked: u32) -> Vec<Duty> {
    let marks = &ward.nurses[nurse].marks;
    states(ward, nurse, starts)
        .into_iter()
        .enumerate()
        .map(|(at, state)| duty(marks[at], state, has_day(worked, at + 1)))
        .collect()
}

/// Duties of days -6 to 0.
pub fn duties_before(nurse: &Nurse) -> Vec<Duty> {
    let name = |&duty: &u64| match duty {
        0 => Duty::Rest,
        1 => Duty::Day,
        2 => Duty::NightFirst,
        3 => Duty::NightSecond,
        _ => Duty::Other,
    };
    nurse.before.iter().map(name).collect()
}

pub fn letter(duty: Duty) -> u8 {
    match duty {
        Duty::Rest => b'/',
        Duty::Day => b'-',
        Duty::NightFirst => b'N',
        Duty::NightSecond => b'n',
        Duty::Other => b'+',
    }
}

/// One row of the roster in letters.
pub fn letters(ward: &Ward, nurse: usize, starts: u32, worked: u32) -> Vec<u8> {
    duties(ward, nurse, starts, worked).into_iter().map(letter).collect()
}
