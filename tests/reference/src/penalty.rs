//! Night and day penalty, counted afresh from everyone's rows ("Penalty").

use crate::days::worked_unplaced;
use crate::pairs::Pattern;
use crate::rows::{available_days, has_day, marked_days, start_days, states};
use crate::ward::{Bounds, Demand, Ward, Weights};

/// Points of one search, by their cause.
#[derive(Clone, Copy, Debug, Default, PartialEq, Eq)]
pub struct Penalty {
    /// below a need or a low
    pub short: u64,
    /// above a high
    pub over: u64,
    /// nurses not yet placed
    pub unplaced: u64,
}

impl Penalty {
    /// "A nurse not yet placed adds 10,000,000, flat."
    pub const UNPLACED: u64 = 10_000_000;

    pub fn total(&self) -> u64 {
        self.short + self.over + self.unplaced
    }

    fn add(&mut self, other: Penalty) {
        self.short += other.short;
        self.over += other.over;
        self.unplaced += other.unplaced;
    }
}

#[derive(Clone, Copy, Debug, PartialEq, Eq)]
pub enum Search {
    Night,
    Day,
}

/// The days on which one nurse counts for the night and for the day shift.
#[derive(Clone, Copy, Debug, Default, PartialEq, Eq)]
pub struct OnDuty {
    pub nights: u32,
    pub days: u32,
}

/// Night search: N days, and days where she is available. Unplaced: her marks 3 as starts, and no
/// pair.
pub fn on_duty_by_night(ward: &Ward, nurse: usize, pattern: Option<Pattern>) -> OnDuty {
    let night = pattern.unwrap_or_else(|| marked_days(ward, nurse, 3).into());
    let row = states(ward, nurse, night.days);
    OnDuty { nights: start_days(&row), days: available_days(ward, nurse, night) }
}

/// Day search: the days worked. Unplaced: her marks 2. Night terms are zero there.
pub fn on_duty_by_day(
    ward: &Ward,
    nurse: usize,
    night: Pattern,
    pattern: Option<Pattern>,
) -> OnDuty {
    let days = pattern.map_or_else(|| worked_unplaced(ward, nurse, night), |p| p.days);
    OnDuty { nights: 0, days }
}

fn size(nurses: u64) -> u64 {
    u64::from(nurses.count_ones())
}

/// Points of one shift on one day: w for each nurse short of the need, u for each member short
/// of low, v for each member above high.
fn points(weights: Weights, groups: &[u64], demand: &Demand, on: u64) -> Penalty {
    let of_groups = |part: &dyn Fn(&Bounds, u64) -> u64| -> u64 {
        demand.bounds.iter().zip(groups).map(|(b, &group)| part(b, size(on & group))).sum()
    };
    let members_short = of_groups(&|b, members| b.low.saturating_sub(members));
    let members_over = of_groups(&|b, members| members.saturating_sub(b.high));
    Penalty {
        short: weights.w * demand.need.saturating_sub(size(on)) + weights.u * members_short,
        over: weights.v * members_over,
        unplaced: 0,
    }
}

/// Points of one day; the columns hold nurse i as bit i - 1.
/// By night the day highs are ignored, by day the night terms are zero.
pub fn points_of_day(ward: &Ward, search: Search, day: usize, nights: u64, days: u64) -> Penalty {
    let at = &ward.days[day - 1];
    let mut sum = points(ward.day_weights, &ward.groups, &at.day, days);
    if search == Search::Night {
        sum.over = 0;
        sum.add(points(ward.night_weights, &ward.groups, &at.night, nights));
    }
    sum
}

/// The nurses on duty on one day, by night and by day.
pub fn columns(on_duty: &[OnDuty], day: usize) -> (u64, u64) {
    let (mut nights, mut days) = (0, 0);
    for (nurse, on) in on_duty.iter().enumerate() {
        nights |= u64::from(has_day(on.nights, day)) << nurse;
        days |= u64::from(has_day(on.days, day)) << nurse;
    }
    (nights, days)
}

fn count(ward: &Ward, search: Search, on_duty: &[OnDuty], unplaced: usize) -> Penalty {
    let mut sum = Penalty { unplaced: Penalty::UNPLACED * unplaced as u64, ..Penalty::default() };
    for day in 1..=ward.day_count {
        let (nights, days) = columns(on_duty, day);
        sum.add(points_of_day(ward, search, day, nights, days));
    }
    sum
}

fn unplaced(in_use: &[Option<Pattern>]) -> usize {
    in_use.iter().filter(|pattern| pattern.is_none()).count()
}

/// The night penalty of everyone's pattern or none.
pub fn night(ward: &Ward, in_use: &[Option<Pattern>]) -> Penalty {
    let on_duty: Vec<OnDuty> =
        (0..ward.nurse_count).map(|nurse| on_duty_by_night(ward, nurse, in_use[nurse])).collect();
    count(ward, Search::Night, &on_duty, unplaced(&in_use[..ward.nurse_count]))
}

/// The day penalty of everyone's day pattern or none, over one choice of nights.
pub fn day(ward: &Ward, nights: &[Pattern], in_use: &[Option<Pattern>]) -> Penalty {
    let on_duty: Vec<OnDuty> = (0..ward.nurse_count)
        .map(|nurse| on_duty_by_day(ward, nurse, nights[nurse], in_use[nurse]))
        .collect();
    count(ward, Search::Day, &on_duty, unplaced(&in_use[..ward.nurse_count]))
}
