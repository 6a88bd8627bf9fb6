//! The least exchange by points per nurse and day: the same answer as counting afresh,
//! only faster, for large wards.

use crate::pairs::Pattern;
use crate::penalty::{columns, points_of_day, OnDuty, Penalty};
use crate::phase::Phase;

/// An exchange: a nurse (from 0), a pattern of hers and the penalty that results.
#[derive(Clone, Copy, Debug, PartialEq, Eq)]
pub struct Exchange {
    pub nurse: usize,
    pub pattern: Pattern,
    pub penalty: u64,
}

/// Everyone's list once more, with the duty days of each pattern.
pub struct Duties(Vec<Vec<(Pattern, OnDuty)>>);

pub fn duties_of(phase: &dyn Phase) -> Duties {
    let list = |nurse: usize| {
        phase.list(nurse).iter().map(|&p| (p, phase.on_duty(nurse, Some(p)))).collect()
    };
    Duties((0..phase.ward().nurse_count).map(list).collect())
}

/// Points that a set of days adds: a sum per day, looked up by bytes of the set.
struct Sums([[i64; 256]; 4]);

impl Sums {
    fn of(per_day: &[i64]) -> Self {
        let mut sums = [[0; 256]; 4];
        for (part, table) in sums.iter_mut().enumerate() {
            for set in 1..256usize {
                let top = 7 - (set as u8).leading_zeros() as usize;
                let day_at = 8 * part + top;
                table[set] = table[set - (1 << top)] + per_day.get(day_at).unwrap_or(&0);
            }
        }
        Sums(sums)
    }

    fn over(&self, set: u32) -> i64 {
        let bytes = set.to_le_bytes();
        (0..4).map(|part| self.0[part][bytes[part] as usize]).sum()
    }
}

/// The penalty of all, as a function of one nurse's duty days.
struct Costs {
    idle: i64,
    nights: Sums,
    days: Sums,
}

impl Costs {
    fn without(
        phase: &dyn Phase,
        in_use: &[Option<Pattern>],
        all: &[OnDuty],
        nurse: usize,
    ) -> Self {
        let ward = phase.ward();
        let others_unplaced = (0..ward.nurse_count).filter(|&i| i != nurse && in_use[i].is_none());
        let mut idle = (Penalty::UNPLACED * others_unplaced.count() as u64) as i64;
        let (mut by_night, mut by_day) = (Vec::new(), Vec::new());
        for day in 1..=ward.day_count {
            let (nights, days) = columns(all, day);
            let her = 1u64 << nurse;
            let (nights, days) = (nights & !her, days & !her);
            let points = |nights, days| {
                points_of_day(ward, phase.search(), day, nights, days).total() as i64
            };
            let none = points(nights, days);
            idle += none;
            by_night.push(points(nights | her, days) - none);
            by_day.push(points(nights, days | her) - none);
        }
        Costs { idle, nights: Sums::of(&by_night), days: Sums::of(&by_day) }
    }

    fn of(&self, on: OnDuty) -> u64 {
        (self.idle + self.nights.over(on.nights) + self.days.over(on.days)) as u64
    }
}

/// Least penalty, then lowest nurse, then lowest pattern, over what is not barred.
pub fn least_exchange(
    phase: &dyn Phase,
    duties: &Duties,
    in_use: &[Option<Pattern>],
    barred: &dyn Fn(usize) -> Vec<Pattern>,
) -> Option<Exchange> {
    let all: Vec<OnDuty> =
        (0..phase.ward().nurse_count).map(|nurse| phase.on_duty(nurse, in_use[nurse])).collect();
    let mut best: Option<Exchange> = None;
    for nurse in 0..phase.ward().nurse_count {
        let costs = Costs::without(phase, in_use, &all, nurse);
        let barred = barred(nurse);
        for &(pattern, on) in &duties.0[nurse] {
            let penalty = costs.of(on);
            let better = best.is_none_or(|b| penalty < b.penalty);
            if better && !barred.contains(&pattern) {
                best = Some(Exchange { nurse, pattern, penalty });
            }
        }
    }
    best
}
