//! Day patterns over one night pattern: a walk from the last day to the first, only where a
//! pattern remains.

use super::ward::{Nurse, Ward};
use super::No;

/// Days before the month in the windows; day d is bit d + BEFORE - 1.
const BEFORE: u32 = 7;

/// One nurse's row before the days are chosen. Sets of days -6 to n.
pub struct Open {
    days: usize,
    day_run: u32,
    least_rests: u32,
    most_rests: u32,
    /// day duty and rest before the month
    worked_before: u64,
    rested_before: u64,
    /// other duty, before the month and in it
    other: u64,
    /// days of the month that are rest where they are not worked
    idle_rest: u64,
    may: u32,
    must: u32,
}

impl Open {
    pub fn of(ward: &Ward, nurse: &Nurse, night: u32) -> Open {
        let row = nurse.row(night);
        let before =
            |duty: u8| -> u64 { (0..7).map(|at| u64::from(nurse.before[at] == duty) << at).sum() };
        let resting = ward.month() & !(row.starts | row.seconds | nurse.marks[4]) | row.rests;
        let other = ward.month() & nurse.marks[4] & !(row.starts | row.seconds | row.rests);
        Open {
            days: ward.days,
            day_run: ward.day_run,
            least_rests: nurse.least_rests,
            most_rests: nurse.most_rests,
            worked_before: before(1),
            rested_before: before(0),
            other: before(4) | u64::from(other) << BEFORE,
            idle_rest: u64::from(resting & ward.month()) << BEFORE,
            may: nurse.available(row),
            must: nurse.marks[2],
        }
    }

    /// Day duties and rests of days -6 to n under a day pattern.
    fn duties(&self, pattern: u32) -> (u64, u64) {
        let worked = u64::from(pattern) << BEFORE;
        (worked | self.worked_before, self.idle_rest & !worked | self.rested_before)
    }

    /// The windows that begin at a bit and end in the month.
    fn windows_from(&self, first: u32, worked: u64, rested: u64) -> bool {
        let ends = |length: u32| {
            let last = first + length - 1;
            last >= BEFORE && last < BEFORE + self.days as u32
        };
        let (worked, rested, other) = (worked >> first, rested >> first, self.other >> first);
        let run = (1u64 << (self.day_run + 1)) - 1;
        !(ends(self.day_run + 1) && (worked | other) & run == run
            || ends(7) && rested & 0x7f == 0
            || ends(5) && worked & 0b01010 == 0b01010 && rested & 0b10101 == 0b10101)
    }

    /// Whether any number is a pattern of hers.
    pub fn takes(&self, pattern: u32) -> bool {
        let (worked, rested) = self.duties(pattern);
        let rests = (rested >> BEFORE).count_ones();
        pattern & !self.may == 0
            && self.must & !pattern == 0
            && (self.least_rests..=self.most_rests).contains(&rests)
            && (0..BEFORE + self.days as u32).all(|first| self.windows_from(first, worked, rested))
    }

    fn choices(&self, day: usize) -> impl Iterator<Item = u32> {
        let bit = |set: u32| set >> (day - 1) & 1;
        let (least, most) = (bit(self.must), bit(self.may));
        (0..2).filter(move |&worked| least <= worked && worked <= most)
    }

    fn is_rest(&self, day: usize, worked: u32) -> bool {
        worked == 0 && self.idle_rest >> (day as u32 + BEFORE - 1) & 1 == 1
    }

    /// For each day and each choice of the six after it: the rests that days 1 to it can have.
    fn reach(&self) -> Vec<[u32; 64]> {
        let mut reach = vec![[0; 64]; self.days + 1];
        for (next, rests) in reach[0].iter_mut().enumerate() {
            let (worked, rested) = self.duties(next as u32 & ((1u64 << self.days) - 1) as u32);
            let good = (1..BEFORE).all(|first| self.windows_from(first, worked, rested));
            *rests = u32::from(good);
        }
        for day in 1..=self.days {
            for next in 0..64 {
                reach[day][next] = self
                    .choices(day)
                    .filter(|&worked| self.windows_at(day, worked, next as u32))
                    .map(|worked| {
                        let below = reach[day - 1][(next << 1 | worked as usize) & 63];
                        below << u32::from(self.is_rest(day, worked))
                    })
                    .fold(0, |all, rests| all | rests);
            }
        }
        reach
    }

    /// The windows that begin on a day, by its choice and those of the six days after it.
    fn windows_at(&self, day: usize, worked: u32, next: u32) -> bool {
        let chosen = u64::from(next << 1 | worked) << (day - 1);
        let (worked, rested) = self.duties((chosen & ((1 << self.days) - 1)) as u32);
        self.windows_from(day as u32 + BEFORE - 1, worked, rested)
    }

    /// Adds her list, ascending, until it has more than so many patterns.
    fn fill(&self, most: usize, list: &mut Vec<u32>) {
        let walk = Walk { open: self, reach: self.reach(), most };
        walk.down(self.days, 0, 0, list);
    }
}

struct Walk<'a> {
    open: &'a Open,
    reach: Vec<[u32; 64]>,
    most: usize,
}

impl Walk<'_> {
    /// Days 1 to `day` are open; `pattern` and `rests` are those of the days after.
    fn down(&self, day: usize, pattern: u32, rests: u32, list: &mut Vec<u32>) {
        if list.len() > self.most {
            return;
        }
        if day == 0 {
            list.push(pattern);
            return;
        }
        let next = (u64::from(pattern) >> day) as u32 & 63;
        for worked in self.open.choices(day) {
            let rests = rests + u32::from(self.open.is_rest(day, worked));
            let below = self.reach[day - 1][(next << 1 | worked) as usize & 63];
            if self.open.windows_at(day, worked, next) && self.within(below, rests) {
                self.down(day - 1, pattern | worked << (day - 1), rests, list);
            }
        }
    }

    /// Whether some count of rests below, with those above, keeps her bounds.
    fn within(&self, below: u32, above: u32) -> bool {
        let all = u64::from(below) << above;
        let bounds = (2u64 << self.open.most_rests) - (1 << self.open.least_rests);
        all & bounds != 0
    }
}

/// Everyone's list, one after the other, with the places where they begin; the first nurse who
/// does not fit is a no.
pub fn lists(ward: &Ward, nights: &[u32], places: usize) -> Result<(Vec<u32>, Vec<usize>), No> {
    let (mut all, mut begins) = (Vec::new(), vec![0]);
    for (i, nurse) in ward.nurses.iter().enumerate() {
        Open::of(ward, nurse, nights[i]).fill(places, &mut all);
        if all.len() > places {
            return Err((9, i as u64 + 1));
        }
        begins.push(all.len());
    }
    Ok((all, begins))
}
