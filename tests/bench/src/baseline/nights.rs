//! Night patterns: the common list from the last day to the first, and hers by masks.

use super::ward::{Nurse, Row, Ward};

/// Starts of a set of days in order.
fn starts(pattern: u32) -> impl Iterator<Item = i32> {
    let mut left = pattern;
    std::iter::from_fn(move || {
        (left != 0).then(|| {
            let day = left.trailing_zeros() as i32 + 1;
            left &= left - 1;
            day
        })
    })
}

/// The last start and the length of its run; none where there is no start.
type Before = Option<(i32, u32)>;

fn gap(ward: &Ward, run: u32) -> i32 {
    ward.gaps[run.min(3) as usize - 1]
}

/// What stands before the next start if this one keeps the rule.
fn follow(ward: &Ward, before: Before, day: i32) -> Option<Before> {
    let Some((last, run)) = before else {
        return Some(Some((day, 1)));
    };
    if day - last == 2 {
        return (run < ward.run).then_some(Some((day, run + 1)));
    }
    (day - last >= 2 + gap(ward, run)).then_some(Some((day, 1)))
}

fn keeps_rule(ward: &Ward, before: Before, pattern: u32) -> bool {
    starts(pattern).try_fold(before, |before, day| follow(ward, before, day)).is_some()
}

pub fn is_common(ward: &Ward, pattern: u32) -> bool {
    pattern & !ward.month() == 0
        && pattern.count_ones() <= ward.most_nights
        && keeps_rule(ward, None, pattern)
}

/// Last month's run, not judged.
fn last_month(nurse: &Nurse) -> Before {
    let nights = (0..7).filter(|&at| nurse.before[at] == 2).map(|at| at as i32 - 6);
    nights.fold(None, |before: Before, day| match before {
        Some((last, run)) if day - last == 2 => Some((day, run + 1)),
        _ => Some((day, 1)),
    })
}

/// One nurse's own part of the rule, beside the common list: where she may start, where n and
/// owed rest may fall, where she must start.
pub struct Hers<'a> {
    ward: &'a Ward,
    nurse: &'a Nurse,
    before: Before,
    never_start: u32,
    never_second: u32,
    never_rest: u32,
    must_start: u32,
    /// where a start is barred by its own day or by the next one, its n
    never: u32,
}

impl<'a> Hers<'a> {
    pub fn of(ward: &'a Ward, nurse: &'a Nurse) -> Self {
        let marks = &nurse.marks;
        let free = marks[0] | marks[6];
        let never_start = ward.month() & !(free | marks[3]);
        let never_second = ward.month() & !(free | marks[5]);
        Hers {
            ward,
            nurse,
            before: last_month(nurse),
            never_start,
            never_second,
            never_rest: ward.month() & !(free | marks[1] | marks[5]),
            must_start: marks[3],
            never: never_start | never_second >> 1,
        }
    }

    /// Whether a pattern of the common list is hers. Most that are not fail by the first test.
    #[inline]
    pub fn takes(&self, pattern: u32) -> bool {
        pattern & self.never == 0
            && self.must_start & !pattern == 0
            && self.marks_allow(self.nurse.row(pattern))
            && self.within_bounds(pattern)
            && self.keeps_last_month(pattern)
    }

    fn marks_allow(&self, row: Row) -> bool {
        row.starts & self.never_start
            | row.seconds & self.never_second
            | row.rests & self.never_rest
            == 0
    }

    fn within_bounds(&self, pattern: u32) -> bool {
        let nights = pattern.count_ones();
        nights >= self.nurse.least_nights && nights <= self.nurse.most_nights
    }

    /// Only starts that lengthen last month's run, and the one after them, are not yet judged.
    fn keeps_last_month(&self, pattern: u32) -> bool {
        if self.before.is_none() {
            return true;
        }
        let mut before = self.before;
        for day in starts(pattern) {
            match follow(self.ward, before, day) {
                None => return false,
                Some(Some((_, 1))) => return true,
                Some(longer) => before = longer,
            }
        }
        true
    }
}

/// Patterns below a run that is still open towards the first day.
struct Grow<'a> {
    ward: &'a Ward,
    /// least distance of two runs
    apart: i32,
    most: usize,
    list: Vec<u32>,
}

/// The run that may still grow downwards: its first start, its starts, its distance to the next.
#[derive(Clone, Copy)]
struct Run {
    first: i32,
    starts: u32,
    distance: i32,
}

impl Grow<'_> {
    /// The pattern if its lowest run is closed here, then all with one more start below, by
    /// ascending number.
    fn below(&mut self, pattern: u32, run: Run) {
        let closed = run.distance >= 2 + gap(self.ward, run.starts);
        if closed {
            self.list.push(pattern);
        }
        if self.list.len() > self.most || pattern.count_ones() >= self.ward.most_nights {
            return;
        }
        if closed {
            for day in 1..=run.first - self.apart {
                let longer = Run { first: day, starts: 1, distance: run.first - day };
                self.below(pattern | 1 << (day - 1), longer);
            }
        }
        if run.first > 2 && run.starts < self.ward.run {
            let day = run.first - 2;
            let longer = Run { first: day, starts: run.starts + 1, ..run };
            self.below(pattern | 1 << (day - 1), longer);
        }
    }
}

/// The common list, ascending, if it has at most so many patterns.
pub fn common(ward: &Ward, most: usize) -> Option<Vec<u32>> {
    let shortest = (1..=ward.run).map(|run| gap(ward, run)).min()?;
    let mut grow = Grow { ward, apart: 2 + shortest, most, list: vec![0] };
    for day in 1..=ward.days as i32 {
        if ward.most_nights > 0 && grow.list.len() <= most {
            grow.below(1 << (day - 1), Run { first: day, starts: 1, distance: i32::MAX });
        }
    }
    (grow.list.len() <= most).then_some(grow.list)
}
