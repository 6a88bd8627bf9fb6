//! Day patterns of one nurse over one night pattern and its pair ("Day search").

use crate::pairs::Pattern;
use crate::rows::{available_days, day_bit, duties, duties_before, has_day, marked_days, states};
use crate::rows::{duty, Duty, State};
use crate::ward::Ward;
use std::collections::HashMap;

/// Rows with this few free days are listed by filter.
pub const FILTER_FREE_DAYS: u32 = 12;

/// The rules of windows ending in the month, and the month's rests.
/// `all` holds days -6 to n, day d at d + 6.
fn keeps_rules(ward: &Ward, nurse: usize, all: &[Duty]) -> bool {
    let her = &ward.nurses[nurse];
    let rests = all[7..].iter().filter(|&&d| d == Duty::Rest).count() as u64;
    (7..all.len()).all(|last| window_kept(ward, &all[..=last]))
        && her.least_rests <= rests
        && rests <= her.most_rests
}

/// The three window rules for the windows that end on the last day given.
fn window_kept(ward: &Ward, until: &[Duty]) -> bool {
    let tail = |length: usize| &until[until.len() - length..];
    let too_long = tail(ward.longest_day_run + 1).iter().all(|d| ward.run_duties.contains(d));
    let rested = tail(7).contains(&Duty::Rest);
    let broken = tail(5) == [Duty::Rest, Duty::Day, Duty::Rest, Duty::Day, Duty::Rest];
    !too_long && rested && !broken
}

/// "A set of available days with every mark 2 in it".
fn is_set_of_her_days(ward: &Ward, nurse: usize, night: Pattern, pattern: u32) -> bool {
    let available = available_days(ward, nurse, night);
    let forced = marked_days(ward, nurse, 2);
    pattern & !available == 0 && forced & !pattern == 0
}

/// Is the day pattern hers over this night pattern? Any number may be asked.
pub fn hers(ward: &Ward, nurse: usize, night: Pattern, pattern: u32) -> bool {
    let mut all = duties_before(&ward.nurses[nurse]);
    all.extend(duties(ward, nurse, night.days, pattern));
    is_set_of_her_days(ward, nurse, night, pattern) && keeps_rules(ward, nurse, &all)
}

/// Available days that are not marked 2.
fn free_days(ward: &Ward, nurse: usize, night: Pattern) -> u32 {
    available_days(ward, nurse, night) & !marked_days(ward, nurse, 2)
}

/// All subsets of the free days, with the marks 2, that are hers.
pub fn list_by_filter(ward: &Ward, nurse: usize, night: Pattern) -> Vec<u32> {
    let free_set = free_days(ward, nurse, night);
    let free: Vec<u32> = (0..32).map(|at| 1 << at).filter(|bit| free_set & bit != 0).collect();
    let forced = marked_days(ward, nurse, 2);
    let mut list: Vec<u32> = (0..1u32 << free.len())
        .map(|choice| forced | spread(choice, &free))
        .filter(|&pattern| hers(ward, nurse, night, pattern))
        .collect();
    list.sort_unstable();
    list
}

fn spread(choice: u32, free: &[u32]) -> u32 {
    (0..free.len()).filter(|at| choice >> at & 1 == 1).map(|at| free[at]).sum()
}

/// What may be done from a day on hangs on this alone: the day, the six duties before it
/// and the month's rests so far.
type Stand = (usize, [Duty; 6], u64);

/// Counts the ways to finish a row, each stand once.
struct Walk<'a> {
    ward: &'a Ward,
    nurse: usize,
    row: Vec<State>,
    available: u32,
    ways: HashMap<Stand, u64>,
}

impl<'a> Walk<'a> {
    fn new(ward: &'a Ward, nurse: usize, night: Pattern) -> Self {
        let row = states(ward, nurse, night.days);
        let available = available_days(ward, nurse, night);
        Walk { ward, nurse, row, available, ways: HashMap::new() }
    }

    /// Worked or not, as availability and mark leave open.
    fn choices(&self, day: usize) -> Vec<bool> {
        let mark = self.ward.nurses[self.nurse].marks[day - 1];
        match (mark, has_day(self.available, day)) {
            (2, true) => vec![true],
            (2, false) => vec![],
            (_, true) => vec![false, true],
            (_, false) => vec![false],
        }
    }

    fn duty_on(&self, day: usize, worked: bool) -> Duty {
        let mark = self.ward.nurses[self.nurse].marks[day - 1];
        let state = self.row[day - 1];
        duty(mark, state, worked)
    }

    /// Ways to fill the days after those in `all` (days -6 to the last one filled).
    fn ways(&mut self, all: &mut Vec<Duty>, rests: u64) -> u64 {
        let day = all.len() - 6;
        let her = &self.ward.nurses[self.nurse];
        if rests > her.most_rests {
            return 0;
        }
        if day > self.ward.day_count {
            return u64::from(rests >= her.least_rests);
        }
        let stand = (day, last_six(all), rests);
        if let Some(&known) = self.ways.get(&stand) {
            return known;
        }
        let mut sum = 0;
        for worked in self.choices(day) {
            let today = self.duty_on(day, worked);
            all.push(today);
            if window_kept(self.ward, all) {
                sum += self.ways(all, rests + u64::from(today == Duty::Rest));
            }
            all.pop();
        }
        self.ways.insert(stand, sum);
        sum
    }

    /// Depth first over the days, only where a way to the end is left.
    fn generate(&mut self, all: &mut Vec<Duty>, rests: u64, pattern: u32, list: &mut Vec<u32>) {
        let day = all.len() - 6;
        if day > self.ward.day_count {
            list.push(pattern);
            return;
        }
        for worked in self.choices(day) {
            let today = self.duty_on(day, worked);
            let rests = rests + u64::from(today == Duty::Rest);
            all.push(today);
            if window_kept(self.ward, all) && self.ways(all, rests) > 0 {
                let bit = if worked { day_bit(day) } else { 0 };
                self.generate(all, rests, pattern | bit, list);
            }
            all.pop();
        }
    }
}

fn last_six(all: &[Duty]) -> [Duty; 6] {
    let mut last = [Duty::Rest; 6];
    last.copy_from_slice(&all[all.len() - 6..]);
    last
}

/// The exact length of her list, without the list.
pub fn count(ward: &Ward, nurse: usize, night: Pattern) -> u64 {
    let mut before = duties_before(&ward.nurses[nurse]);
    Walk::new(ward, nurse, night).ways(&mut before, 0)
}

/// The pattern at an index below the count, in the order of the walk, without the list.
pub fn nth(ward: &Ward, nurse: usize, night: Pattern, index: u64) -> u32 {
    let mut walk = Walk::new(ward, nurse, night);
    let mut all = duties_before(&ward.nurses[nurse]);
    let (mut rests, mut left, mut pattern) = (0, index, 0);
    for day in 1..=ward.day_count {
        for worked in walk.choices(day) {
            let today = walk.duty_on(day, worked);
            let rests_then = rests + u64::from(today == Duty::Rest);
            all.push(today);
            let ways = if window_kept(ward, &all) { walk.ways(&mut all, rests_then) } else { 0 };
            if left < ways {
                rests = rests_then;
                pattern |= if worked { day_bit(day) } else { 0 };
                break;
            }
            left -= ways;
            all.pop();
        }
    }
    pattern
}

/// Her list by depth-first generation, sorted.
pub fn list_by_walk(ward: &Ward, nurse: usize, night: Pattern) -> Vec<u32> {
    let mut list = Vec::new();
    let mut before = duties_before(&ward.nurses[nurse]);
    Walk::new(ward, nurse, night).generate(&mut before, 0, 0, &mut list);
    list.sort_unstable();
    list
}

/// Her list, ascending, where it has at most `cap` patterns.
pub fn list_capped(ward: &Ward, nurse: usize, night: Pattern, cap: usize) -> Option<Vec<u32>> {
    if free_days(ward, nurse, night).count_ones() <= FILTER_FREE_DAYS {
        let list = list_by_filter(ward, nurse, night);
        return if list.len() > cap { None } else { Some(list) };
    }
    if count(ward, nurse, night) > cap as u64 {
        return None;
    }
    Some(list_by_walk(ward, nurse, night))
}

/// Days worked by an unplaced nurse: her marks 2, where she is available.
pub fn worked_unplaced(ward: &Ward, nurse: usize, night: Pattern) -> u32 {
    available_days(ward, nurse, night) & marked_days(ward, nurse, 2)
}
