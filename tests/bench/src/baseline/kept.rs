//! Everyone's list, built once for an advance and kept; per nurse a table of days by three
//! states, summed over parts of the month.

use super::points::{Columns, Duty, Terms};
use super::record::Record;
use super::search::{Exchange, Patterns, Phase, UNPLACED};
use super::ward::{Demand, Ward, DAY, NIGHT};

/// Days in one part of the month, and parts in a month.
const PART: usize = 4;
const PARTS: usize = 8;
/// Three states by day: a set of days of one part as the digit 1 of a number to base three.
const DIGITS: [u8; 16] = [0, 1, 3, 4, 9, 10, 12, 13, 27, 28, 30, 31, 36, 37, 39, 40];
/// Groups and, in the last place, all nurses.
const CONDITIONS: usize = 17;
const EVERYONE: usize = 16;

/// What one nurse more and one fewer change, by condition.
#[derive(Clone, Copy)]
struct Margin {
    join: [i32; CONDITIONS],
    leave: [i32; CONDITIONS],
}

impl Margin {
    fn of(ward: &Ward, terms: Terms, shift: usize, demand: &Demand, on: u64) -> Margin {
        let mut margin = Margin { join: [0; CONDITIONS], leave: [0; CONDITIONS] };
        let Some([w, u, v]) = terms.weights(ward, shift) else {
            return margin;
        };
        for (g, (&(low, high), group)) in demand.bounds.iter().zip(&ward.groups).enumerate() {
            let members = (on & group).count_ones() as i32;
            margin.join[g] = if members < low { -u } else { v * i32::from(members >= high) };
            margin.leave[g] = if members <= low { u } else { -v * i32::from(members > high) };
        }
        let nurses = on.count_ones() as i32;
        margin.join[EVERYONE] = -w * i32::from(nurses < demand.need);
        margin.leave[EVERYONE] = w * i32::from(nurses <= demand.need);
        margin
    }
}

fn of_her_groups(changes: &[i32; CONDITIONS], groups: u32) -> i32 {
    let mut sum = changes[EVERYONE];
    let mut left = groups;
    while left != 0 {
        sum += changes[left.trailing_zeros() as usize];
        left &= left - 1;
    }
    sum
}

/// What a nurse's three states change on each day, summed over each part of the month. 256 places
/// of which 81 are used: a byte is always a place.
type Table = [[i32; 256]; PARTS];

/// Whether no night, a night or a day: what each changes on one day, by what she does now.
fn changes(margins: &[Margin; 2], groups: u32, on: [bool; 2]) -> [i32; 3] {
    let side = |shift: usize| {
        let margin = &margins[shift];
        if on[shift] {
            (of_her_groups(&margin.leave, groups), 0)
        } else {
            (0, of_her_groups(&margin.join, groups))
        }
    };
    let ((no_night, night), (no_day, day)) = (side(NIGHT), side(DAY));
    [no_night + no_day, night + no_day, no_night + day]
}

fn fill(table: &mut Table, margins: &[[Margin; 2]], groups: u32, now: Duty) {
    for (part, (sums, margins)) in table.iter_mut().zip(margins.chunks(PART)).enumerate() {
        sums[0] = 0;
        let mut filled = 1;
        for (at, margin) in margins.iter().enumerate() {
            let day = part * PART + at;
            let changes = changes(margin, groups, now.map(|set| set >> day & 1 == 1));
            for digit in (0..3).rev() {
                for low in 0..filled {
                    sums[digit * filled + low] = sums[low] + changes[digit];
                }
            }
            filled *= 3;
        }
    }
}

/// One nurse's patterns, ascending, each with its place in each part of the table.
struct List {
    patterns: Vec<u32>,
    places: Vec<[u8; PARTS]>,
}

impl List {
    /// The first pattern of least sum below `bound` that is not barred.
    fn least<const N: usize>(
        &self,
        table: &Table,
        bound: i32,
        barred: impl Fn(u32) -> bool,
    ) -> Option<(i32, u32)> {
        let (mut least, mut found) = (bound, None);
        for (places, &pattern) in self.places.iter().zip(&self.patterns) {
            let sum: i32 = (0..N).map(|part| table[part][usize::from(places[part])]).sum();
            if sum < least && !barred(pattern) {
                (least, found) = (sum, Some((sum, pattern)));
            }
        }
        found
    }
}

fn places(duty: Duty) -> [u8; PARTS] {
    let digits = |set: u32, part: usize| DIGITS[(set >> (PART * part) & 15) as usize];
    std::array::from_fn(|part| digits(duty[NIGHT], part) + 2 * digits(duty[DAY], part))
}

pub struct Kept<'a> {
    phase: &'a Phase<'a>,
    lists: Vec<List>,
}

impl<'a> Kept<'a> {
    pub fn of(phase: &'a Phase<'a>) -> Self {
        let list = |i: usize| {
            let mut list = List { patterns: Vec::new(), places: Vec::new() };
            phase.each(i, |pattern, duty| {
                list.patterns.push(pattern);
                list.places.push(places(duty));
            });
            list
        };
        Kept { phase, lists: (0..phase.ward.nurses.len()).map(list).collect() }
    }

    /// The best exchange, the month having N parts.
    fn least_of<const N: usize>(
        &self,
        record: &Record,
        columns: &Columns,
        penalty: i32,
    ) -> Option<Exchange> {
        let (ward, terms) = (self.phase.ward, self.phase.terms);
        let margins: Vec<[Margin; 2]> = columns
            .0
            .iter()
            .zip(&ward.demands)
            .map(|(on, demands)| {
                [NIGHT, DAY].map(|s| Margin::of(ward, terms, s, &demands[s], on[s]))
            })
            .collect();
        let mut table = [[0; 256]; PARTS];
        let mut best: Option<Exchange> = None;
        for (i, list) in self.lists.iter().enumerate() {
            let in_use = record.in_use[i];
            let base = penalty - if in_use.is_none() { UNPLACED } else { 0 };
            fill(&mut table, &margins, ward.nurses[i].groups, self.phase.duty(i, in_use));
            let bound = best.map_or(i32::MAX, |best| best.0 - base);
            let barred = |pattern| record.bars(i, pattern);
            if let Some((change, pattern)) = list.least::<N>(&table, bound, barred) {
                best = Some((base + change, i, pattern));
            }
        }
        best
    }
}

impl Patterns for Kept<'_> {
    fn any(&self, nurse: usize) -> bool {
        !self.lists[nurse].patterns.is_empty()
    }

    fn least(&self, record: &Record, columns: &Columns, penalty: i32) -> Option<Exchange> {
        let least = match self.phase.ward.days.div_ceil(PART) {
            1 => Self::least_of::<1>,
            2 => Self::least_of::<2>,
            3 => Self::least_of::<3>,
            4 => Self::least_of::<4>,
            5 => Self::least_of::<5>,
            6 => Self::least_of::<6>,
            7 => Self::least_of::<7>,
            _ => Self::least_of::<PARTS>,
        };
        least(self, record, columns, penalty)
    }
}
