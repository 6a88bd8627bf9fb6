//! Wards for the tests: the worked one, the ward files and random small ones.

use crate::ward::{encode, parse, Ward};

pub const WORKED: &[u8] = include_bytes!("../wards/worked.ward");
pub const STUCK: &[u8] = include_bytes!("../wards/stuck.ward");
pub const SURGICAL: &[u8] = include_bytes!("../wards/surgical.ward");
pub const REDATED: &[u8] = include_bytes!("../wards/redated.ward");
pub const DEAD_ENDS: &[u8] = include_bytes!("../wards/dead-ends.ward");
pub const LARGE: &[u8] = include_bytes!("../wards/large.ward");
/// Two nurses, four days and two pairs, which begin on days 2 and 3.
pub const PAIRS: &[u8] = include_bytes!("../wards/pairs.ward");
/// The worked ward with a pair on days 2 and 3.
pub const PAIRS_NONE: &[u8] = include_bytes!("../wards/pairs-none.ward");
/// 19 nurses and 29 days with a weekend every week.
pub const PAIRS_MONTH: &[u8] = include_bytes!("../wards/pairs-month.ward");
/// 15 nurses and 30 days with ten pairs, some of which overlap.
pub const PAIRS_TEN: &[u8] = include_bytes!("../wards/pairs-ten.ward");
/// The re-dated ward with its weekends.
pub const WEEKENDS: &[u8] = include_bytes!("../wards/weekends.ward");

/// The surgical ward's roster from before other duty counted in a run, a line a nurse.
pub const OLD_ROSTER: &str = include_str!("../wards/surgical-old-rule.roster");

/// The numbers of "A ward worked through".
pub const WORKED_NUMBERS: [u64; 50] = [
    2, 3, 0, 1, 1, 1, 1, 1, 2, 3, 1, 1, 1, 1, 1, 1, // ward
    0, 0, 0, 0, 0, 0, 0, 0, 1, 0, 3, 0, 0, 0, // nurse 1
    0, 0, 0, 0, 0, 0, 0, 0, 1, 0, 3, 0, 0, 1, // nurse 2
    1, 1, 0, 1, 0, 0, // days
];

/// The numbers of the ward with two pairs.
pub const PAIRS_NUMBERS: [u64; 59] = [
    0, 2, // edition
    2, 4, 0, 1, 1, 1, 1, 1, 2, 3, 1, 1, 1, 1, 1, 1, // ward
    0, 0, 0, 0, 0, 0, 0, 0, 1, 0, 4, 0, 0, 0, 0, // nurse 1
    0, 0, 0, 0, 0, 0, 0, 0, 1, 0, 4, 0, 0, 0, 1, // nurse 2
    1, 1, 0, 1, 0, 0, 0, 0, // days
    2, 2, 3, // pairs
];

pub fn worked() -> Ward {
    parse(WORKED).unwrap()
}

pub fn two_pairs() -> Ward {
    parse(PAIRS).unwrap()
}

/// The numbers of edition one as edition two, with pairs of these first days.
pub fn with_pairs(old: &[u64], first_days: &[u64]) -> Vec<u64> {
    [&[0, 2], old, &[first_days.len() as u64], first_days].concat()
}

pub fn file_of(numbers: &[u64]) -> Vec<u8> {
    numbers.iter().flat_map(|&number| encode(number)).collect()
}

pub fn ward_of(numbers: &[u64]) -> Ward {
    parse(&file_of(numbers)).unwrap()
}

/// One nurse, no groups, no needs.
pub struct One {
    pub days: u64,
    pub most_nights: u64,
    pub run: u64,
    pub gaps: [u64; 3],
    pub day_run: u64,
    pub before: [u64; 7],
    pub nights: (u64, u64),
    pub rests: (u64, u64),
    pub marks: Vec<u64>,
}

impl One {
    /// Nothing bound but what is given.
    pub fn new(days: u64, most_nights: u64, run: u64, gaps: [u64; 3]) -> One {
        One {
            days,
            most_nights,
            run,
            gaps,
            day_run: 6,
            before: [0; 7],
            nights: (0, 15),
            rests: (0, 31),
            marks: vec![0; days as usize],
        }
    }

    pub fn ward(&self) -> Ward {
        let mut numbers = vec![1, self.days, 0, self.most_nights, self.run];
        numbers.extend(self.gaps);
        numbers.extend([0, self.day_run, 1, 1, 1, 1, 1, 1]);
        numbers.extend(self.before);
        numbers.extend([self.nights.0, self.nights.1, self.rests.0, self.rests.1]);
        numbers.extend(&self.marks);
        numbers.extend(vec![0; 2 * self.days as usize]);
        ward_of(&numbers)
    }
}

/// Marsaglia's shift generator: the same numbers on every run.
pub struct Dice(pub u64);

impl Dice {
    pub fn upto(&mut self, most: u64) -> u64 {
        self.0 ^= self.0 << 13;
        self.0 ^= self.0 >> 7;
        self.0 ^= self.0 << 17;
        self.0 % (most + 1)
    }

    pub fn from(&mut self, least: u64, most: u64) -> u64 {
        least + self.upto(most - least)
    }

    pub fn one_in(&mut self, chances: u64) -> bool {
        self.upto(chances - 1) == 0
    }

    /// An index of a list with this many places.
    pub fn index(&mut self, length: usize) -> usize {
        self.upto(length as u64 - 1) as usize
    }

    pub fn pick<T: Copy>(&mut self, choices: &[T]) -> T {
        choices[self.index(choices.len())]
    }
}

pub fn random_before(dice: &mut Dice) -> Vec<u64> {
    let mut before = if dice.one_in(6) { vec![3] } else { vec![] };
    while before.len() < 7 {
        before.push(if dice.one_in(4) { 2 } else { [0, 1, 1, 4][dice.upto(3) as usize] });
        if before[before.len() - 1] == 2 {
            before.push(3);
        }
    }
    before.truncate(7);
    before
}

fn random_nurse(dice: &mut Dice, days: u64) -> Vec<u64> {
    let mut numbers = random_before(dice);
    let least = if dice.one_in(3) { 1 } else { 0 };
    numbers.extend([least, dice.from(least, 6)]);
    let least = dice.upto(1);
    numbers.extend([least, dice.from(days.max(2) - 1, 31)]);
    for _ in 0..days {
        numbers.push(if dice.one_in(4) { dice.upto(6) } else { 0 });
    }
    numbers
}

fn random_group_bounds(dice: &mut Dice, nurses: u64) -> [u64; 4] {
    let mut bounds = [0; 4];
    for pair in bounds.chunks_mut(2) {
        pair[0] = if dice.one_in(4) { 1 } else { 0 };
        pair[1] = dice.from(pair[0].max(nurses / 2), nurses.max(pair[0]));
    }
    bounds
}

/// A small ward with modest needs, so that some searches end at zero.
pub fn random_numbers(dice: &mut Dice, most_nurses: u64, most_days: u64) -> Vec<u64> {
    let (m, n, r) = (dice.from(1, most_nurses), dice.from(1, most_days), dice.upto(2));
    let mut numbers = vec![m, n, r, dice.upto(4), dice.from(1, 3)];
    numbers.extend([dice.from(1, 3), dice.from(1, 3), dice.from(1, 3)]);
    numbers.extend([dice.upto(6), dice.from(2, 6)]);
    for _ in 0..6 {
        numbers.push(dice.from(1, 5));
    }
    for _ in 0..m {
        numbers.extend(random_nurse(dice, n));
    }
    for _ in 0..r {
        numbers.push(dice.from(1, (1 << m) - 1));
    }
    for _ in 0..n {
        let (night, day) = (dice.one_in(4), dice.one_in(3));
        numbers.extend([u64::from(night), u64::from(day)]);
        for _ in 0..r {
            numbers.extend(random_group_bounds(dice, m));
        }
    }
    numbers
}

/// First days of no pair, of one, of some or of as many as there can be.
pub fn random_pairs(dice: &mut Dice, days: u64) -> Vec<u64> {
    let most = (days - 1).min(10);
    let count = match dice.upto(3) {
        0 => 0,
        1 => most.min(1),
        2 => dice.upto(most),
        _ => most,
    };
    let mut first_days: Vec<u64> = (1..days).collect();
    while first_days.len() as u64 > count {
        first_days.remove(dice.index(first_days.len()));
    }
    first_days
}

/// A small ward of edition two.
pub fn random_ward_with_pairs(dice: &mut Dice, most_nurses: u64, most_days: u64) -> Ward {
    let old = random_numbers(dice, most_nurses, most_days);
    ward_of(&with_pairs(&old, &random_pairs(dice, old[1])))
}

pub fn random_ward(dice: &mut Dice, most_nurses: u64, most_days: u64) -> Ward {
    ward_of(&random_numbers(dice, most_nurses, most_days))
}
