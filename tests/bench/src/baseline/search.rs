//! The tabu search, whichever way a step finds its exchange.

use super::check::letters;
use super::nights::{is_common, Hers};
use super::points::{Columns, Duty, Terms, BY_DAY, BY_NIGHT};
use super::record::Record;
use super::ward::{Nurse, Ward};
use super::No;

pub const UNPLACED: i32 = 10_000_000;

/// One of the two searches on a ward, with its list.
pub struct Phase<'a> {
    pub ward: &'a Ward,
    pub terms: Terms,
    /// by day
    nights: Option<&'a [u32]>,
    /// by night the common list, by day everyone's in turn
    pub list: Vec<u32>,
    /// by day, where each nurse's part begins
    begins: Vec<usize>,
}

/// The penalty after an exchange, its nurse and her new pattern.
pub type Exchange = (i32, usize, u32);

/// Everyone's patterns, and the best of them.
pub trait Patterns {
    fn any(&self, nurse: usize) -> bool;

    /// Least penalty, then lowest nurse, then lowest number.
    fn least(&self, record: &Record, columns: &Columns, penalty: i32) -> Option<Exchange>;
}

/// By the numbers of the C interface.
#[derive(Clone, Copy, Debug, PartialEq, Eq)]
pub enum End {
    Zero = 1,
    Asked = 2,
    None = 3,
}

#[derive(Clone)]
pub struct Done {
    pub end: End,
    pub steps: u32,
    pub penalty: i32,
    pub in_use: Vec<Option<u32>>,
    /// by day at zero
    pub roster: Vec<u8>,
}

fn night_duty(nurse: &Nurse, starts: u32) -> Duty {
    [starts, nurse.available(nurse.row(starts))]
}

/// Question 8.
pub fn nights_at_zero(ward: &Ward, nights: &[u32]) -> bool {
    let mut columns = Columns::empty(ward);
    for (i, (nurse, &night)) in ward.nurses.iter().zip(nights).enumerate() {
        if !is_common(ward, night) || !Hers::of(ward, nurse).takes(night) {
            return false;
        }
        columns.put(i, night_duty(nurse, night));
    }
    columns.points(ward, BY_NIGHT) == 0
}

impl<'a> Phase<'a> {
    pub fn by_night(ward: &'a Ward, list: Vec<u32>) -> Self {
        Phase { ward, terms: BY_NIGHT, nights: None, list, begins: Vec::new() }
    }

    pub fn by_day(ward: &'a Ward, nights: &'a [u32], all: (Vec<u32>, Vec<usize>)) -> Self {
        let (list, begins) = all;
        Phase { ward, terms: BY_DAY, nights: Some(nights), list, begins }
    }

    /// The part of the list that has her patterns: by night all of it, others' among them.
    pub fn part(&self, i: usize) -> &[u32] {
        match self.nights {
            None => &self.list,
            Some(_) => &self.list[self.begins[i]..self.begins[i + 1]],
        }
    }

    /// Whether a pattern of that part is hers.
    pub fn takes(&self, i: usize) -> impl Fn(u32) -> bool + '_ {
        let hers = self.nights.is_none().then(|| Hers::of(self.ward, &self.ward.nurses[i]));
        move |pattern| hers.as_ref().is_none_or(|hers| hers.takes(pattern))
    }

    /// Her patterns in order, each with the days on which she counts under it.
    pub fn each(&self, i: usize, mut visit: impl FnMut(u32, Duty)) {
        let nurse = &self.ward.nurses[i];
        match self.nights {
            None => {
                let hers = Hers::of(self.ward, nurse);
                for &pattern in self.list.iter().filter(|&&pattern| hers.takes(pattern)) {
                    visit(pattern, night_duty(nurse, pattern));
                }
            }
            Some(_) => self.part(i).iter().for_each(|&days| visit(days, [0, days])),
        }
    }

    /// The days on which she counts, placed or not.
    pub fn duty(&self, i: usize, in_use: Option<u32>) -> Duty {
        let nurse = &self.ward.nurses[i];
        match self.nights {
            None => night_duty(nurse, in_use.unwrap_or(nurse.marks[3])),
            Some(nights) => {
                let open = || nurse.available(nurse.row(nights[i]));
                [0, in_use.unwrap_or_else(|| nurse.marks[2] & open())]
            }
        }
    }

    /// Steps from fresh until zero, asked or none; a nurse without a pattern is a no.
    pub fn advance(&self, patterns: &impl Patterns, k: u32) -> Result<Done, No> {
        let m = self.ward.nurses.len();
        if let Some(i) = (0..m).find(|&i| !patterns.any(i)) {
            return Err((10, i as u64 + 1));
        }
        let mut record = Record::fresh(m);
        let mut columns = Columns::empty(self.ward);
        for i in 0..m {
            columns.put(i, self.duty(i, None));
        }
        let mut penalty = columns.points(self.ward, self.terms) + UNPLACED * m as i32;
        let mut steps = 0;
        let end = loop {
            if penalty == 0 {
                break End::Zero;
            }
            if steps == k {
                break End::Asked;
            }
            let Some((least, nurse, pattern)) = patterns.least(&record, &columns, penalty) else {
                break End::None;
            };
            record.exchange(nurse, pattern, self.ward.tabu);
            columns.put(nurse, self.duty(nurse, Some(pattern)));
            penalty = least;
            steps += 1;
        };
        let roster = if penalty == 0 { self.roster(&record) } else { Vec::new() };
        Ok(Done { end, steps, penalty, in_use: record.in_use, roster })
    }

    /// By day, the rows of nights and days.
    fn roster(&self, record: &Record) -> Vec<u8> {
        let Some(nights) = self.nights else {
            return Vec::new();
        };
        let row = |(i, nurse): (usize, &'a Nurse)| {
            letters(self.ward, nurse, nights[i], record.in_use[i].unwrap_or(0))
        };
        self.ward.nurses.iter().enumerate().flat_map(row).collect()
    }
}
