//! A ward as the search wants it: days as bits, marks as masks, demands by day and shift.

use super::{layout, No};

pub const NIGHT: usize = 0;
pub const DAY: usize = 1;

pub struct Ward {
    /// n
    pub days: usize,
    /// V
    pub most_nights: u32,
    /// L
    pub run: u32,
    pub gaps: [i32; 3],
    /// TL
    pub tabu: usize,
    /// D
    pub day_run: u32,
    /// w, u, v of both shifts
    pub weights: [[i32; 3]; 2],
    pub nurses: Vec<Nurse>,
    pub groups: Vec<u64>,
    /// by day and shift
    pub demands: Vec<[Demand; 2]>,
}

pub struct Nurse {
    /// duties of days -6 to 0
    pub before: [u8; 7],
    pub least_nights: u32,
    pub most_nights: u32,
    pub least_rests: u32,
    pub most_rests: u32,
    /// days with each mark, day d as bit d - 1
    pub marks: [u32; 7],
    /// day 1 where day 0 is N, day 1 where it is n
    after_start: u32,
    after_second: u32,
    /// days that she may work where they are open
    may_work: u32,
    /// her groups, the first as bit 0
    pub groups: u32,
}

pub struct Demand {
    pub need: i32,
    /// low and high of each group
    pub bounds: Vec<(i32, i32)>,
}

/// The states of one row as sets of days.
#[derive(Clone, Copy, PartialEq, Eq)]
pub struct Row {
    pub starts: u32,
    pub seconds: u32,
    /// owed rest
    pub rests: u32,
}

impl Nurse {
    pub fn row(&self, starts: u32) -> Row {
        let seconds = (starts << 1 | self.after_start) & !starts;
        let rests = (seconds << 1 | self.after_second) & !starts;
        Row { starts, seconds, rests }
    }

    /// The days of a row on which she is available.
    pub fn available(&self, row: Row) -> u32 {
        self.may_work & !(row.starts | row.seconds | row.rests)
    }
}

impl Ward {
    pub fn read(file: &[u8]) -> Result<Ward, No> {
        Ok(Ward::of(&layout::numbers(file)?))
    }

    /// All days as one set.
    pub fn month(&self) -> u32 {
        ((1u64 << self.days) - 1) as u32
    }

    fn of(numbers: &[u64]) -> Ward {
        let (m, n, r) = (numbers[0] as usize, numbers[1] as usize, numbers[2] as usize);
        let weights = |at: usize| [0, 1, 2].map(|i| numbers[at + i] as i32);
        let (nurses, rest) = numbers[16..].split_at(m * (11 + n));
        let (groups, days) = rest.split_at(r);
        Ward {
            days: n,
            most_nights: numbers[3] as u32,
            run: numbers[4] as u32,
            gaps: [5, 6, 7].map(|at| numbers[at] as i32),
            tabu: numbers[8] as usize,
            day_run: numbers[9] as u32,
            weights: [weights(10), weights(13)],
            nurses: nurses.chunks(11 + n).enumerate().map(|(i, p)| nurse(p, i, groups)).collect(),
            groups: groups.to_vec(),
            demands: days.chunks(2 + 4 * r).map(|d| [demand(d, NIGHT), demand(d, DAY)]).collect(),
        }
    }
}

fn nurse(part: &[u64], i: usize, groups: &[u64]) -> Nurse {
    let mut marks = [0; 7];
    for (at, &mark) in part[11..].iter().enumerate() {
        marks[mark as usize] |= 1 << at;
    }
    let member = |(g, members): (usize, &u64)| ((members >> i & 1) as u32) << g;
    Nurse {
        before: [0, 1, 2, 3, 4, 5, 6].map(|at| part[at] as u8),
        least_nights: part[7] as u32,
        most_nights: part[8] as u32,
        least_rests: part[9] as u32,
        most_rests: part[10] as u32,
        marks,
        after_start: u32::from(part[6] == 2),
        after_second: u32::from(part[6] == 3),
        may_work: marks[0] | marks[2] | marks[5],
        groups: groups.iter().enumerate().map(member).sum(),
    }
}

fn demand(day: &[u64], shift: usize) -> Demand {
    let pair = |g: &[u64]| (g[2 * shift] as i32, g[2 * shift + 1] as i32);
    Demand { need: day[shift] as i32, bounds: day[2..].chunks(4).map(pair).collect() }
}
