//! Who is on duty, and the points of the penalty for it.

use super::ward::{Demand, Ward, DAY, NIGHT};

/// Which shifts count, and of which the highs.
#[derive(Clone, Copy)]
pub struct Terms {
    counted: [bool; 2],
    highs: [bool; 2],
}

pub const BY_NIGHT: Terms = Terms { counted: [true, true], highs: [true, false] };
pub const BY_DAY: Terms = Terms { counted: [false, true], highs: [false, true] };
pub const BOTH: Terms = Terms { counted: [true, true], highs: [true, true] };

impl Terms {
    /// w, u and v of a shift that counts.
    pub fn weights(self, ward: &Ward, shift: usize) -> Option<[i32; 3]> {
        let [w, u, v] = ward.weights[shift];
        self.counted[shift].then_some([w, u, if self.highs[shift] { v } else { 0 }])
    }
}

/// The days on which one nurse counts for each shift.
pub type Duty = [u32; 2];

/// The nurses on duty, nurse i as bit i, by day and shift.
pub struct Columns(pub Vec<[u64; 2]>);

impl Columns {
    pub fn empty(ward: &Ward) -> Columns {
        Columns(vec![[0; 2]; ward.days])
    }

    pub fn put(&mut self, nurse: usize, duty: Duty) {
        for (at, day) in self.0.iter_mut().enumerate() {
            for (column, set) in day.iter_mut().zip(duty) {
                *column = *column & !(1 << nurse) | u64::from(set >> at & 1) << nurse;
            }
        }
    }

    pub fn points(&self, ward: &Ward, terms: Terms) -> i32 {
        let day = |(columns, demands): (&[u64; 2], &[Demand; 2])| -> i32 {
            let of = |shift: usize| {
                let weights = terms.weights(ward, shift);
                weights.map_or(0, |weights| points(ward, weights, &demands[shift], columns[shift]))
            };
            of(NIGHT) + of(DAY)
        };
        self.0.iter().zip(&ward.demands).map(day).sum()
    }
}

fn points(ward: &Ward, weights: [i32; 3], demand: &Demand, on: u64) -> i32 {
    let of_group = |(&bounds, group): (&(i32, i32), &u64)| {
        of_members(weights, bounds, (on & group).count_ones() as i32)
    };
    let of_groups: i32 = demand.bounds.iter().zip(&ward.groups).map(of_group).sum();
    of_everyone(weights, demand.need, on.count_ones() as i32) + of_groups
}

/// w for each nurse short of the need.
pub fn of_everyone([w, ..]: [i32; 3], need: i32, nurses: i32) -> i32 {
    w * (need - nurses).max(0)
}

/// u for each member short of low, v for each above high.
pub fn of_members([_, u, v]: [i32; 3], (low, high): (i32, i32), members: i32) -> i32 {
    u * (low - members).max(0) + v * (members - high).max(0)
}
