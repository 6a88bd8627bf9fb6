//! A step as the proved planner makes it: for each nurse a table summed over three days at a time,
//! then one pass over the list. Nothing is kept from step to step, and nothing allocated.

use super::points::{of_everyone, of_members, Columns};
use super::record::Record;
use super::search::{Exchange, Patterns, Phase, UNPLACED};
use super::ward::{Demand, Ward, DAY, NIGHT};

/// Days in one chunk of the month, and chunks in a month.
const CHUNK: usize = 3;
const CHUNKS: usize = 11;

/// What three days cost, by her nights and then by her days among them.
type Table = [[i32; 64]; CHUNKS];

pub struct SameTables<'a>(pub &'a Phase<'a>);

/// The points of one shift of a day without nurse i, and with her.
fn pair(ward: &Ward, weights: [i32; 3], demand: &Demand, on: u64, i: usize) -> [i32; 2] {
    let others = on & !(1 << i);
    let nurses = others.count_ones() as i32;
    let mut pair = [0, 1].map(|more| of_everyone(weights, demand.need, nurses + more));
    for (&bounds, group) in demand.bounds.iter().zip(&ward.groups) {
        let (members, hers) = ((others & group).count_ones() as i32, (group >> i & 1) as i32);
        pair[0] += of_members(weights, bounds, members);
        pair[1] += of_members(weights, bounds, members + hers);
    }
    pair
}

/// What one day costs by whether she is on at night and by day; both is a night.
type Costs = [[i32; 2]; 2];

/// All sums of three days.
fn summed(costs: &[Costs; CHUNK * CHUNKS]) -> Table {
    let mut table = [[0; 64]; CHUNKS];
    for (sums, costs) in table.iter_mut().zip(costs.chunks_exact(CHUNK)) {
        for (night, sums) in sums.chunks_exact_mut(8).enumerate() {
            let [first, second, third] = [0, 1, 2].map(|at| costs[at][night >> at & 1]);
            for (day, sum) in sums.iter_mut().enumerate() {
                *sum = first[day & 1] + second[day >> 1 & 1] + third[day >> 2];
            }
        }
    }
    table
}

/// What the whole month costs with her on these days.
fn trial(table: &Table, night: u32, day: u32) -> i32 {
    let at = |set: u32, chunk: usize| (set >> (CHUNK * chunk) & 7) as usize;
    (0..CHUNKS).map(|chunk| table[chunk][at(night, chunk) << CHUNK | at(day, chunk)]).sum()
}

impl SameTables<'_> {
    fn table(&self, columns: &Columns, i: usize) -> Table {
        let ward = self.0.ward;
        let mut costs = [[[0; 2]; 2]; CHUNK * CHUNKS];
        for (costs, (on, demands)) in costs.iter_mut().zip(columns.0.iter().zip(&ward.demands)) {
            let [night, day] = [NIGHT, DAY].map(|shift| {
                let weights = self.0.terms.weights(ward, shift);
                weights.map_or([0; 2], |w| pair(ward, w, &demands[shift], on[shift], i))
            });
            *costs = [[night[0] + day[0], night[0] + day[1]], [night[1] + day[0]; 2]];
        }
        summed(&costs)
    }
}

impl Patterns for SameTables<'_> {
    fn any(&self, nurse: usize) -> bool {
        let takes = self.0.takes(nurse);
        self.0.part(nurse).iter().any(|&pattern| takes(pattern))
    }

    fn least(&self, record: &Record, columns: &Columns, _: i32) -> Option<Exchange> {
        let m = self.0.ward.nurses.len();
        let unplaced = record.in_use.iter().filter(|in_use| in_use.is_none()).count() as i32;
        let (mut least, mut found) = (i32::MAX, None);
        for i in 0..m {
            let table = self.table(columns, i);
            let others = UNPLACED * (unplaced - i32::from(record.in_use[i].is_none()));
            self.0.each(i, |pattern, [night, day]| {
                let cost = trial(&table, night, day) + others;
                if cost < least && !record.bars(i, pattern) {
                    (least, found) = (cost, Some((cost, i, pattern)));
                }
            });
        }
        found
    }
}
