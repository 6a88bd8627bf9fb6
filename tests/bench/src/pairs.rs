//! What pairs cost: the planner on a ward with pairs beside the planner on the same ward without.
//! The baseline knows no pairs.

use crate::measure::least;
use crate::subjects::PLACES;
use compare::calls::*;
use compare::case::{make, Case, Left};
use compare::words::FRESH;
use std::time::Duration;

/// A ward in edition one, and the same with pairs in edition two.
pub struct Twin {
    pub name: &'static str,
    pub without: Vec<u8>,
    pub with: Vec<u8>,
    /// steps by night, which come to an end in neither
    pub k: u32,
}

/// "0 and 2, then the old numbers, then a count" and the first days, each of them one byte.
pub fn of_edition_two(file: &[u8], first_days: &[u8]) -> Vec<u8> {
    [&[0, 2], file, &[first_days.len() as u8], first_days].concat()
}

fn twin(name: &'static str, file: &[u8], first_days: &[u8], k: u32) -> Twin {
    Twin { name, without: file.to_vec(), with: of_edition_two(file, first_days), k }
}

/// The large ward with as many pairs as there can be, and the re-dated surgical one with its
/// weekends.
pub fn all() -> [Twin; 2] {
    let large = include_bytes!("../../reference/wards/large.ward");
    let redated = include_bytes!("../../reference/wards/redated.ward");
    [
        twin("large, ten pairs", large, &[1, 4, 7, 10, 13, 16, 19, 22, 25, 30], 30),
        twin("re-dated surgical, five pairs", redated, &[2, 3, 9, 16, 23], 300),
    ]
}

/// A night advance from fresh: what it leaves, and its time.
pub fn nights(planner: &dyn Calls, file: &[u8], k: u32) -> (Left, Duration) {
    let ask = Ask::plain(k);
    let case = Case::Nights { file: file.to_vec(), record: FRESH, ask, places: PLACES };
    let (left, time) = make(planner, &case);
    assert_eq!(left.answer()[QUESTION], 0, "refused: {case:?}");
    (left, time)
}

pub fn head() {
    println!("\n| ward | what | without pairs | with pairs | ratio |\n|---|---|---|---|---|");
}

fn line(twin: &Twin, what: &str, [without, with]: [f64; 2]) {
    println!("| {} | {what} | {without:.2} | {with:.2} | {:.2} |", twin.name, with / without);
}

/// The lists alone, many steps, and one of them, in microseconds.
pub fn measure(planner: &dyn Calls, twin: &Twin) {
    let files = [&twin.without, &twin.with];
    let [lists, all] = [0, twin.k].map(|k| {
        let times = least(|| files.map(|file| nights(planner, file, k).1).to_vec());
        [times[0], times[1]]
    });
    let steps = files.map(|file| nights(planner, file, twin.k).0.answer()[STEPS]);
    let one = [0, 1].map(|side| (all[side] - lists[side]).max(0.0) / steps[side] as f64);
    line(twin, "night lists", lists);
    line(twin, &format!("{} night steps", twin.k), all);
    line(twin, "one night step", one);
}
