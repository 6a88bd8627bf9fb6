//! The table of times.

use crate::baseline::Baseline;
use crate::sides::{Sides, Times};
use crate::subjects::{Subject, PLACES};
use compare::calls::Calls;
use std::time::Duration;

/// All sides are called in turn until one of them has had this time.
const ENOUGH: Duration = Duration::from_millis(400);
const FEWEST: usize = 5;

/// The least time of a call on each side, in microseconds.
pub fn least(call: impl Fn() -> Times) -> Vec<f64> {
    let mut least = call();
    let (mut sum, mut calls) = (Duration::ZERO, 1);
    while sum < ENOUGH || calls < FEWEST {
        let times = call();
        sum += times.iter().copied().max().unwrap_or_default();
        for (least, time) in least.iter_mut().zip(times) {
            *least = time.min(*least);
        }
        calls += 1;
    }
    least.into_iter().map(|time| time.as_secs_f64() * 1e6).collect()
}

/// The planner's time; then each baseline's, and how many times that it takes.
fn line(ward: &str, what: &str, times: &[f64]) {
    print!("| {ward} | {what} | {:.2} |", times[0]);
    for side in 1..3 {
        match times.get(side) {
            Some(plain) => print!(" {plain:.2} | {:.2} |", times[0] / plain),
            None => print!(" | |"),
        }
    }
    println!();
}

/// The lists alone (an advance of no steps); what an advance does before its first step, everyone's
/// own lists with it (an advance of one step, less a step); many steps, and one of them.
fn advance(ward: &str, shift: &str, steps: u32, k: u32, call: impl Fn(u32) -> Times) {
    let [lists, first, all] = [0, 1, k].map(|k| least(|| call(k)));
    let sides = [0, 1, 2];
    let later = f64::from(steps.saturating_sub(1).max(1));
    let one = sides.map(|side| (all[side] - first[side]).max(0.0) / later);
    let before = sides.map(|side| (first[side] - one[side]).max(0.0));
    line(ward, &format!("{shift} lists"), &lists);
    line(ward, &format!("{shift}, before the first step"), &before);
    line(ward, &format!("{steps} {shift} steps"), &all);
    line(ward, &format!("one {shift} step"), &one);
}

pub fn subject(planner: &dyn Calls, subject: &Subject) {
    let (name, file) = (&subject.name[..], subject.file);
    let sides = Sides { planner, subject };
    if let Some(k) = subject.night {
        line(name, "read", &least(|| sides.read()));
        line(name, "write", &least(|| sides.write()));
        let (done, _) = Baseline::ListsKept.by_night(file, k, PLACES).expect("no refusal");
        advance(name, "night", done.steps, k, |k| sides.nights(k));
    }
    if let Some((nights, k)) = &subject.day {
        let (done, _) = Baseline::ListsKept.by_day(file, nights, *k, PLACES).expect("no refusal");
        advance(name, "day", done.steps, *k, |k| sides.days(nights, k));
        if !done.roster.is_empty() {
            line(name, "check", &least(|| sides.check(&done.roster)));
        }
    }
}

pub fn head() {
    println!("Least times in microseconds, {PLACES} places in the buffer.\n");
    println!("| ward | what | proved | plain, lists kept | ratio | plain, same tables | ratio |");
    println!("|---|---|---|---|---|---|---|");
}
