//! Sessions of many rounds with fixed seeds, and what must have come up in them.

use crate::trial::Trial;
use crate::wards::Size;
use reference::samples::Dice;
use std::io::Write;

pub type Round = fn(&mut Trial, &mut Dice, &Size);

/// A call, some of its answers, and how often each must come up.
pub type Least<'a> = (&'static str, &'a [&'a str], u64);

/// A number from the environment.
fn setting(name: &str, otherwise: u64) -> u64 {
    std::env::var(name).ok().and_then(|text| text.parse().ok()).unwrap_or(otherwise)
}

/// COMPARE_ROUNDS: how many times as long as in the gate.
pub fn longer() -> u64 {
    setting("COMPARE_ROUNDS", 1)
}

/// COMPARE_SEED: other wards with every seed.
fn seed() -> u64 {
    setting("COMPARE_SEED", 1)
}

/// Neighbouring seeds and rounds give unlike numbers (Steele, Lea and Flood's mixer).
fn dice(seed: u64, round: u64) -> Dice {
    let mut z = seed.wrapping_mul(0x9e37_79b9_7f4a_7c15) ^ round;
    z = (z ^ (z >> 30)).wrapping_mul(0xbf58_476d_1ce4_e5b9);
    z = (z ^ (z >> 27)).wrapping_mul(0x94d0_49bb_1331_11eb);
    Dice((z ^ (z >> 31)).max(1))
}

/// So many rounds on wards of one size, or until enough differences are found.
pub fn run(trial: &mut Trial, name: &str, round: Round, size: &Size, rounds: u64) {
    for number in 0..rounds * longer() {
        if trial.enough() {
            return;
        }
        trial.at = format!("{name}, seed {}, {} ward {number}", seed(), size.name);
        round(trial, &mut dice(seed(), number), size);
    }
}

/// Prints the table, past the test's captured output, then says whether all agreed and whether
/// every answer named came up often enough.
pub fn conclude(name: &str, trial: &Trial, least: &[Least]) {
    let text = format!("\n## {name}\n\n{}", trial.table());
    let _ = std::io::stdout().write_all(text.as_bytes());
    assert!(trial.differences.is_empty(), "{}", trial.differences.join("\n\n"));
    for &(call, answers, times) in least {
        for answer in answers {
            let came = trial.answered(call, answer);
            assert!(came >= times, "{call} was answered '{answer}' only {came} times");
        }
    }
}
