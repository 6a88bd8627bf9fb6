//! Search records that question 11 must find fault with, each for one reason, and some that it
//! must let through.

use crate::calls::{Words, NURSES};
use crate::words::{removal_at, FLAGS, PAIRS, REMOVAL, REMOVALS, STEPS_AT};
use reference::pairs::{self, Pattern};
use reference::record::MOST_REMOVALS;
use reference::samples::Dice;
use reference::ward::Ward;

/// A record changed in one way, and the way.
pub fn changed(dice: &mut Dice, ward: &Ward, good: &Words) -> (&'static str, Words) {
    let m = ward.nurse_count;
    let held = ward.tabu_length.min(good[STEPS_AT] as usize);
    let mut words = *good;
    let nurse = dice.index(m);
    let place = removal_at(dice.index(held.max(1)));
    let kind = match dice.upto(20) {
        0 => {
            (words[nurse], words[FLAGS + nurse]) = (any_pattern(dice, good[nurse]), 1);
            "record: another pattern in use"
        }
        1 => {
            (words[nurse], words[FLAGS + nurse]) = (dice.from(1, 9) as u32, 0);
            "record: unplaced with a pattern"
        }
        2 => {
            words[past_last(dice, m)] = dice.from(1, 9) as u32;
            "record: a pattern past the last nurse"
        }
        3 => {
            words[FLAGS + past_last(dice, m)] = 1;
            "record: placed past the last nurse"
        }
        4 => {
            words[place] = 0;
            "record: a removal of no nurse"
        }
        5 => {
            let past = dice.from(m as u64 + 1, 50) as u32;
            words[place] = dice.pick(&[past, u32::MAX, 1 << 31]);
            "record: a removal past the last nurse"
        }
        6 => {
            (words[place + 1], words[place + 2]) = (1, any_pattern(dice, good[place + 2]));
            "record: a removal with another pattern"
        }
        7 => {
            (words[place + 1], words[place + 2]) = (0, dice.from(1, 9) as u32);
            "record: a removal with no pattern but a number"
        }
        8 => {
            let unused = held + dice.index((MOST_REMOVALS - held).max(1));
            let at = removal_at(unused.min(MOST_REMOVALS - 1));
            words[at + dice.index(REMOVAL)] = dice.from(1, m as u64) as u32;
            "record: a removal too many"
        }
        9 => {
            words[STEPS_AT] += dice.from(1, 70) as u32;
            "record: more steps than removals"
        }
        10 => {
            words[STEPS_AT] -= dice.upto(u64::from(good[STEPS_AT])) as u32;
            "record: fewer steps than removals"
        }
        11 => {
            words[STEPS_AT] = 1_000_000 - dice.upto(5) as u32;
            "record: steps near the limit"
        }
        12 => {
            words = other_flags(dice, good);
            "record: flags other than 1"
        }
        13 => {
            let other = dice.index(m);
            for part in [0, PAIRS, FLAGS] {
                words.swap(part + nurse, part + other);
            }
            "record: two nurses' patterns exchanged"
        }
        14 => {
            let removal = [nurse as u32 + 1, 1, good[nurse], good[PAIRS + nurse]];
            words[place..][..REMOVAL].copy_from_slice(&removal);
            "record: the pattern in use given up"
        }
        15 => {
            let pair = any_pair(dice, ward, good[PAIRS + nurse]);
            (words[PAIRS + nurse], words[FLAGS + nurse]) = (pair, 1);
            "record: another pair in use"
        }
        16 => {
            let pair = dice.from(1, 10) as u32;
            (words[nurse], words[PAIRS + nurse], words[FLAGS + nurse]) = (0, pair, 0);
            "record: unplaced with a pair"
        }
        17 => {
            words[PAIRS + past_last(dice, m)] = dice.from(1, 10) as u32;
            "record: a pair past the last nurse"
        }
        18 => {
            (words[place + 1], words[place + 3]) = (1, any_pair(dice, ward, good[place + 3]));
            "record: a removal with another pair"
        }
        19 => {
            words[place + 1..place + 4].copy_from_slice(&[0, 0, dice.from(1, 10) as u32]);
            "record: a removal with no pattern but a pair"
        }
        _ => {
            let pair = another_of_hers(dice, ward, nurse, good);
            words[place..][..REMOVAL].copy_from_slice(&[nurse as u32 + 1, 1, good[nurse], pair]);
            "record: the night in use given up with another pair"
        }
    };
    (kind, words)
}

/// The same record with other flags for placed and given up.
pub fn other_flags(dice: &mut Dice, good: &Words) -> Words {
    let mut words = *good;
    let removals = (0..MOST_REMOVALS).map(|at| removal_at(at) + 1);
    for at in (FLAGS..REMOVALS).chain(removals) {
        words[at] *= dice.pick(&[1, 2, 7, 1 << 31, u32::MAX]);
    }
    words
}

/// An unused nurse; the last one of a full ward.
fn past_last(dice: &mut Dice, m: usize) -> usize {
    dice.from(m as u64, NURSES as u64).min(NURSES as u64 - 1) as usize
}

/// Another pair that she may have off with the night that she has in use; else the same.
fn another_of_hers(dice: &mut Dice, ward: &Ward, nurse: usize, good: &Words) -> u32 {
    let held = good[PAIRS + nurse];
    let hers = |&pair: &u32| pairs::hers(ward, nurse, Pattern { days: good[nurse], pair });
    let numbers = ward.pairs.iter().map(|pair| pair.number);
    let others: Vec<u32> = numbers.filter(|&pair| pair != held).filter(hers).collect();
    if others.is_empty() {
        held
    } else {
        dice.pick(&others)
    }
}

/// None, one of the ward's, just past them, or anything.
pub fn any_pair(dice: &mut Dice, ward: &Ward, old: u32) -> u32 {
    let last = ward.pairs[ward.pairs.len() - 1].number;
    match dice.upto(3) {
        0 => 0,
        1 => dice.upto(u64::from(last)) as u32,
        2 => dice.pick(&[last + 1, old ^ 1, 11, u32::MAX, 1 << 31]),
        _ => dice.from(1, 12) as u32,
    }
}

/// Beside the old one, within a small month, or anything.
pub fn any_pattern(dice: &mut Dice, old: u32) -> u32 {
    match dice.upto(2) {
        0 => old ^ 1 << dice.upto(31),
        1 => dice.upto(1023) as u32,
        _ => (dice.upto(u64::from(u32::MAX)) >> dice.upto(31)) as u32,
    }
}
