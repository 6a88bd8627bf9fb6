//! The record as the C interface lends it: 48 patterns, 48 pairs, 48 flags, 64 removals, the steps.

use crate::calls::{Nights, Words, NIGHTS, NURSES, RECORD};
use reference::pairs::Pattern;
use reference::record::{fresh, Record, Removal, MOST_REMOVALS};

/// "Fresh": all zeros.
pub const FRESH: Words = [0; RECORD];

pub const PAIRS: usize = NURSES;
pub const FLAGS: usize = 2 * NURSES;
pub const REMOVALS: usize = 3 * NURSES;
/// Words of a removal: nurse, flag, pattern, pair.
pub const REMOVAL: usize = 4;
pub const STEPS_AT: usize = RECORD - 1;

/// Where a removal's words begin.
pub fn removal_at(place: usize) -> usize {
    REMOVALS + REMOVAL * place
}

/// A flag is 0, or anything else for placed.
pub fn record_of_words(words: &Words) -> Record {
    let mut record = fresh();
    for nurse in 0..NURSES {
        record.patterns[nurse] = pattern_of(&words[..NIGHTS], nurse);
        record.placed[nurse] = words[FLAGS + nurse] != 0;
    }
    for (removal, w) in record.removals.iter_mut().zip(words[REMOVALS..STEPS_AT].chunks(REMOVAL)) {
        let pattern = Pattern { days: w[2], pair: w[3] };
        *removal = Removal { nurse: w[0], given_up: w[1] != 0, pattern };
    }
    record.steps = words[STEPS_AT];
    record
}

/// Flags are written as 0 or 1.
pub fn words_of_record(record: &Record) -> Words {
    let mut words = [0; RECORD];
    words[..NIGHTS].copy_from_slice(&words_of_nights(&record.patterns));
    for nurse in 0..NURSES {
        words[FLAGS + nurse] = u32::from(record.placed[nurse]);
    }
    for at in 0..MOST_REMOVALS {
        let Removal { nurse, given_up, pattern } = record.removals[at];
        let removal = [nurse, u32::from(given_up), pattern.days, pattern.pair];
        words[removal_at(at)..][..REMOVAL].copy_from_slice(&removal);
    }
    words[STEPS_AT] = record.steps;
    words
}

fn pattern_of(nights: &[u32], nurse: usize) -> Pattern {
    Pattern { days: nights[nurse], pair: nights[PAIRS + nurse] }
}

/// A choice of nights, nurse by nurse.
pub fn patterns_of_nights(nights: &Nights) -> Vec<Pattern> {
    (0..NURSES).map(|nurse| pattern_of(nights, nurse)).collect()
}

/// The same as words; 0 past the last pattern given.
pub fn words_of_nights(patterns: &[Pattern]) -> Nights {
    let mut nights = [0; NIGHTS];
    for (nurse, pattern) in patterns.iter().enumerate() {
        (nights[nurse], nights[PAIRS + nurse]) = (pattern.days, pattern.pair);
    }
    nights
}

/// The choice of nights that a night record holds.
pub fn nights_of_record(words: &Words) -> Nights {
    let mut nights = [0; NIGHTS];
    nights.copy_from_slice(&words[..NIGHTS]);
    nights
}
