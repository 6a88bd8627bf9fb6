//! Calls that could take very long: each must be answered within a second.

use crate::calls::*;
use crate::case::Case;
use crate::trial::Trial;
use crate::words::{nights_of_record, FRESH, PAIRS};
use reference::samples::{self, *};
use reference::ward::parse;

/// Patterns of the longest common list: 31 days, V 15, L 3, gaps 1.
const LONGEST_LIST: usize = 2_679_533;
/// Patterns of the large ward's common list.
const LARGE_LIST: usize = 16_362;

/// Where the first nurse's mark of day 1 stands.
const FIRST_MARK: usize = 16 + 11;

/// No night for anybody, and no pair.
const NO_NIGHTS: Nights = [0; NIGHTS];

fn nights(file: &[u8], k: u32, places: usize) -> Case {
    Case::Nights { file: file.to_vec(), record: FRESH, ask: Ask::plain(k), places }
}

fn days(file: &[u8], nights: Nights, k: u32, places: usize) -> Case {
    Case::Days { file: file.to_vec(), nights, record: FRESH, ask: Ask::plain(k), places }
}

/// The same advance, going on past zero.
fn past_zero(mut case: Case) -> Case {
    if let Case::Nights { ask, .. } | Case::Days { ask, .. } = &mut case {
        ask.past_zero = 1;
    }
    case
}

/// The same night for everybody.
fn every_night(pattern: u32, pair: u32) -> Nights {
    let mut nights = NO_NIGHTS;
    nights[..PAIRS].fill(pattern);
    nights[PAIRS..].fill(pair);
    nights
}

/// A ward of edition one with these pairs.
fn of_edition_two(file: &[u8], first_days: &[u64]) -> Vec<u8> {
    file_of(&with_pairs(&parse(file).expect("a ward").numbers, first_days))
}

/// Ten pairs of a month of 31 days, at its ends and one upon the other.
const TEN_PAIRS: [u64; 10] = [1, 2, 3, 8, 9, 15, 22, 28, 29, 30];

/// Nurses free for the whole month, no needs, with the longest lists there are.
fn free_month(nurses: u64) -> Vec<u8> {
    let mut numbers = vec![nurses, 31, 0, 15, 3, 1, 1, 1, 64, 6, 1, 1, 1, 1, 1, 1];
    for _ in 0..nurses {
        numbers.extend([0, 0, 0, 0, 0, 0, 0, 0, 15, 0, 31]);
        numbers.extend([0; 31]);
    }
    numbers.extend([0; 62]);
    file_of(&numbers)
}

/// A night need that only one nurse can help, on one day: to and fro without end.
fn never_at_zero() -> Vec<u8> {
    let mut numbers = vec![2, 9, 0, 2, 1, 1, 1, 1, 0, 6, 1, 1, 1, 1, 1, 1];
    for _ in 0..2 {
        numbers.extend([0, 0, 0, 0, 0, 0, 0, 0, 2, 0, 31]);
        numbers.extend([5; 9]);
    }
    numbers[FIRST_MARK] = 0;
    numbers.extend([1; 18]);
    file_of(&numbers)
}

/// All in turn.
pub fn all(trial: &mut Trial) {
    trial.at = "hostile".into();
    long_files(trial);
    dead_ends(trial);
    long_lists(trial);
    large_wards(trial);
    lists_too_long_to_keep(trial);
    large_wards_with_pairs(trial);
    whole_searches(trial);
    searches_past_zero(trial);
    long_storage(trial);
}

fn long_files(trial: &mut Trial) {
    for byte in [0x00, 0x01, 0x80, 0xff] {
        let file = vec![byte; 1 << 20];
        trial.compare("a long file", &Case::Read { file: file.clone() });
        trial.compare("a long file", &nights(&file, 10_000, 16_384));
        trial.compare("a long file", &days(&file, NO_NIGHTS, 10_000, 16_384));
        trial.compare("a long file", &Case::Check { file: file.clone(), roster: file });
    }
    for letter in [b'/', b'-', b'N'] {
        let case = Case::Check { file: LARGE.to_vec(), roster: vec![letter; 1 << 20] };
        trial.compare("a long roster", &case);
        let case = Case::Check { file: LARGE.to_vec(), roster: vec![letter; ROSTER] };
        trial.compare("one letter everywhere", &case);
    }
    let mut extended = LARGE.to_vec();
    extended.resize(1 << 20, 0);
    trial.compare("a long file", &Case::Read { file: extended });
}

/// Day lists that are empty although the walk from the last day finds out late.
fn dead_ends(trial: &mut Trial) {
    trial.compare("dead ends", &nights(DEAD_ENDS, 1_000, 16_384));
    for places in [0, 1, 16_384] {
        trial.compare("dead ends", &days(DEAD_ENDS, NO_NIGHTS, 1_000, places));
    }
}

fn long_lists(trial: &mut Trial) {
    let (one, full) = (free_month(1), free_month(48));
    for places in [0, 1, 16_384, 1_000_000] {
        trial.compare("the longest common list", &nights(&full, 10_000, places));
        trial.compare("the longest day lists", &days(&full, NO_NIGHTS, 10_000, places));
        trial.compare("the longest day lists", &days(&full, every_night(1 << 15, 0), 1, places));
    }
    for places in [LONGEST_LIST - 1, LONGEST_LIST] {
        trial.compare("the longest common list, all of it", &nights(&one, 1, places));
    }
}

fn large_wards(trial: &mut Trial) {
    for places in [0, LARGE_LIST - 1, LARGE_LIST, LARGE_LIST + 1] {
        trial.compare("the large ward", &nights(LARGE, 2, places));
        trial.compare("the large ward", &days(LARGE, NO_NIGHTS, 2, places));
    }
}

/// The large ward with a mark for each nurse, on a day of her own: lists of many lengths, none of
/// them the whole common list, and too long to be kept beside each other.
fn marked(file: &[u8]) -> Vec<u8> {
    let mut file = file.to_vec();
    let nurses = usize::from(file[0]);
    let days = usize::from(file[1]);
    for nurse in 0..nurses {
        let mark = [1, 5, 2, 4][nurse % 4];
        file[FIRST_MARK + nurse * (11 + days) + nurse * 7 % days] = mark;
    }
    file
}

fn lists_too_long_to_keep(trial: &mut Trial) {
    let file = marked(LARGE);
    trial.compare("lists too long to keep", &nights(&file, 3, LARGE_LIST));
    trial.compare("lists too long to keep", &past_zero(nights(&file, 2, LARGE_LIST)));
    let paired = of_edition_two(&file, &TEN_PAIRS);
    trial.compare("lists too long to keep", &nights(&paired, 2, LARGE_LIST));
}

/// Ten times as many patterns, the longest file of edition two, and the longest lists under pairs.
fn large_wards_with_pairs(trial: &mut Trial) {
    let large = of_edition_two(LARGE, &TEN_PAIRS);
    assert_eq!(large.len(), 4_203);
    trial.compare("the large ward with pairs", &Case::Read { file: large.clone() });
    for places in [LARGE_LIST - 1, LARGE_LIST] {
        trial.compare("the large ward with pairs", &nights(&large, 2, places));
    }
    for pair in [0, 10, 11] {
        trial.compare("the large ward with pairs", &days(&large, every_night(0, pair), 2, 9));
    }
    let full = of_edition_two(&free_month(48), &TEN_PAIRS);
    for places in [1, 16_384, 1_000_000] {
        trial.compare("the longest common list", &nights(&full, 10_000, places));
        trial.compare("the longest day lists", &days(&full, every_night(0, 5), 1, places));
    }
    let extended = [&large[..], &[0; 1 << 20]].concat();
    trial.compare("a long file", &Case::Read { file: extended });
}

/// Both searches of the re-dated ward and of months with pairs to zero, the surgical ward's first,
/// the stuck ward to none, and 10,000 steps.
fn whole_searches(trial: &mut Trial) {
    trial.compare("the stuck ward", &nights(STUCK, 1_000, 16_384));
    trial.compare("ten thousand steps", &nights(&never_at_zero(), 10_000, 16_384));
    let never_with_pairs = of_edition_two(&never_at_zero(), &[2, 4, 5, 8]);
    trial.compare("ten thousand steps", &nights(&never_with_pairs, 10_000, 16_384));
    let left = trial.compare("the weekends", &nights(WEEKENDS, 1_000, 16_384));
    assert_eq!(left.answer()[OUTCOME..=PENALTY], [ASKED, 1_000, 1]);
    let by_day = |trial: &mut Trial, kind, file: &[u8], night_steps: u64| {
        let left = trial.compare(kind, &nights(file, 1_000, 16_384));
        assert_eq!(left.answer()[OUTCOME..=STEPS], [ZERO, night_steps]);
        let chosen = nights_of_record(&left.record());
        trial.compare(kind, &days(file, chosen, 1_000, 16_384))
    };
    let left = by_day(trial, "the surgical ward", SURGICAL, 371);
    assert_eq!(left.answer()[..=PLACE], [10, 27]);
    let roster = OLD_ROSTER.lines().collect::<String>().into_bytes();
    let left =
        trial.compare("the old rule's roster", &Case::Check { file: SURGICAL.to_vec(), roster });
    assert_eq!(left.answer()[OUTCOME], NO);
    for (kind, file, night_steps, day_steps) in [
        ("the re-dated ward", REDATED, 371, 39),
        ("a month with weekends", PAIRS_MONTH, 300, 22),
        ("a month with ten pairs", PAIRS_TEN, 15, 687),
    ] {
        let left = by_day(trial, kind, file, night_steps);
        assert_eq!(left.answer()[OUTCOME..=STEPS], [ZERO, day_steps]);
        let roster = left.roster().to_vec();
        let left = trial.compare(kind, &Case::Check { file: file.to_vec(), roster });
        assert_eq!(left.answer()[OUTCOME], YES);
    }
}

/// Many steps past zero by night and by day, among them the most that can be asked.
fn searches_past_zero(trial: &mut Trial) {
    let kind = "past zero";
    trial.compare(kind, &past_zero(nights(WORKED, 10_000, 16_384)));
    trial.compare(kind, &past_zero(nights(samples::PAIRS, 10_000, 16_384)));
    trial.compare(kind, &past_zero(nights(STUCK, 1_000, 16_384)));
    trial.compare(kind, &past_zero(nights(LARGE, 2, LARGE_LIST)));
    let left = trial.compare(kind, &nights(REDATED, 1_000, 16_384));
    let by_day = days(REDATED, nights_of_record(&left.record()), 100, 16_384);
    let left = trial.compare(kind, &past_zero(by_day));
    assert_eq!(left.answer()[OUTCOME..=STEPS], [ASKED, 100]);
    trial.compare(kind, &past_zero(nights(REDATED, 600, 16_384)));
}

/// Nothing past the eight entries is looked at or written, however much there is.
fn long_storage(trial: &mut Trial) {
    let record = [1; RECORD];
    for number in [0, 1, 8, 9, u32::MAX] {
        let storage = vec![1; 1 << 20];
        trial.compare("a long storage", &Case::Keep { record, number, storage: storage.clone() });
        trial.compare("a long storage", &Case::Return { record: FRESH, number, storage });
    }
}
