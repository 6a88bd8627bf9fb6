//! Searches over patterns with pairs (document 02, job 2): "in use, given up and least penalty now
//! mean both together".

use super::pair_lists::pattern;
use crate::history::{self, Call, History};
use crate::pairs::{her_list, Pattern};
use crate::penalty;
use crate::phase::End;
use crate::record::{self, fresh, record_of, Removal};
use crate::samples::*;
use crate::ward::{parse, Ward};
use crate::{nights, ward};

const CALL: Call = Call::plain(10, 20);

/// Nurse (from 1), night and pair of each step.
fn steps(history: &History) -> Vec<(usize, u32, u32)> {
    history.iter().map(|step| (step.0 + 1, step.1.days, step.1.pair)).collect()
}

#[test]
fn penalties_of_the_ward_with_two_pairs() {
    let ward = two_pairs();
    let night = |in_use: [Option<Pattern>; 2]| penalty::night(&ward, &in_use).total();
    assert_eq!(night([None, None]), 20_000_001);
    assert_eq!(night([Some(pattern(1, 2)), None]), 10_000_000);
    assert_eq!(night([Some(pattern(1, 2)), Some(pattern(0, 2))]), 0);
    assert_eq!(night([Some(pattern(1, 2)), Some(pattern(0, 1))]), 1);
    let nights = [pattern(1, 2), pattern(0, 2)];
    let day = |in_use: [Option<u32>; 2]| {
        penalty::day(&ward, &nights, &in_use.map(|days| days.map(Pattern::from))).total()
    };
    assert_eq!(day([None, None]), 20_000_002);
    assert_eq!(day([None, Some(3)]), 10_000_000);
    assert_eq!(day([Some(0), Some(3)]), 0);
}

#[test]
fn steps_of_the_ward_with_two_pairs() {
    let ward = two_pairs();
    let (_, history) = history::all_nights(&ward, &[CALL]);
    assert_eq!(steps(&history), [(1, 1, 2), (2, 0, 2)]);
    let nights = [pattern(1, 2), pattern(0, 2)];
    let (answers, history) = history::all_days(&ward, &nights, &[CALL]);
    assert_eq!(steps(&history), [(2, 3, 0), (1, 0, 0)]);
    let answer = answers[0].clone().unwrap();
    assert_eq!(answer.end, End::Zero);
    assert_eq!(answer.roster.unwrap(), b"Nn//--//");
}

#[test]
fn record_of_the_ward_with_two_pairs() {
    let night = record::advance_night(PAIRS, &fresh(), Call::plain(10, 5)).unwrap();
    assert_eq!((night.end, night.made, night.penalty), (End::Zero, 2, 0));
    // pairs are not listed
    assert_eq!(night.buffer, [0, 1, 2, 4, 8]);
    assert_eq!(night.record.patterns[..3], [pattern(1, 2), pattern(0, 2), pattern(0, 0)]);
    let day =
        record::advance_day(PAIRS, &night.record.patterns, &fresh(), Call::plain(10, 5)).unwrap();
    assert_eq!(day.buffer, [0, 0, 1, 2, 3]);
    assert_eq!(day.record.patterns[..3], [0, 3, 0].map(Pattern::from));
    assert_eq!(day.roster.unwrap(), b"Nn//--//");
}

/// One nurse, four days that each want a day nurse, pairs on days 1 and 3, TL 1.
fn wanted_every_day() -> Ward {
    let mut numbers = vec![1, 4, 0, 1, 1, 1, 1, 1, 1, 3, 1, 1, 1, 1, 1, 1];
    numbers.extend([0, 0, 0, 0, 0, 0, 0, 0, 1, 0, 4, 0, 0, 0, 0]);
    numbers.extend([0, 1].repeat(4));
    ward_of(&with_pairs(&numbers, &[1, 3]))
}

/// The same night with another pair is another pattern: an exchange, and barred by itself.
#[test]
fn both_together() {
    let ward = wanted_every_day();
    let mut history = History::new();
    let mut penalties = Vec::new();
    for _ in 0..5 {
        let call = Call::plain(1, 5);
        let answer = history::advance_night(&ward, &mut history, call).unwrap();
        assert_eq!((answer.end, answer.added), (End::Asked, 1));
        penalties.push(answer.penalty);
    }
    assert_eq!(steps(&history), [(1, 0, 1), (1, 0, 2), (1, 8, 1), (1, 0, 1), (1, 0, 2)]);
    assert_eq!(penalties, [2, 2, 3, 2, 2]);
    let call = Call::plain(5, 5);
    let (answers, whole) = history::all_nights(&ward, &[call]);
    assert_eq!(whole, history);
    assert_eq!(answers[0].as_ref().unwrap().end, End::Asked);
    let record = record_of(&ward, &whole);
    let given_up = Removal { nurse: 1, given_up: true, pattern: pattern(0, 1) };
    assert_eq!(record.removals[0], given_up);
}

/// The worked ward with a pair on days 2 and 3: no night is left, and one pattern each.
#[test]
fn none() {
    let ward = parse(PAIRS_NONE).unwrap();
    assert_eq!(ward.numbers, with_pairs(&WORKED_NUMBERS, &[2]));
    let (answers, history) = history::all_nights(&ward, &[CALL]);
    assert_eq!(steps(&history), [(1, 0, 1), (2, 0, 1)]);
    let answer = answers[0].clone().unwrap();
    assert_eq!((answer.end, answer.added, answer.penalty), (End::None, 2, 2));
}

/// Unplaced she has no pair: she is available as at fresh.
#[test]
fn unplaced_has_no_pair() {
    let ward = wanted_every_day();
    assert_eq!(penalty::night(&ward, &[None]).total(), 10_000_000);
    assert_eq!(penalty::night(&ward, &[Some(pattern(0, 1))]).total(), 2);
}

/// By night a lost day never lowers the penalty: day highs are ignored.
#[test]
fn a_pair_is_never_cheaper_than_none() {
    let mut dice = Dice(61);
    let mut dearer = 0;
    for _ in 0..500 {
        let ward = random_ward_with_pairs(&mut dice, 4, 8);
        let common = nights::common(&ward);
        let lists: Vec<_> = (0..ward.nurse_count).map(|i| her_list(&ward, i, &common)).collect();
        let any = |dice: &mut Dice, list: &Vec<Pattern>| {
            (!list.is_empty() && !dice.one_in(4)).then(|| list[dice.index(list.len())])
        };
        let with: Vec<_> = lists.iter().map(|list| any(&mut dice, list)).collect();
        let alone = |pattern: Option<Pattern>| pattern.map(|p| Pattern::from(p.days));
        let without: Vec<_> = with.iter().copied().map(alone).collect();
        let (with, without) = (penalty::night(&ward, &with), penalty::night(&ward, &without));
        assert!(with.total() >= without.total());
        dearer += u32::from(with != without);
    }
    assert!(dearer > 50, "{dearer}");
}

/// A ward of edition two without pairs goes as the same in edition one.
#[test]
fn no_pairs_as_edition_one() {
    let mut dice = Dice(67);
    for _ in 0..100 {
        let old = random_numbers(&mut dice, 4, 8);
        let [one, two] = [old.clone(), with_pairs(&old, &[])].map(|numbers| file_of(&numbers));
        let call = Call { k: 20, past_zero: dice.one_in(2), places: 10_000 };
        let night = record::advance_night(&one, &fresh(), call);
        assert_eq!(night, record::advance_night(&two, &fresh(), call));
        let Ok(night) = night else { continue };
        let nights = &night.record.patterns;
        let day = |file: &[u8]| record::advance_day(file, nights, &fresh(), call);
        assert_eq!(day(&one), day(&two));
    }
}

#[test]
fn weekends_of_the_redated_ward() {
    let ward = parse(WEEKENDS).unwrap();
    let old = parse(REDATED).unwrap().numbers;
    assert_eq!(ward.numbers, with_pairs(&old, &[2, 3, 9, 16, 23]));
    assert_eq!(ward::old_numbers(&ward.numbers)[..old.len()], old);
}
