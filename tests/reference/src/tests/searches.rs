//! Penalties, steps, and the record against the history.

use super::edition_one::penalty;
use crate::history::{self, Call, History};
use crate::pairs::Pattern;
use crate::penalty::Penalty;
use crate::phase::{DayPhase, End, NightPhase, Phase};
use crate::record::{self, fresh, record_of, Record};
use crate::samples::*;
use crate::tally::{duties_of, least_exchange};
use crate::ward::Ward;

#[test]
fn worked_night_penalties() {
    let ward = worked();
    assert_eq!(penalty::night(&ward, &[None, None]).total(), 20_000_001);
    assert_eq!(penalty::night(&ward, &[Some(1), None]).total(), 10_000_000);
    assert_eq!(penalty::night(&ward, &[Some(1), Some(0)]).total(), 0);
}

#[test]
fn worked_day_penalties() {
    let ward = worked();
    let day = |in_use: [Option<u32>; 2]| penalty::day(&ward, &[1, 0], &in_use).total();
    assert_eq!(day([None, None]), 20_000_002);
    assert_eq!(day([None, Some(3)]), 10_000_000);
    assert_eq!(day([Some(0), Some(3)]), 0);
}

/// Nurse and number of each step, without pairs.
pub fn steps(history: &History) -> Vec<(usize, u32)> {
    history.iter().map(|step| (step.0, step.1.days)).collect()
}

#[test]
fn worked_steps() {
    let (_, history) = history::all_nights(&worked(), &[Call::plain(10, 4)]);
    assert_eq!(steps(&history), [(0, 1), (1, 0)]);
    let nights = [1, 0].map(Pattern::from);
    let (answers, history) = history::all_days(&worked(), &nights, &[Call::plain(10, 5)]);
    assert_eq!(steps(&history), [(1, 3), (0, 0)]);
    let answer = answers[0].clone().unwrap();
    assert_eq!(answer.end, End::Zero);
    assert_eq!(answer.roster.unwrap(), b"Nn/--/");
}

#[test]
fn worked_record() {
    let answer = record::advance_night(WORKED, &fresh(), Call::plain(1, 4)).unwrap();
    assert_eq!((answer.end, answer.made, answer.penalty), (End::Asked, 1, 10_000_000));
    assert_eq!(answer.buffer, [0, 1, 2, 4]);
    let answer = record::advance_night(WORKED, &answer.record, Call::plain(10, 4)).unwrap();
    assert_eq!((answer.end, answer.made, answer.penalty), (End::Zero, 1, 0));
    assert_eq!(answer.record.removals[0].nurse, 2);
    assert_eq!(answer.record.removals[1].nurse, 1);
    assert_eq!(answer.roster, None);
    let nights = answer.record.patterns;
    let day = record::advance_day(WORKED, &nights, &fresh(), Call::plain(10, 5)).unwrap();
    assert_eq!(day.buffer, [0, 0, 1, 2, 3]);
    assert_eq!(day.roster.unwrap(), b"Nn/--/");
}

/// The largest total of document 01.
#[test]
fn largest_total() {
    let mut numbers = vec![48, 31, 16, 0, 1, 1, 1, 1, 0, 1];
    numbers.extend([100; 6]);
    for _ in 0..48 {
        numbers.extend([0, 0, 0, 0, 0, 0, 0, 0, 0, 0, 31]);
        numbers.extend([1; 31]);
    }
    numbers.extend([1; 16]);
    numbers.extend([48; 31 * 66]);
    let ward = ward_of(&numbers);
    let nobody = vec![None; 48];
    assert_eq!(penalty::night(&ward, &nobody).total(), 485_059_200);
}

#[test]
fn causes_apart() {
    // two nurses, one group of both: one night too many, one day nurse short
    let mut numbers = WORKED_NUMBERS[..44].to_vec();
    numbers[2] = 1;
    numbers[10..16].copy_from_slice(&[2, 3, 5, 7, 11, 13]);
    numbers.push(3);
    numbers.extend([0, 1, 0, 1, 2, 2, 0, 0, 0, 48, 0, 48, 0, 0, 0, 48, 0, 0]);
    let ward = ward_of(&numbers);
    let both = penalty::night(&ward, &[Some(1), Some(1)]);
    assert_eq!(both, Penalty { short: 7 + 2 * 11, over: 5, unplaced: 0 });
    // by night the day high of day 3 is ignored, by day it is not
    assert_eq!(penalty::night(&ward, &[Some(0), None]).over, 0);
    assert_eq!(penalty::day(&ward, &[0, 0], &[Some(0b111), None]).over, 13);
    assert_eq!(penalty::day(&ward, &[0, 0], &[Some(0b111), None]).unplaced, 10_000_000);
}

/// An unplaced nurse counts with her marks 3 by night and her marks 2 by day.
#[test]
fn unplaced_rows() {
    let mut numbers = WORKED_NUMBERS;
    (numbers[27], numbers[41]) = (3, 2);
    let ward = ward_of(&numbers);
    assert_eq!(penalty::night(&ward, &[None, None]).total(), 20_000_000);
    assert_eq!(penalty::day(&ward, &[1, 0], &[None, None]).total(), 20_000_001);
}

/// Tabu is hers alone, and a step may make it worse.
#[test]
fn stuck_ends_with_none() {
    let ward = crate::ward::parse(STUCK).unwrap();
    let (answers, history) = history::all_nights(&ward, &[Call::plain(1000, 16_384)]);
    let answer = answers[0].clone().unwrap();
    assert_eq!((answer.end, answer.penalty, answer.added), (End::None, 88, 7));
    let by_record = record::advance_night(STUCK, &fresh(), Call::plain(1000, 16_384)).unwrap();
    assert_eq!(by_record.record, record_of(&ward, &history));
}

pub fn random_calls(dice: &mut Dice) -> Vec<Call> {
    let call = |dice: &mut Dice| Call {
        k: if dice.upto(9) == 0 { 10_001 } else { dice.upto(6) },
        past_zero: dice.one_in(2),
        places: if dice.upto(3) == 0 { dice.upto(60) as usize } else { 100_000 },
    };
    (0..dice.from(1, 6)).map(|_| call(dice)).collect()
}

/// One search by record beside one by history: same answers, same record. What the last advance
/// left, and its penalty.
fn compare(
    ward: &Ward,
    calls: &[Call],
    by_history: &dyn Fn(&mut History, Call) -> Result<history::Answer, crate::ward::Refusal>,
    by_record: &dyn Fn(&Record, Call) -> Result<record::Answer, crate::ward::Refusal>,
) -> (Record, Option<u64>) {
    let (mut history, mut record, mut last) = (History::new(), fresh(), None);
    for &call in calls {
        match (by_history(&mut history, call), by_record(&record, call)) {
            (Ok(expected), Ok(answer)) => {
                assert_eq!((answer.end, answer.made), (expected.end, expected.added));
                assert_eq!((answer.penalty, &answer.roster), (expected.penalty, &expected.roster));
                assert_eq!(answer.record, record_of(ward, &history));
                last = Some(answer.penalty);
                record = answer.record;
            }
            (expected, answer) => assert_eq!(expected.unwrap_err(), answer.unwrap_err()),
        }
    }
    (record, last)
}

pub fn everyone_has_a_pattern(phase: &dyn Phase) -> bool {
    (0..phase.ward().nurse_count).all(|nurse| !phase.list(nurse).is_empty())
}

#[test]
fn record_follows_history() {
    let mut dice = Dice(2024);
    let [night_runs, day_runs, rosters] = runs(&mut dice, 400, |dice| random_ward(dice, 4, 8));
    assert!(night_runs > 100 && day_runs > 20 && rosters > 10, "{night_runs} {day_runs} {rosters}");
}

/// The same over wards with pairs (document 02, job 2).
#[test]
fn record_follows_history_with_pairs() {
    let mut dice = Dice(2026);
    let draw = |dice: &mut Dice| random_ward_with_pairs(dice, 3, 7);
    let [night_runs, day_runs, rosters] = runs(&mut dice, 800, draw);
    assert!(night_runs > 100 && day_runs > 20 && rosters > 10, "{night_runs} {day_runs} {rosters}");
}

/// Lists of advances on wards, by night and then by day: how many, and how many rosters came.
fn runs(dice: &mut Dice, wards: u32, draw: impl Fn(&mut Dice) -> Ward) -> [u32; 3] {
    let (mut night_runs, mut day_runs, mut rosters) = (0, 0, 0);
    for _ in 0..wards {
        let ward = draw(dice);
        if !everyone_has_a_pattern(&NightPhase::open(&ward, usize::MAX).unwrap()) {
            continue;
        }
        night_runs += 1;
        let calls = random_calls(dice);
        let (record, penalty) = compare(
            &ward,
            &calls,
            &|history, call| history::advance_night(&ward, history, call),
            &|record, call| record::advance_night_in(&ward, record, call),
        );
        if penalty != Some(0) {
            continue;
        }
        let nights = record.patterns;
        if !everyone_has_a_pattern(&DayPhase::open(&ward, &nights, usize::MAX).unwrap()) {
            continue;
        }
        day_runs += 1;
        let calls = random_calls(dice);
        let (_, penalty) = compare(
            &ward,
            &calls,
            &|history, call| history::advance_day(&ward, &nights, history, call),
            &|record, call| record::advance_day_in(&ward, &nights, record, call),
        );
        rosters += u32::from(penalty == Some(0));
    }
    [night_runs, day_runs, rosters]
}

/// k steps at once, or one by one in any cut: one history.
#[test]
fn cuts_do_not_matter() {
    let ward = crate::ward::parse(STUCK).unwrap();
    let call = |k| Call::plain(k, 16_384);
    let (_, whole) = history::all_nights(&ward, &[call(7)]);
    let (_, cut) = history::all_nights(&ward, &[call(1), call(0), call(2), call(10_001), call(9)]);
    assert_eq!(whole, cut);
}

/// The tally's least exchange is the one counted afresh, and so is its penalty.
#[test]
fn tally_counts_as_afresh() {
    let mut dice = Dice(99);
    for _ in 0..300 {
        let ward = random_ward(&mut dice, 6, 9);
        least_exchanges_agree(&mut dice, &ward);
    }
}

#[test]
fn tally_counts_as_afresh_with_pairs() {
    let mut dice = Dice(101);
    for _ in 0..300 {
        let ward = random_ward_with_pairs(&mut dice, 5, 8);
        least_exchanges_agree(&mut dice, &ward);
    }
}

/// After some steps by night.
fn least_exchanges_agree(dice: &mut Dice, ward: &Ward) {
    let phase = NightPhase::open(ward, usize::MAX).unwrap();
    let mut history = History::new();
    for _ in 0..dice.upto(5) {
        let nurse = dice.upto(ward.nurse_count as u64 - 1) as usize;
        let list = phase.list(nurse);
        if !list.is_empty() {
            history.push((nurse, list[dice.upto(list.len() as u64 - 1) as usize]));
        }
    }
    let in_use = history::all_in_use(ward, &history);
    let barred = |nurse: usize| {
        let mut barred = history::given_up_in_last(ward.tabu_length, nurse, &history);
        barred.extend(in_use[nurse]);
        barred
    };
    let by_tally = least_exchange(&phase, &duties_of(&phase), &in_use, &barred);
    assert_eq!(by_tally, history::next_step(&phase, &history));
}
