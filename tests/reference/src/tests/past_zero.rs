//! Advances told to go on past zero (document 02, job 3): they end "only with "asked" or "none"".

use super::searches::steps;
use crate::history::{self, Call, History};
use crate::pairs::Pattern;
use crate::phase::{DayPhase, End, NightPhase, Phase};
use crate::record::{self, fresh, record_of};
use crate::samples::*;
use crate::ward::parse;

/// Nights at zero in the worked ward.
pub fn worked_nights() -> [Pattern; 2] {
    [1, 0].map(Pattern::from)
}

#[test]
fn worked_nights_past_zero() {
    let ward = worked();
    let (mut history, mut totals) = (History::new(), Vec::new());
    for _ in 0..6 {
        let answer = history::advance_night(&ward, &mut history, Call::past(1, 4)).unwrap();
        assert_eq!((answer.end, answer.added), (End::Asked, 1));
        totals.push(answer.penalty);
    }
    assert_eq!(steps(&history), [(0, 1), (1, 0), (0, 0), (1, 1), (0, 4), (0, 2)]);
    assert_eq!(totals, [10_000_000, 0, 1, 0, 0, 1]);
    let (_, at_once) = history::all_nights(&ward, &[Call::past(6, 4)]);
    assert_eq!(at_once, history);
}

/// At zero: k made is asked, also where k is 0; without the flag it is zero.
#[test]
fn asked_at_zero() {
    let ward = worked();
    let calls = [Call::past(2, 4), Call::past(0, 4), Call::plain(0, 4), Call::plain(9, 4)];
    let (answers, history) = history::all_nights(&ward, &calls);
    let ends = answers.into_iter().map(|answer| {
        let answer = answer.unwrap();
        (answer.end, answer.added, answer.penalty)
    });
    let expected = [(End::Asked, 2, 0), (End::Asked, 0, 0), (End::Zero, 0, 0), (End::Zero, 0, 0)];
    assert_eq!(ends.collect::<Vec<_>>(), expected);
    assert_eq!(steps(&history), [(0, 1), (1, 0)]);
}

/// A day advance that leaves zero gives the roster, whatever its end.
#[test]
fn worked_days_past_zero() {
    let (ward, nights) = (worked(), worked_nights());
    let days = |calls: &[Call]| {
        let (answers, history) = history::all_days(&ward, &nights, calls);
        let answer = answers.last().unwrap().clone().unwrap();
        (answer.end, answer.added, answer.penalty, answer.roster, steps(&history))
    };
    let roster = Some(b"Nn/--/".to_vec());
    let two = vec![(1, 3), (0, 0)];
    assert_eq!(days(&[Call::past(2, 5)]), (End::Asked, 2, 0, roster.clone(), two.clone()));
    assert_eq!(
        days(&[Call::plain(9, 5), Call::past(0, 5)]),
        (End::Asked, 0, 0, roster, two.clone())
    );
    let three = [&two[..], &[(1, 1)]].concat();
    assert_eq!(days(&[Call::past(3, 5)]), (End::Asked, 3, 1, None, three.clone()));
    assert_eq!(days(&[Call::plain(2, 5), Call::past(1, 5)]), (End::Asked, 1, 1, None, three));
}

/// One nurse, marked for rest on the one day, nobody wanted.
const REST: [u64; 30] = [
    1, 1, 0, 0, 1, 1, 1, 1, 0, 1, 1, 1, 1, 1, 1, 1, // ward
    0, 0, 0, 0, 0, 0, 0, 0, 0, 0, 1, 1, // nurse
    0, 0, // day
];

#[test]
fn none_at_zero() {
    let ward = ward_of(&REST);
    let nights = [Pattern::from(0)];
    assert_eq!(NightPhase::open(&ward, 1).unwrap().list(0), nights);
    assert_eq!(DayPhase::open(&ward, &nights, 1).unwrap().list(0), nights);
    let by_night = |call| {
        let answer = record::advance_night_in(&ward, &fresh(), call).unwrap();
        assert_eq!(answer.roster, None);
        (answer.end, answer.made, answer.penalty)
    };
    assert_eq!(by_night(Call::plain(5, 1)), (End::Zero, 1, 0));
    assert_eq!(by_night(Call::past(5, 1)), (End::None, 1, 0));
    // k is made before an exchange is looked for
    assert_eq!(by_night(Call::past(1, 1)), (End::Asked, 1, 0));
    for (call, end) in [(Call::plain(5, 1), End::Zero), (Call::past(5, 1), End::None)] {
        let answer = record::advance_day_in(&ward, &nights, &fresh(), call).unwrap();
        assert_eq!((answer.end, answer.made, answer.penalty), (end, 1, 0));
        assert_eq!(answer.roster.unwrap(), b"/");
    }
    let (answers, history) = history::all_nights(&ward, &[Call::past(5, 1), Call::past(2, 1)]);
    assert_eq!(answers[0].as_ref().unwrap().end, End::None);
    assert_eq!(answers[1].as_ref().unwrap().end, End::None);
    assert_eq!(steps(&history), [(0, 0)]);
}

/// "None" past zero comes where it came without the flag.
#[test]
fn none_above_zero() {
    let ward = parse(STUCK).unwrap();
    let (answers, history) = history::all_nights(&ward, &[Call::past(1000, 16_384)]);
    let answer = answers[0].clone().unwrap();
    assert_eq!((answer.end, answer.penalty, answer.added), (End::None, 88, 7));
    let by_record = record::advance_night(STUCK, &fresh(), Call::past(1000, 16_384)).unwrap();
    assert_eq!(by_record.record, record_of(&ward, &history));
}

/// Other nights at zero, and another roster over them.
#[test]
fn another_roster() {
    let night = record::advance_night(WORKED, &fresh(), Call::plain(1000, 4)).unwrap();
    let night = record::advance_night(WORKED, &night.record, Call::past(2, 4)).unwrap();
    assert_eq!((night.end, night.made, night.penalty), (End::Asked, 2, 0));
    let nights = night.record.patterns;
    assert_eq!(nights[..2], [0, 1].map(Pattern::from));
    let day = record::advance_day(WORKED, &nights, &fresh(), Call::plain(1000, 9)).unwrap();
    assert_eq!((day.end, day.made, day.roster.unwrap()), (End::Zero, 2, b"--/Nn/".to_vec()));
}

/// Past zero an advance makes the steps that are due, and a cut does not matter.
#[test]
fn cuts_do_not_matter_past_zero() {
    let mut dice = Dice(303);
    let mut past = 0;
    for _ in 0..500 {
        let ward = random_ward(&mut dice, 3, 7);
        let (whole, all) = history::all_nights(&ward, &[Call::past(9, 100_000)]);
        let first = dice.upto(8);
        let cut = [Call::past(first, 100_000), Call::past(9 - first, 100_000)];
        let (parts, history) = history::all_nights(&ward, &cut);
        assert_eq!(all, history);
        let (whole, last) = (whole[0].as_ref().unwrap(), parts[1].as_ref().unwrap());
        assert_eq!((whole.end, whole.penalty), (last.end, last.penalty));
        assert_eq!(whole.added < 9, whole.end == End::None);
        let (_, plain) = history::all_nights(&ward, &[Call::plain(9, 100_000)]);
        assert_eq!(plain, all[..plain.len()]);
        past += u32::from(plain.len() < all.len());
    }
    assert!(past > 50, "{past}");
}
