//! Keeping and returning (document 02, job 3): question 13, and what a return brings back.

use super::past_zero::worked_nights;
use super::searches::{everyone_has_a_pattern, random_calls, steps};
use crate::history::{self, Call, History};
use crate::keeping::{Entry, Kept};
use crate::operations::{all, Operation, SearchOf, Session};
use crate::phase::{End, NightPhase};
use crate::record::{self, fresh, record_of};
use crate::samples::*;
use crate::ward::{Refusal, Ward};
use Operation::{Advance, Keep, Return};

const NO: Refusal = Refusal { question: 13, place: 0 };
const NO_ROOM: Entry = Entry { number: 1, room: false };
/// Outside 1 to 8.
const OUTSIDE: [u64; 5] = [0, 9, 10, 1 << 32, u64::MAX];

fn by_night(ward: &Ward) -> SearchOf<'_> {
    SearchOf { ward, nights: None }
}

fn under(number: u64) -> Entry {
    Entry::under(number)
}

#[test]
fn question_13() {
    let mut kept = Kept::nothing();
    for number in 1..=8 {
        assert_eq!(kept.bring_back(under(number)), Err(NO));
        assert_eq!(kept.keep(under(number), number), Ok(()));
        assert_eq!(kept.bring_back(under(number)), Ok(number));
    }
    let before = kept.clone();
    for entry in OUTSIDE.map(under).into_iter().chain([NO_ROOM]) {
        assert_eq!(kept.keep(entry, 0), Err(NO));
        assert_eq!(kept.bring_back(entry), Err(NO));
    }
    assert_eq!(kept, before);
}

/// A refused keeping keeps nothing, and a refused return leaves the search as it is.
#[test]
fn refused_operations_change_nothing() {
    let ward = worked();
    let first = [Advance(Call::past(3, 4)), Keep(NO_ROOM), Keep(under(0)), Keep(under(9))];
    let refused = [Return(under(1)), Return(NO_ROOM), Return(under(0)), Return(under(9))];
    let last = [Advance(Call::past(1, 4))];
    let (answers, history) = all(by_night(&ward), &[&first[..], &refused, &last].concat());
    assert!(answers[1..8].iter().all(|answer| *answer == Err(NO)));
    assert_eq!(steps(&history), [(0, 1), (1, 0), (0, 0), (1, 1)]);
}

/// Keep the first nights at zero, look further, and return.
#[test]
fn worked_nights_kept() {
    let ward = worked();
    let operations = [
        Advance(Call::plain(1000, 4)),
        Keep(under(3)),
        Advance(Call::past(4, 4)),
        Keep(under(4)),
        Return(under(3)),
        Advance(Call::plain(1000, 4)),
        Advance(Call::past(2, 4)),
    ];
    let (answers, history) = all(by_night(&ward), &operations);
    let ends = answers.iter().flatten().flatten().map(|a| (a.end, a.added, a.penalty));
    let expected = [(End::Zero, 2, 0), (End::Asked, 4, 1), (End::Zero, 0, 0), (End::Asked, 2, 0)];
    assert_eq!(ends.collect::<Vec<_>>(), expected);
    assert_eq!(steps(&history), [(0, 1), (1, 0), (0, 0), (1, 1)]);
    let (_, history) = all(by_night(&ward), &[&operations[..], &[Return(under(4))]].concat());
    assert_eq!(steps(&history), [(0, 1), (1, 0), (0, 0), (1, 1), (0, 4), (0, 2)]);
}

/// A fresh search may be kept, and is then more than nothing.
#[test]
fn fresh_is_kept() {
    let ward = worked();
    let operations = [Keep(under(8)), Advance(Call::plain(2, 4)), Return(under(8))];
    let (answers, history) = all(by_night(&ward), &operations);
    assert!(answers.iter().all(|answer| answer.is_ok()));
    assert!(history.is_empty());
}

/// What is kept under a number last is returned.
#[test]
fn replaced() {
    let ward = worked();
    let one = Advance(Call::past(1, 4));
    let operations = [one, Keep(under(1)), one, Keep(under(1)), one, Return(under(1))];
    let (_, history) = all(by_night(&ward), &operations);
    assert_eq!(steps(&history), [(0, 1), (1, 0)]);
}

/// Nights and days share a storage; each returns its own.
#[test]
fn two_searches_in_one_storage() {
    let (ward, nights) = (worked(), worked_nights());
    let by_day = SearchOf { ward: &ward, nights: Some(nights.to_vec()) };
    let mut session = Session::new(vec![by_night(&ward), by_day]);
    for (search, places) in [(0, 4), (1, 5)] {
        session.act(search, Advance(Call::plain(1000, places))).unwrap();
        session.act(search, Keep(under(search as u64 + 1))).unwrap();
        session.act(search, Advance(Call::past(1, places))).unwrap();
    }
    assert_eq!([1, 2, 3].map(|number| session.keeper(number)), [Some(0), Some(1), None]);
    for search in [0, 1] {
        session.act(search, Return(under(search as u64 + 1))).unwrap();
    }
    assert_eq!(steps(&session.histories[0]), [(0, 1), (1, 0)]);
    assert_eq!(steps(&session.histories[1]), [(1, 3), (0, 0)]);
}

fn any_entry(dice: &mut Dice) -> Entry {
    Entry { number: dice.upto(9), room: !dice.one_in(9) }
}

fn any_operations(dice: &mut Dice, count: u64) -> Vec<Operation> {
    let operation = |dice: &mut Dice| match dice.upto(4) {
        0 | 1 => Keep(any_entry(dice)),
        2 => Return(any_entry(dice)),
        _ => Advance(random_calls(dice)[0]),
    };
    (0..count).map(|_| operation(dice)).collect()
}

/// Small wards in which every nurse has a pattern by night.
fn some_wards(dice: &mut Dice, count: usize) -> Vec<Ward> {
    let mut wards = Vec::new();
    while wards.len() < count {
        let ward = random_ward(dice, 3, 6);
        if everyone_has_a_pattern(&NightPhase::open(&ward, usize::MAX).unwrap()) {
            wards.push(ward);
        }
    }
    wards
}

/// "After a return, every list of advances goes as it would have gone from the moment of keeping,
/// whatever was done between, if nothing else was kept under that number."
#[test]
fn after_a_return() {
    let mut dice = Dice(808);
    for ward in some_wards(&mut dice, 200) {
        let number = dice.from(1, 8);
        let first = any_operations(&mut dice, 4);
        let mut between = any_operations(&mut dice, 6);
        let kept_there = |op: &Operation| *op == Keep(under(number));
        between.retain(|operation| !kept_there(operation));
        let later: Vec<Operation> = random_calls(&mut dice).into_iter().map(Advance).collect();
        let kept = [&first[..], &[Keep(under(number))]].concat();
        let returned = [&kept[..], &between, &[Return(under(number))]].concat();
        let (from_keeping, history) = all(by_night(&ward), &[&kept[..], &later].concat());
        let (from_return, other) = all(by_night(&ward), &[&returned[..], &later].concat());
        assert_eq!(history, other);
        assert_eq!(from_keeping[kept.len()..], from_return[returned.len()..]);
    }
}

/// A record is kept and brought back as the history that it stands for.
#[test]
fn records_follow_histories() {
    let mut dice = Dice(909);
    let (mut kept_often, mut returned) = (0, 0);
    for ward in some_wards(&mut dice, 200) {
        let (mut histories, mut records) = (Kept::<History>::nothing(), Kept::nothing());
        let (mut history, mut record) = (History::new(), fresh());
        for operation in any_operations(&mut dice, 12) {
            match operation {
                Advance(call) => {
                    let expected = history::advance_night(&ward, &mut history, call);
                    let answer = record::advance_night_in(&ward, &record, call);
                    assert_eq!(answer.is_ok(), expected.is_ok());
                    record = answer.map_or(record, |answer| answer.record);
                }
                Keep(entry) => {
                    let done = histories.keep(entry, history.clone());
                    assert_eq!(records.keep(entry, record.clone()), done);
                    kept_often += u32::from(done.is_ok());
                }
                Return(entry) => {
                    let done = histories.bring_back(entry);
                    assert_eq!(records.bring_back(entry).is_ok(), done.is_ok());
                    returned += u32::from(done.is_ok());
                    history = done.unwrap_or(history);
                    record = records.bring_back(entry).unwrap_or(record);
                }
            }
            assert_eq!(record, record_of(&ward, &history));
        }
    }
    assert!(kept_often > 200 && returned > 50, "{kept_often} {returned}");
}
