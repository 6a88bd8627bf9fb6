//! Lists of calls from fresh, against the histories that the calls alone make.

use crate::by_history::ByHistory;
use crate::calls::*;
use crate::case::{Case, Left};
use crate::searches::*;
use crate::storages::{any_number, of_zeros, too_few};
use crate::trial::Trial;
use crate::wards::Size;
use crate::words::{nights_of_record, words_of_nights, FRESH};
use reference::operations::Session;
use reference::samples::Dice;
use std::sync::Mutex;

/// A list of advances from fresh by night, and one by day over the nights that it found.
pub fn chains(trial: &mut Trial, dice: &mut Dice, size: &Size) {
    let planned = any_ward(dice, size);
    let search = by_night(&planned);
    if !search.has_history() {
        return;
    }
    let nights = match chain(trial, dice, &search) {
        Some(left) if at_zero(&left.answer()) => nights_of_record(&left.record()),
        _ => words_of_nights(&planned.nights),
    };
    let search = by_day(&planned, &nights_of(dice, &planned, nights));
    if search.has_history() {
        chain(trial, dice, &search);
    }
}

/// What the last advance that was not refused left.
fn chain(trial: &mut Trial, dice: &mut Dice, search: &Search) -> Option<Left> {
    let session = Mutex::new(Session::new(vec![search.of()]));
    let history = ByHistory { session: &session, search: 0 };
    let (mut record, mut last) = (FRESH, None);
    for _ in 0..dice.from(2, 9) {
        let case = any_advance(dice, search, &record);
        let left = trial.compare_with(&history, "list of advances", &case);
        record = left.record();
        if left.answer()[QUESTION] == 0 {
            last = Some(left);
        }
    }
    last
}

/// An advance of a few steps, sometimes one that is refused.
fn any_advance(dice: &mut Dice, search: &Search, record: &Words) -> Case {
    let k = if dice.one_in(8) { 10_001 } else { dice.upto(7) };
    let short = dice.one_in(5);
    let places = if short { dice.index(search.needed + 1) } else { search.room(dice) };
    search.case(record, any_ask(dice, k), places)
}

/// Advances, keepings and returns of searches that share one storage, of zeros at first: two by
/// night on one ward, one by day on it, and one on another ward.
pub fn operations(trial: &mut Trial, dice: &mut Dice, size: &Size) {
    let (planned, other) = (any_ward(dice, size), any_ward(dice, size));
    let mut searches = vec![by_night(&planned), by_night(&planned), by_night(&other)];
    searches.push(by_planned_day(dice, &planned));
    searches.retain(|search| search.has_history());
    if searches.is_empty() {
        return;
    }
    let session = Mutex::new(Session::new(searches.iter().map(Search::of).collect()));
    let mut records = vec![FRESH; searches.len()];
    let mut storage = of_zeros(dice);
    for _ in 0..dice.from(8, 40) {
        let search = dice.index(searches.len());
        let record = records[search];
        let case = match dice.upto(8) {
            0..=3 => any_advance(dice, &searches[search], &record),
            4 | 5 => Case::Keep { record, number: any_number(dice), storage: lent(dice, &storage) },
            _ => {
                let number = number_to_return(dice, &session, search);
                Case::Return { record, number, storage: lent(dice, &storage) }
            }
        };
        let history = ByHistory { session: &session, search };
        let left = trial.compare_with(&history, "list of operations", &case);
        records[search] = left.record();
        storage[..left.storage.part().len()].copy_from_slice(left.storage.part());
    }
}

/// All of the storage, or now and then its beginning only, which has no room.
fn lent(dice: &mut Dice, storage: &[u32]) -> Vec<u32> {
    let words = if dice.one_in(9) { too_few(dice) } else { storage.len() };
    storage[..words].to_vec()
}

/// Mostly a number under which this search has kept; never one of another search, whose history is
/// none of this one.
fn number_to_return(dice: &mut Dice, session: &Mutex<Session>, search: usize) -> u32 {
    let session = session.lock().expect("no operation failed");
    let keeper = |number: u32| session.keeper(number.into());
    let own: Vec<u32> = (1..=8).filter(|&number| keeper(number) == Some(search)).collect();
    if !own.is_empty() && !dice.one_in(4) {
        return dice.pick(&own);
    }
    let number = any_number(dice);
    match keeper(number) {
        Some(other) if other != search => number + 8,
        _ => number,
    }
}
