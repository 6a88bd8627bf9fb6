//! Rounds of random calls, one ward each: reader, writer, advances and check.

use crate::calls::*;
use crate::case::{Case, Left};
use crate::searches::*;
use crate::trial::Trial;
use crate::wards::{Planned, Size};
use crate::words::{nights_of_record, words_of_nights, FRESH, PAIRS, STEPS_AT};
use crate::{files, records, rosters};
use reference::samples::Dice;

/// The reader: the file as it is, and damaged.
pub fn reading(trial: &mut Trial, dice: &mut Dice, size: &Size) {
    let planned = any_ward(dice, size);
    trial.compare("a ward", &Case::Read { file: planned.file.clone() });
    for _ in 0..12 {
        let (kind, file) = files::damaged(dice, &planned.ward.numbers);
        trial.compare(kind, &Case::Read { file });
    }
}

/// The writer: as read, with other counts, other numbers and every room around the needed one.
pub fn writing(trial: &mut Trial, dice: &mut Dice, size: &Size) {
    let planned = any_ward(dice, size);
    let numbers = &planned.ward.numbers;
    let (needed, count) = (planned.file.len(), numbers.len() as u64);
    for room in needed.saturating_sub(2)..=needed + 2 {
        trial.compare("room around the needed", &write(dice, numbers, count, room));
    }
    if dice.one_in(20) && needed < 200 {
        for room in 0..needed + 9 {
            trial.compare("every length of the buffer", &write(dice, numbers, count, room));
        }
    }
    let less = dice.upto(count);
    trial.compare("room too short", &write(dice, numbers, count, less as usize));
    trial.compare("numbers missing", &write(dice, numbers, less, needed));
    for more in [count + dice.from(1, 9), 4_107, 4_108, 4_441, 4_442, u64::MAX, 1 << 32] {
        trial.compare("numbers too many", &write(dice, numbers, more, needed));
    }
    for _ in 0..4 {
        let mut changed = numbers.clone();
        let at = files::number_index(dice, numbers);
        changed[at] = files::changed(dice, numbers[at]);
        trial.compare("one number changed", &write(dice, &changed, count, needed + 7));
        changed[at] = u64::MAX >> dice.upto(60);
        trial.compare("one number of any size", &write(dice, &changed, count, needed + 7));
        let changed = files::with_duty(dice, numbers);
        trial.compare("one duty changed", &write(dice, &changed, count, needed));
        let (kind, changed) = files::other_edition(dice, numbers);
        let count = changed.len() as u64;
        trial.compare(kind, &write(dice, &changed, count, needed + 20));
    }
}

/// The counted numbers, and anything after them.
fn write(dice: &mut Dice, numbers: &[u64], count: u64, room: usize) -> Case {
    let mut all = Box::new([0; NUMBERS]);
    all[..numbers.len()].copy_from_slice(numbers);
    if dice.one_in(2) {
        all[numbers.len()..].fill_with(|| dice.upto(u64::MAX - 1));
    }
    Case::Write { numbers: all, count, room }
}

/// Night advances from fresh; then records changed, buffers too short, files damaged.
pub fn by_nights(trial: &mut Trial, dice: &mut Dice, size: &Size) {
    let planned = any_ward(dice, size);
    let search = by_night(&planned);
    if let Some(left) = advances(trial, dice, &search) {
        refusals(trial, dice, &search, &left);
    }
}

/// Day advances over the planned nights or over those of a search; then as by night, and nights
/// that are not hers or not at zero.
pub fn by_days(trial: &mut Trial, dice: &mut Dice, size: &Size) {
    let planned = any_ward(dice, size);
    let mut nights = nights_of(dice, &planned, words_of_nights(&planned.nights));
    if dice.one_in(2) {
        let search = by_night(&planned);
        let places = search.needed;
        let case = search.case(&FRESH, any_ask(dice, 60), places);
        let left = trial.compare("from fresh, for the days", &case);
        if at_zero(&left.answer()) {
            nights = nights_of(dice, &planned, nights_of_record(&left.record()));
        }
    }
    let search = by_day(&planned, &nights);
    if let Some(left) = advances(trial, dice, &search) {
        refusals(trial, dice, &search, &left);
        other_nights(trial, dice, &planned, &nights, &left.record());
    }
    if dice.one_in(3) {
        every_room(trial, dice, &search);
    }
}

/// One nurse's nights or her pair changed.
fn other_nights(
    trial: &mut Trial,
    dice: &mut Dice,
    planned: &Planned,
    nights: &Nights,
    record: &Words,
) {
    for _ in 0..3 {
        let mut other = *nights;
        let nurse = dice.index(planned.ward.nurse_count);
        if dice.one_in(2) {
            other[nurse] = records::any_pattern(dice, nights[nurse]);
        } else {
            other[PAIRS + nurse] = records::any_pair(dice, &planned.ward, nights[PAIRS + nurse]);
        }
        let search = Search { planned, nights: Some(other), needed: LONGEST };
        let record = if dice.one_in(2) { &FRESH } else { record };
        trial.compare("other nights", &search.case(record, any_ask(dice, 2), LONGEST));
    }
}

/// A few advances in turn: what the last one left. None where the lists are too long.
fn advances(trial: &mut Trial, dice: &mut Dice, search: &Search) -> Option<Left> {
    if search.needed > LONGEST {
        let places = dice.upto(2_000) as usize;
        trial.compare("list too long", &search.case(&FRESH, any_ask(dice, 1), places));
        return None;
    }
    let m = search.planned.ward.nurse_count as u64;
    let steps = [dice.upto(2), dice.upto(m), m, dice.from(m, 3 * m + 9)];
    let (ask, places) = (any_ask(dice, steps[0]), search.room(dice));
    let mut left = trial.compare("from fresh", &search.case(&FRESH, ask, places));
    for &k in &steps[1..] {
        if left.answer()[QUESTION] != 0 {
            break;
        }
        let (ask, places) = (any_ask(dice, k), search.room(dice));
        left = trial.compare("going on", &search.case(&left.record(), ask, places));
    }
    Some(left)
}

/// What an advance must refuse, or nearly, after the one that left this.
fn refusals(trial: &mut Trial, dice: &mut Dice, search: &Search, left: &Left) {
    let k = dice.upto(3);
    let record = &match dice.one_in(2) {
        true => records::other_flags(dice, &left.record()),
        false => left.record(),
    };
    for _ in 0..6 {
        let (kind, changed) = records::changed(dice, &search.planned.ward, record);
        trial.compare(kind, &search.case(&changed, any_ask(dice, k), search.needed));
    }
    let ask = any_ask(dice, k);
    // ten thousand steps are asked only where none is made
    let most = if at_zero(&left.answer()) { Ask::plain(10_000) } else { ask };
    for (steps, ask) in [
        (1_000_000, ask),
        (1_000_001, ask),
        (u32::MAX, ask),
        (999_998, ask),
        (1_000_000 - most.k, most),
        (1_000_001 - most.k, most),
    ] {
        let mut changed = *record;
        changed[STEPS_AT] = steps;
        trial.compare("steps near the limit", &search.case(&changed, ask, search.needed));
    }
    for k in [10_001, u32::MAX.into(), dice.from(10_001, 1 << 31)] {
        let ask = any_ask(dice, k);
        trial.compare("k too large", &search.case(record, ask, dice.upto(9) as usize));
    }
    for places in [0, search.needed.saturating_sub(1), dice.index(search.needed.max(1))] {
        trial.compare("buffer too short", &search.case(record, any_ask(dice, k), places));
    }
    for _ in 0..3 {
        let (kind, file) = files::damaged(dice, &search.planned.ward.numbers);
        trial.compare(kind, &search.case_of(file, record, any_ask(dice, k), search.needed));
    }
}

/// Buffers of every length from none to beyond the needed one.
fn every_room(trial: &mut Trial, dice: &mut Dice, search: &Search) {
    if search.needed <= 60 {
        let ask = any_ask(dice, 3);
        for places in 0..search.needed + 3 {
            trial.compare("every length of the buffer", &search.case(&FRESH, ask, places));
        }
    }
}

/// Many steps by night, to the end if there is one.
pub fn long_nights(trial: &mut Trial, dice: &mut Dice, size: &Size) {
    let planned = any_ward(dice, size);
    many_steps(trial, dice, &by_night(&planned));
}

/// Many steps by day over the planned nights, to the end if there is one.
pub fn long_days(trial: &mut Trial, dice: &mut Dice, size: &Size) {
    let planned = any_ward(dice, size);
    let search = by_planned_day(dice, &planned);
    many_steps(trial, dice, &search);
}

fn many_steps(trial: &mut Trial, dice: &mut Dice, search: &Search) {
    let k = dice.pick(&[100, 300, 1_000]);
    if search.needed <= LONGEST {
        let ask = any_ask(dice, k);
        trial.compare("many steps", &search.case(&FRESH, ask, search.needed));
    }
    every_room(trial, dice, search);
}

/// The check: the planned roster, one from a search, and those beside them.
pub fn checking(trial: &mut Trial, dice: &mut Dice, size: &Size) {
    let planned = any_ward(dice, size);
    let plan = rosters::of_plan(&planned);
    check_around(trial, dice, &planned, "planned roster", &plan);
    for _ in 0..4 {
        let roster = rosters::without_a_pair(dice, &planned);
        let case = Case::Check { file: planned.file.clone(), roster };
        trial.compare("a row without its pair", &case);
    }
    if let Some(roster) = searched(trial, dice, &planned) {
        check_around(trial, dice, &planned, "roster given out", &roster);
    }
    let (kind, file) = files::damaged(dice, &planned.ward.numbers);
    trial.compare(kind, &Case::Check { file, roster: plan });
    trial.compare("no letters", &Case::Check { file: planned.file.clone(), roster: vec![] });
}

fn check_around(
    trial: &mut Trial,
    dice: &mut Dice,
    planned: &Planned,
    kind: &'static str,
    roster: &[u8],
) {
    let case = |roster: Vec<u8>| Case::Check { file: planned.file.clone(), roster };
    trial.compare(kind, &case(roster.to_vec()));
    for _ in 0..9 {
        let (kind, changed) = rosters::changed(dice, roster, planned.ward.day_count);
        trial.compare(kind, &case(changed));
    }
}

/// A roster by both searches, if they reach zero soon.
fn searched(trial: &mut Trial, dice: &mut Dice, planned: &Planned) -> Option<Vec<u8>> {
    let search = by_night(planned);
    let case = search.case(&FRESH, any_ask(dice, 40), search.needed);
    let left = trial.compare("for the check", &case);
    if !at_zero(&left.answer()) {
        return None;
    }
    let nights = nights_of(dice, planned, nights_of_record(&left.record()));
    let search = by_day(planned, &nights);
    if search.needed > LONGEST {
        return None;
    }
    let case = search.case(&FRESH, any_ask(dice, 40), search.needed);
    let left = trial.compare("for the check", &case);
    (left.answer()[COUNT] > 0).then(|| left.roster().to_vec())
}
