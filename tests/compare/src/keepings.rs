//! Rounds of keepings and returns, one ward each: storage and records of any content.

use crate::calls::*;
use crate::case::Case;
use crate::records;
use crate::searches::*;
use crate::storage::with_plain_flags;
use crate::storages::{self, any_number, too_few};
use crate::trial::Trial;
use crate::wards::Size;
use crate::words::{FRESH, STEPS_AT};
use reference::samples::Dice;

/// Records to keep: fresh, after some steps, damaged, with other flags, and of any words.
fn some_records(dice: &mut Dice, search: &Search, reached: Words) -> Vec<Words> {
    let damaged = records::changed(dice, &search.planned.ward, &reached).1;
    let flags = records::other_flags(dice, &reached);
    let mut anything = [(); RECORD].map(|()| any_word(dice));
    if dice.one_in(2) {
        // so that question 7 lets it through
        anything[STEPS_AT] = dice.upto(70) as u32;
    }
    vec![FRESH, reached, damaged, flags, anything]
}

/// Against the reference: keepings and returns in storage of any content and length, and an advance
/// on what came back.
pub fn keeping(trial: &mut Trial, dice: &mut Dice, size: &Size) {
    let planned = any_ward(dice, size);
    let search = either(dice, &planned);
    if search.needed > LONGEST {
        return;
    }
    let k = dice.upto(9);
    let case = search.case(&FRESH, any_ask(dice, k), search.needed);
    let reached = trial.compare("before a keeping", &case).record();
    let records = some_records(dice, &search, reached);
    let (kind, mut storage) = storages::any(dice, &records);
    let mut record = reached;
    for _ in 0..8 {
        let (number, keep) = (any_number(dice), dice.one_in(2));
        let kind = kind_of(kind, number, &storage);
        let case = match keep {
            true => Case::Keep { record: dice.pick(&records), number, storage },
            false => Case::Return { record, number, storage },
        };
        let left = trial.compare(kind, &case);
        (record, storage) = (left.record(), left.storage.part().to_vec());
        if !keep && left.answer()[QUESTION] == 0 {
            let k = dice.upto(3);
            let case = search.case(&record, any_ask(dice, k), search.needed);
            trial.compare("after a return", &case);
        }
    }
}

/// The kind of storage, if it is looked at.
fn kind_of(kind: &'static str, number: u32, storage: &[u32]) -> &'static str {
    if storage.len() < STORAGE {
        "storage without room"
    } else if !(1..=8).contains(&number) {
        "a number outside 1 to 8"
    } else {
        kind
    }
}

/// "After a return, every list of advances goes as it would have gone from the moment of keeping":
/// the tested side against itself, over storage of any content.
pub fn assurance(trial: &mut Trial, dice: &mut Dice, size: &Size) {
    let (planned, other) = (any_ward(dice, size), any_ward(dice, size));
    let (search, another) = (either(dice, &planned), either(dice, &other));
    if search.needed.max(another.needed) > LONGEST {
        return;
    }
    let k = dice.upto(9);
    let case = search.case(&FRESH, any_ask(dice, k), search.needed);
    let records = some_records(dice, &search, trial.alone(&case).record());
    let (record, number) = (dice.pick(&records), dice.from(1, 8) as u32);
    let storage = storages::with_room(dice, &records).1;
    let left = trial.alone(&Case::Keep { record, number, storage });
    let mut between = Between { searches: [&search, &another], number, record };
    let storage = between.many(trial, dice, left.storage.part().to_vec());
    let left = trial.alone(&Case::Return { record: between.record, number, storage });
    let (mut returned, mut kept) = (left.record(), with_plain_flags(&record));
    for k in [0, dice.upto(2), dice.upto(9)] {
        let (ask, places) = (any_ask(dice, k), search.room(dice));
        let cases = [returned, kept].map(|record| search.case(&record, ask, places));
        let lefts = trial.same("after a return, as from the keeping", &cases[0], &cases[1]);
        [returned, kept] = lefts.map(|left| left.record());
    }
}

/// What is done between a keeping and its return.
struct Between<'a> {
    searches: [&'a Search<'a>; 2],
    /// nothing else is kept under it
    number: u32,
    /// in hand, whatever it is
    record: Words,
}

impl Between<'_> {
    /// The storage as it is afterwards.
    fn many(&mut self, trial: &Trial, dice: &mut Dice, mut storage: Vec<u32>) -> Vec<u32> {
        for _ in 0..dice.upto(9) {
            let case = self.any(dice, &storage);
            let left = trial.alone(&case);
            self.record = left.record();
            storage[..left.storage.part().len()].copy_from_slice(left.storage.part());
        }
        storage
    }

    /// An advance of either search, a keeping under another number, one that is refused, a return.
    fn any(&self, dice: &mut Dice, storage: &[u32]) -> Case {
        let (record, number) = (self.record, any_number(dice));
        match dice.upto(5) {
            0 | 1 if number != self.number => {
                Case::Keep { record, number, storage: storage.to_vec() }
            }
            2 => {
                let storage = storage[..too_few(dice)].to_vec();
                Case::Keep { record, number: self.number, storage }
            }
            3 => Case::Return { record, number, storage: storage.to_vec() },
            _ => {
                let search = dice.pick(&self.searches);
                let (record, k) = (dice.pick(&[record, FRESH]), dice.upto(5));
                search.case(&record, any_ask(dice, k), search.needed)
            }
        }
    }
}
