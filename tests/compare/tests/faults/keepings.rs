//! Keeping and returning (document 02, job 3), otherwise.

use crate::entries::{Entries, RIGHT};
use crate::faulty::{Fault, Found, Named};
use compare::calls::*;
use compare::storage::{entry_words, with_plain_flags};
use compare::words::{FLAGS, FRESH, PAIRS, REMOVALS, STEPS_AT};

fn done(stored: &Stored) -> bool {
    stored.answer[QUESTION] == 0
}

/// The storage by one other rule.
pub fn entry_faults() -> Vec<Named> {
    let named = |name, entries| (name, Fault::Entries(entries));
    vec![
        named("an entry at its number", Entries { begin: |number| number * ENTRY, ..RIGHT }),
        named(
            "entries without their first word",
            Entries { begin: |number| (number - 1) * RECORD, ..RIGHT },
        ),
        named("eight records' words are enough", room(|words| words >= 8 * RECORD)),
        named("one word too few is enough", room(|words| words >= STORAGE - 1)),
        named("seven entries are enough", room(|words| words >= 7 * ENTRY)),
        named("one word more is wanted", room(|words| words > STORAGE)),
        named("any storage is enough", room(|_| true)),
        named("only eight entries exactly", room(|words| words == STORAGE)),
        named("number 0 as 1", number(|number| number.max(1))),
        named("number 9 as 8", number(|number| if number == 9 { 8 } else { number })),
        named("number 9 as 1", number(|number| if number == 9 { 1 } else { number })),
        named("numbers from 0", number(|number| number.wrapping_add(1))),
        named("no number 8", number(|number| if number == 8 { 9 } else { number })),
        named("a number by its lowest byte", number(|number| number & 255)),
        named("a number by its lowest half", number(|number| number & 0xffff)),
        named("one entry for all numbers", number(|number| number.min(1))),
        named("a keeping writes 0 first", Entries { mark: |_| 0, ..RIGHT }),
        named("a keeping writes 2 first", Entries { mark: |_| 2, ..RIGHT }),
        named(
            "a fresh record is nothing kept",
            Entries { mark: |record| u32::from(*record != FRESH), ..RIGHT },
        ),
        named("the first word not looked at", Entries { kept: |_| true, ..RIGHT }),
        named("kept only where the first word is 1", Entries { kept: |word| word == 1, ..RIGHT }),
        named("kept by the first word's lowest bit", Entries { kept: |w| w & 1 == 1, ..RIGHT }),
        named("flags kept as they came", Entries { stored: |words| *words, ..RIGHT }),
        named("flags returned as they stand", Entries { returned: |words| *words, ..RIGHT }),
        named("pairs not kept", Entries { stored: without_pairs, ..RIGHT }),
        named("the steps so far not returned", Entries { returned: without_steps, ..RIGHT }),
    ]
}

fn room(room: fn(usize) -> bool) -> Entries {
    Entries { room, ..RIGHT }
}

fn number(number: fn(u32) -> u32) -> Entries {
    Entries { number, ..RIGHT }
}

fn without_pairs(words: &Words) -> Words {
    let mut words = with_plain_flags(words);
    words[PAIRS..FLAGS].fill(0);
    words
}

fn without_steps(words: &Words) -> Words {
    let mut words = with_plain_flags(words);
    words[STEPS_AT] = 0;
    words
}

pub fn keep_faults() -> Vec<Named> {
    use Fault::Keep;
    vec![
        (
            "a keeping clears the next entry",
            Keep(|number, stored, _| {
                if done(stored) && number < 8 {
                    stored.storage[entry_words(number + 1)][0] = 0;
                }
            }),
        ),
        (
            "a keeping writes one word past its entry",
            Keep(|number, stored, _| {
                if done(stored) {
                    let past = stored.storage.get_mut(entry_words(number).end);
                    past.into_iter().for_each(|word| *word = 1);
                }
            }),
        ),
        (
            "a keeping mends the flags of other entries",
            Keep(|_, stored, _| {
                if done(stored) {
                    for number in 1..=8 {
                        let flags = &mut stored.storage[entry_words(number)][1 + FLAGS..];
                        flags[..REMOVALS - FLAGS]
                            .iter_mut()
                            .for_each(|flag| *flag = (*flag).min(1));
                    }
                }
            }),
        ),
        (
            "a keeping clears what follows the entries",
            Keep(|_, stored, _| {
                if done(stored) {
                    stored.storage[STORAGE..].fill(0);
                }
            }),
        ),
        (
            "what is kept is not replaced",
            Keep(|number, stored, found| {
                if done(stored) && found.storage[entry_words(number)][0] != 0 {
                    stored.storage.copy_from_slice(&found.storage);
                }
            }),
        ),
        (
            "a refused keeping writes the storage",
            Keep(|_, stored, _| {
                if !done(stored) {
                    stored.storage.iter_mut().take(1).for_each(|word| *word = 1);
                }
            }),
        ),
        (
            "a keeping clears the record",
            Keep(|_, stored, _| {
                if done(stored) {
                    *stored.record = FRESH;
                }
            }),
        ),
        (
            "a keeping mends the record's flags",
            Keep(|_, stored, _| *stored.record = with_plain_flags(stored.record)),
        ),
        ("a keeping of odd flags is refused", Keep(refuse_odd_flags)),
        ("a keeping of too many steps is refused", Keep(refuse_many_steps)),
        ("a keeping says its number", Keep(|number, stored, _| place_or_count(number, stored))),
    ]
}

/// Question 11, of which a keeping asks nothing.
fn refuse(stored: &mut Stored, found: &Found) {
    stored.storage.copy_from_slice(&found.storage);
    *stored.answer = [11, 0, 0, 0, 0, 0];
}

fn refuse_odd_flags(_: u32, stored: &mut Stored, found: &Found) {
    if done(stored) && found.record != with_plain_flags(&found.record) {
        refuse(stored, found);
    }
}

fn refuse_many_steps(_: u32, stored: &mut Stored, found: &Found) {
    if done(stored) && found.record[STEPS_AT] > 1_000_000 {
        refuse(stored, found);
    }
}

/// The number as the place of a refusal, or as a count.
fn place_or_count(number: u32, stored: &mut Stored) {
    let word = if done(stored) { COUNT } else { PLACE };
    stored.answer[word] = number.into();
}

pub fn return_faults() -> Vec<Named> {
    use Fault::Return;
    vec![
        (
            "a return takes out what was kept",
            Return(|number, stored, _| {
                if done(stored) {
                    stored.storage[entry_words(number)][0] = 0;
                }
            }),
        ),
        (
            "a return mends the flags that stand in the storage",
            Return(|number, stored, _| {
                if done(stored) {
                    let plain = *stored.record;
                    stored.storage[entry_words(number)][1..].copy_from_slice(&plain);
                }
            }),
        ),
        (
            "a refused return clears the record",
            Return(|_, stored, _| {
                if !done(stored) {
                    *stored.record = FRESH;
                }
            }),
        ),
        (
            "a refused return mends the record's flags",
            Return(|_, stored, found| {
                if !done(stored) {
                    *stored.record = with_plain_flags(&found.record);
                }
            }),
        ),
        (
            "nothing kept is a fresh record",
            Return(|number, stored, found| {
                if !done(stored) && found.storage.len() >= STORAGE && (1..=8).contains(&number) {
                    (*stored.record, *stored.answer) = (FRESH, [0; 6]);
                }
            }),
        ),
        (
            "removals stay those in hand",
            Return(|_, stored, found| {
                stored.record[REMOVALS..STEPS_AT]
                    .copy_from_slice(&found.record[REMOVALS..STEPS_AT]);
            }),
        ),
        (
            "the steps so far stay those in hand",
            Return(|_, stored, found| stored.record[STEPS_AT] = found.record[STEPS_AT]),
        ),
        ("a return changes nothing", Return(|_, stored, found| *stored.record = found.record)),
        ("a return says its number", Return(|number, stored, _| place_or_count(number, stored))),
        (
            "a return answers asked",
            Return(|_, stored, _| {
                if done(stored) {
                    stored.answer[OUTCOME] = ASKED;
                }
            }),
        ),
    ]
}
