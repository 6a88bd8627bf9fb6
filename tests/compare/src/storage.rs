//! The storage as the C interface lends it: eight entries, each a word that is 0 where nothing is
//! kept, then a record's words. What stands after them is nobody's.

use crate::calls::{Words, ENTRY, STORAGE};
use crate::words::{record_of_words, words_of_record};
use reference::keeping::{Entry, Kept, ENTRIES};
use reference::record::Record;
use std::ops::Range;

/// What a keeping or a return is handed: "the storage has no room for eight records" where it has
/// fewer words.
pub fn entry(number: u32, words: usize) -> Entry {
    Entry { number: number.into(), room: words >= STORAGE }
}

/// The words of an entry, of numbers from 1 to 8.
pub fn entry_words(number: u32) -> Range<usize> {
    let end = number as usize * ENTRY;
    end - ENTRY..end
}

/// The records that stand in a storage; none where it has no room. Any first word but 0 is kept.
pub fn kept_in(storage: &[u32]) -> Kept<Record> {
    let mut kept = Kept::nothing();
    if storage.len() >= STORAGE {
        for number in 1..=ENTRIES {
            let words = &storage[entry_words(number as u32)];
            kept.0[number - 1] = (words[0] != 0).then(|| record_of_entry(words));
        }
    }
    kept
}

fn record_of_entry(words: &[u32]) -> Record {
    let record: &Words = words[1..].try_into().expect("a record's words");
    record_of_words(record)
}

/// An entry that keeps this record, its flags 0 or 1.
pub fn entry_of(record: &Record) -> Vec<u32> {
    [&[1], &words_of_record(record)[..]].concat()
}

/// The record's words as keeping and returning hand them on: flags 0 or 1.
pub fn with_plain_flags(words: &Words) -> Words {
    words_of_record(&record_of_words(words))
}
