//! The storage by rules that can be changed one by one.

use compare::calls::*;
use compare::storage::with_plain_flags;

/// The rules of keeping and returning.
#[derive(Clone, Copy)]
pub struct Entries {
    /// the number that is taken for the one handed in
    pub number: fn(u32) -> u32,
    /// is a storage of so many words large enough?
    pub room: fn(usize) -> bool,
    /// where the entry of a number from 1 to 8 begins
    pub begin: fn(usize) -> usize,
    /// is anything kept, by the first word?
    pub kept: fn(u32) -> bool,
    /// the first word that a keeping writes, by the record
    pub mark: fn(&Words) -> u32,
    /// the record's words as a keeping writes them
    pub stored: fn(&Words) -> Words,
    /// the words as a return hands them back
    pub returned: fn(&Words) -> Words,
}

/// As document 02 has them.
pub const RIGHT: Entries = Entries {
    number: |number| number,
    room: |words| words >= STORAGE,
    begin: |number| (number - 1) * ENTRY,
    kept: |first| first != 0,
    mark: |_| 1,
    stored: with_plain_flags,
    returned: with_plain_flags,
};

const REFUSED: Answer = [13, 0, 0, 0, 0, 0];

impl Entries {
    /// The entry's words, if the rules let it be used; none past the storage's end.
    fn entry<'a>(&self, number: u32, storage: &'a mut [u32]) -> Option<&'a mut [u32]> {
        let number = (self.number)(number);
        if !(self.room)(storage.len()) || !(1..=8).contains(&number) {
            return None;
        }
        let begin = (self.begin)(number as usize);
        storage.get_mut(begin..begin + ENTRY)
    }

    pub fn keep(&self, number: u32, stored: &mut Stored) {
        *stored.answer = REFUSED;
        if let Some(entry) = self.entry(number, stored.storage) {
            entry[0] = (self.mark)(stored.record);
            entry[1..].copy_from_slice(&(self.stored)(stored.record));
            *stored.answer = [0; 6];
        }
    }

    pub fn bring_back(&self, number: u32, stored: &mut Stored) {
        *stored.answer = REFUSED;
        if let Some(entry) = self.entry(number, stored.storage) {
            if (self.kept)(entry[0]) {
                let record: &Words = (&entry[1..]).try_into().expect("a record's words");
                *stored.record = (self.returned)(record);
                *stored.answer = [0; 6];
            }
        }
    }
}
