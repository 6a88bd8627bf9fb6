//! What is kept (document 02, job 3): "up to eight records are kept under numbers 1 to 8 in lent
//! storage, replaced or brought back unchanged".

use crate::ward::{refusal, Refusal};

/// As many as can be kept.
pub const ENTRIES: usize = 8;

/// What a keeping and a return are handed: a number, and whether the storage has room for eight
/// records.
#[derive(Clone, Copy, Debug, PartialEq, Eq)]
pub struct Entry {
    pub number: u64,
    pub room: bool,
}

impl Entry {
    /// In a storage with room.
    pub fn under(number: u64) -> Entry {
        Entry { number, room: true }
    }
}

/// Under each number what is kept there, a record or a history, or nothing.
#[derive(Clone, Debug, PartialEq, Eq)]
pub struct Kept<T>(pub [Option<T>; ENTRIES]);

impl<T: Clone> Kept<T> {
    /// "Storage of zeros keeps nothing."
    pub fn nothing() -> Kept<T> {
        Kept([(); ENTRIES].map(|()| None))
    }

    /// What was under the number before is replaced.
    pub fn keep(&mut self, entry: Entry, one: T) -> Result<(), Refusal> {
        self.0[ask_entry(entry)?] = Some(one);
        Ok(())
    }

    /// What is under the number stays there.
    pub fn bring_back(&self, entry: Entry) -> Result<T, Refusal> {
        match &self.0[ask_entry(entry)?] {
            Some(one) => Ok(one.clone()),
            None => refusal(13, 0),
        }
    }
}

/// Question 13 as both put it: the index of the number.
fn ask_entry(entry: Entry) -> Result<usize, Refusal> {
    if !entry.room || !(1..=ENTRIES as u64).contains(&entry.number) {
        return refusal(13, 0);
    }
    Ok(entry.number as usize - 1)
}
