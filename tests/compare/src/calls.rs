//! The seven calls of the C interface, as safe Rust.

/// Places for a ward's numbers.
pub const NUMBERS: usize = 4441;
pub const NURSES: usize = 48;
/// Words of a record: patterns, pairs, placed flags, removals of four words, steps.
pub const RECORD: usize = 401;
/// Words of a choice of nights, the first of a night record: patterns and pairs.
pub const NIGHTS: usize = 2 * NURSES;
/// Most letters of a roster.
pub const ROSTER: usize = 1488;
/// Words of an entry of the storage: one that is 0 where nothing is kept, then a record's.
pub const ENTRY: usize = RECORD + 1;
/// Words that a storage must have, eight entries.
pub const STORAGE: usize = 8 * ENTRY;

pub type Numbers = [u64; NUMBERS];
pub type Words = [u32; RECORD];
pub type Nights = [u32; NIGHTS];
pub type Letters = [u8; ROSTER];
/// Question, place, outcome, steps made, penalty, count.
pub type Answer = [u64; 6];

pub const QUESTION: usize = 0;
pub const PLACE: usize = 1;
pub const OUTCOME: usize = 2;
pub const STEPS: usize = 3;
pub const PENALTY: usize = 4;
pub const COUNT: usize = 5;

/// Outcomes of an advance.
pub const ZERO: u64 = 1;
pub const ASKED: u64 = 2;
pub const NONE: u64 = 3;
/// Outcomes of the check.
pub const YES: u64 = 1;
pub const NO: u64 = 2;

/// What an advance is asked: at most k steps, past zero where the word is not 0.
#[derive(Clone, Copy, Debug, PartialEq, Eq)]
pub struct Ask {
    pub k: u32,
    pub past_zero: u32,
}

impl Ask {
    pub fn plain(k: u32) -> Ask {
        Ask { k, past_zero: 0 }
    }

    pub fn past(k: u32) -> Ask {
        Ask { k, past_zero: 1 }
    }
}

/// The memory lent to an advance.
pub struct Handed<'a> {
    pub record: &'a mut Words,
    pub buffer: &'a mut [u32],
    /// by day
    pub roster: Option<&'a mut Letters>,
    pub answer: &'a mut Answer,
}

/// The memory lent to a keeping, which may not write the record, or to a return, which may not write
/// the storage. Both can be written here, so that it is seen where a call does.
pub struct Stored<'a> {
    pub record: &'a mut Words,
    pub storage: &'a mut [u32],
    pub answer: &'a mut Answer,
}

pub trait Calls: Sync {
    fn read(&self, file: &[u8], numbers: &mut Numbers, answer: &mut Answer);

    fn write(&self, numbers: &Numbers, count: u64, buffer: &mut [u8], answer: &mut Answer);

    fn advance_nights(&self, file: &[u8], ask: Ask, handed: Handed);

    fn advance_days(&self, file: &[u8], nights: &Nights, ask: Ask, handed: Handed);

    fn check(&self, file: &[u8], roster: &[u8], answer: &mut Answer);

    fn keep(&self, number: u32, stored: Stored);

    /// `pantheryl_return`.
    fn bring_back(&self, number: u32, stored: Stored);
}
