//! One call with all that it is handed, and all that it leaves.

use crate::calls::*;
use std::hint::black_box;
use std::time::{Duration, Instant};

#[derive(Clone, Debug)]
pub enum Case {
    Read { file: Vec<u8> },
    Write { numbers: Box<Numbers>, count: u64, room: usize },
    Nights { file: Vec<u8>, record: Words, ask: Ask, places: usize },
    Days { file: Vec<u8>, nights: Nights, record: Words, ask: Ask, places: usize },
    Check { file: Vec<u8>, roster: Vec<u8> },
    Keep { record: Words, number: u32, storage: Vec<u32> },
    Return { record: Words, number: u32, storage: Vec<u32> },
}

impl Case {
    pub fn call(&self) -> &'static str {
        match self {
            Case::Read { .. } => "read",
            Case::Write { .. } => "write",
            Case::Nights { .. } => "advance_nights",
            Case::Days { .. } => "advance_days",
            Case::Check { .. } => "check",
            Case::Keep { .. } => "keep",
            Case::Return { .. } => "return",
        }
    }
}

/// Everything lent to a call, as it is after it, with the places around it. What a call has no
/// use for is empty.
#[derive(Clone, Debug, Default, PartialEq, Eq)]
pub struct Left {
    pub answer: Lent<u64>,
    pub numbers: Lent<u64>,
    pub bytes: Lent<u8>,
    pub buffer: Lent<u32>,
    pub record: Lent<u32>,
    pub letters: Lent<u8>,
    pub storage: Lent<u32>,
    /// read only
    pub file: Lent<u8>,
    /// read only
    pub nights: Lent<u32>,
}

impl Left {
    pub fn answer(&self) -> Answer {
        *array(self.answer.part())
    }

    pub fn record(&self) -> Words {
        *array(self.record.part())
    }

    /// The roster given out, as many letters as the answer says.
    pub fn roster(&self) -> &[u8] {
        &self.letters.part()[..self.answer()[COUNT] as usize]
    }
}

/// Memory lent to a call, between places that nobody may write.
#[derive(Clone, Debug, Default, PartialEq, Eq)]
pub struct Lent<T>(Vec<T>);

const AROUND: usize = 16;

impl<T: Filling> Lent<T> {
    /// A part that holds what the call is to find.
    fn holding(content: &[T]) -> Self {
        let mut lent = Lent::filled(content.len());
        lent.part_mut().copy_from_slice(content);
        lent
    }

    /// A part in which every place holds something else than a call would write.
    fn filled(length: usize) -> Self {
        Lent((0..length + 2 * AROUND).map(T::filling).collect())
    }

    /// What is lent; nothing where the call has no use for it.
    pub fn part(&self) -> &[T] {
        self.0.get(AROUND..self.0.len().saturating_sub(AROUND)).unwrap_or(&[])
    }

    fn part_mut(&mut self) -> &mut [T] {
        let end = self.0.len() - AROUND;
        &mut self.0[AROUND..end]
    }
}

/// What stands at a place before a call: different from its neighbours, and out of range.
pub trait Filling: Copy {
    fn filling(at: usize) -> Self;
}

impl Filling for u8 {
    fn filling(at: usize) -> u8 {
        0x80 | (at % 113) as u8
    }
}

impl Filling for u32 {
    fn filling(at: usize) -> u32 {
        0x8000_0000 | (at as u32).wrapping_mul(0x9e3_779b)
    }
}

impl Filling for u64 {
    fn filling(at: usize) -> u64 {
        u64::MAX - at as u64
    }
}

fn array<T, const N: usize>(part: &[T]) -> &[T; N] {
    part.try_into().expect("lent with this length")
}

fn array_mut<T, const N: usize>(part: &mut [T]) -> &mut [T; N] {
    part.try_into().expect("lent with this length")
}

/// Makes the call: what it leaves, and its time.
pub fn make(calls: &dyn Calls, case: &Case) -> (Left, Duration) {
    let mut left = lend(case);
    let begin = Instant::now();
    call(calls, case, &mut left);
    let time = begin.elapsed();
    (black_box(left), time)
}

/// The memory as the call finds it.
fn lend(case: &Case) -> Left {
    let mut left = Left { answer: Lent::filled(6), ..Left::default() };
    match case {
        Case::Read { file } => {
            left.file = Lent::holding(file);
            left.numbers = Lent::filled(NUMBERS);
        }
        Case::Write { numbers, room, .. } => {
            left.numbers = Lent::holding(&numbers[..]);
            left.bytes = Lent::filled(*room);
        }
        Case::Nights { file, record, places, .. } => {
            left.file = Lent::holding(file);
            left.record = Lent::holding(record);
            left.buffer = Lent::filled(*places);
        }
        Case::Days { file, nights, record, places, .. } => {
            left.file = Lent::holding(file);
            left.nights = Lent::holding(nights);
            left.record = Lent::holding(record);
            left.buffer = Lent::filled(*places);
            left.letters = Lent::filled(ROSTER);
        }
        Case::Check { file, roster } => {
            left.file = Lent::holding(file);
            left.letters = Lent::holding(roster);
        }
        Case::Keep { record, storage, .. } | Case::Return { record, storage, .. } => {
            left.record = Lent::holding(record);
            left.storage = Lent::holding(storage);
        }
    }
    left
}

fn call(calls: &dyn Calls, case: &Case, left: &mut Left) {
    let Left { answer, numbers, bytes, buffer, record, letters, storage, file, nights } = left;
    let answer = array_mut(answer.part_mut());
    match case {
        Case::Read { .. } => calls.read(file.part(), array_mut(numbers.part_mut()), answer),
        Case::Write { count, .. } => {
            calls.write(array(numbers.part()), *count, bytes.part_mut(), answer)
        }
        Case::Nights { ask, .. } => {
            let (record, buffer) = (array_mut(record.part_mut()), buffer.part_mut());
            calls.advance_nights(file.part(), *ask, Handed { record, buffer, roster: None, answer })
        }
        Case::Days { ask, .. } => {
            let (record, buffer) = (array_mut(record.part_mut()), buffer.part_mut());
            let (nights, roster) = (array(nights.part()), Some(array_mut(letters.part_mut())));
            calls.advance_days(file.part(), nights, *ask, Handed { record, buffer, roster, answer })
        }
        Case::Check { .. } => calls.check(file.part(), letters.part(), answer),
        Case::Keep { number, .. } => {
            let (record, storage) = (array_mut(record.part_mut()), storage.part_mut());
            calls.keep(*number, Stored { record, storage, answer })
        }
        Case::Return { number, .. } => {
            let (record, storage) = (array_mut(record.part_mut()), storage.part_mut());
            calls.bring_back(*number, Stored { record, storage, answer })
        }
    }
}
