//! The naive reference behind the signatures of the C interface.

use crate::calls::*;
use crate::storage::{entry, entry_of, entry_words, kept_in};
use crate::words::{patterns_of_nights, record_of_words, words_of_record};
use reference::check::check_in;
use reference::history::Call;
use reference::phase::End;
use reference::record::{self, advance_day_in, advance_night_in, Record};
use reference::ward::{padded, parse, write, Refusal, Ward};

/// What an advance on a record is asked to do by night and by day, the ward being read.
pub type Advanced = Result<record::Answer, Refusal>;

pub struct Reference;

/// The answer of a keeping and a return that were not refused.
const DONE: Answer = [0; 6];

pub fn refused(no: Refusal) -> Answer {
    [u64::from(no.question), no.place, 0, 0, 0, 0]
}

/// What a search hands back; a refusal writes the answer only.
pub fn hand_back(advanced: Advanced, handed: &mut Handed) {
    let done = match advanced {
        Err(no) => {
            *handed.answer = refused(no);
            return;
        }
        Ok(done) => done,
    };
    *handed.record = words_of_record(&done.record);
    handed.buffer[..done.buffer.len()].copy_from_slice(&done.buffer);
    let letters = done.roster.unwrap_or_default();
    if let Some(roster) = &mut handed.roster {
        roster[..letters.len()].copy_from_slice(&letters);
    }
    let outcome = match done.end {
        End::Zero => ZERO,
        End::Asked => ASKED,
        End::None => NONE,
    };
    *handed.answer = [0, 0, outcome, done.made, done.penalty, letters.len() as u64];
}

/// The reading of a file, as the C interface gives it.
pub fn give_reading(read: Result<Ward, Refusal>, numbers: &mut Numbers, answer: &mut Answer) {
    match read {
        Err(no) => *answer = refused(no),
        Ok(ward) => {
            let (all, count) = padded(&ward);
            numbers.copy_from_slice(&all);
            *answer = [0, 0, 0, 0, 0, count];
        }
    }
}

/// The bytes of a ward, as the C interface writes them.
pub fn give_file(written: Result<Vec<u8>, Refusal>, buffer: &mut [u8], answer: &mut Answer) {
    match written {
        Err(no) => *answer = refused(no),
        Ok(bytes) => {
            buffer[..bytes.len()].copy_from_slice(&bytes);
            *answer = [0, 0, 0, 0, 0, bytes.len() as u64];
        }
    }
}

pub fn give_check(checked: Result<bool, Refusal>) -> Answer {
    match checked {
        Err(no) => refused(no),
        Ok(yes) => [0, 0, if yes { YES } else { NO }, 0, 0, 0],
    }
}

/// What an advance is handed beside a record. Every word but 0 says past zero.
pub fn call(ask: Ask, places: usize) -> Call {
    Call { k: ask.k.into(), past_zero: ask.past_zero != 0, places }
}

/// A night advance on the words of a record.
pub fn nights(ward: &Ward, words: &Words, call: Call) -> Advanced {
    advance_night_in(ward, &record_of_words(words), call)
}

/// A day advance on the words of a record.
pub fn days(ward: &Ward, nights: &Nights, words: &Words, call: Call) -> Advanced {
    let record: Record = record_of_words(words);
    advance_day_in(ward, &patterns_of_nights(nights), &record, call)
}

/// What a keeping leaves: only the entry is written.
pub fn give_kept(kept: Result<(), Refusal>, number: u32, record: &Record, stored: &mut Stored) {
    *stored.answer = match kept {
        Err(no) => refused(no),
        Ok(()) => {
            stored.storage[entry_words(number)].copy_from_slice(&entry_of(record));
            DONE
        }
    }
}

/// What a return leaves: only the record is written.
pub fn give_returned(returned: Result<Record, Refusal>, stored: &mut Stored) {
    *stored.answer = match returned {
        Err(no) => refused(no),
        Ok(record) => {
            *stored.record = words_of_record(&record);
            DONE
        }
    }
}

impl Calls for Reference {
    fn read(&self, file: &[u8], numbers: &mut Numbers, answer: &mut Answer) {
        give_reading(parse(file), numbers, answer);
    }

    fn write(&self, numbers: &Numbers, count: u64, buffer: &mut [u8], answer: &mut Answer) {
        give_file(write(numbers, count, buffer.len()), buffer, answer);
    }

    fn advance_nights(&self, file: &[u8], ask: Ask, mut handed: Handed) {
        let Handed { record, buffer, .. } = &handed;
        let call = call(ask, buffer.len());
        let advanced = parse(file).and_then(|ward| nights(&ward, record, call));
        hand_back(advanced, &mut handed);
    }

    fn advance_days(&self, file: &[u8], nights: &Nights, ask: Ask, mut handed: Handed) {
        let Handed { record, buffer, .. } = &handed;
        let call = call(ask, buffer.len());
        let advanced = parse(file).and_then(|ward| days(&ward, nights, record, call));
        hand_back(advanced, &mut handed);
    }

    fn check(&self, file: &[u8], roster: &[u8], answer: &mut Answer) {
        *answer = give_check(parse(file).and_then(|ward| check_in(&ward, roster)));
    }

    fn keep(&self, number: u32, mut stored: Stored) {
        let record = record_of_words(stored.record);
        let entry = entry(number, stored.storage.len());
        let kept = kept_in(stored.storage).keep(entry, record.clone());
        give_kept(kept, number, &record, &mut stored);
    }

    fn bring_back(&self, number: u32, mut stored: Stored) {
        let entry = entry(number, stored.storage.len());
        give_returned(kept_in(stored.storage).bring_back(entry), &mut stored);
    }
}
