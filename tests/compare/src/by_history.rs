//! Advances, keepings and returns as histories alone give them: no record handed in is looked at,
//! and nothing that stands in the storage.

use crate::calls::*;
use crate::naive::{call, give_kept, give_returned, hand_back, Advanced, Reference};
use crate::storage::entry;
use reference::history;
use reference::operations::{Answered, Operation, SearchOf, Session};
use reference::phase::{DayPhase, NightPhase, Phase};
use reference::record::{self, record_of, Record};
use reference::ward::Refusal;
use std::sync::Mutex;

/// One search of a session. Ward and nights are those that the session has for it.
pub struct ByHistory<'s, 'w> {
    pub session: &'s Mutex<Session<'w>>,
    pub search: usize,
}

impl ByHistory<'_, '_> {
    /// The operation's answer, and the record that the search's history stands for after it.
    fn act(&self, operation: Operation) -> (Answered, Record) {
        let mut session = self.session.lock().expect("no other operation failed");
        let answered = session.act(self.search, operation);
        let ward = session.searches[self.search].ward;
        (answered, record_of(ward, &session.histories[self.search]))
    }

    fn advance(&self, ask: Ask, mut handed: Handed) {
        let places = handed.buffer.len();
        let (answered, record) = self.act(Operation::Advance(call(ask, places)));
        let answered = answered.map(|answer| answer.expect("an advance has an answer"));
        let buffer = || {
            let session = self.session.lock().expect("no other operation failed");
            lists(&session.searches[self.search], places)
        };
        hand_back(advanced(answered, record, buffer), &mut handed);
    }
}

/// What an advance writes into the buffer.
fn lists(search: &SearchOf, places: usize) -> Result<Vec<u32>, Refusal> {
    match &search.nights {
        None => NightPhase::open(search.ward, places).map(|phase| phase.buffer()),
        Some(nights) => DayPhase::open(search.ward, nights, places).map(|phase| phase.buffer()),
    }
}

/// The history's answer, with the record that it stands for and the lists.
fn advanced(
    answered: Result<history::Answer, Refusal>,
    record: Record,
    buffer: impl Fn() -> Result<Vec<u32>, Refusal>,
) -> Advanced {
    let answer = answered?;
    Ok(record::Answer {
        record,
        end: answer.end,
        made: answer.added,
        penalty: answer.penalty,
        buffer: buffer()?,
        roster: answer.roster,
    })
}

impl Calls for ByHistory<'_, '_> {
    fn read(&self, file: &[u8], numbers: &mut Numbers, answer: &mut Answer) {
        Reference.read(file, numbers, answer)
    }

    fn write(&self, numbers: &Numbers, count: u64, buffer: &mut [u8], answer: &mut Answer) {
        Reference.write(numbers, count, buffer, answer)
    }

    fn advance_nights(&self, _file: &[u8], ask: Ask, handed: Handed) {
        self.advance(ask, handed);
    }

    fn advance_days(&self, _file: &[u8], _nights: &Nights, ask: Ask, handed: Handed) {
        self.advance(ask, handed);
    }

    fn check(&self, file: &[u8], roster: &[u8], answer: &mut Answer) {
        Reference.check(file, roster, answer)
    }

    fn keep(&self, number: u32, mut stored: Stored) {
        let (answered, record) = self.act(Operation::Keep(entry(number, stored.storage.len())));
        give_kept(answered.map(|_| ()), number, &record, &mut stored);
    }

    fn bring_back(&self, number: u32, mut stored: Stored) {
        let (answered, record) = self.act(Operation::Return(entry(number, stored.storage.len())));
        give_returned(answered.map(|_| record), &mut stored);
    }
}
