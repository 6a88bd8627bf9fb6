//! The reference behind the C interface, with one fault.

use crate::entries::{Entries, RIGHT};
use crate::steps::right;
use compare::calls::*;
use compare::naive::{self, give_check, give_file, give_reading, hand_back, Advanced};
use compare::words::{patterns_of_nights, record_of_words, STEPS_AT};
use reference::check::check_in;
use reference::history::Call;
use reference::pairs::Pattern;
use reference::penalty::{OnDuty, Penalty, Search};
use reference::phase::{ask_nights, ask_steps, DayPhase, NightPhase, Phase};
use reference::record::{self, advance_by, Record};
use reference::tally::Exchange;
use reference::ward::{every_edition, parse_by, write_by, Layout, Refusal, Ward};

/// A fault and its name.
pub type Named = (&'static str, Fault);

/// What is wrong.
pub enum Fault {
    /// Every call goes by another layout.
    Layout(Layout),
    /// Advances and check go by another ward.
    Ward(fn(&mut Ward)),
    /// The check alone goes by another ward.
    WardOfCheck(fn(&mut Ward)),
    /// The record handed in is taken for another.
    Record(fn(&mut Words)),
    /// Steps are chosen otherwise.
    Step(fn(&dyn Phase, &Record) -> Option<Exchange>),
    /// A pair's days are still available by night.
    FreeByNight,
    /// A pair's days are still available by day.
    FreeByDay,
    /// An advance does what another is asked.
    Ask(fn(Ask) -> Ask),
    /// What an advance comes to is changed, by what it was asked.
    End(fn(&mut record::Answer, Call)),
    /// What an advance hands back is changed, by the record handed in.
    Advance(fn(&mut Handed, &Words)),
    Read(fn(&mut Numbers, &mut Answer)),
    Write(fn(&mut [u8], &mut Answer)),
    Check(fn(&[u8], &mut Answer)),
    /// The storage by other rules.
    Entries(Entries),
    /// What a keeping leaves is changed, by the number and by what it found.
    Keep(fn(u32, &mut Stored, &Found)),
    /// What a return leaves is changed, by the number and by what it found.
    Return(fn(u32, &mut Stored, &Found)),
}

/// What a keeping or a return found.
pub struct Found {
    pub record: Words,
    pub storage: Vec<u32>,
}

impl Found {
    fn by(stored: &Stored) -> Found {
        Found { record: *stored.record, storage: stored.storage.to_vec() }
    }
}

/// The reference with one fault.
pub struct Faulty(pub Fault);

impl Faulty {
    fn layout(&self) -> Layout {
        match self.0 {
            Fault::Layout(layout) => layout,
            _ => every_edition,
        }
    }

    fn ward(&self, file: &[u8]) -> Result<Ward, Refusal> {
        let mut ward = parse_by(self.layout(), file)?;
        if let Fault::Ward(change) = self.0 {
            change(&mut ward);
        }
        Ok(ward)
    }

    fn record(&self, words: &Words) -> Words {
        let mut words = *words;
        if let Fault::Record(change) = self.0 {
            change(&mut words);
        }
        words
    }

    fn call(&self, ask: Ask, places: usize) -> Call {
        match self.0 {
            Fault::Ask(change) => naive::call(change(ask), places),
            _ => naive::call(ask, places),
        }
    }

    fn ended(&self, advanced: Advanced, call: Call) -> Advanced {
        let mut answer = advanced?;
        if let Fault::End(change) = self.0 {
            change(&mut answer, call);
        }
        Ok(answer)
    }

    fn entries(&self) -> Entries {
        match self.0 {
            Fault::Entries(entries) => entries,
            _ => RIGHT,
        }
    }

    fn after(&self, mut handed: Handed, record: &Words) {
        if let Fault::Advance(change) = self.0 {
            change(&mut handed, record);
        }
    }

    fn nights(&self, ward: &Ward, words: &Words, call: Call) -> Advanced {
        ask_steps(words[STEPS_AT].into(), call.k)?;
        match self.0 {
            Fault::Step(choice) => {
                chosen(&NightPhase::open(ward, call.places)?, words, call, choice)
            }
            Fault::FreeByNight => {
                chosen(&StillFree(NightPhase::open(ward, call.places)?), words, call, right)
            }
            _ => naive::nights(ward, words, call),
        }
    }

    fn days(&self, ward: &Ward, nights: &Nights, words: &Words, call: Call) -> Advanced {
        ask_steps(words[STEPS_AT].into(), call.k)?;
        let patterns = patterns_of_nights(nights);
        match self.0 {
            Fault::Step(choice) => {
                chosen(&DayPhase::open(ward, &patterns, call.places)?, words, call, choice)
            }
            Fault::FreeByDay => {
                ask_nights(ward, &patterns)?;
                let alone: Vec<Pattern> = patterns.iter().map(|night| night.days.into()).collect();
                chosen(&DayPhase::over(ward, &alone, call.places)?, words, call, right)
            }
            _ => naive::days(ward, nights, words, call),
        }
    }
}

type Choice = fn(&dyn Phase, &Record) -> Option<Exchange>;

/// An advance whose steps are chosen so.
fn chosen(phase: &dyn Phase, words: &Words, call: Call, choice: Choice) -> Advanced {
    advance_by(phase, &record_of_words(words), call, &|record| choice(phase, record))
}

/// The night search with a pair's days still available.
struct StillFree<'a>(NightPhase<'a>);

fn alone(pattern: Option<Pattern>) -> Option<Pattern> {
    pattern.map(|pattern| pattern.days.into())
}

impl Phase for StillFree<'_> {
    fn ward(&self) -> &Ward {
        self.0.ward()
    }
    fn search(&self) -> Search {
        self.0.search()
    }
    fn list(&self, nurse: usize) -> &[Pattern] {
        self.0.list(nurse)
    }
    fn hers(&self, nurse: usize, pattern: Pattern) -> bool {
        self.0.hers(nurse, pattern)
    }
    fn on_duty(&self, nurse: usize, in_use: Option<Pattern>) -> OnDuty {
        self.0.on_duty(nurse, alone(in_use))
    }
    fn penalty(&self, in_use: &[Option<Pattern>]) -> Penalty {
        let in_use: Vec<Option<Pattern>> = in_use.iter().copied().map(alone).collect();
        self.0.penalty(&in_use)
    }
    fn buffer(&self) -> Vec<u32> {
        self.0.buffer()
    }
    fn roster(&self, in_use: &[Option<Pattern>]) -> Option<Vec<u8>> {
        self.0.roster(in_use)
    }
}

impl Calls for Faulty {
    fn read(&self, file: &[u8], numbers: &mut Numbers, answer: &mut Answer) {
        give_reading(self.ward(file), numbers, answer);
        if let Fault::Read(change) = self.0 {
            change(numbers, answer);
        }
    }

    fn write(&self, numbers: &Numbers, count: u64, buffer: &mut [u8], answer: &mut Answer) {
        give_file(write_by(self.layout(), numbers, count, buffer.len()), buffer, answer);
        if let Fault::Write(change) = self.0 {
            change(buffer, answer);
        }
    }

    fn advance_nights(&self, file: &[u8], ask: Ask, mut handed: Handed) {
        let (before, call) = (*handed.record, self.call(ask, handed.buffer.len()));
        let taken = self.record(&before);
        let advanced = self.ward(file).and_then(|ward| self.nights(&ward, &taken, call));
        hand_back(self.ended(advanced, call), &mut handed);
        self.after(handed, &before);
    }

    fn advance_days(&self, file: &[u8], nights: &Nights, ask: Ask, mut handed: Handed) {
        let (before, call) = (*handed.record, self.call(ask, handed.buffer.len()));
        let taken = self.record(&before);
        let advanced = self.ward(file).and_then(|ward| self.days(&ward, nights, &taken, call));
        hand_back(self.ended(advanced, call), &mut handed);
        self.after(handed, &before);
    }

    fn check(&self, file: &[u8], roster: &[u8], answer: &mut Answer) {
        let mut ward = self.ward(file);
        if let (Fault::WardOfCheck(change), Ok(ward)) = (&self.0, &mut ward) {
            change(ward);
        }
        *answer = give_check(ward.and_then(|ward| check_in(&ward, roster)));
        if let Fault::Check(change) = self.0 {
            change(roster, answer);
        }
    }

    fn keep(&self, number: u32, mut stored: Stored) {
        let found = Found::by(&stored);
        self.entries().keep(number, &mut stored);
        if let Fault::Keep(change) = self.0 {
            change(number, &mut stored, &found);
        }
    }

    fn bring_back(&self, number: u32, mut stored: Stored) {
        let found = Found::by(&stored);
        self.entries().bring_back(number, &mut stored);
        if let Fault::Return(change) = self.0 {
            change(number, &mut stored, &found);
        }
    }
}
