//! The search record, and advances on any record handed in (questions 7 to 11).

use crate::history::{all_in_use, given_up_by_step, Call, Step};
use crate::pairs::Pattern;
use crate::phase::{ask_steps, DayPhase, End, NightPhase, Phase};
use crate::tally::{duties_of, least_exchange, Exchange};
use crate::ward::{parse, refusal, Refusal, Ward};

pub const MOST_NURSES: usize = 48;
pub const MOST_REMOVALS: usize = 64;

/// One of the TL places: a nurse (from 1), with the pattern she gave up or with none.
#[derive(Clone, Copy, Debug, Default, PartialEq, Eq)]
pub struct Removal {
    pub nurse: u32,
    pub given_up: bool,
    pub pattern: Pattern,
}

#[derive(Clone, Debug, PartialEq, Eq)]
pub struct Record {
    pub patterns: [Pattern; MOST_NURSES],
    pub placed: [bool; MOST_NURSES],
    /// newest first
    pub removals: [Removal; MOST_REMOVALS],
    pub steps: u32,
}

#[derive(Clone, Debug, PartialEq, Eq)]
pub struct Answer {
    pub record: Record,
    pub end: End,
    /// steps made by this advance
    pub made: u64,
    pub penalty: u64,
    /// what stands in the buffer from its start; the rest is untouched
    pub buffer: Vec<u32>,
    pub roster: Option<Vec<u8>>,
}

/// "Fresh: everyone unplaced; no steps made."
pub fn fresh() -> Record {
    Record {
        patterns: [Pattern::default(); MOST_NURSES],
        placed: [false; MOST_NURSES],
        removals: [Removal::default(); MOST_REMOVALS],
        steps: 0,
    }
}

impl Record {
    pub fn in_use(&self, nurse: usize) -> Option<Pattern> {
        self.placed[nurse].then_some(self.patterns[nurse])
    }

    pub fn all_in_use(&self, ward: &Ward) -> Vec<Option<Pattern>> {
        (0..ward.nurse_count).map(|nurse| self.in_use(nurse)).collect()
    }

    /// The pattern in use by her and those that she gave up.
    pub fn barred(&self, nurse: usize) -> Vec<Pattern> {
        let hers = |r: &&Removal| r.given_up && r.nurse as usize == nurse + 1;
        let given_up = self.removals.iter().filter(hers).map(|r| r.pattern);
        self.in_use(nurse).into_iter().chain(given_up).collect()
    }

    /// One exchange, its removal kept as the newest of at most TL.
    fn exchange(&mut self, tabu_length: usize, exchange: Exchange) {
        let nurse = exchange.nurse;
        let removal = removal(nurse, self.in_use(nurse));
        let mut kept = vec![removal];
        kept.extend(self.removals);
        kept.truncate(tabu_length);
        kept.resize(MOST_REMOVALS, Removal::default());
        self.removals.copy_from_slice(&kept);
        self.patterns[nurse] = exchange.pattern;
        self.placed[nurse] = true;
        self.steps += 1;
    }
}

/// A place under her number, with what she gave up or with no pattern.
fn removal(nurse: usize, given_up: Option<Pattern>) -> Removal {
    Removal {
        nurse: nurse as u32 + 1,
        given_up: given_up.is_some(),
        pattern: given_up.unwrap_or_default(),
    }
}

/// "The record holds the history's patterns in use, removals and length."
pub fn record_of(ward: &Ward, history: &[Step]) -> Record {
    let mut record = fresh();
    for (nurse, pattern) in all_in_use(ward, history).into_iter().enumerate() {
        record.placed[nurse] = pattern.is_some();
        record.patterns[nurse] = pattern.unwrap_or_default();
    }
    let newest_first = (0..history.len()).rev().take(ward.tabu_length);
    for (place, at) in newest_first.enumerate() {
        record.removals[place] = removal(history[at].0, given_up_by_step(at, history));
    }
    record.steps = history.len() as u32;
    record
}

/// Question 10: the lowest nurse whose list is empty.
fn ask_patterns(phase: &dyn Phase) -> Result<(), Refusal> {
    match (0..phase.ward().nurse_count).find(|&nurse| phase.list(nurse).is_empty()) {
        Some(nurse) => refusal(10, nurse + 1),
        None => Ok(()),
    }
}

/// Question 11.
fn ask_record(phase: &dyn Phase, record: &Record) -> Result<(), Refusal> {
    let nurses_good = (0..MOST_NURSES).all(|nurse| nurse_good(phase, record, nurse));
    let used = phase.ward().tabu_length.min(record.steps as usize);
    let (removals, unused) = record.removals.split_at(used);
    let removals_good = removals.iter().all(|r| removal_good(phase, r));
    if !nurses_good || !removals_good || unused.iter().any(|r| *r != Removal::default()) {
        return refusal(11, 0);
    }
    Ok(())
}

/// A placed nurse is of the ward and holds one of hers; else her field is 0.
fn nurse_good(phase: &dyn Phase, record: &Record, nurse: usize) -> bool {
    match record.in_use(nurse) {
        Some(pattern) => nurse < phase.ward().nurse_count && phase.hers(nurse, pattern),
        None => record.patterns[nurse] == Pattern::default(),
    }
}

/// A removal names a nurse, with one of hers or with none.
fn removal_good(phase: &dyn Phase, removal: &Removal) -> bool {
    let number = removal.nurse as usize;
    if number == 0 || number > phase.ward().nurse_count {
        return false;
    }
    if removal.given_up {
        phase.hers(number - 1, removal.pattern)
    } else {
        removal.pattern == Pattern::default()
    }
}

/// Which exchange comes next, none where there is none.
pub type Choice<'a> = dyn Fn(&Record) -> Option<Exchange> + 'a;

fn advance(phase: &dyn Phase, record: &Record, call: Call) -> Result<Answer, Refusal> {
    let duties = duties_of(phase);
    let least = |record: &Record| {
        let in_use = record.all_in_use(phase.ward());
        least_exchange(phase, &duties, &in_use, &|nurse| record.barred(nurse))
    };
    advance_by(phase, record, call, &least)
}

/// Questions 10 and 11, then steps until zero, asked or none, each as chosen.
pub fn advance_by(
    phase: &dyn Phase,
    record: &Record,
    call: Call,
    choice: &Choice,
) -> Result<Answer, Refusal> {
    ask_patterns(phase)?;
    ask_record(phase, record)?;
    let mut record = record.clone();
    let (end, made) = make_steps(phase, &mut record, call, choice);
    let in_use = record.all_in_use(phase.ward());
    Ok(Answer {
        end,
        made,
        penalty: phase.penalty(&in_use).total(),
        buffer: phase.buffer(),
        roster: phase.roster(&in_use),
        record,
    })
}

/// Zero is looked at unless the advance goes on past it.
fn make_steps(phase: &dyn Phase, record: &mut Record, call: Call, choice: &Choice) -> (End, u64) {
    let ward = phase.ward();
    let mut made = 0;
    loop {
        let in_use = record.all_in_use(ward);
        if !call.past_zero && phase.penalty(&in_use).total() == 0 {
            return (End::Zero, made);
        }
        if made == call.k {
            return (End::Asked, made);
        }
        match choice(record) {
            None => return (End::None, made),
            Some(exchange) => record.exchange(ward.tabu_length, exchange),
        }
        made += 1;
    }
}

/// A night advance on a ward already read.
pub fn advance_night_in(ward: &Ward, record: &Record, call: Call) -> Result<Answer, Refusal> {
    ask_steps(u64::from(record.steps), call.k)?;
    advance(&NightPhase::open(ward, call.places)?, record, call)
}

/// A day advance on a ward already read.
pub fn advance_day_in(
    ward: &Ward,
    nights: &[Pattern],
    record: &Record,
    call: Call,
) -> Result<Answer, Refusal> {
    ask_steps(u64::from(record.steps), call.k)?;
    advance(&DayPhase::open(ward, nights, call.places)?, record, call)
}

/// A night advance: the ward as file bytes, questions 1 to 5 first.
pub fn advance_night(file: &[u8], record: &Record, call: Call) -> Result<Answer, Refusal> {
    advance_night_in(&parse(file)?, record, call)
}

/// A day advance: the ward as file bytes, questions 1 to 5 first.
pub fn advance_day(
    file: &[u8],
    nights: &[Pattern],
    record: &Record,
    call: Call,
) -> Result<Answer, Refusal> {
    advance_day_in(&parse(file)?, nights, record, call)
}
