//! "The history", literally: a list of steps that follows from the calls alone. No record.

use crate::pairs::Pattern;
use crate::penalty::Penalty;
use crate::phase::{ask_steps, DayPhase, End, NightPhase, Phase};
use crate::tally::Exchange;
use crate::ward::{Refusal, Ward};

/// One step: a nurse (from 0) and a pattern of hers.
pub type Step = (usize, Pattern);
pub type History = Vec<Step>;

/// What an advance is handed: k, whether it is "told to go on past zero" (document 02, job 3), and
/// the number of its buffer's places.
#[derive(Clone, Copy, Debug, PartialEq, Eq)]
pub struct Call {
    pub k: u64,
    pub past_zero: bool,
    pub places: usize,
}

impl Call {
    /// Zero ends it.
    pub const fn plain(k: u64, places: usize) -> Call {
        Call { k, past_zero: false, places }
    }

    /// It goes on past zero.
    pub const fn past(k: u64, places: usize) -> Call {
        Call { k, past_zero: true, places }
    }
}

#[derive(Clone, Debug, PartialEq, Eq)]
pub struct Answer {
    pub end: End,
    pub added: u64,
    pub penalty: u64,
    pub roster: Option<Vec<u8>>,
}

/// The pattern of her last step, none before her first.
pub fn in_use(nurse: usize, history: &[Step]) -> Option<Pattern> {
    history.iter().rev().find(|step| step.0 == nurse).map(|step| step.1)
}

pub fn all_in_use(ward: &Ward, history: &[Step]) -> Vec<Option<Pattern>> {
    (0..ward.nurse_count).map(|nurse| in_use(nurse, history)).collect()
}

/// What the step at an index gives up: the pattern of the same nurse's step before.
pub fn given_up_by_step(at: usize, history: &[Step]) -> Option<Pattern> {
    in_use(history[at].0, &history[..at])
}

/// Patterns given up by her in the history's last TL steps, or in all while there are fewer.
pub fn given_up_in_last(tabu_length: usize, nurse: usize, history: &[Step]) -> Vec<Pattern> {
    let first = history.len().saturating_sub(tabu_length);
    (first..history.len())
        .filter(|&at| history[at].0 == nurse)
        .filter_map(|at| given_up_by_step(at, history))
        .collect()
}

/// The penalty of the patterns in use.
pub fn penalty(phase: &dyn Phase, history: &[Step]) -> Penalty {
    phase.penalty(&all_in_use(phase.ward(), history))
}

/// The exchange of least penalty, by trying every nurse and every pattern of hers.
pub fn next_step(phase: &dyn Phase, history: &[Step]) -> Option<Exchange> {
    let ward = phase.ward();
    let before = all_in_use(ward, history);
    let mut best: Option<Exchange> = None;
    for nurse in 0..ward.nurse_count {
        let given_up = given_up_in_last(ward.tabu_length, nurse, history);
        for &pattern in phase.list(nurse) {
            if before[nurse] == Some(pattern) || given_up.contains(&pattern) {
                continue;
            }
            let mut after = before.clone();
            after[nurse] = Some(pattern);
            let penalty = phase.penalty(&after).total();
            if best.is_none_or(|b| penalty < b.penalty) {
                best = Some(Exchange { nurse, pattern, penalty });
            }
        }
    }
    best
}

/// Steps until zero, asked or none, in this order before each step. Past zero it "ends only with
/// "asked" or "none", and "none" no longer depends on the penalty".
fn add_steps(phase: &dyn Phase, history: &mut History, call: Call) -> (End, u64) {
    let mut added = 0;
    loop {
        if !call.past_zero && penalty(phase, history).total() == 0 {
            return (End::Zero, added);
        }
        if added == call.k {
            return (End::Asked, added);
        }
        match next_step(phase, history) {
            None => return (End::None, added),
            Some(exchange) => history.push((exchange.nurse, exchange.pattern)),
        }
        added += 1;
    }
}

fn advance(phase: &dyn Phase, history: &mut History, call: Call) -> Answer {
    let (end, added) = add_steps(phase, history, call);
    let in_use = all_in_use(phase.ward(), history);
    let penalty = phase.penalty(&in_use).total();
    Answer { end, added, penalty, roster: phase.roster(&in_use) }
}

/// One night advance: only question 7 or 9 refuses here.
pub fn advance_night(ward: &Ward, history: &mut History, call: Call) -> Result<Answer, Refusal> {
    ask_steps(history.len() as u64, call.k)?;
    let phase = NightPhase::open(ward, call.places)?;
    Ok(advance(&phase, history, call))
}

/// One day advance over one choice of nights: only question 7, 8 or 9 refuses here.
pub fn advance_day(
    ward: &Ward,
    nights: &[Pattern],
    history: &mut History,
    call: Call,
) -> Result<Answer, Refusal> {
    ask_steps(history.len() as u64, call.k)?;
    let phase = DayPhase::open(ward, nights, call.places)?;
    Ok(advance(&phase, history, call))
}

/// The whole list of night advances, with the history that it leaves.
pub fn all_nights(ward: &Ward, calls: &[Call]) -> (Vec<Result<Answer, Refusal>>, History) {
    let mut history = History::new();
    let answers = calls.iter().map(|&call| advance_night(ward, &mut history, call)).collect();
    (answers, history)
}

/// The whole list of day advances, with the history that it leaves.
pub fn all_days(
    ward: &Ward,
    nights: &[Pattern],
    calls: &[Call],
) -> (Vec<Result<Answer, Refusal>>, History) {
    let mut history = History::new();
    let answers = calls.iter().map(|&call| advance_day(ward, nights, &mut history, call)).collect();
    (answers, history)
}
