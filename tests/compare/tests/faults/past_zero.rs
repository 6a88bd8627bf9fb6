//! Going on past zero (document 02, job 3), otherwise.

use crate::faulty::{Fault, Named};
use compare::calls::Ask;
use reference::phase::End as Ended;

/// Past zero only where this says so.
fn past_where(ask: Ask, is_past: bool) -> Ask {
    Ask { past_zero: u32::from(is_past), ..ask }
}

pub fn past_zero_faults() -> Vec<Named> {
    use Fault::{Ask, End};
    vec![
        ("the flag ignored", Ask(|ask| past_where(ask, false))),
        ("every advance goes on past zero", Ask(|ask| past_where(ask, true))),
        ("the flag only where it is 1", Ask(|ask| past_where(ask, ask.past_zero == 1))),
        ("the flag by its lowest bit", Ask(|ask| past_where(ask, ask.past_zero & 1 == 1))),
        ("the flag by its lowest byte", Ask(|ask| past_where(ask, ask.past_zero & 255 != 0))),
        ("the flag taken the other way round", Ask(|ask| past_where(ask, ask.past_zero == 0))),
        (
            "zero ends an advance past zero that is to make steps",
            Ask(|ask| past_where(ask, ask.past_zero != 0 && ask.k == 0)),
        ),
        ("k 0 past zero answers zero", Ask(|ask| past_where(ask, ask.past_zero != 0 && ask.k > 0))),
        (
            "asked at zero answers zero",
            End(|answer, _| {
                if answer.penalty == 0 && answer.end == Ended::Asked {
                    answer.end = Ended::Zero;
                }
            }),
        ),
        (
            "none only where the penalty is not zero",
            End(|answer, _| {
                if answer.penalty == 0 && answer.end == Ended::None {
                    answer.end = Ended::Asked;
                }
            }),
        ),
        (
            "none at zero answers zero",
            End(|answer, _| {
                if answer.penalty == 0 && answer.end == Ended::None {
                    answer.end = Ended::Zero;
                }
            }),
        ),
        (
            "none past zero also where k are made",
            End(|answer, call| {
                if call.past_zero && answer.penalty == 0 && answer.made == call.k {
                    answer.end = Ended::None;
                }
            }),
        ),
        (
            "a roster only at the end zero",
            End(|answer, _| {
                if answer.end != Ended::Zero {
                    answer.roster = None;
                }
            }),
        ),
        (
            "no roster at asked",
            End(|answer, _| {
                if answer.end == Ended::Asked {
                    answer.roster = None;
                }
            }),
        ),
        (
            "no roster at none",
            End(|answer, _| {
                if answer.end == Ended::None {
                    answer.roster = None;
                }
            }),
        ),
        (
            "a roster past zero only after a step",
            End(|answer, call| {
                if call.past_zero && answer.made == 0 {
                    answer.roster = None;
                }
            }),
        ),
        (
            "steps past zero not counted",
            End(|answer, call| {
                if call.past_zero && answer.penalty == 0 {
                    answer.made = 0;
                }
            }),
        ),
    ]
}
