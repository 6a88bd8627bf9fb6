//! What calls hand back, changed.

use crate::faulty::{Fault, Named};
use compare::calls::*;
use compare::words::{removal_at, FLAGS, FRESH, PAIRS, REMOVAL, REMOVALS, STEPS_AT};

fn refused(handed: &Handed) -> bool {
    handed.answer[QUESTION] != 0
}

pub fn advance_faults() -> Vec<Named> {
    use Fault::Advance;
    vec![
        (
            "a refusal writes the buffer",
            Advance(|h, _| {
                if refused(h) && !h.buffer.is_empty() {
                    h.buffer[0] = 0;
                }
            }),
        ),
        (
            "a refusal writes the record",
            Advance(|h, _| {
                if refused(h) {
                    h.record[FLAGS..REMOVALS].iter_mut().for_each(|flag| *flag = (*flag).min(1));
                }
            }),
        ),
        (
            "a refusal clears the record",
            Advance(|h, _| {
                if refused(h) {
                    *h.record = FRESH;
                }
            }),
        ),
        (
            "a refusal leaves the penalty",
            Advance(|h, _| {
                if refused(h) {
                    h.answer[PENALTY] = 1;
                }
            }),
        ),
        (
            "question 10 says nurses from 0",
            Advance(|h, _| {
                if h.answer[QUESTION] == 10 {
                    h.answer[PLACE] -= 1;
                }
            }),
        ),
        (
            "question 9 by day says no nurse",
            Advance(|h, _| {
                if h.answer[QUESTION] == 9 {
                    h.answer[PLACE] = 0;
                }
            }),
        ),
        (
            "flags as they came",
            Advance(|h, before| {
                if !refused(h) && h.answer[STEPS] == 0 {
                    *h.record = *before;
                }
            }),
        ),
        (
            "one place past the list",
            Advance(|h, _| {
                if !refused(h) {
                    if let Some(place) = h.buffer.iter_mut().find(|place| **place > u32::MAX / 2) {
                        *place = 0;
                    }
                }
            }),
        ),
        (
            "list not in order",
            Advance(|h, _| {
                if !refused(h) && h.buffer.len() > 2 {
                    h.buffer.swap(1, 2);
                }
            }),
        ),
        (
            "zero as asked",
            Advance(|h, _| {
                if h.answer[OUTCOME] == ZERO && h.answer[STEPS] == 0 {
                    h.answer[OUTCOME] = ASKED;
                }
            }),
        ),
        (
            "none as asked",
            Advance(|h, _| {
                if h.answer[OUTCOME] == NONE {
                    h.answer[OUTCOME] = ASKED;
                }
            }),
        ),
        (
            "steps so far instead of steps made",
            Advance(|h, _| {
                if !refused(h) {
                    h.answer[STEPS] = h.record[STEPS_AT].into();
                }
            }),
        ),
        (
            "oldest removal lost",
            Advance(|h, _| {
                if !refused(h) {
                    let held = (0..64).rev().find(|&at| h.record[removal_at(at)] != 0);
                    h.record[removal_at(held.unwrap_or(0))] = 0;
                }
            }),
        ),
        (
            "removals oldest first",
            Advance(|h, _| {
                if !refused(h) && h.record[STEPS_AT] == 2 {
                    for word in 0..REMOVAL {
                        h.record.swap(removal_at(0) + word, removal_at(1) + word);
                    }
                }
            }),
        ),
        (
            "pairs in use not written",
            Advance(|h, _| {
                if !refused(h) {
                    h.record[PAIRS..FLAGS].fill(0);
                }
            }),
        ),
        (
            "a removal's pair not written",
            Advance(|h, _| {
                if !refused(h) {
                    h.record[removal_at(0) + 3] = 0;
                }
            }),
        ),
        (
            "placing gives up pattern 0",
            Advance(|h, _| {
                if !refused(h) && h.record[REMOVALS] != 0 {
                    h.record[REMOVALS + 1] = 1;
                }
            }),
        ),
        (
            "other as rest",
            Advance(|h, _| {
                if let Some(roster) = &mut h.roster {
                    roster.iter_mut().filter(|l| **l == b'+').for_each(|l| *l = b'/');
                }
            }),
        ),
        (
            "places after the roster cleared",
            Advance(|h, _| {
                let letters = h.answer[COUNT] as usize;
                match &mut h.roster {
                    Some(roster) if letters > 0 && letters < ROSTER => roster[letters] = 0,
                    _ => {}
                }
            }),
        ),
        (
            "a roster without zero",
            Advance(|h, _| match &mut h.roster {
                Some(roster) if h.answer[OUTCOME] == ASKED => roster[0] = b'/',
                _ => {}
            }),
        ),
    ]
}

pub fn other_faults() -> Vec<Named> {
    use Fault::{Check, Read, Write};
    vec![
        (
            "numbers after the count left",
            Read(|numbers, answer| {
                if answer[QUESTION] == 0 && (answer[COUNT] as usize) < NUMBERS {
                    numbers[NUMBERS - 1] = 1;
                }
            }),
        ),
        (
            "a refused reading clears the numbers",
            Read(|numbers, answer| {
                if answer[QUESTION] != 0 {
                    numbers[0] = 0;
                }
            }),
        ),
        (
            "question 2 as 1",
            Read(|_, answer| {
                if answer[QUESTION] == 2 {
                    answer[QUESTION] = 1;
                }
            }),
        ),
        (
            "question 5 one place later",
            Read(|_, answer| answer[PLACE] += u64::from(answer[QUESTION] == 5)),
        ),
        (
            "a refused writing begins",
            Write(|buffer, answer| {
                if answer[QUESTION] == 6 && !buffer.is_empty() {
                    buffer[0] = 1;
                }
            }),
        ),
        (
            "one byte past the file",
            Write(|buffer, answer| {
                if answer[QUESTION] == 0 {
                    buffer[answer[COUNT] as usize..].iter_mut().take(1).for_each(|byte| *byte = 0);
                }
            }),
        ),
        ("count of bytes missing", Write(|_, answer| answer[COUNT] = 0)),
        (
            "question 12 says the length",
            Check(|roster, answer| {
                if answer[QUESTION] == 12 {
                    answer[PLACE] = roster.len() as u64;
                }
            }),
        ),
        ("the check counts letters", Check(|roster, answer| answer[COUNT] = roster.len() as u64)),
        (
            "the check always says yes",
            Check(|_, answer| answer[OUTCOME] = answer[OUTCOME].min(YES)),
        ),
    ]
}
