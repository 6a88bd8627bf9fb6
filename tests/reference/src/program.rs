//! The roster program ("A ward worked through"): a ward file to the text printed.

use crate::history::Call;
use crate::phase::End;
use crate::record::{advance_day, advance_night, fresh, Answer};
use crate::ward::{parse, Refusal};

/// 1,000 steps in each phase with 16,384 places.
const CALL: Call = Call::plain(1_000, 16_384);

/// Everything that the program prints for a ward file.
pub fn run(file: &[u8]) -> String {
    match both_phases(file) {
        Ok(text) => text,
        Err(no) => format!("no {} {}\n", no.question, no.place),
    }
}

fn both_phases(file: &[u8]) -> Result<String, Refusal> {
    let night = advance_night(file, &fresh(), CALL)?;
    if night.end != End::Zero {
        return Ok(left(1, &night));
    }
    let day = advance_day(file, &night.record.patterns, &fresh(), CALL)?;
    match &day.roster {
        None => Ok(left(2, &day)),
        Some(roster) => {
            let rows = rows(roster, parse(file)?.day_count);
            Ok(format!("{rows}zero {} {}\n", night.made, day.made))
        }
    }
}

fn left(phase: u32, answer: &Answer) -> String {
    format!("left {phase} {} {}\n", answer.penalty, answer.made)
}

/// Nurse and row, a line each.
fn rows(roster: &[u8], day_count: usize) -> String {
    let line = |(at, row): (usize, &[u8])| format!("{} {}\n", at + 1, String::from_utf8_lossy(row));
    roster.chunks(day_count).enumerate().map(line).collect()
}
