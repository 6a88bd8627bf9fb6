//! The roster check.

use super::days::Open;
use super::nights::{is_common, Hers};
use super::points::{Columns, BOTH};
use super::ward::{Nurse, Ward};
use super::No;

const LETTERS: &[u8; 5] = b"/-Nn+";

pub fn check(file: &[u8], roster: &[u8]) -> Result<bool, No> {
    let ward = &Ward::read(file)?;
    if let Some(bad) = roster.iter().position(|letter| !LETTERS.contains(letter)) {
        return Err((12, bad as u64));
    }
    if roster.len() != ward.nurses.len() * ward.days {
        return Err((12, roster.len() as u64));
    }
    let mut columns = Columns::empty(ward);
    for (i, (nurse, row)) in ward.nurses.iter().zip(roster.chunks(ward.days)).enumerate() {
        if !follows(ward, nurse, row) {
            return Ok(false);
        }
        columns.put(i, [days_with(row, b'N'), days_with(row, b'-')]);
    }
    Ok(columns.points(ward, BOTH) == 0)
}

fn days_with(row: &[u8], letter: u8) -> u32 {
    row.iter().enumerate().map(|(at, &l)| u32::from(l == letter) << at).sum()
}

fn follows(ward: &Ward, nurse: &Nurse, row: &[u8]) -> bool {
    let (night, day) = (days_with(row, b'N'), days_with(row, b'-'));
    is_common(ward, night)
        && Hers::of(ward, nurse).takes(night)
        && Open::of(ward, nurse, night).takes(day)
        && letters(ward, nurse, night, day).eq(row.iter().copied())
}

/// The letters of one row.
pub fn letters<'a>(
    ward: &Ward,
    nurse: &'a Nurse,
    night: u32,
    day: u32,
) -> impl Iterator<Item = u8> + 'a {
    let row = nurse.row(night);
    (0..ward.days).map(move |at| {
        let on = |set: u32| set >> at & 1 == 1;
        match () {
            _ if on(row.starts) => b'N',
            _ if on(row.seconds) => b'n',
            _ if on(row.rests) => b'/',
            _ if on(day) => b'-',
            _ if on(nurse.marks[4]) => b'+',
            _ => b'/',
        }
    })
}
