//! Rosters beside a good one.

use reference::samples::Dice;
use reference::{days, rows};

use crate::wards::Planned;

const LETTERS: &[u8] = b"/-Nn+";

/// The planned roster; where there is no plan by day, the rows of the nights alone.
pub fn of_plan(planned: &Planned) -> Vec<u8> {
    let ward = &planned.ward;
    let worked = planned.days.clone().unwrap_or(vec![0; ward.nurse_count]);
    let row = |nurse: usize| rows::letters(ward, nurse, planned.nights[nurse].days, worked[nurse]);
    (0..ward.nurse_count).map(row).collect::<Vec<_>>().concat()
}

/// A roster of m rows changed in one way, and the way.
pub fn changed(dice: &mut Dice, good: &[u8], n: usize) -> (&'static str, Vec<u8>) {
    let mut roster = good.to_vec();
    let (m, at) = (good.len() / n, dice.index(good.len()));
    match dice.upto(9) {
        0 => {
            roster[at] = dice.pick(LETTERS);
            ("one letter changed", roster)
        }
        1 => {
            swap_rows(&mut roster, n, dice.index(m), dice.index(m), 0..n);
            ("two rows exchanged", roster)
        }
        2 => {
            let first = dice.index(n);
            swap_rows(&mut roster, n, dice.index(m), dice.index(m), first..n);
            ("two rows exchanged from a day on", roster)
        }
        3 => {
            let other = at / n * n + dice.index(n);
            roster.swap(at, other);
            ("two days of a nurse exchanged", roster)
        }
        4 => {
            roster[at] = dice.upto(255) as u8;
            ("one byte changed", roster)
        }
        5 => {
            roster.truncate(at);
            ("roster cut", roster)
        }
        6 => {
            roster.extend((0..dice.from(1, 40)).map(|_| dice.pick(LETTERS)));
            ("roster extended", roster)
        }
        7 => {
            roster.extend((0..dice.from(1, 9)).map(|_| dice.upto(255) as u8));
            ("roster extended by any bytes", roster)
        }
        8 => {
            let rests: Vec<usize> = (0..good.len()).filter(|&at| good[at] == b'/').collect();
            if !rests.is_empty() {
                roster[dice.pick(&rests)] = b'-';
            }
            ("one rest worked", roster)
        }
        _ => {
            roster.iter_mut().for_each(|letter| *letter = dice.pick(LETTERS));
            ("random letters", roster)
        }
    }
}

/// The planned roster with one nurse's days as they could be if she had no pair.
pub fn without_a_pair(dice: &mut Dice, planned: &Planned) -> Vec<u8> {
    let ward = &planned.ward;
    let (mut roster, nurse) = (of_plan(planned), dice.index(ward.nurse_count));
    let night = planned.nights[nurse].days;
    let count = days::count(ward, nurse, night.into());
    if count > 0 {
        let worked = days::nth(ward, nurse, night.into(), dice.upto(count - 1));
        let row = rows::letters(ward, nurse, night, worked);
        roster[nurse * ward.day_count..][..ward.day_count].copy_from_slice(&row);
    }
    roster
}

fn swap_rows(roster: &mut [u8], n: usize, a: usize, b: usize, days: std::ops::Range<usize>) {
    for day in days {
        roster.swap(a * n + day, b * n + day);
    }
}
