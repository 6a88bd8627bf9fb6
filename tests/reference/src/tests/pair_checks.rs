//! The check over pairs (document 02, job 2): "the check wants one such pair at rest".

use crate::check::{check, check_in, row_follows};
use crate::history::Call;
use crate::pairs::{her_list, pairs_of};
use crate::record::{advance_day_in, advance_night_in, fresh};
use crate::rows::{has_day, letters};
use crate::samples::*;
use crate::ward::Ward;
use crate::{days, nights};

#[test]
fn rosters_of_the_ward_with_two_pairs() {
    assert_eq!(check(PAIRS, b"Nn//--//"), Ok(true));
    assert_eq!(check(PAIRS, b"Nn/--///"), Ok(false)); // nurse 1 has no pair at rest; day 2
    assert_eq!(check(PAIRS, b"Nn//--/-"), Ok(false)); // nurse 2 has none, and mark 1 on day 4
    assert_eq!(check(PAIRS, b"Nn//-///"), Ok(false)); // day need of day 2
    assert_eq!(check(PAIRS, b"--//Nn//"), Ok(true));
    // nothing but a pair is missing
    assert_eq!(check(PAIRS, b"Nn/---//"), Ok(false));
    let without = file_of(&with_pairs(&PAIRS_NUMBERS[2..56], &[]));
    assert_eq!(check(&without, b"Nn/---//"), Ok(true));
}

/// In words: the row follows as if there were no pairs, and some pair's two letters are rest, its
/// marks among 0, 1, 5 and 6.
fn follows_directly(ward: &Ward, without: &Ward, nurse: usize, row: &[u8]) -> bool {
    let marks = &ward.nurses[nurse].marks;
    let off = |day: usize| row[day - 1] == b'/' && matches!(marks[day - 1], 0 | 1 | 5 | 6);
    let days = |days: u32| (1..=ward.day_count).filter(move |&day| has_day(days, day));
    row_follows(without, nurse, row) && ward.pairs.iter().any(|pair| days(pair.days).all(off))
}

/// Every row of short months, in five letters: the check says what the words say, and yes exactly
/// to the rows that a pattern and a day pattern over it make.
#[test]
fn every_row_of_short_months() {
    let mut dice = Dice(71);
    let (mut yes, mut lost) = (0, 0);
    for _ in 0..200 {
        let ward = random_ward_with_pairs(&mut dice, 2, 5);
        let without = Ward { pairs: pairs_of(&[]), ..ward.clone() };
        let n = ward.day_count as u32;
        for nurse in 0..ward.nurse_count {
            let mut followed = Vec::new();
            for number in 0..5u32.pow(n) {
                let letter = |at: u32| b"/-Nn+"[(number / 5u32.pow(at) % 5) as usize];
                let row: Vec<u8> = (0..n).map(letter).collect();
                let follows = row_follows(&ward, nurse, &row);
                assert_eq!(follows, follows_directly(&ward, &without, nurse, &row));
                lost += u32::from(!follows && row_follows(&without, nurse, &row));
                followed.extend(follows.then_some(row));
            }
            let mut made = rows_made(&ward, nurse);
            made.sort();
            made.dedup();
            followed.sort();
            assert_eq!(made, followed);
            yes += followed.len();
        }
    }
    assert!(yes > 500 && lost > 500, "{yes} {lost}");
}

/// The rows of each pattern of hers and each day pattern over it.
fn rows_made(ward: &Ward, nurse: usize) -> Vec<Vec<u8>> {
    let mut made = Vec::new();
    for night in her_list(ward, nurse, &nights::common(ward)) {
        for day in days::list_by_filter(ward, nurse, night) {
            made.push(letters(ward, nurse, night.days, day));
        }
    }
    made
}

#[test]
fn rosters_given_out_are_good() {
    let mut dice = Dice(73);
    let (mut given, mut with_pairs) = (0, 0);
    for _ in 0..1_500 {
        let ward = random_ward_with_pairs(&mut dice, 3, 8);
        let [by_night, by_day] =
            [(); 2].map(|()| Call { k: 30, past_zero: dice.one_in(3), places: 100_000 });
        let Ok(night) = advance_night_in(&ward, &fresh(), by_night) else { continue };
        if night.penalty != 0 {
            continue;
        }
        let nights = night.record.patterns;
        let Ok(day) = advance_day_in(&ward, &nights, &fresh(), by_day) else { continue };
        // whatever its end
        assert_eq!(day.roster.is_some(), day.penalty == 0);
        if let Some(roster) = day.roster {
            assert_eq!(check_in(&ward, &roster), Ok(true));
            given += 1;
            with_pairs += u32::from(ward.pairs[0].number > 0);
        }
    }
    assert!(given > 20 && with_pairs > 10, "{given} {with_pairs}");
}
