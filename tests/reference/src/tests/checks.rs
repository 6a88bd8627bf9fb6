//! The roster check: the worked roster, its spoilings, and rosters given out.

use crate::check::{check, check_in, row_follows};
use crate::history::Call;
use crate::pairs::Pattern;
use crate::phase::{DayPhase, NightPhase, Phase};
use crate::record::{advance_day, advance_day_in, advance_night, advance_night_in, fresh};
use crate::samples::*;
use crate::ward::parse;
use crate::{penalty, rows};

#[test]
fn worked_roster() {
    assert_eq!(check(WORKED, b"Nn/--/"), Ok(true));
    assert_eq!(check(WORKED, b"--/Nn/"), Ok(true));
    assert_eq!(check(WORKED, b"Nn/-//"), Ok(false)); // day need of day 2
    assert_eq!(check(WORKED, b"---Nn/"), Ok(true)); // more days than needed
    assert_eq!(check(WORKED, b"------"), Ok(false)); // night need
    assert_eq!(check(WORKED, b"Nn/---"), Ok(false)); // mark 1 on day 3
    assert_eq!(check(WORKED, b"Nn---/"), Ok(false)); // owed rest
    assert_eq!(check(WORKED, b"N/n--/"), Ok(false));
    assert_eq!(check(WORKED, b"Nn+--/"), Ok(false)); // other without mark 4
}

/// All 5^6 rosters of the worked ward: yes exactly for those made from patterns at zero.
#[test]
fn every_roster_of_the_worked_ward() {
    let ward = worked();
    let row = |nurse, a: Pattern, x: Pattern| rows::letters(&ward, nurse, a.days, x.days);
    let mut made = Vec::new();
    let night = NightPhase::open(&ward, 100).unwrap();
    for &a in night.list(0) {
        for &b in night.list(1) {
            let Ok(day) = DayPhase::open(&ward, &[a, b], 100) else { continue };
            for &x in day.list(0) {
                for &y in day.list(1) {
                    if penalty::day(&ward, &[a, b], &[Some(x), Some(y)]).total() == 0 {
                        made.push([row(0, a, x), row(1, b, y)].concat());
                    }
                }
            }
        }
    }
    let mut yes = Vec::new();
    for number in 0..5u32.pow(6) {
        let letter = |at: u32| b"/-Nn+"[(number / 5u32.pow(at) % 5) as usize];
        let roster: Vec<u8> = (0..6).map(letter).collect();
        if check_in(&ward, &roster).unwrap() {
            yes.push(roster);
        }
    }
    made.sort();
    yes.sort();
    assert_eq!(made, yes);
    assert!(!yes.is_empty());
}

#[test]
fn redated_roster() {
    let night = advance_night(REDATED, &fresh(), Call::plain(1000, 16_384)).unwrap();
    let nights = night.record.patterns;
    let day = advance_day(REDATED, &nights, &fresh(), Call::plain(1000, 16_384)).unwrap();
    let roster = day.roster.unwrap();
    assert_eq!(check(REDATED, &roster), Ok(true));
    let mut spoiled = roster.clone();
    spoiled.swap(0, 1);
    assert_eq!(check(REDATED, &spoiled), Ok(false));
}

/// It was good until other duty counted in a run; these nurses' rows no longer are.
#[test]
fn surgical_roster_of_the_old_rule() {
    let ward = parse(SURGICAL).unwrap();
    let rows: Vec<&[u8]> = OLD_ROSTER.lines().map(str::as_bytes).collect();
    let broken = |nurse: &usize| !row_follows(&ward, nurse - 1, rows[nurse - 1]);
    assert_eq!((1..=28).filter(broken).collect::<Vec<_>>(), [10, 18, 19, 23, 27]);
    assert_eq!(check(SURGICAL, &rows.concat()), Ok(false));
    let mut by_old_rule = ward.clone();
    by_old_rule.run_duties = vec![rows::Duty::Day];
    assert_eq!(check_in(&by_old_rule, &rows.concat()), Ok(true));
}

#[test]
fn rosters_given_out_are_good() {
    let mut dice = Dice(31);
    let mut given = 0;
    for _ in 0..400 {
        let ward = random_ward(&mut dice, 4, 9);
        let [by_night, by_day] =
            [(); 2].map(|()| Call { k: 30, past_zero: dice.one_in(3), places: 100_000 });
        let Ok(night) = advance_night_in(&ward, &fresh(), by_night) else { continue };
        if night.penalty != 0 {
            continue;
        }
        let nights = night.record.patterns;
        let Ok(day) = advance_day_in(&ward, &nights, &fresh(), by_day) else { continue };
        // whatever its end
        assert_eq!(day.roster.is_some(), day.penalty == 0);
        if let Some(roster) = day.roster {
            assert_eq!(check_in(&ward, &roster), Ok(true));
            given += 1;
        }
    }
    assert!(given > 20);
}
