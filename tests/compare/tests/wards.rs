//! What the random wards and the damaged files of edition two have among them.

use compare::files::other_edition;
use compare::wards::*;
use reference::pairs::{days_off, hers};
use reference::phase::{ask_nights, NightPhase, Phase};
use reference::samples::{file_of, Dice};
use reference::ward::{parse, Refusal, Ward};
use reference::{nights, penalty};
use std::collections::BTreeMap;

/// How often each came.
type Counts = BTreeMap<String, u32>;

fn count(counts: &mut Counts, what: impl Into<String>, is_so: bool) {
    *counts.entry(what.into()).or_default() += u32::from(is_so);
}

fn each_came(counts: &Counts, least: u32) {
    for (what, times) in counts {
        assert!(*times >= least, "{what}: only {times} times");
    }
}

/// Does nobody, or some nurse, have a night pattern but none with a pair?
fn without_a_pair(ward: &Ward) -> (bool, bool) {
    let common = nights::common(ward);
    let phase = NightPhase::open(ward, common.len()).expect("room for the list");
    let barred = |nurse: &usize| {
        phase.list(*nurse).is_empty() && !nights::her_list(ward, *nurse, &common).is_empty()
    };
    let barred = (0..ward.nurse_count).filter(barred).count();
    (barred == ward.nurse_count, barred > 0)
}

fn count_ward(counts: &mut Counts, ward: &Ward) {
    let edition_two = ward.numbers[0] == 0;
    let pairs: Vec<u32> = ward.pairs.iter().map(|pair| pair.days).filter(|&p| p != 0).collect();
    let overlap = pairs.windows(2).any(|two| two[0] & two[1] != 0);
    let last_days = days_off(ward, pairs.len() as u32) >> (ward.day_count - 1) & 1 == 1;
    let (nobody, somebody_not) = without_a_pair(ward);
    count(counts, "edition one", !edition_two);
    count(counts, "edition two without pairs", edition_two && pairs.is_empty());
    count(counts, "one pair", pairs.len() == 1);
    count(counts, "some pairs", (2..10).contains(&pairs.len()));
    count(counts, "pairs that overlap", overlap);
    count(counts, "a pair on day 1", pairs.first() == Some(&0b11));
    count(counts, "a pair on the last day", last_days);
    count(counts, "pairs that fit nobody", nobody);
    count(counts, "pairs that fit some nurse not", somebody_not);
    count(counts, "edition two, one day", edition_two && ward.day_count == 1);
    count(counts, "edition two, two days", edition_two && ward.day_count == 2);
    count(counts, "a pair in a month of two days", ward.day_count == 2 && pairs.len() == 1);
}

#[test]
fn wards_of_edition_two() {
    let mut counts = Counts::new();
    for round in 1..=400 {
        let mut dice = Dice(round * 7_919);
        for size in [TINY, SMALL] {
            count_ward(&mut counts, &planned(&mut dice, &size).ward);
            count_ward(&mut counts, &spoiled(&mut dice, &size).ward);
        }
    }
    let mut ten = Counts::new();
    for round in 1..=40 {
        let ward = planned(&mut Dice(round * 7_919), &MONTH).ward;
        count(&mut ten, "ten pairs", ward.pairs.len() == 10);
        count(&mut ten, "weekends a week apart", (4..=5).contains(&ward.pairs.len()));
    }
    each_came(&counts, 10);
    each_came(&ten, 4);
}

/// Most plans are at zero by night, with pairs as without.
#[test]
fn plans_are_kept() {
    let mut counts = Counts::new();
    for round in 1..=300 {
        let planned = planned(&mut Dice(round * 104_729), &SMALL);
        let (ward, with) = (&planned.ward, planned.ward.pairs[0].number > 0);
        let kept = ask_nights(ward, &planned.nights).is_ok();
        let all: Vec<_> = planned.nights.iter().copied().map(Some).collect();
        let by_rule = (0..ward.nurse_count).all(|nurse| hers(ward, nurse, planned.nights[nurse]));
        assert_eq!(kept, by_rule && penalty::night(ward, &all).total() == 0);
        count(&mut counts, format!("pairs {with}, kept {kept}"), true);
        count(&mut counts, format!("pairs {with}, by day {}", planned.days.is_some()), true);
    }
    for with in [true, false] {
        let times = |what: &str| counts.get(&format!("pairs {with}, {what}")).copied().unwrap_or(0);
        assert!(times("kept true") > 4 * times("kept false"), "{counts:?}");
        assert!(times("by day true") > 4 * times("by day false"), "{counts:?}");
    }
}

/// Each damage is refused as it must be, at head and pairs.
#[test]
fn damaged_heads_and_pairs() {
    let mut counts = Counts::new();
    for round in 1..=3_000 {
        let mut dice = Dice(round * 15_485_863);
        let ward = planned(&mut dice, &TINY).ward;
        let (kind, numbers) = other_edition(&mut dice, &ward.numbers);
        let answer = match parse(&file_of(&numbers)) {
            Ok(_) => "read".into(),
            Err(Refusal { question, .. }) => format!("refused {question}"),
        };
        count(&mut counts, format!("{kind}: {answer}"), true);
    }
    let came = |what: &str| counts.get(what).copied().unwrap_or(0) >= 20;
    for what in [
        "another edition: refused 3",
        "edition two without its head: refused 5",
        "head twice: refused 3",
        "pairs cut: refused 1",
        "numbers after the pairs: refused 5",
        "another count of pairs: refused 1",
        "another count of pairs: refused 3",
        "another count of pairs: refused 5",
        "another first day: refused 3",
        "another first day: read",
        "edition two: read",
    ] {
        assert!(came(what), "{what}: {counts:?}");
    }
}
