//! Deliberate faults, each put into the reference behind the C interface: the comparison must
//! find every one of them, and nothing where there is none.

mod answers;
mod entries;
mod faulty;
mod keepings;
mod pairs;
mod past_zero;
mod steps;
mod wards;

use compare::calls::Calls;
use compare::keepings::{assurance, keeping};
use compare::lists::{chains, operations};
use compare::naive::Reference;
use compare::rounds::*;
use compare::session::{run, Round};
use compare::trial::Trial;
use compare::wards::*;
use faulty::{Fault, Faulty, Named};
use std::io::Write;

/// All of them.
fn faults() -> Vec<Named> {
    let mut all = wards::ward_faults();
    all.extend(pairs::layout_faults());
    all.extend(pairs::pair_faults());
    all.extend(pairs::record_faults());
    all.extend(steps::step_faults());
    all.extend(answers::advance_faults());
    all.extend(answers::other_faults());
    all.extend(past_zero::past_zero_faults());
    all.extend(keepings::entry_faults());
    all.extend(keepings::keep_faults());
    all.extend(keepings::return_faults());
    all
}

/// Small wards, every kind of round.
const ROUNDS: [(Round, Size, u64); 13] = [
    (keeping, TINY, 150),
    (assurance, TINY, 60),
    (reading, TINY, 300),
    (writing, TINY, 100),
    (checking, SMALL, 60),
    (by_nights, SMALL, 60),
    (by_days, SMALL, 200),
    (chains, TINY, 100),
    (operations, TINY, 60),
    (long_nights, TINY, 60),
    (long_nights, SMALL, 10),
    (long_days, SMALL, 10),
    (by_nights, RUNS, 15),
];

/// Whether rounds against the reference find anything; after the first find none is made.
fn differs(calls: &dyn Calls) -> bool {
    differs_in(&ROUNDS, calls)
}

fn differs_in(rounds: &[(Round, Size, u64)], calls: &dyn Calls) -> bool {
    let mut trial = Trial::new(calls, &Reference);
    rounds.iter().any(|(round, size, rounds)| {
        run(&mut trial, "faults", *round, size, *rounds);
        !trial.differences.is_empty()
    })
}

/// Those of the named faults that these rounds do not find.
fn missed_in(rounds: &[(Round, Size, u64)], names: &[&str]) -> Vec<&'static str> {
    let named = faults().into_iter().filter(|(name, _)| names.contains(name));
    let tried: Vec<Named> = named.collect();
    assert_eq!(tried.len(), names.len(), "a fault of another name");
    let missed = |(name, fault)| (!differs_in(rounds, &Faulty(fault))).then_some(name);
    tried.into_iter().filter_map(missed).collect()
}

#[test]
fn every_fault_is_found() {
    let all = faults();
    let text = format!("\n{} faults tried, each found in a comparison of its own\n", all.len());
    let missed = |(name, fault)| (!differs(&Faulty(fault))).then_some(name);
    let missed: Vec<&str> = all.into_iter().filter_map(missed).collect();
    assert!(missed.is_empty(), "not found: {missed:?}");
    let _ = std::io::stdout().write_all(text.as_bytes());
}

#[test]
fn nothing_is_found_without_a_fault() {
    assert!(!differs(&Reference));
    assert!(!differs(&Faulty(Fault::Step(steps::right))));
    assert!(!differs(&Faulty(Fault::Entries(entries::RIGHT))));
}

/// What breaks the assurance about a return is found by its own round, without the reference.
#[test]
fn the_assurance_finds_what_breaks_it() {
    let names = [
        "one entry for all numbers",
        "a keeping writes 0 first",
        "a fresh record is nothing kept",
        "pairs not kept",
        "the steps so far not returned",
        "a keeping clears the next entry",
        "what is kept is not replaced",
        "a keeping of odd flags is refused",
        "a return takes out what was kept",
        "removals stay those in hand",
        "the steps so far stay those in hand",
        "a return changes nothing",
    ];
    let missed = missed_in(&[(assurance, TINY, 300)], &names);
    assert!(missed.is_empty(), "not found: {missed:?}");
}

/// What a list of operations shows is found by histories alone.
#[test]
fn histories_find_what_lists_show() {
    let names = [
        "the flag ignored",
        "k 0 past zero answers zero",
        "none only where the penalty is not zero",
        "a roster only at the end zero",
        "an entry at its number",
        "one word too few is enough",
        "number 0 as 1",
        "number 9 as 8",
        "one entry for all numbers",
        "a keeping writes 0 first",
        "a fresh record is nothing kept",
        "the first word not looked at",
        "a keeping clears the next entry",
        "what is kept is not replaced",
        "a refused keeping writes the storage",
        "a keeping clears the record",
        "a return takes out what was kept",
        "a refused return clears the record",
        "nothing kept is a fresh record",
        "removals stay those in hand",
        "a return changes nothing",
    ];
    let missed = missed_in(&[(operations, TINY, 300)], &names);
    assert!(missed.is_empty(), "not found: {missed:?}");
}
