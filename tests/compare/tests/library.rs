//! The proved planner against the reference.

use compare::calls::Calls;
use compare::edges::{AtEdge, Edge};
use compare::hostile;
use compare::keepings::{assurance, keeping};
use compare::lists::{chains, operations};
use compare::naive::Reference;
use compare::rounds::*;
use compare::session::{conclude, run, Least, Round};
use compare::stack::SmallStack;
use compare::trial::Trial;
use compare::wards::*;

const FILES: &[&str] = &["refused 1", "refused 2", "refused 3", "refused 4", "refused 5"];
const NIGHT_ENDS: &[&str] = &["zero", "asked", "none"];
const DAY_ENDS: &[&str] = &["zero, roster", "asked", "none"];
/// Of advances past zero.
const NIGHTS_AT_ZERO: &[&str] = &["asked at zero", "none at zero"];
const DAYS_AT_ZERO: &[&str] = &["asked at zero, roster", "none at zero, roster"];
/// Of a keeping and a return.
const KEPT: &[&str] = &["done", "refused 13"];

fn planner() -> Box<dyn Calls> {
    compare::library().expect(
        "crates/pantheryl/out/libpantheryl.a is missing: rt lib in crates/pantheryl makes it",
    )
}

/// Rounds against the reference; every answer named must come up so often.
fn compare_rounds(name: &str, rounds: &[(Round, Size, u64)], least: &[Least]) {
    let planner = planner();
    let mut trial = Trial::new(&*planner, &Reference);
    for (round, size, times) in rounds {
        run(&mut trial, name, *round, size, *times);
    }
    conclude(name, &trial, least);
}

#[test]
fn reading_and_writing() {
    let rounds: [(Round, Size, u64); 8] = [
        (reading, TINY, 1_000),
        (reading, WIDE, 1_000),
        (reading, MONTH, 60),
        (reading, FULL, 10),
        (writing, TINY, 1_000),
        (writing, WIDE, 1_000),
        (writing, MONTH, 60),
        (writing, FULL, 10),
    ];
    let least: [Least; 4] = [
        ("read", &["done"], 1_000),
        ("read", FILES, 300),
        ("write", &["done"], 1_000),
        ("write", &["refused 1", "refused 3", "refused 4", "refused 5", "refused 6"], 300),
    ];
    compare_rounds("Reading and writing", &rounds, &least);
}

#[test]
fn night_advances() {
    let rounds: [(Round, Size, u64); 10] = [
        (by_nights, TINY, 1_500),
        (by_nights, SMALL, 1_500),
        (by_nights, WIDE, 1_000),
        (by_nights, MIDDLE, 150),
        (by_nights, MONTH, 12),
        (by_nights, RUNS, 20),
        (by_nights, FULL, 1),
        (long_nights, TINY, 600),
        (long_nights, SMALL, 150),
        (long_nights, MIDDLE, 10),
    ];
    let least: [Least; 4] = [
        ("advance_nights", NIGHT_ENDS, 300),
        ("advance_nights", NIGHTS_AT_ZERO, 300),
        ("advance_nights", FILES, 200),
        ("advance_nights", &["refused 7", "refused 9", "refused 10", "refused 11"], 1_000),
    ];
    compare_rounds("Night advances", &rounds, &least);
}

#[test]
fn day_advances() {
    let rounds: [(Round, Size, u64); 9] = [
        (by_days, TINY, 1_500),
        (by_days, SMALL, 1_500),
        (by_days, WIDE, 1_000),
        (by_days, MIDDLE, 150),
        (by_days, MONTH, 12),
        (by_days, FULL, 4),
        (long_days, TINY, 600),
        (long_days, SMALL, 300),
        (long_days, MIDDLE, 20),
    ];
    let refused = &["refused 7", "refused 8", "refused 9", "refused 10", "refused 11"];
    let least: [Least; 4] = [
        ("advance_days", DAY_ENDS, 100),
        ("advance_days", DAYS_AT_ZERO, 100),
        ("advance_days", FILES, 200),
        ("advance_days", refused, 500),
    ];
    compare_rounds("Day advances", &rounds, &least);
}

#[test]
fn lists_of_advances() {
    let rounds: [(Round, Size, u64); 3] =
        [(chains, TINY, 6_000), (chains, SMALL, 1_500), (chains, WIDE, 1_000)];
    let least: [Least; 6] = [
        ("advance_nights", NIGHT_ENDS, 100),
        ("advance_nights", NIGHTS_AT_ZERO, 100),
        ("advance_nights", &["refused 7", "refused 9"], 300),
        ("advance_days", DAY_ENDS, 50),
        ("advance_days", DAYS_AT_ZERO, 50),
        ("advance_days", &["refused 7", "refused 9"], 300),
    ];
    compare_rounds("Lists of advances", &rounds, &least);
}

#[test]
fn lists_of_operations() {
    let rounds: [(Round, Size, u64); 3] =
        [(operations, TINY, 1_500), (operations, SMALL, 300), (operations, WIDE, 300)];
    let least: [Least; 6] = [
        ("advance_nights", NIGHT_ENDS, 100),
        ("advance_nights", NIGHTS_AT_ZERO, 100),
        ("advance_days", DAY_ENDS, 50),
        ("advance_days", DAYS_AT_ZERO, 50),
        ("keep", KEPT, 1_000),
        ("return", KEPT, 1_000),
    ];
    compare_rounds("Lists of operations", &rounds, &least);
}

#[test]
fn keepings_and_returns() {
    let rounds: [(Round, Size, u64); 6] = [
        (keeping, TINY, 1_500),
        (keeping, SMALL, 600),
        (keeping, WIDE, 600),
        (keeping, MONTH, 6),
        (assurance, TINY, 1_500),
        (assurance, SMALL, 600),
    ];
    let least: [Least; 4] = [
        ("keep", KEPT, 2_000),
        ("return", KEPT, 2_000),
        ("advance_nights", &["zero", "asked", "none", "refused 11"], 50),
        ("advance_days", &["zero, roster", "asked", "none", "refused 11"], 30),
    ];
    compare_rounds("Keepings and returns", &rounds, &least);
}

#[test]
fn checks() {
    let rounds: [(Round, Size, u64); 6] = [
        (checking, TINY, 1_000),
        (checking, SMALL, 1_000),
        (checking, WIDE, 1_000),
        (checking, MIDDLE, 100),
        (checking, MONTH, 8),
        (checking, FULL, 1),
    ];
    let least: [Least; 2] = [("check", &["yes", "no", "refused 12"], 1_000), ("check", FILES, 50)];
    compare_rounds("Checks", &rounds, &least);
}

#[test]
fn hostile_calls() {
    let planner = planner();
    let mut trial = Trial::new(&*planner, &Reference);
    hostile::all(&mut trial);
    conclude("Hostile calls", &trial, &[]);
}

/// Every kind of call, on wards of several sizes.
const EVERY_CALL: [(Round, Size, u64); 15] = [
    (reading, WIDE, 60),
    (reading, FULL, 1),
    (writing, WIDE, 60),
    (writing, FULL, 1),
    (by_nights, SMALL, 60),
    (by_nights, WIDE, 60),
    (by_nights, MONTH, 1),
    (by_days, SMALL, 60),
    (by_days, WIDE, 60),
    (by_days, MONTH, 1),
    (checking, WIDE, 60),
    (checking, MONTH, 1),
    (keeping, WIDE, 60),
    (keeping, FULL, 1),
    (operations, TINY, 20),
];

/// Every kind of call against the reference.
fn compare_calls(name: &str, planner: &dyn Calls) {
    let mut trial = Trial::new(planner, &Reference);
    for (round, size, times) in &EVERY_CALL {
        run(&mut trial, name, *round, size, *times);
    }
    let least: [Least; 3] =
        [("check", &["yes", "no"], 50), ("keep", KEPT, 50), ("return", KEPT, 50)];
    conclude(name, &trial, &least);
}

/// All lent memory at the edge of a page: a call must stay within it.
#[test]
fn memory_at_page_edges() {
    let planner = planner();
    for edge in [Edge::Begin, Edge::End] {
        compare_calls("Memory at page edges", &AtEdge { planner: &*planner, edge });
    }
}

/// As much stack as the C header names.
#[test]
fn small_stack() {
    let planner = planner();
    compare_calls("Calls on a small stack", &SmallStack { planner: &*planner });
}
