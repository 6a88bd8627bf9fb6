//! The frozen baseline agrees with the planner on every measured ward, all of edition one.

use bench::baseline::Baseline;
use bench::sides::Sides;
use bench::subjects::{all, PLACES};

/// Enough to place everyone and to give up patterns.
const STEPS: u32 = 100;

fn on_every_ward(agrees: impl Fn(&Sides)) {
    let planner = compare::library();
    let planner = planner.expect(
        "crates/pantheryl/out/libpantheryl.a is missing: rt lib in crates/pantheryl makes it",
    );
    for subject in &all() {
        agrees(&Sides { planner: &*planner, subject });
    }
}

#[test]
fn reads_and_writes() {
    on_every_ward(|sides| {
        sides.read();
        sides.write();
    });
}

#[test]
fn nights() {
    on_every_ward(|sides| {
        if let Some(most) = sides.subject.night {
            for k in [0, STEPS.min(most), most] {
                sides.nights(k);
            }
        }
    });
}

#[test]
fn days_and_check() {
    on_every_ward(|sides| {
        if let Some((nights, most)) = &sides.subject.day {
            for k in [0, STEPS.min(*most), *most] {
                sides.days(nights, k);
            }
            let done = Baseline::ListsKept.by_day(sides.subject.file, nights, *most, PLACES);
            let (done, _) = done.expect("no refusal");
            if !done.roster.is_empty() {
                sides.check(&done.roster);
                // a row that is not hers
                let mut other = done.roster;
                other[0] = if other[0] == b'N' { b'/' } else { b'N' };
                sides.check(&other);
            }
        }
    });
}
