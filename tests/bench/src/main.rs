//! Prints a Markdown table of times. It asserts that the baseline agrees with the planner, and no
//! time.

use bench::{measure, pairs, subjects};

fn main() {
    let Some(planner) = compare::library() else {
        eprintln!(
            "crates/pantheryl/out/libpantheryl.a is missing: rt lib in crates/pantheryl makes it"
        );
        std::process::exit(1);
    };
    measure::head();
    for subject in subjects::all() {
        measure::subject(&*planner, &subject);
    }
    pairs::head();
    for twin in pairs::all() {
        pairs::measure(&*planner, &twin);
    }
}
