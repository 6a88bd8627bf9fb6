//! The wards with pairs that are measured, and that edition two without pairs is edition one.

use bench::pairs::{all, nights, of_edition_two};
use compare::calls::{OUTCOME, STEPS};

#[test]
fn wards_with_pairs_are_advanced() {
    let planner = compare::library();
    let planner = planner.expect(
        "crates/pantheryl/out/libpantheryl.a is missing: rt lib in crates/pantheryl makes it",
    );
    for twin in all() {
        for file in [&twin.without, &twin.with] {
            let (left, _) = nights(&*planner, file, 2);
            assert_eq!(left.answer()[STEPS], 2);
        }
        let (one, _) = nights(&*planner, &twin.without, 60);
        let (two, _) = nights(&*planner, &of_edition_two(&twin.without, &[]), 60);
        assert_eq!((one.answer(), one.record()), (two.answer(), two.record()));
        assert_ne!(one.answer()[OUTCOME], 0);
    }
}
