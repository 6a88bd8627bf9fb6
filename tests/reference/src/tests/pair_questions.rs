//! Questions 8 to 11 over patterns with pairs (document 02, job 2).

use super::pair_lists::pattern;
use crate::history::Call;
use crate::pairs::Pattern;
use crate::record::{advance_day, advance_night, fresh, Answer, Record, Removal};
use crate::samples::*;
use crate::ward::Refusal;

fn no(question: u32, place: u64) -> Refusal {
    Refusal { question, place }
}

fn day(nights: [(u32, u32); 2], record: &Record, places: usize) -> Result<Answer, Refusal> {
    let nights = nights.map(|(days, pair)| pattern(days, pair));
    advance_day(PAIRS, &nights, record, Call::plain(0, places))
}

#[test]
fn question_8() {
    assert!(day([(1, 2), (0, 2)], &fresh(), 5).is_ok());
    // hers, at penalty 1
    assert_eq!(day([(1, 2), (0, 1)], &fresh(), 0), Err(no(8, 0)));
    // at penalty 0, not hers
    assert_eq!(day([(1, 0), (0, 0)], &fresh(), 0), Err(no(8, 0)));
    assert_eq!(day([(1, 2), (0, 0)], &fresh(), 0), Err(no(8, 0)));
    assert_eq!(day([(1, 2), (0, 3)], &fresh(), 0), Err(no(8, 0)));
    assert_eq!(day([(1, 1), (0, 2)], &fresh(), 0), Err(no(8, 0)));
    // the worked ward has no pairs
    let nights = |pair| [pattern(1, 0), pattern(0, pair)];
    assert!(advance_day(WORKED, &nights(0), &fresh(), Call::plain(0, 5)).is_ok());
    assert_eq!(advance_day(WORKED, &nights(1), &fresh(), Call::plain(0, 5)), Err(no(8, 0)));
    // entries after nurse m are not looked at
    let mut nights = [pattern(u32::MAX, u32::MAX); 48];
    (nights[0], nights[1]) = (pattern(1, 2), pattern(0, 2));
    assert!(advance_day(PAIRS, &nights, &fresh(), Call::plain(0, 5)).is_ok());
}

/// The buffer is for night patterns by night and for day patterns by day: pairs need no place.
#[test]
fn question_9() {
    assert_eq!(advance_night(PAIRS, &fresh(), Call::plain(0, 4)), Err(no(9, 0)));
    assert!(advance_night(PAIRS, &fresh(), Call::plain(0, 5)).is_ok());
    assert_eq!(day([(1, 2), (0, 2)], &fresh(), 0), Err(no(9, 1)));
    assert_eq!(day([(1, 2), (0, 2)], &fresh(), 4), Err(no(9, 2)));
}

/// The lowest nurse without a night pattern and a pair together.
#[test]
fn question_10() {
    let with_marks = |nurse: usize, marks: [u64; 4]| {
        let mut numbers = PAIRS_NUMBERS;
        numbers[29 + 15 * (nurse - 1)..][..4].copy_from_slice(&marks);
        advance_night(&file_of(&numbers), &fresh(), Call::plain(0, 5)).map(|answer| answer.penalty)
    };
    assert_eq!(with_marks(1, [0, 0, 4, 0]), Err(no(10, 1)));
    assert_eq!(with_marks(2, [0, 0, 2, 0]), Err(no(10, 2)));
    assert_eq!(with_marks(2, [0, 2, 0, 4]), Err(no(10, 2)));
    assert_eq!(with_marks(2, [0, 4, 0, 0]), Ok(20_000_001));
    // nights on days 1 and 4 leave neither pair
    assert_eq!(with_marks(1, [3, 0, 0, 2]), Err(no(10, 1)));
}

/// A record with steps so far and its two removals.
fn after(steps: u32) -> Record {
    let mut record = fresh();
    record.steps = steps;
    for removal in record.removals.iter_mut().take(2.min(steps as usize)) {
        removal.nurse = 1;
    }
    record
}

#[test]
fn question_11() {
    let refused = |change: &dyn Fn(&mut Record)| {
        let mut record = after(2);
        change(&mut record);
        advance_night(PAIRS, &record, Call::plain(0, 5)) == Err(no(11, 0))
    };
    let removal = |nurse, given_up, pattern| Removal { nurse, given_up, pattern };
    let placed = |record: &mut Record, nurse: usize, pattern: Pattern| {
        (record.placed[nurse], record.patterns[nurse]) = (true, pattern);
    };
    assert!(!refused(&|_| ()));
    assert!(!refused(&|r| placed(r, 0, pattern(1, 2))));
    assert!(refused(&|r| placed(r, 0, pattern(1, 1)))); // not with this night
    assert!(refused(&|r| placed(r, 0, pattern(1, 0)))); // 0 in a ward with pairs
    assert!(refused(&|r| placed(r, 0, pattern(1, 3)))); // not of the ward
    assert!(refused(&|r| placed(r, 1, pattern(8, 1)))); // a night that is not hers
    assert!(refused(&|r| r.patterns[0] = pattern(0, 1))); // unplaced
    assert!(refused(&|r| r.patterns[2] = pattern(0, 1))); // past the last nurse
    assert!(!refused(&|r| r.removals[0] = removal(1, true, pattern(8, 1))));
    assert!(refused(&|r| r.removals[0] = removal(1, true, pattern(8, 2))));
    assert!(refused(&|r| r.removals[0] = removal(2, true, pattern(0, 0))));
    assert!(refused(&|r| r.removals[0] = removal(2, true, pattern(0, 3))));
    assert!(refused(&|r| r.removals[0] = removal(1, false, pattern(0, 1))));
    assert!(refused(&|r| r.removals[2] = removal(0, false, pattern(0, 1))));
    assert!(refused(&|r| r.removals[63] = removal(0, false, pattern(0, 1))));
}

/// By day a pattern has no pair.
#[test]
fn question_11_by_day() {
    let refused = |change: &dyn Fn(&mut Record)| {
        let mut record = after(2);
        change(&mut record);
        day([(1, 2), (0, 2)], &record, 5) == Err(no(11, 0))
    };
    assert!(!refused(&|r| (r.placed[1], r.patterns[1]) = (true, pattern(3, 0))));
    assert!(refused(&|r| (r.placed[1], r.patterns[1]) = (true, pattern(3, 2))));
    // day 3 is the pair's
    assert!(refused(&|r| (r.placed[1], r.patterns[1]) = (true, pattern(4, 0))));
    assert!(refused(&|r| r.patterns[1] = pattern(0, 2)));
    let removal = |pair| Removal { nurse: 2, given_up: true, pattern: pattern(3, pair) };
    assert!(!refused(&|r| r.removals[0] = removal(0)));
    assert!(refused(&|r| r.removals[0] = removal(2)));
}

/// In a ward without pairs every pair is a no, by night too.
#[test]
fn question_11_without_pairs() {
    let refused = |pair| {
        let mut record = after(2);
        (record.placed[0], record.patterns[0]) = (true, pattern(1, pair));
        advance_night(WORKED, &record, Call::plain(0, 4)) == Err(no(11, 0))
    };
    assert!(!refused(0));
    assert!(refused(1));
    assert!(refused(u32::MAX));
}
