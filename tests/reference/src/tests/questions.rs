//! Every question at least once, with its place, and their order.

use super::edition_one::advance_day;
use crate::check::check;
use crate::history::{self, Call, History};
use crate::pairs::Pattern;
use crate::record::{advance_night, fresh, Answer, Record, Removal};
use crate::samples::*;
use crate::ward::{padded, parse, write, Refusal};

fn no(question: u32, place: u64) -> Refusal {
    Refusal { question, place }
}

fn read(file: &[u8]) -> Refusal {
    parse(file).unwrap_err()
}

/// The worked ward with one number changed.
fn changed(at: usize, number: u64) -> Vec<u8> {
    let mut numbers = WORKED_NUMBERS;
    numbers[at] = number;
    file_of(&numbers)
}

#[test]
fn question_1() {
    assert_eq!(read(b""), no(1, 0));
    assert_eq!(read(&[0x80]), no(1, 0));
    assert_eq!(read(&[0x80; 6]), no(1, 0));
    assert_eq!(read(&WORKED[..49]), no(1, 49));
    assert_eq!(read(&[2, 3, 0x80, 0x80]), no(1, 2));
}

#[test]
fn question_2() {
    assert_eq!(read(&[0x80; 7]), no(2, 0));
    assert_eq!(read(&[0x80; 9]), no(2, 0));
    assert_eq!(read(&[2, 0x80, 0x00]), no(2, 1));
    assert_eq!(read(&[2, 0x83, 0x80, 0x00]), no(2, 1));
}

#[test]
fn question_3() {
    // 0 begins a later edition, and there is no edition 3
    assert_eq!(read(&changed(0, 0)), no(3, 1));
    assert_eq!(read(&changed(0, 49)), no(3, 0));
    assert_eq!(read(&changed(15, 101)), no(3, 15));
    // a pair is judged at the second
    assert_eq!(read(&changed(23, 2)), no(3, 24));
    assert_eq!(read(&changed(23, 16)), no(3, 23));
    assert_eq!(read(&changed(25, 4)), no(3, 26));
    assert_eq!(read(&changed(27, 7)), no(3, 27));
    // one nurse: a group is 1 only
    let mut numbers = vec![1, 1, 1, 0, 1, 1, 1, 1, 0, 1, 1, 1, 1, 1, 1, 1];
    numbers.extend([0, 0, 0, 0, 0, 0, 0, 0, 0, 0, 0, 0]);
    numbers.extend([2, 0, 0, 0, 0, 0, 0]);
    assert_eq!(read(&file_of(&numbers)), no(3, 28));
    numbers[28] = 1;
    assert!(parse(&file_of(&numbers)).is_ok());
    numbers[31] = 1;
    assert_eq!(read(&file_of(&numbers)), no(3, 32));
    // the place is that of the number's first byte
    assert_eq!(read(&[2, 3, 0, 0x80, 0x01]), no(3, 3));
}

#[test]
fn question_4() {
    assert_eq!(read(&changed(16, 2)), no(4, 17));
    assert_eq!(read(&changed(18, 3)), no(4, 18));
    // 3 comes before 4; the first may be 3, the last may be 2
    let mut numbers = WORKED_NUMBERS;
    (numbers[16], numbers[17]) = (2, 5);
    assert_eq!(read(&file_of(&numbers)), no(3, 17));
    assert!(parse(&changed(16, 3)).is_ok());
    assert!(parse(&changed(22, 2)).is_ok());
}

#[test]
fn question_5() {
    let mut file = WORKED.to_vec();
    file.push(0x80);
    assert_eq!(read(&file), no(5, 50));
}

#[test]
fn writer_questions() {
    let (numbers, count) = padded(&worked());
    let with = |at: usize, number| {
        let mut changed = numbers.clone();
        changed[at] = number;
        write(&changed, count, 4190).unwrap_err()
    };
    assert_eq!(write(&numbers, 0, 0), Err(no(1, 0)));
    assert_eq!(write(&numbers, 49, 0), Err(no(1, 49)));
    assert_eq!(with(0, 49), no(3, 0));
    assert_eq!(with(3, u64::MAX), no(3, 3));
    assert_eq!(with(17, 3), no(4, 17));
    assert_eq!(write(&numbers, 51, 0), Err(no(5, 50)));
    assert_eq!(write(&numbers, 4_095, 0), Err(no(5, 50)));
    assert_eq!(write(&numbers, u64::MAX, 0), Err(no(5, 50)));
    assert_eq!(write(&numbers, 50, 49), Err(no(6, 0)));
}

#[test]
fn writer_places_are_indexes() {
    let (mut numbers, count) = padded(&parse(LARGE).unwrap());
    assert_eq!(write(&numbers, u64::MAX, 0), Err(no(5, 4094)));
    assert_eq!(write(&numbers, count, 4189), Err(no(6, 0)));
    numbers[4093] = 49;
    assert_eq!(write(&numbers, count, 4190), Err(no(3, 4093)));
    let mut file = LARGE.to_vec();
    file[4189] = 49;
    assert_eq!(read(&file), no(3, 4189));
}

fn night(record: &Record, k: u64, places: usize) -> Result<Answer, Refusal> {
    advance_night(WORKED, record, Call::plain(k, places))
}

fn day(nights: [u32; 2], record: &Record, k: u64, places: usize) -> Result<Answer, Refusal> {
    advance_day(WORKED, &nights, record, Call::plain(k, places))
}

/// A record with steps so far and its two removals.
fn after(steps: u32) -> Record {
    let mut record = fresh();
    record.steps = steps;
    for removal in record.removals.iter_mut().take(2.min(steps as usize)) {
        removal.nurse = 1;
    }
    record
}

#[test]
fn advances_ask_the_ward_first() {
    assert_eq!(advance_night(b"", &fresh(), Call::plain(10_001, 0)), Err(no(1, 0)));
    let cut = &WORKED[..3];
    assert_eq!(advance_day(cut, &[0; 48], &fresh(), Call::plain(10_001, 0)), Err(no(1, 3)));
    assert_eq!(check(b"", b"?"), Err(no(1, 0)));
}

#[test]
fn question_7() {
    assert_eq!(night(&fresh(), 10_001, 0), Err(no(7, 0)));
    assert_eq!(night(&fresh(), u64::MAX, 0), Err(no(7, 0)));
    assert!(night(&fresh(), 10_000, 4).is_ok());
    assert_eq!(night(&after(999_999), 2, 0), Err(no(7, 0)));
    assert!(night(&after(999_999), 1, 4).is_ok());
    assert!(night(&after(1_000_000), 0, 4).is_ok());
    assert_eq!(night(&after(1_000_001), 0, 4), Err(no(7, 0)));
    assert_eq!(night(&after(u32::MAX), 10_000, 4), Err(no(7, 0)));
    // before 8 and 9
    assert_eq!(day([9, 9], &fresh(), 10_001, 0), Err(no(7, 0)));
}

#[test]
fn question_8() {
    // not hers; hers but not at zero
    assert_eq!(day([1, 2], &fresh(), 0, 0), Err(no(8, 0)));
    assert_eq!(day([8, 0], &fresh(), 0, 0), Err(no(8, 0)));
    assert_eq!(day([0, 0], &fresh(), 0, 0), Err(no(8, 0)));
    assert!(day([1, 0], &fresh(), 0, 5).is_ok());
    // entries after nurse m are not looked at
    let mut nights = [u32::MAX; 48];
    (nights[0], nights[1]) = (1, 0);
    assert!(advance_day(WORKED, &nights, &fresh(), Call::plain(0, 5)).is_ok());
}

#[test]
fn question_9() {
    assert_eq!(night(&fresh(), 0, 3), Err(no(9, 0)));
    assert!(night(&fresh(), 0, 4).is_ok());
    assert_eq!(day([1, 0], &fresh(), 0, 0), Err(no(9, 1)));
    assert_eq!(day([1, 0], &fresh(), 0, 1), Err(no(9, 2)));
    assert_eq!(day([1, 0], &fresh(), 0, 4), Err(no(9, 2)));
    // before 11
    let mut bad = fresh();
    bad.patterns[47] = 1.into();
    assert_eq!(day([1, 0], &bad, 0, 4), Err(no(9, 2)));
}

#[test]
fn question_10() {
    // nurse 2 must have a night and may have none
    let mut numbers = WORKED_NUMBERS;
    (numbers[38], numbers[41]) = (0, 3);
    let mut bad = fresh();
    bad.patterns[47] = 1.into();
    assert_eq!(advance_night(&file_of(&numbers), &bad, Call::plain(0, 4)), Err(no(10, 2)));
    assert_eq!(advance_night(&file_of(&numbers), &bad, Call::plain(0, 3)), Err(no(9, 0)));
    assert_eq!(advance_day(DEAD_ENDS, &[0; 48], &bad, Call::plain(0, 0)), Err(no(10, 1)));
}

#[test]
fn question_9_of_a_later_nurse_before_10() {
    // nurse 1 has no day pattern (too many rests wanted), nurse 2 has four
    let mut numbers = WORKED_NUMBERS;
    (numbers[25], numbers[26]) = (3, 3);
    let file = file_of(&numbers);
    assert_eq!(advance_day(&file, &[1, 0], &fresh(), Call::plain(0, 3)), Err(no(9, 2)));
    assert_eq!(advance_day(&file, &[1, 0], &fresh(), Call::plain(0, 4)), Err(no(10, 1)));
}

#[test]
fn question_11() {
    let refused = |change: &dyn Fn(&mut Record)| {
        let mut record = after(2);
        change(&mut record);
        night(&record, 0, 4) == Err(no(11, 0))
    };
    let removal = |nurse, given_up, days: u32| Removal { nurse, given_up, pattern: days.into() };
    assert!(!refused(&|_| ()));
    assert!(refused(&|r| r.patterns[0] = 1.into()));
    assert!(refused(&|r| r.patterns[2] = 1.into()));
    assert!(refused(&|r| r.placed[2] = true));
    assert!(refused(&|r| (r.placed[1], r.patterns[1]) = (true, 2.into())));
    assert!(!refused(&|r| (r.placed[1], r.patterns[1]) = (true, 1.into())));
    assert!(refused(&|r| r.removals[0] = removal(0, false, 0)));
    assert!(refused(&|r| r.removals[0] = removal(3, false, 0)));
    assert!(refused(&|r| r.removals[0] = removal(1, false, 1)));
    assert!(refused(&|r| r.removals[0] = removal(2, true, 2)));
    assert!(!refused(&|r| r.removals[0] = removal(2, true, 1)));
    assert!(refused(&|r| r.removals[2] = removal(1, false, 0)));
    assert!(refused(&|r| r.removals[63] = removal(0, false, 7)));
    assert!(refused(&|r| r.removals[63] = removal(0, true, 0)));
    // as many removals as steps so far, but not above TL
    assert!(refused(&|r| r.steps = 1));
    assert!(!refused(&|r| r.steps = 3));
}

/// Nothing else is asked: such records are let through, and have an answer.
#[test]
fn question_11_lets_the_rest_through() {
    let mut record = fresh();
    (record.placed[0], record.patterns[0]) = (true, 2.into());
    let answer = night(&record, 1, 4).unwrap();
    // nurse 2 by 0 or by 1 leaves penalty 1: the lowest number
    assert_eq!((answer.penalty, answer.made), (1, 1));
    assert_eq!(answer.record.in_use(1), Some(0.into()));
    let mut record = after(1);
    (record.placed[0], record.patterns[0]) = (true, 2.into());
    record.removals[0] = Removal { nurse: 1, given_up: true, pattern: 2.into() };
    assert!(night(&record, 1, 4).is_ok());
}

#[test]
fn question_12() {
    assert_eq!(check(WORKED, b""), Err(no(12, 0)));
    assert_eq!(check(WORKED, b"Nn/--"), Err(no(12, 5)));
    assert_eq!(check(WORKED, b"Nn/--//"), Err(no(12, 7)));
    assert_eq!(check(WORKED, b"Nn/-R/"), Err(no(12, 4)));
    assert_eq!(check(WORKED, b"Nn/--//\n"), Err(no(12, 7)));
    assert_eq!(check(WORKED, b"x"), Err(no(12, 0)));
}

#[test]
fn a_refused_advance_adds_nothing() {
    let ward = worked();
    let mut history = History::new();
    let refused = history::advance_night(&ward, &mut history, Call::plain(2, 3));
    assert_eq!(refused, Err(no(9, 0)));
    assert!(history.is_empty());
    let nights = [0, 0].map(Pattern::from);
    let refused = history::advance_day(&ward, &nights, &mut history, Call::plain(2, 5));
    assert_eq!(refused, Err(no(8, 0)));
}
