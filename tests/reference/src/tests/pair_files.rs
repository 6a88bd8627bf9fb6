//! Ward files of edition two (document 02, job 2): head, count and first days of the pairs.

use crate::pairs::Pair;
use crate::samples::*;
use crate::ward::{edition_one, padded, parse, parse_by, write, Refusal, Ward};

/// Where the count of pairs stands in the ward with two pairs.
const COUNT: usize = 56;

fn no<T>(question: u32, place: u64) -> Result<T, Refusal> {
    Err(Refusal { question, place })
}

/// The writer's answer to numbers, all of them counted.
fn written(numbers: &[u64]) -> Result<Vec<u8>, Refusal> {
    let mut all = numbers.to_vec();
    all.resize(4441, 0);
    write(&all, numbers.len() as u64, 4_203)
}

/// Reader and writer refuse alike, every number being one byte.
fn both_refuse(numbers: &[u64], question: u32, place: u64) {
    assert_eq!(parse(&file_of(numbers)), no(question, place), "{numbers:?}");
    assert_eq!(written(numbers), no(question, place), "{numbers:?}");
}

/// The ward with two pairs with another tail.
fn tail(numbers: &[u64]) -> Vec<u64> {
    [&PAIRS_NUMBERS[..COUNT], numbers].concat()
}

/// One nurse and one day in edition two, up to its tail.
fn one_day() -> Vec<u64> {
    let one = One::new(1, 1, 1, [1, 1, 1]).ward();
    [&[0, 2], &one.numbers[..]].concat()
}

#[test]
fn two_pairs_as_written() {
    assert_eq!(file_of(&PAIRS_NUMBERS), PAIRS);
    assert_eq!(PAIRS.len(), 59);
    let ward = two_pairs();
    assert_eq!(ward.numbers, PAIRS_NUMBERS);
    let pair = |number, days| Pair { number, days };
    assert_eq!(ward.pairs, [pair(1, 0b0110), pair(2, 0b1100)]);
    assert_eq!(written(&PAIRS_NUMBERS).unwrap(), PAIRS);
}

/// "Then the old numbers": all else is as in edition one.
#[test]
fn old_numbers_say_the_same() {
    let mut dice = Dice(41);
    for _ in 0..100 {
        let old = random_numbers(&mut dice, 6, 9);
        let one = ward_of(&old);
        assert_eq!(one.pairs, [Pair { number: 0, days: 0 }]);
        let none = ward_of(&with_pairs(&old, &[]));
        assert_eq!(Ward { numbers: one.numbers.clone(), ..none }, one);
        let pairs = random_pairs(&mut dice, old[1]);
        let two = ward_of(&with_pairs(&old, &pairs));
        assert_eq!(two.pairs.len(), pairs.len().max(1));
        assert_eq!(Ward { numbers: old, pairs: one.pairs.clone(), ..two }, one);
    }
}

#[test]
fn head() {
    both_refuse(&[0], 1, 1);
    both_refuse(&[0, 2], 1, 2);
    both_refuse(&[49], 3, 0);
    for edition in [0, 1, 3, 48] {
        both_refuse(&[0, edition], 3, 1);
    }
    both_refuse(&[0, 2, 0], 3, 2);
    both_refuse(&[0, 2, 49], 3, 2);
    both_refuse(&[0, 2, 0, 2], 3, 2);
    assert_eq!(parse(&[0, 0x80]), no(1, 1));
    assert_eq!(parse(&[0, 0x82, 0x00]), no(2, 1));
    assert_eq!(parse(&[0x80, 0x00, 0x02]), no(2, 0));
}

#[test]
fn count_and_first_days() {
    both_refuse(&tail(&[]), 1, 56);
    both_refuse(&tail(&[11]), 3, 56);
    both_refuse(&tail(&[2, 2]), 1, 58);
    both_refuse(&tail(&[3, 1, 2, 4]), 3, 59);
    both_refuse(&tail(&[2, 2, 2]), 3, 58);
    both_refuse(&tail(&[2, 2, 1]), 3, 58);
    both_refuse(&tail(&[2, 0, 2]), 3, 57);
    both_refuse(&tail(&[1, 4]), 3, 57);
    both_refuse(&tail(&[0, 7]), 5, 57);
    both_refuse(&tail(&[2, 2, 3, 0]), 5, 59);
    for good in [&[0][..], &[1, 1], &[1, 3], &[2, 1, 3], &[3, 1, 2, 3]] {
        assert_eq!(written(&tail(good)).unwrap(), file_of(&tail(good)));
        assert_eq!(parse(&file_of(&tail(good))).unwrap().numbers, tail(good));
    }
}

/// A count above n-1 is let through: the fault is at the first day that has no room.
#[test]
fn more_pairs_than_days() {
    both_refuse(&tail(&[4, 1, 2, 3, 3]), 3, 60);
    both_refuse(&tail(&[10, 3, 4]), 3, 58);
    both_refuse(&tail(&[10, 1, 2, 3]), 1, 60);
}

/// "With n 1 the count is 0."
#[test]
fn months_of_one_and_two_days() {
    let at = one_day().len() as u64;
    both_refuse(&[&one_day()[..], &[1, 1]].concat(), 3, at);
    both_refuse(&[&one_day()[..], &[1]].concat(), 3, at);
    assert!(parse(&file_of(&[&one_day()[..], &[0]].concat())).is_ok());
    let two_days = One::new(2, 1, 1, [1, 1, 1]).ward().numbers;
    assert!(parse(&file_of(&with_pairs(&two_days, &[1]))).is_ok());
    let at = two_days.len() as u64 + 3;
    both_refuse(&with_pairs(&two_days, &[2]), 3, at);
    both_refuse(&with_pairs(&two_days, &[0]), 3, at);
    both_refuse(&with_pairs(&two_days, &[1, 2]), 3, at + 1);
}

#[test]
fn edition_one_has_no_pairs() {
    let old = &PAIRS_NUMBERS[2..];
    both_refuse(old, 5, 54);
    assert!(parse(&file_of(&old[..54])).is_ok());
}

#[test]
fn longest_file_of_edition_two() {
    let old = parse(LARGE).unwrap().numbers;
    let numbers = with_pairs(&old, &[1, 2, 3, 4, 5, 10, 15, 20, 25, 30]);
    let file = file_of(&numbers);
    assert_eq!((numbers.len(), file.len()), (4_107, 4_203));
    let (mut all, count) = padded(&parse(&file).unwrap());
    assert_eq!((all.len(), count), (4_441, 4_107));
    assert_eq!(write(&all, count, 4_203).unwrap(), file);
    assert_eq!(write(&all, count, 4_202), no(6, 0));
    assert_eq!(write(&all, u64::MAX, 0), no(5, 4_107));
    // the writer's places are indexes, the reader's offsets
    all[4_106] = 31;
    assert_eq!(write(&all, count, 4_203), no(3, 4_106));
    assert_eq!(parse(&file_of(&all[..4_107])), no(3, 4_202));
}

/// Any file near a good one: one byte changed, cut or extended.
fn near(dice: &mut Dice, file: &[u8]) -> Vec<u8> {
    let mut near = file.to_vec();
    let at = dice.index(file.len());
    match dice.upto(2) {
        0 => near[at] = dice.upto(255) as u8,
        1 => near.truncate(at),
        _ => near.push(dice.upto(255) as u8),
    }
    near
}

/// "Older programs refuse it by 3 at offset 0; edition-one files read as before."
#[test]
fn editions() {
    let mut dice = Dice(43);
    for _ in 0..2_000 {
        let old = random_numbers(&mut dice, 6, 9);
        let two = file_of(&with_pairs(&old, &random_pairs(&mut dice, old[1])));
        for file in [file_of(&old), near(&mut dice, &file_of(&old)), near(&mut dice, &two), two] {
            let before = parse_by(edition_one, &file);
            if file.first() == Some(&0) {
                assert_eq!(before, no(3, 0));
            } else {
                assert_eq!(before, parse(&file));
            }
        }
    }
}

#[test]
fn round_trip() {
    let mut dice = Dice(47);
    for _ in 0..300 {
        let old = random_numbers(&mut dice, 48, 31);
        let numbers = with_pairs(&old, &random_pairs(&mut dice, old[1]));
        let file = file_of(&numbers);
        let ward = parse(&file).unwrap();
        assert_eq!(ward.numbers, numbers);
        let (array, count) = padded(&ward);
        assert_eq!(write(&array, count, 4_203).unwrap(), file);
    }
}
