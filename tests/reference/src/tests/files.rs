//! Ward file: bytes, reader, writer, round trip.

use crate::samples::*;
use crate::ward::{decode, encode, padded, parse, write};

#[test]
fn numbers_as_bytes() {
    assert_eq!(encode(0), [0x00]);
    assert_eq!(encode(127), [0x7f]);
    assert_eq!(encode(128), [0x80, 0x01]);
    assert_eq!(encode((1 << 49) - 1), [0xff, 0xff, 0xff, 0xff, 0xff, 0xff, 0x7f]);
}

#[test]
fn bytes_as_numbers() {
    for number in [0, 1, 127, 128, 16_383, 16_384, (1 << 48) - 1, (1 << 49) - 1] {
        let bytes = encode(number);
        assert_eq!(decode(&bytes, 0), Ok((number, bytes.len())));
    }
}

#[test]
fn worked_ward_as_written() {
    assert_eq!(worked().numbers, WORKED_NUMBERS);
    assert_eq!(file_of(&WORKED_NUMBERS), WORKED);
}

#[test]
fn longest_file() {
    assert_eq!(LARGE.len(), 4190);
    assert_eq!(parse(LARGE).unwrap().numbers.len(), 4094);
}

#[test]
fn round_trip_of_the_files() {
    for file in [WORKED, STUCK, SURGICAL, DEAD_ENDS, LARGE] {
        let (numbers, count) = padded(&parse(file).unwrap());
        assert_eq!(numbers.len(), 4441);
        assert_eq!(write(&numbers, count, file.len()).unwrap(), file);
    }
}

#[test]
fn round_trip_of_random_wards() {
    let mut dice = Dice(11);
    for _ in 0..300 {
        let numbers = random_numbers(&mut dice, 48, 31);
        let file = file_of(&numbers);
        let ward = parse(&file).unwrap();
        assert_eq!(ward.numbers, numbers);
        let (array, count) = padded(&ward);
        assert_eq!(write(&array, count, 4190).unwrap(), file);
    }
}

#[test]
fn writer_looks_at_the_counted_only() {
    let (mut numbers, count) = padded(&worked());
    numbers[50] = u64::MAX;
    assert_eq!(write(&numbers, count, 50).unwrap(), WORKED);
}
