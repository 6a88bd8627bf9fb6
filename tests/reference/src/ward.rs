//! The ward file: reader and writer ("Ward file", questions 1 to 6; edition two by document 02,
//! job 2).

use crate::pairs::{pairs_of, Pair};
use crate::rows::{Duty, State};

/// Places of the reader's record. A ward of editions one and two has at most 4,107 numbers.
pub const NUMBER_PLACES: usize = 4441;
/// "At most 7 groups".
const MOST_GROUPS: usize = 7;
const HEADER: usize = 16;

/// A no: the question's number and its place.
#[derive(Clone, Copy, Debug, PartialEq, Eq)]
pub struct Refusal {
    pub question: u32,
    pub place: u64,
}

pub fn refusal<T>(question: u32, place: usize) -> Result<T, Refusal> {
    Err(Refusal { question, place: place as u64 })
}

/// The six weights, three for each shift.
#[derive(Clone, Copy, Debug, PartialEq, Eq)]
pub struct Weights {
    /// for each nurse short of the need
    pub w: u64,
    /// for each member short of a low
    pub u: u64,
    /// for each member above a high
    pub v: u64,
}

#[derive(Clone, Debug, PartialEq, Eq)]
pub struct Nurse {
    /// duties of days -6 to 0, oldest first
    pub before: [u64; 7],
    pub least_nights: u64,
    pub most_nights: u64,
    pub least_rests: u64,
    pub most_rests: u64,
    /// mark of day d at d - 1
    pub marks: Vec<u64>,
}

/// Low and high of one group for one shift.
#[derive(Clone, Copy, Debug, PartialEq, Eq)]
pub struct Bounds {
    pub low: u64,
    pub high: u64,
}

/// What one day wants of one shift.
#[derive(Clone, Debug, PartialEq, Eq)]
pub struct Demand {
    pub need: u64,
    /// of each group
    pub bounds: Vec<Bounds>,
}

#[derive(Clone, Debug, PartialEq, Eq)]
pub struct Day {
    pub night: Demand,
    pub day: Demand,
}

#[derive(Clone, Debug, PartialEq, Eq)]
pub struct Ward {
    /// all numbers in file order
    pub numbers: Vec<u64>,
    /// m
    pub nurse_count: usize,
    /// n
    pub day_count: usize,
    /// r
    pub group_count: usize,
    /// V
    pub most_nights: u64,
    /// L
    pub longest_night_run: u64,
    /// g1 g2 g3
    pub gaps: [u64; 3],
    /// TL
    pub tabu_length: usize,
    /// D
    pub longest_day_run: usize,
    /// what counts in a run of day duty: no number of the file, the same in every ward
    pub run_duties: Vec<Duty>,
    pub night_weights: Weights,
    pub day_weights: Weights,
    pub nurses: Vec<Nurse>,
    /// members of each group, nurse i as bit i - 1
    pub groups: Vec<u64>,
    pub days: Vec<Day>,
    /// the pairs that a pattern may name
    pub pairs: Vec<Pair>,
    /// marks and states of a pair's days: no numbers of the file, the same in every ward
    pub pair_marks: Vec<u64>,
    pub pair_states: Vec<State>,
}

/// What the layout wants at one place.
pub struct Field {
    pub least: u64,
    pub most: u64,
    /// the duty of the day before, asked of duties two to seven
    pub duty_before: Option<u64>,
}

fn field(least: u64, most: u64) -> Option<Field> {
    Some(Field { least, most, duty_before: None })
}

/// The field after the numbers already read, None after the last number.
pub type Layout = fn(&[u64]) -> Option<Field>;

/// "A ward of edition two begins with 0 and 2, then the old numbers", then the pairs.
pub fn every_edition(read: &[u64]) -> Option<Field> {
    match read {
        [] => field(0, 48),
        [0] => field(2, 2),
        [0, _, old @ ..] => edition_one(old).or_else(|| pair_field(old[1], pairs_part(old))),
        _ => edition_one(read),
    }
}

/// The numbers after 0 and 2; all of them in edition one.
pub fn old_numbers(numbers: &[u64]) -> &[u64] {
    if numbers[0] == 0 {
        &numbers[2..]
    } else {
        numbers
    }
}

/// What follows the old numbers: count and first days of the pairs, nothing in edition one.
pub fn pairs_part(old: &[u64]) -> &[u64] {
    let (m, n, r) = (old[0] as usize, old[1] as usize, old[2] as usize);
    &old[HEADER + m * (11 + n) + r + n * (2 + 4 * r)..]
}

/// "A count of 0 to 10 pairs and each pair's first day, 1 to n-1, each above the one before;
/// with n 1 the count is 0."
fn pair_field(n: u64, pairs: &[u64]) -> Option<Field> {
    match pairs {
        [] => field(0, if n == 1 { 0 } else { 10 }),
        [count, days @ ..] if days.len() as u64 == *count => None,
        [_] => field(1, n - 1),
        [.., before] => field(before + 1, n - 1),
    }
}

/// The layout of document 01.
pub fn edition_one(read: &[u64]) -> Option<Field> {
    let at = read.len();
    if at < HEADER {
        return header_field(at);
    }
    let (m, n, r) = (read[0] as usize, read[1] as usize, read[2] as usize);
    let (per_nurse, per_day) = (11 + n, 2 + 4 * r);
    let last = read[at - 1];
    let at = at - HEADER;
    if at < m * per_nurse {
        return nurse_field(at % per_nurse, last);
    }
    let at = at - m * per_nurse;
    if at < r {
        return field(1, (1u64 << m) - 1);
    }
    let at = at - r;
    if at < n * per_day {
        return day_field(at % per_day, last);
    }
    None
}

fn header_field(at: usize) -> Option<Field> {
    match at {
        0 => field(1, 48),
        1 => field(1, 31),
        2 => field(0, 16),
        3 => field(0, 15),
        4 => field(1, 3),
        5..=7 => field(1, 5),
        8 => field(0, 64),
        9 => field(1, 6),
        _ => field(1, 100),
    }
}

/// "Least is at most most": the second of a pair begins at the first.
fn nurse_field(at: usize, last: u64) -> Option<Field> {
    match at {
        0 => field(0, 4),
        1..=6 => Some(Field { least: 0, most: 4, duty_before: Some(last) }),
        7 => field(0, 15),
        8 => field(last, 15),
        9 => field(0, 31),
        10 => field(last, 31),
        _ => field(0, 6),
    }
}

fn day_field(at: usize, last: u64) -> Option<Field> {
    let is_high = at >= 2 && at % 2 == 1;
    field(if is_high { last } else { 0 }, 48)
}

/// Questions 3 and 4 of one number.
fn judge(number: u64, field: &Field) -> Result<(), u32> {
    if number < field.least || number > field.most {
        return Err(3);
    }
    match field.duty_before {
        Some(before) if (before == 2) != (number == 3) => Err(4),
        _ => Ok(()),
    }
}

/// Questions 1 and 2: the number that begins at `place`, and its bytes.
pub fn decode(file: &[u8], place: usize) -> Result<(u64, usize), u32> {
    let mut number = 0;
    for group in 0..MOST_GROUPS {
        let byte = match file.get(place + group) {
            None => return Err(1),
            Some(&byte) => byte,
        };
        number |= u64::from(byte & 0x7f) << (7 * group);
        if byte & 0x80 == 0 {
            let shortest = group == 0 || byte != 0;
            return if shortest { Ok((number, group + 1)) } else { Err(2) };
        }
    }
    Err(2)
}

/// One number in groups of seven bits, lowest first, shortest form.
pub fn encode(number: u64) -> Vec<u8> {
    let mut bytes = Vec::new();
    let mut left = number;
    while left > 0x7f {
        bytes.push((left & 0x7f) as u8 | 0x80);
        left >>= 7;
    }
    bytes.push(left as u8);
    bytes
}

/// The reader: 1 to 4 of one number before the next, then 5.
pub fn parse(file: &[u8]) -> Result<Ward, Refusal> {
    parse_by(every_edition, file)
}

pub fn parse_by(layout: Layout, file: &[u8]) -> Result<Ward, Refusal> {
    let mut numbers = Vec::new();
    let mut place = 0;
    while let Some(field) = layout(&numbers) {
        let read = decode(file, place).and_then(|(number, length)| {
            judge(number, &field)?;
            Ok((number, length))
        });
        match read {
            Err(question) => return refusal(question, place),
            Ok((number, length)) => {
                numbers.push(number);
                place += length;
            }
        }
    }
    if place < file.len() {
        return refusal(5, place);
    }
    Ok(structure(numbers))
}

/// The writer: 1, 3, 4 and 5 on indexes, then 6.
/// `numbers` is the whole array; `count` may be anything.
pub fn write(numbers: &[u64], count: u64, buffer_len: usize) -> Result<Vec<u8>, Refusal> {
    write_by(every_edition, numbers, count, buffer_len)
}

pub fn write_by(
    layout: Layout,
    numbers: &[u64],
    count: u64,
    buffer_len: usize,
) -> Result<Vec<u8>, Refusal> {
    let mut at = 0;
    while let Some(field) = layout(&numbers[..at]) {
        if at as u64 >= count {
            return refusal(1, at);
        }
        if let Err(question) = judge(numbers[at], &field) {
            return refusal(question, at);
        }
        at += 1;
    }
    if count > at as u64 {
        return refusal(5, at);
    }
    let bytes: Vec<u8> = numbers[..at].iter().flat_map(|&number| encode(number)).collect();
    if bytes.len() > buffer_len {
        return refusal(6, 0);
    }
    Ok(bytes)
}

/// The reader's record: the numbers in their places, 0 after them, and their count.
pub fn padded(ward: &Ward) -> (Vec<u64>, u64) {
    let mut numbers = ward.numbers.clone();
    numbers.resize(NUMBER_PLACES, 0);
    (numbers, ward.numbers.len() as u64)
}

fn structure(numbers: Vec<u64>) -> Ward {
    let old = old_numbers(&numbers);
    let (m, n, r) = (old[0] as usize, old[1] as usize, old[2] as usize);
    let (per_nurse, per_day) = (11 + n, 2 + 4 * r);
    let groups_at = HEADER + m * per_nurse;
    let days_at = groups_at + r;
    Ward {
        nurse_count: m,
        day_count: n,
        group_count: r,
        most_nights: old[3],
        longest_night_run: old[4],
        gaps: [old[5], old[6], old[7]],
        tabu_length: old[8] as usize,
        longest_day_run: old[9] as usize,
        // "counts other duty with day duty in the longest run D" (document 02, job 1)
        run_duties: vec![Duty::Day, Duty::Other],
        night_weights: weights(&old[10..13]),
        day_weights: weights(&old[13..16]),
        nurses: old[HEADER..groups_at].chunks(per_nurse).map(nurse).collect(),
        groups: old[groups_at..days_at].to_vec(),
        days: old[days_at..].chunks(per_day).take(n).map(day).collect(),
        pairs: pairs_of(pairs_part(old).get(1..).unwrap_or(&[])),
        // "being O or R under mark 0, 1, 5 or 6" (document 02, job 2)
        pair_marks: vec![0, 1, 5, 6],
        pair_states: vec![State::Open, State::OwedRest],
        numbers,
    }
}

fn weights(part: &[u64]) -> Weights {
    Weights { w: part[0], u: part[1], v: part[2] }
}

fn nurse(part: &[u64]) -> Nurse {
    let mut before = [0; 7];
    before.copy_from_slice(&part[..7]);
    Nurse {
        before,
        least_nights: part[7],
        most_nights: part[8],
        least_rests: part[9],
        most_rests: part[10],
        marks: part[11..].to_vec(),
    }
}

fn day(part: &[u64]) -> Day {
    Day { night: demand(part[0], &part[2..], 0), day: demand(part[1], &part[2..], 2) }
}

/// Of each group's four bounds the two that begin at `first`.
fn demand(need: u64, groups: &[u64], first: usize) -> Demand {
    let bounds = |g: &[u64]| Bounds { low: g[first], high: g[first + 1] };
    Demand { need, bounds: groups.chunks(4).map(bounds).collect() }
}
