//! Ward files that are damaged, each in one way.

use reference::samples::{file_of, random_pairs, with_pairs, Dice};
use reference::ward::{encode, old_numbers, pairs_part};

/// A file that is not the one these numbers make, and how it was damaged.
pub fn damaged(dice: &mut Dice, numbers: &[u64]) -> (&'static str, Vec<u8>) {
    let mut file = file_of(numbers);
    let at = dice.index(file.len());
    match dice.upto(12) {
        0 => {
            file.truncate(at);
            ("cut", file)
        }
        1 => {
            file.extend(random_bytes(dice, 9));
            ("extended", file)
        }
        2 => ("number not in shortest form", with_bytes(dice, numbers, longer_form)),
        3 => ("number of too many groups", with_bytes(dice, numbers, |d, _| endless(d))),
        4 => {
            file[at] = dice.upto(255) as u8;
            ("one byte changed", file)
        }
        5 => {
            file[at] ^= 1 << dice.upto(7);
            ("one bit changed", file)
        }
        6 => ("one number changed", with_bytes(dice, numbers, |d, old| encode(changed(d, old)))),
        7 => {
            file.truncate(at);
            file.extend(endless(dice));
            ("cut, then top bits", file)
        }
        8 => ("one duty changed", file_of(&with_duty(dice, numbers))),
        9 => ("random bytes", random_bytes(dice, 60)),
        _ => {
            let (kind, numbers) = other_edition(dice, numbers);
            (kind, file_of(&numbers))
        }
    }
}

fn random_bytes(dice: &mut Dice, most: u64) -> Vec<u8> {
    let small = dice.one_in(2);
    let byte = |dice: &mut Dice| dice.upto(if small { 6 } else { 255 }) as u8;
    (0..dice.from(1, most)).map(|_| byte(dice)).collect()
}

/// One number's bytes replaced.
fn with_bytes(
    dice: &mut Dice,
    numbers: &[u64],
    replace: impl Fn(&mut Dice, u64) -> Vec<u8>,
) -> Vec<u8> {
    let at = number_index(dice, numbers);
    let mut file = file_of(&numbers[..at]);
    file.extend(replace(dice, numbers[at]));
    file.extend(file_of(&numbers[at + 1..]));
    file
}

/// Head and pairs are short: every third time a number of the head, every sixth of the last ones.
pub fn number_index(dice: &mut Dice, numbers: &[u64]) -> usize {
    match dice.upto(5) {
        0..=1 => dice.index(18),
        2 => numbers.len() - 1 - dice.index(12),
        _ => dice.index(numbers.len()),
    }
}

/// The same number with one or more empty groups after it.
fn longer_form(dice: &mut Dice, number: u64) -> Vec<u8> {
    let mut bytes = encode(number);
    for _ in 0..dice.from(1, 7) {
        *bytes.last_mut().expect("a number has a byte") |= 0x80;
        bytes.push(0);
    }
    bytes
}

/// Bytes with top bits set, around seven of them.
fn endless(dice: &mut Dice) -> Vec<u8> {
    (0..dice.from(5, 9)).map(|_| 0x80 | dice.upto(127) as u8).collect()
}

/// A number just beside the old one, at a limit of some field, or anything.
pub fn changed(dice: &mut Dice, old: u64) -> u64 {
    match dice.upto(3) {
        0 => old + 1,
        1 => old.saturating_sub(1),
        2 => dice.pick(&[0, 1, 4, 5, 6, 7, 15, 16, 31, 32, 48, 49, 64, 65, 100, 101, 127, 128]),
        _ => dice.upto((1 << 49) - 1) >> dice.upto(48),
    }
}

/// One of the seven duties of a nurse replaced by any duty.
pub fn with_duty(dice: &mut Dice, numbers: &[u64]) -> Vec<u64> {
    let old = old_numbers(numbers);
    let (m, per_nurse) = (old[0] as usize, 11 + old[1] as usize);
    let duty = 16 + dice.index(m) * per_nurse + dice.index(7);
    let mut changed = numbers.to_vec();
    changed[numbers.len() - old.len() + duty] = dice.upto(5);
    changed
}

/// The numbers of edition one, and the first days of the pairs; any for a ward of edition one.
fn parts(dice: &mut Dice, numbers: &[u64]) -> (Vec<u64>, Vec<u64>) {
    let old = old_numbers(numbers);
    let pairs = pairs_part(old);
    let first_days = pairs.get(1..).map_or_else(|| random_pairs(dice, old[1]), <[u64]>::to_vec);
    (old[..old.len() - pairs.len()].to_vec(), first_days)
}

/// A ward of edition two whose head or pairs are changed in one way, and the way.
pub fn other_edition(dice: &mut Dice, numbers: &[u64]) -> (&'static str, Vec<u64>) {
    let (old, first_days) = parts(dice, numbers);
    let good = with_pairs(&old, &first_days);
    let count = old.len() + 2;
    let mut changed = good.clone();
    let kind = match dice.upto(9) {
        0 => {
            changed[1] = dice.pick(&[0, 1, 3, 4, 5, 48, 128, 1 << 40]);
            "another edition"
        }
        1 => {
            changed.drain(..dice.from(1, 2) as usize);
            "edition two without its head"
        }
        2 => {
            changed.splice(..0, [0, 2]);
            "head twice"
        }
        3 => {
            changed.truncate(count + dice.index(first_days.len() + 1));
            "pairs cut"
        }
        4 => {
            changed.extend((0..dice.from(1, 3)).map(|_| dice.upto(31)));
            "numbers after the pairs"
        }
        5 => {
            changed[count] = other_count(dice, first_days.len() as u64, old[1]);
            "another count of pairs"
        }
        6..=8 => {
            let days = other_days(dice, &first_days, old[1]);
            changed.splice(count.., [vec![days.len() as u64], days].concat());
            "another first day"
        }
        _ => "edition two",
    };
    (kind, changed)
}

/// Beside the count, or at a limit.
fn other_count(dice: &mut Dice, count: u64, n: u64) -> u64 {
    dice.pick(&[count + 1, count.saturating_sub(1), 0, 1, n - 1, n, 10, 11, 127])
}

/// One first day replaced, added or moved: beside the one before it, or at a limit.
fn other_days(dice: &mut Dice, first_days: &[u64], n: u64) -> Vec<u64> {
    let mut days = first_days.to_vec();
    if days.is_empty() || dice.one_in(4) && days.len() < 10 {
        days.push(n - 1);
    }
    let at = dice.index(days.len());
    let before = if at == 0 { 0 } else { days[at - 1] };
    days[at] = dice.pick(&[before, before + 1, before.saturating_sub(1), n - 1, n, n + 1, 0, 31]);
    days
}
