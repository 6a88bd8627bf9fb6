//! The ward file: one walk over the layout, for reader and writer.

use super::No;

/// Most numbers of a ward.
pub const NUMBERS: usize = 4094;

/// Where the numbers come from, one after the other.
trait Source {
    /// The next number and its place.
    fn next(&mut self) -> Result<(u64, u64), No>;
    /// Question 5.
    fn end(&self) -> Result<(), No>;

    fn within(&mut self, least: u64, most: u64) -> Result<u64, No> {
        let (number, place) = self.next()?;
        if number < least || number > most {
            return Err((3, place));
        }
        Ok(number)
    }

    fn pair(&mut self, most: u64) -> Result<(), No> {
        let least = self.within(0, most)?;
        self.within(least, most)?;
        Ok(())
    }

    /// A duty that fits the one before it.
    fn duty(&mut self, before: u64) -> Result<u64, No> {
        let (duty, place) = self.next()?;
        if duty > 4 {
            return Err((3, place));
        }
        if (before == 2) != (duty == 3) {
            return Err((4, place));
        }
        Ok(duty)
    }
}

const HEAD: [(u64, u64); 13] = [
    (0, 15), // V
    (1, 3),  // L
    (1, 5),
    (1, 5),
    (1, 5),
    (0, 64), // TL
    (1, 6),  // D
    (1, 100),
    (1, 100),
    (1, 100),
    (1, 100),
    (1, 100),
    (1, 100),
];

fn walk(source: &mut impl Source) -> Result<(), No> {
    let (m, n, r) = (source.within(1, 48)?, source.within(1, 31)?, source.within(0, 16)?);
    for (least, most) in HEAD {
        source.within(least, most)?;
    }
    for _ in 0..m {
        let mut before = source.within(0, 4)?;
        for _ in 1..7 {
            before = source.duty(before)?;
        }
        source.pair(15)?;
        source.pair(31)?;
        for _ in 0..n {
            source.within(0, 6)?;
        }
    }
    for _ in 0..r {
        source.within(1, (1 << m) - 1)?;
    }
    for _ in 0..n {
        source.within(0, 48)?;
        source.within(0, 48)?;
        for _ in 0..2 * r {
            source.pair(48)?;
        }
    }
    source.end()
}

struct Bytes<'a> {
    file: &'a [u8],
    at: usize,
    numbers: Vec<u64>,
}

impl Source for Bytes<'_> {
    fn next(&mut self) -> Result<(u64, u64), No> {
        let place = self.at as u64;
        let mut number = 0;
        for group in 0..7 {
            let &byte = self.file.get(self.at).ok_or((1, place))?;
            self.at += 1;
            number |= u64::from(byte & 0x7f) << (7 * group);
            if byte < 0x80 {
                if byte == 0 && group > 0 {
                    break;
                }
                self.numbers.push(number);
                return Ok((number, place));
            }
        }
        Err((2, place))
    }

    fn end(&self) -> Result<(), No> {
        if self.at < self.file.len() {
            return Err((5, self.at as u64));
        }
        Ok(())
    }
}

/// The numbers of a file.
pub fn numbers(file: &[u8]) -> Result<Vec<u64>, No> {
    let mut bytes = Bytes { file, at: 0, numbers: Vec::with_capacity(NUMBERS) };
    walk(&mut bytes)?;
    Ok(bytes.numbers)
}

/// How many they are; they are left in all places, with zeros after them.
pub fn read(file: &[u8], places: &mut [u64; NUMBERS]) -> Result<usize, No> {
    let numbers = numbers(file)?;
    places[..numbers.len()].copy_from_slice(&numbers);
    places[numbers.len()..].fill(0);
    Ok(numbers.len())
}

struct Counted<'a> {
    numbers: &'a [u64],
    count: u64,
    at: usize,
    bytes: usize,
}

impl Source for Counted<'_> {
    fn next(&mut self) -> Result<(u64, u64), No> {
        let place = self.at as u64;
        if place >= self.count {
            return Err((1, place));
        }
        let number = self.numbers[self.at];
        self.at += 1;
        self.bytes += length(number);
        Ok((number, place))
    }

    fn end(&self) -> Result<(), No> {
        if self.count > self.at as u64 {
            return Err((5, self.at as u64));
        }
        Ok(())
    }
}

/// Groups of seven bits.
fn length(number: u64) -> usize {
    let bits = 64 - (number | 1).leading_zeros() as usize;
    bits.div_ceil(7)
}

/// The bytes written.
pub fn write(numbers: &[u64], count: u64, buffer: &mut [u8]) -> Result<usize, No> {
    let mut counted = Counted { numbers, count, at: 0, bytes: 0 };
    walk(&mut counted)?;
    if counted.bytes > buffer.len() {
        return Err((6, 0));
    }
    let mut at = 0;
    for &number in &numbers[..counted.at] {
        let mut left = number;
        while left >= 0x80 {
            buffer[at] = left as u8 | 0x80;
            left >>= 7;
            at += 1;
        }
        buffer[at] = left as u8;
        at += 1;
    }
    Ok(at)
}
