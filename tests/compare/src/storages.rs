//! Storage to lend: of zeros, of any content, and as strangers leave it; with room and without.

use crate::calls::{Words, ENTRY, RECORD, STORAGE};
use crate::searches::any_word;
use reference::samples::Dice;

/// A number, now and then one outside 1 to 8.
pub fn any_number(dice: &mut Dice) -> u32 {
    if dice.one_in(8) {
        dice.pick(&[0, 9, 10, 16, 256, 257, 1 << 16 | 1, 1 << 31, u32::MAX - 7, u32::MAX])
    } else {
        dice.from(1, 8) as u32
    }
}

/// Eight entries that keep nothing, and perhaps more words, which are nobody's.
pub fn of_zeros(dice: &mut Dice) -> Vec<u32> {
    let mut storage = vec![0; STORAGE];
    let more = dice.pick(&[0, 0, 1, ENTRY, 1_000]);
    storage.extend((0..more).map(|_| any_word(dice)));
    storage
}

/// So many words that there is no room, often nearly.
pub fn too_few(dice: &mut Dice) -> usize {
    let any = dice.index(STORAGE);
    dice.pick(&[0, 1, ENTRY, 7 * ENTRY, 8 * RECORD, STORAGE - 1, any, any])
}

/// One word too few, exactly enough, more.
fn any_length(dice: &mut Dice) -> usize {
    match dice.upto(7) {
        0 | 1 => too_few(dice),
        2 | 3 => dice.pick(&[STORAGE + 1, STORAGE + ENTRY - 1, STORAGE + ENTRY, 5_000]),
        _ => STORAGE,
    }
}

/// Storage of any length, and what stands in it.
pub fn any(dice: &mut Dice, records: &[Words]) -> (&'static str, Vec<u32>) {
    let (kind, mut storage) = with_room(dice, records);
    let length = any_length(dice);
    storage.resize_with(length, || any_word(dice));
    (kind, storage)
}

/// Storage with room, and what stands in it.
pub fn with_room(dice: &mut Dice, records: &[Words]) -> (&'static str, Vec<u32>) {
    match dice.upto(2) {
        0 => ("storage of zeros", of_zeros(dice)),
        1 => ("storage of any content", (0..STORAGE).map(|_| any_word(dice)).collect()),
        _ => ("a stranger's storage", (0..8).flat_map(|_| strange_entry(dice, records)).collect()),
    }
}

/// A first word of any kind, with a record of any kind.
fn strange_entry(dice: &mut Dice, records: &[Words]) -> Vec<u32> {
    let first = dice.pick(&[0, 1, 2, 256, 1 << 31, u32::MAX]);
    let record = dice.pick(records);
    [&[first], &record[..]].concat()
}
