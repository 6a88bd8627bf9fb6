//! Edition two (document 02, job 2): its layout, its pairs, and their words in a record.

use crate::faulty::{Fault, Named};
use compare::calls::NURSES;
use compare::words::{removal_at, FLAGS, PAIRS, REMOVAL, REMOVALS, STEPS_AT};
use reference::pairs::Pair;
use reference::record::MOST_REMOVALS;
use reference::rows::State;
use reference::ward::{edition_one, every_edition, pairs_part, Field, Ward};

/// The layout with the field of the pairs changed, by the numbers of the pairs already read.
fn with_pair_field(read: &[u64], change: fn(&mut Field, &[u64], u64)) -> Option<Field> {
    let mut field = every_edition(read)?;
    if let [0, 2, old @ ..] = read {
        if edition_one(old).is_none() {
            change(&mut field, pairs_part(old), old[1]);
        }
    }
    Some(field)
}

pub fn layout_faults() -> Vec<Named> {
    use Fault::Layout;
    vec![
        ("edition two refused", Layout(edition_one)),
        (
            "edition three read as two",
            Layout(|read| {
                let mut field = every_edition(read)?;
                if read == [0] {
                    field.most = 3;
                }
                Some(field)
            }),
        ),
        (
            "a first day may be the one before",
            Layout(|read| {
                with_pair_field(read, |f, pairs, _| f.least -= u64::from(pairs.len() > 1))
            }),
        ),
        (
            "a first day may be 0",
            Layout(|read| {
                with_pair_field(read, |f, pairs, _| f.least -= u64::from(pairs.len() == 1))
            }),
        ),
        (
            "a first day may be n",
            Layout(|read| {
                with_pair_field(read, |f, pairs, _| f.most += u64::from(!pairs.is_empty()))
            }),
        ),
        (
            "a first day need not be above the one before",
            Layout(|read| {
                with_pair_field(read, |f, pairs, _| f.least = u64::from(!pairs.is_empty()))
            }),
        ),
        (
            "eleven pairs",
            Layout(|read| {
                with_pair_field(read, |f, pairs, n| f.most += u64::from(pairs.is_empty() && n > 1))
            }),
        ),
        (
            "a pair in a month of one day",
            Layout(|read| {
                with_pair_field(read, |f, pairs, n| f.most += u64::from(pairs.is_empty() && n == 1))
            }),
        ),
        (
            "more pairs than days refused at the count",
            Layout(|read| {
                with_pair_field(read, |f, pairs, n| {
                    f.most = if pairs.is_empty() { f.most.min(n - 1) } else { f.most }
                })
            }),
        ),
    ]
}

pub fn pair_faults() -> Vec<Named> {
    use Fault::{FreeByDay, FreeByNight, Ward, WardOfCheck};
    vec![
        ("a pair's second day forgotten", Ward(first_days_only)),
        ("a pair's first day forgotten", Ward(|w| each_pair(w, |p| p.days &= p.days << 1))),
        ("pairs from 0 to the last but one", Ward(pairs_from_0)),
        ("pair numbers from 0", Ward(|w| each_pair(w, |p| p.number -= 1))),
        ("the last pair forgotten", Ward(|w| w.pairs.truncate(w.pairs.len().max(2) - 1))),
        ("no pair may be had too", Ward(|w| w.pairs.insert(0, Pair { number: 0, days: 0 }))),
        ("mark 0 bars a pair", Ward(|w| w.pair_marks.retain(|&mark| mark != 0))),
        ("mark 1 bars a pair", Ward(|w| w.pair_marks.retain(|&mark| mark != 1))),
        ("mark 5 bars a pair", Ward(|w| w.pair_marks.retain(|&mark| mark != 5))),
        ("mark 6 bars a pair", Ward(|w| w.pair_marks.retain(|&mark| mark != 6))),
        ("mark 2 allows a pair", Ward(|w| w.pair_marks.push(2))),
        ("mark 4 allows a pair", Ward(|w| w.pair_marks.push(4))),
        ("owed rest bars a pair", Ward(|w| w.pair_states = vec![State::Open])),
        ("a night's second day allows a pair", Ward(|w| w.pair_states.push(State::Second))),
        ("a pair's days available by night", FreeByNight),
        ("a pair's days available by day", FreeByDay),
        ("the check ignores pairs", WardOfCheck(|w| w.pairs = vec![Pair { number: 0, days: 0 }])),
        ("the check forgets a pair's second day", WardOfCheck(first_days_only)),
    ]
}

/// Pairs with a number; a ward without pairs has none.
fn each_pair(ward: &mut Ward, change: fn(&mut Pair)) {
    ward.pairs.iter_mut().filter(|pair| pair.number > 0).for_each(change);
}

fn first_days_only(ward: &mut Ward) {
    each_pair(ward, |pair| pair.days &= !(pair.days << 1));
}

fn pairs_from_0(ward: &mut Ward) {
    ward.pairs.insert(0, Pair { number: 0, days: 0 });
    ward.pairs.pop();
}

/// Fields that question 11 must look at, and does not.
pub fn record_faults() -> Vec<Named> {
    use Fault::Record;
    vec![
        (
            "an unplaced nurse's pair not looked at",
            Record(|words| {
                for nurse in 0..NURSES {
                    words[PAIRS + nurse] *= u32::from(words[FLAGS + nurse] != 0);
                }
            }),
        ),
        (
            "the pair of a removal without a pattern not looked at",
            Record(|words| {
                for removal in words[REMOVALS..STEPS_AT].chunks_mut(REMOVAL) {
                    removal[3] *= u32::from(removal[1] != 0);
                }
            }),
        ),
        ("pairs not read", Record(|words| words[PAIRS..FLAGS].fill(0))),
        (
            "removals' pairs not read",
            Record(|words| {
                (0..MOST_REMOVALS).for_each(|place| words[removal_at(place) + 3] = 0);
            }),
        ),
    ]
}
