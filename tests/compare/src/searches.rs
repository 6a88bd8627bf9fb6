//! Either search on one ward, and what an advance of it is asked.

use crate::calls::*;
use crate::case::Case;
use crate::wards::{planned, spoiled, Planned, Size};
use crate::words::{patterns_of_nights, words_of_nights, PAIRS};
use reference::operations::SearchOf;
use reference::phase::{DayPhase, NightPhase, Phase};
use reference::samples::Dice;
use reference::{days, nights};

/// Longer lists are not built, only refused.
pub const LONGEST: usize = 120_000;

/// Half of the wards keep to their plan.
pub fn any_ward(dice: &mut Dice, size: &Size) -> Planned {
    if dice.one_in(2) {
        spoiled(dice, size)
    } else {
        planned(dice, size)
    }
}

/// An advance of either search on one ward.
pub struct Search<'a> {
    pub planned: &'a Planned,
    /// by day the choice of nights
    pub nights: Option<Nights>,
    /// places for the list or lists
    pub needed: usize,
}

impl<'a> Search<'a> {
    pub fn case(&self, record: &Words, ask: Ask, places: usize) -> Case {
        self.case_of(self.planned.file.clone(), record, ask, places)
    }

    pub fn case_of(&self, file: Vec<u8>, record: &Words, ask: Ask, places: usize) -> Case {
        match self.nights {
            None => Case::Nights { file, record: *record, ask, places },
            Some(nights) => Case::Days { file, nights, record: *record, ask, places },
        }
    }

    pub fn room(&self, dice: &mut Dice) -> usize {
        self.needed + dice.upto(3) as usize
    }

    /// The same search for the reference's histories.
    pub fn of(&self) -> SearchOf<'a> {
        let nights = self.nights.as_ref().map(patterns_of_nights);
        SearchOf { ward: &self.planned.ward, nights }
    }

    /// Can a history be followed? Only 7 and 9 may refuse an advance, and lists must be short.
    pub fn has_history(&self) -> bool {
        let ward = &self.planned.ward;
        let places = if self.nights.is_some() { 3_000 } else { LONGEST };
        if self.needed > places {
            return false;
        }
        match self.of().nights {
            None => NightPhase::open(ward, LONGEST).is_ok_and(|phase| all_have_patterns(&phase)),
            Some(nights) => {
                let phase = DayPhase::open(ward, &nights, LONGEST);
                phase.is_ok_and(|phase| all_have_patterns(&phase))
            }
        }
    }
}

fn all_have_patterns(phase: &dyn Phase) -> bool {
    (0..phase.ward().nurse_count).all(|nurse| !phase.list(nurse).is_empty())
}

pub fn by_night(planned: &Planned) -> Search<'_> {
    let needed = nights::common_count_capped(&planned.ward, LONGEST);
    Search { planned, nights: None, needed }
}

pub fn by_day<'a>(planned: &'a Planned, nights: &Nights) -> Search<'a> {
    let patterns = patterns_of_nights(nights);
    let hers = |nurse: usize| days::count(&planned.ward, nurse, patterns[nurse]) as usize;
    let needed = (0..planned.ward.nurse_count).map(hers).sum();
    Search { planned, nights: Some(*nights), needed }
}

/// By day over the planned nights.
pub fn by_planned_day<'a>(dice: &mut Dice, planned: &'a Planned) -> Search<'a> {
    by_day(planned, &nights_of(dice, planned, words_of_nights(&planned.nights)))
}

/// By night, or by day over the planned nights.
pub fn either<'a>(dice: &mut Dice, planned: &'a Planned) -> Search<'a> {
    if dice.one_in(2) {
        by_night(planned)
    } else {
        by_planned_day(dice, planned)
    }
}

/// A choice of nights; what stands after nurse m is not to be looked at.
pub fn nights_of(dice: &mut Dice, planned: &Planned, mut nights: Nights) -> Nights {
    let m = planned.ward.nurse_count;
    if dice.one_in(2) {
        for at in (m..NURSES).chain(PAIRS + m..NIGHTS) {
            nights[at] = any_word(dice);
        }
    }
    nights
}

pub fn any_word(dice: &mut Dice) -> u32 {
    dice.upto(u64::from(u32::MAX)) as u32
}

/// So many steps, past zero or not; every word but 0 says past zero.
pub fn any_ask(dice: &mut Dice, k: u64) -> Ask {
    let past = dice.one_in(3);
    let past_zero = if past { dice.pick(&[1, 1, 1, 2, 256, 1 << 31, u32::MAX]) } else { 0 };
    Ask { k: k as u32, past_zero }
}

/// An advance that was not refused and left penalty zero.
pub fn at_zero(answer: &Answer) -> bool {
    answer[QUESTION] == 0 && answer[PENALTY] == 0
}
