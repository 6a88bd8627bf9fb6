//! What the night and the day search have in common, and where they differ.

use crate::pairs::{self, Pattern};
use crate::penalty::{self, OnDuty, Penalty, Search};
use crate::ward::{refusal, Refusal, Ward};
use crate::{days, nights, rows};

/// How an advance ended.
#[derive(Clone, Copy, Debug, PartialEq, Eq)]
pub enum End {
    Zero,
    Asked,
    None,
}

/// One search over one ward, with everyone's list.
pub trait Phase {
    fn ward(&self) -> &Ward;
    fn search(&self) -> Search;
    /// her patterns, ascending
    fn list(&self, nurse: usize) -> &[Pattern];
    /// is it one of her patterns? Any may be asked
    fn hers(&self, nurse: usize, pattern: Pattern) -> bool;
    fn on_duty(&self, nurse: usize, in_use: Option<Pattern>) -> OnDuty;
    /// counted afresh
    fn penalty(&self, in_use: &[Option<Pattern>]) -> Penalty;
    /// what the advance writes into the buffer, from its start
    fn buffer(&self) -> Vec<u32>;
    /// the roster of an advance that leaves penalty zero, by day only
    fn roster(&self, in_use: &[Option<Pattern>]) -> Option<Vec<u8>>;
}

/// Question 7.
pub fn ask_steps(steps_so_far: u64, k: u64) -> Result<(), Refusal> {
    if k > 10_000 || steps_so_far + k > 1_000_000 {
        return refusal(7, 0);
    }
    Ok(())
}

pub struct NightPhase<'a> {
    ward: &'a Ward,
    common: Vec<u32>,
    lists: Vec<Vec<Pattern>>,
}

impl<'a> NightPhase<'a> {
    /// Question 9 at night.
    pub fn open(ward: &'a Ward, places: usize) -> Result<Self, Refusal> {
        let common = match nights::common_capped(ward, places) {
            None => return refusal(9, 0),
            Some(list) => list,
        };
        let lists =
            (0..ward.nurse_count).map(|nurse| pairs::her_list(ward, nurse, &common)).collect();
        Ok(NightPhase { ward, common, lists })
    }
}

impl Phase for NightPhase<'_> {
    fn ward(&self) -> &Ward {
        self.ward
    }
    fn search(&self) -> Search {
        Search::Night
    }
    fn list(&self, nurse: usize) -> &[Pattern] {
        &self.lists[nurse]
    }
    fn hers(&self, nurse: usize, pattern: Pattern) -> bool {
        pairs::hers(self.ward, nurse, pattern)
    }
    fn on_duty(&self, nurse: usize, in_use: Option<Pattern>) -> OnDuty {
        penalty::on_duty_by_night(self.ward, nurse, in_use)
    }
    fn penalty(&self, in_use: &[Option<Pattern>]) -> Penalty {
        penalty::night(self.ward, in_use)
    }
    fn buffer(&self) -> Vec<u32> {
        self.common.clone()
    }
    fn roster(&self, _in_use: &[Option<Pattern>]) -> Option<Vec<u8>> {
        None
    }
}

pub struct DayPhase<'a> {
    ward: &'a Ward,
    nights: Vec<Pattern>,
    lists: Vec<Vec<Pattern>>,
}

impl<'a> DayPhase<'a> {
    /// Questions 8 and 9 by day. Entries after nurse m are not looked at.
    pub fn open(ward: &'a Ward, nights: &[Pattern], places: usize) -> Result<Self, Refusal> {
        ask_nights(ward, nights)?;
        DayPhase::over(ward, nights, places)
    }

    /// Question 9 by day.
    pub fn over(ward: &'a Ward, nights: &[Pattern], places: usize) -> Result<Self, Refusal> {
        let nights = nights[..ward.nurse_count].to_vec();
        let mut room = places;
        let mut lists = Vec::new();
        for (nurse, &night) in nights.iter().enumerate() {
            match days::list_capped(ward, nurse, night, room) {
                None => return refusal(9, nurse + 1),
                Some(list) => {
                    room -= list.len();
                    lists.push(list.into_iter().map(Pattern::from).collect());
                }
            }
        }
        Ok(DayPhase { ward, nights, lists })
    }
}

/// Question 8: each night pattern hers, with its pair, at night penalty 0.
pub fn ask_nights(ward: &Ward, nights: &[Pattern]) -> Result<(), Refusal> {
    let all_hers = (0..ward.nurse_count).all(|nurse| pairs::hers(ward, nurse, nights[nurse]));
    let in_use: Vec<Option<Pattern>> = nights.iter().map(|&pattern| Some(pattern)).collect();
    if !all_hers || penalty::night(ward, &in_use).total() != 0 {
        return refusal(8, 0);
    }
    Ok(())
}

impl Phase for DayPhase<'_> {
    fn ward(&self) -> &Ward {
        self.ward
    }
    fn search(&self) -> Search {
        Search::Day
    }
    fn list(&self, nurse: usize) -> &[Pattern] {
        &self.lists[nurse]
    }
    fn hers(&self, nurse: usize, pattern: Pattern) -> bool {
        pattern.pair == 0 && days::hers(self.ward, nurse, self.nights[nurse], pattern.days)
    }
    fn on_duty(&self, nurse: usize, in_use: Option<Pattern>) -> OnDuty {
        penalty::on_duty_by_day(self.ward, nurse, self.nights[nurse], in_use)
    }
    fn penalty(&self, in_use: &[Option<Pattern>]) -> Penalty {
        penalty::day(self.ward, &self.nights, in_use)
    }
    fn buffer(&self) -> Vec<u32> {
        self.lists.concat().iter().map(|pattern| pattern.days).collect()
    }
    /// "The roster that its nights and days make": row after row.
    fn roster(&self, in_use: &[Option<Pattern>]) -> Option<Vec<u8>> {
        if self.penalty(in_use).total() != 0 {
            return None;
        }
        let row = |nurse: usize| {
            let night = self.nights[nurse].days;
            in_use[nurse].map(|worked| rows::letters(self.ward, nurse, night, worked.days))
        };
        let all: Option<Vec<Vec<u8>>> = (0..self.ward.nurse_count).map(row).collect();
        all.map(|rows| rows.concat())
    }
}
