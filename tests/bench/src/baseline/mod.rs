//! A frozen baseline of edition one: plain Rust, tuned, with nothing proved, for the ratios of
//! `docs/BENCHMARKS.md` and for nothing else. It reads, writes and checks wards of edition one, by
//! the rules in force for them, and advances fresh searches on them. It does not follow the planner:
//! later editions and calls have no place here.

mod check;
mod days;
mod kept;
mod layout;
mod nights;
mod points;
mod record;
mod same_tables;
mod search;
mod ward;

pub use check::check;
pub use layout::{read, write, NUMBERS};
pub use search::{Done, End};

use kept::Kept;
use same_tables::SameTables;
use search::Phase;
use ward::Ward;

/// A no: the question's number and its place. Questions 7 and 11 are about other records than a
/// fresh one, and are not put.
type No = (u64, u64);

/// How a step finds its exchange; all else is one code.
#[derive(Clone, Copy)]
pub enum Baseline {
    /// over lists of everyone's own patterns, kept for an advance
    ListsKept,
    /// by the tables of the proved planner, under the same memory
    SameTables,
}

/// What an advance did, and its list.
pub type Advanced = (Done, Vec<u32>);

impl Baseline {
    pub fn by_night(self, file: &[u8], k: u32, places: usize) -> Result<Advanced, No> {
        let ward = Ward::read(file)?;
        let common = nights::common(&ward, places).ok_or((9, 0))?;
        self.advance(Phase::by_night(&ward, common), k)
    }

    /// Over one night pattern for each nurse.
    pub fn by_day(
        self,
        file: &[u8],
        nights: &[u32],
        k: u32,
        places: usize,
    ) -> Result<Advanced, No> {
        let ward = Ward::read(file)?;
        if !search::nights_at_zero(&ward, nights) {
            return Err((8, 0));
        }
        let lists = days::lists(&ward, nights, places)?;
        self.advance(Phase::by_day(&ward, nights, lists), k)
    }

    fn advance(self, phase: Phase, k: u32) -> Result<Advanced, No> {
        let done = match self {
            Baseline::ListsKept => phase.advance(&Kept::of(&phase), k),
            Baseline::SameTables => phase.advance(&SameTables(&phase), k),
        }?;
        Ok((done, phase.list))
    }
}
