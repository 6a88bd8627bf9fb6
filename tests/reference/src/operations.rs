//! Lists of advances, keepings and returns (document 02, job 3), by histories alone: no record and
//! no storage.

use crate::history::{self, Answer, Call, History};
use crate::keeping::{Entry, Kept};
use crate::pairs::Pattern;
use crate::ward::{Refusal, Ward};

/// A search: a ward and, by day, one choice of nights.
#[derive(Clone)]
pub struct SearchOf<'a> {
    pub ward: &'a Ward,
    pub nights: Option<Vec<Pattern>>,
}

impl SearchOf<'_> {
    fn advance(&self, history: &mut History, call: Call) -> Result<Answer, Refusal> {
        match &self.nights {
            None => history::advance_night(self.ward, history, call),
            Some(nights) => history::advance_day(self.ward, nights, history, call),
        }
    }
}

#[derive(Clone, Copy, Debug, PartialEq, Eq)]
pub enum Operation {
    Advance(Call),
    Keep(Entry),
    Return(Entry),
}

/// An advance has an answer; a keeping or a return says only that it was done.
pub type Answered = Result<Option<Answer>, Refusal>;

/// Searches from fresh that share one storage, of zeros at first.
pub struct Session<'a> {
    pub searches: Vec<SearchOf<'a>>,
    /// of each search
    pub histories: Vec<History>,
    /// each with its search
    kept: Kept<(usize, History)>,
}

impl<'a> Session<'a> {
    pub fn new(searches: Vec<SearchOf<'a>>) -> Session<'a> {
        let histories = searches.iter().map(|_| History::new()).collect();
        Session { searches, histories, kept: Kept::nothing() }
    }

    /// The search whose history is kept under this number, if any is.
    pub fn keeper(&self, number: u64) -> Option<usize> {
        self.kept.bring_back(Entry::under(number)).ok().map(|(search, _)| search)
    }

    /// One operation of a search. After a return the search "goes as it would have gone from the
    /// moment of keeping": its history is what it was then. Only its own is returned to it.
    pub fn act(&mut self, search: usize, operation: Operation) -> Answered {
        let history = &mut self.histories[search];
        match operation {
            Operation::Advance(call) => {
                return self.searches[search].advance(history, call).map(Some);
            }
            Operation::Keep(entry) => self.kept.keep(entry, (search, history.clone()))?,
            Operation::Return(entry) => {
                let (keeper, kept) = self.kept.bring_back(entry)?;
                assert_eq!(keeper, search, "a history of another search");
                *history = kept;
            }
        }
        Ok(None)
    }
}

/// The answers of a list of operations of one search, with the history that it leaves.
pub fn all(search: SearchOf, operations: &[Operation]) -> (Vec<Answered>, History) {
    let mut session = Session::new(vec![search]);
    let answers = operations.iter().map(|&operation| session.act(0, operation)).collect();
    (answers, session.histories.swap_remove(0))
}
