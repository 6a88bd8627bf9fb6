//! One call on all sides in turn: the planner first, then the baseline. What both give is asserted
//! to be the same; what only the planner gives is not looked at.

use crate::baseline::{self, Advanced, Baseline};
use crate::subjects::{Subject, PLACES};
use compare::calls::*;
use compare::case::{make, Case, Left};
use compare::words::{FLAGS, FRESH};
use std::hint::black_box;
use std::time::{Duration, Instant};

/// The planner's time, then each baseline's.
pub type Times = Vec<Duration>;

const BASELINES: [Baseline; 2] = [Baseline::ListsKept, Baseline::SameTables];

pub struct Sides<'a> {
    pub planner: &'a dyn Calls,
    pub subject: &'a Subject,
}

impl Sides<'_> {
    pub fn read(&self) -> Times {
        let file = self.subject.file;
        let lent = (Box::new([u64::MAX; baseline::NUMBERS]), 0);
        let case = Case::Read { file: file.to_vec() };
        let read = |(numbers, count): &mut (Box<_>, usize)| {
            *count = baseline::read(file, numbers).expect("no refusal");
        };
        self.both(&case, &lent, &[&read], |left, (numbers, count)| {
            left.answer()[COUNT] == *count as u64 && left.numbers.part().starts_with(&numbers[..])
        })
    }

    pub fn write(&self) -> Times {
        let room = self.subject.file.len();
        let (mut numbers, mut lent) = ([0; baseline::NUMBERS], Box::new([0; NUMBERS]));
        let count = baseline::read(self.subject.file, &mut numbers).expect("no refusal");
        lent[..count].copy_from_slice(&numbers[..count]);
        let count = count as u64;
        let case = Case::Write { numbers: lent, count, room };
        let write = |bytes: &mut Vec<u8>| {
            baseline::write(&numbers, count, bytes).expect("no refusal");
        };
        self.both(&case, &vec![0; room], &[&write], |left, bytes| left.bytes.part() == bytes)
    }

    pub fn nights(&self, k: u32) -> Times {
        let (file, ask) = (self.subject.file, Ask::plain(k));
        let case = Case::Nights { file: file.to_vec(), record: FRESH, ask, places: PLACES };
        let [kept, same] = BASELINES.map(|baseline| {
            move |given: &mut Option<Advanced>| {
                *given = Some(baseline.by_night(file, k, PLACES).expect("no refusal"));
            }
        });
        self.both(&case, &None, &[&kept, &same], same_advance)
    }

    pub fn days(&self, nights: &[u32], k: u32) -> Times {
        let (file, ask) = (self.subject.file, Ask::plain(k));
        let mut lent = [0; NIGHTS];
        lent[..nights.len()].copy_from_slice(nights);
        let case =
            Case::Days { file: file.to_vec(), nights: lent, record: FRESH, ask, places: PLACES };
        let [kept, same] = BASELINES.map(|baseline| {
            move |given: &mut Option<Advanced>| {
                *given = Some(baseline.by_day(file, nights, k, PLACES).expect("no refusal"));
            }
        });
        self.both(&case, &None, &[&kept, &same], same_advance)
    }

    pub fn check(&self, roster: &[u8]) -> Times {
        let file = self.subject.file;
        let case = Case::Check { file: file.to_vec(), roster: roster.to_vec() };
        let check = |outcome: &mut u64| {
            let yes = baseline::check(file, roster).expect("no refusal");
            *outcome = if yes { YES } else { NO };
        };
        self.both(&case, &0, &[&check], |left, outcome| left.answer()[OUTCOME] == *outcome)
    }

    /// Memory is lent to each baseline before the clock starts, as to the planner.
    fn both<T: Clone>(
        &self,
        case: &Case,
        lent: &T,
        baselines: &[&dyn Fn(&mut T)],
        same: impl Fn(&Left, &T) -> bool,
    ) -> Times {
        let (left, time) = make(self.planner, case);
        assert_eq!(left.answer()[QUESTION], 0, "refused: {case:?}");
        let mut times = vec![time];
        for baseline in baselines {
            let mut given = lent.clone();
            let begin = Instant::now();
            baseline(&mut given);
            times.push(begin.elapsed());
            assert!(same(&left, &black_box(given)), "other answers: {case:?}");
        }
        times
    }
}

fn same_advance(left: &Left, given: &Option<Advanced>) -> bool {
    let Some((done, list)) = given else {
        return false;
    };
    let (answer, record) = (left.answer(), left.record());
    let in_use = |i: usize| (record[FLAGS + i] != 0).then_some(record[i]);
    answer[OUTCOME] == done.end as u64
        && answer[STEPS] == u64::from(done.steps)
        && answer[PENALTY] == done.penalty as u64
        && (0..done.in_use.len()).all(|i| in_use(i) == done.in_use[i])
        && left.buffer.part().starts_with(list)
        && answer[COUNT] == done.roster.len() as u64
        && left.letters.part().starts_with(&done.roster)
}
