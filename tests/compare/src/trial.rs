//! One side tried against the other, call by call, and the count of what was compared.

use crate::calls::*;
use crate::case::{make, Case, Left};
use std::collections::BTreeMap;
use std::fmt::Write;
use std::time::Duration;

/// After so many differences the rest is not worth the time.
const ENOUGH: usize = 5;

pub struct Trial<'a> {
    tested: &'a dyn Calls,
    expected: &'a dyn Calls,
    /// by call and kind of input: how many, and the tested side's slowest
    kinds: BTreeMap<(&'static str, &'static str), (u64, Duration)>,
    /// by call and answer
    answers: BTreeMap<(&'static str, String), u64>,
    pub differences: Vec<String>,
    /// where a difference can be found again
    pub at: String,
}

impl<'a> Trial<'a> {
    pub fn new(tested: &'a dyn Calls, expected: &'a dyn Calls) -> Self {
        Trial {
            tested,
            expected,
            kinds: BTreeMap::new(),
            answers: BTreeMap::new(),
            differences: Vec::new(),
            at: String::new(),
        }
    }

    pub fn enough(&self) -> bool {
        self.differences.len() >= ENOUGH
    }

    /// Makes the call on both sides: what the expected side leaves.
    pub fn compare(&mut self, kind: &'static str, case: &Case) -> Left {
        self.compare_with(self.expected, kind, case)
    }

    /// The same with another expected side.
    pub fn compare_with(&mut self, expected: &dyn Calls, kind: &'static str, case: &Case) -> Left {
        let (wanted, _) = make(expected, case);
        let (left, time) = make(self.tested, case);
        self.count(kind, case.call(), &wanted.answer(), time);
        self.note(kind, case, &left, &wanted);
        wanted
    }

    /// Notes a difference, if there is one.
    fn note(&mut self, kind: &str, case: &Case, left: &Left, wanted: &Left) {
        if left != wanted {
            self.differences.push(format!(
                "{} {}, {}: {}\n{}",
                case.call(),
                kind,
                self.at,
                differing(left, wanted),
                short(case)
            ));
        }
    }

    /// Makes two calls on the tested side alone, which must leave the same: what they leave.
    pub fn same(&mut self, kind: &'static str, case: &Case, other: &Case) -> [Left; 2] {
        let [(left, time), (wanted, _)] = [case, other].map(|case| make(self.tested, case));
        self.count(kind, case.call(), &wanted.answer(), time);
        self.note(kind, case, &left, &wanted);
        [left, wanted]
    }

    /// Makes the call on the tested side alone, where nothing is to be compared yet.
    pub fn alone(&self, case: &Case) -> Left {
        make(self.tested, case).0
    }

    fn count(&mut self, kind: &'static str, call: &'static str, answer: &Answer, time: Duration) {
        let (count, slowest) = self.kinds.entry((call, kind)).or_default();
        *count += 1;
        *slowest = time.max(*slowest);
        *self.answers.entry((call, named(call, answer))).or_default() += 1;
    }

    /// How often a call was answered so, on the expected side where there is one.
    pub fn answered(&self, call: &'static str, answer: &str) -> u64 {
        self.answers.get(&(call, answer.to_string())).copied().unwrap_or(0)
    }

    pub fn table(&self) -> String {
        let mut text =
            String::from("| call | input | compared | slowest, ms |\n|---|---|---|---|\n");
        for ((call, kind), (count, slowest)) in &self.kinds {
            let _ = writeln!(text, "| {call} | {kind} | {count} | {:.3} |", milliseconds(*slowest));
        }
        text += "\n| call | answer | times |\n|---|---|---|\n";
        for ((call, answer), count) in &self.answers {
            let _ = writeln!(text, "| {call} | {answer} | {count} |");
        }
        let all: u64 = self.kinds.values().map(|kind| kind.0).sum();
        let slowest = self.kinds.values().map(|kind| kind.1).max().unwrap_or_default();
        let _ = writeln!(
            text,
            "\n{all} calls compared, {} differences, slowest call {:.3} ms",
            self.differences.len(),
            milliseconds(slowest)
        );
        text
    }
}

fn milliseconds(time: Duration) -> f64 {
    time.as_secs_f64() * 1000.0
}

/// The answer's name in the table.
fn named(call: &str, answer: &Answer) -> String {
    match (answer[QUESTION], call, answer[OUTCOME]) {
        (0, "check", YES) => "yes".into(),
        (0, "check", NO) => "no".into(),
        (0, _, ZERO) => ended("zero", false, answer),
        (0, _, ASKED) => ended("asked", answer[PENALTY] == 0, answer),
        (0, _, NONE) => ended("none", answer[PENALTY] == 0, answer),
        (0, _, _) => "done".into(),
        (question, _, _) => format!("refused {question}"),
    }
}

/// The end of an advance, which of those past zero came at zero, and whether a roster was given.
fn ended(end: &str, at_zero: bool, answer: &Answer) -> String {
    let at_zero = if at_zero { " at zero" } else { "" };
    let roster = if answer[COUNT] > 0 { ", roster" } else { "" };
    format!("{end}{at_zero}{roster}")
}

/// Which memory differs, and where first.
fn differing(left: &Left, wanted: &Left) -> String {
    let parts = [
        first("answer", left.answer.part(), wanted.answer.part()),
        first("record", left.record.part(), wanted.record.part()),
        first("buffer", left.buffer.part(), wanted.buffer.part()),
        first("letters", left.letters.part(), wanted.letters.part()),
        first("numbers", left.numbers.part(), wanted.numbers.part()),
        first("bytes", left.bytes.part(), wanted.bytes.part()),
        first("storage", left.storage.part(), wanted.storage.part()),
    ];
    let parts: Vec<String> = parts.into_iter().flatten().collect();
    if parts.is_empty() {
        return "memory that was not lent, or lent to be read only, is written".into();
    }
    parts.join("; ")
}

fn first<T: PartialEq + std::fmt::Debug>(name: &str, left: &[T], wanted: &[T]) -> Option<String> {
    let at = (0..wanted.len()).find(|&at| left[at] != wanted[at])?;
    Some(format!("{name}[{at}] is {:?}, expected {:?}", left[at], wanted[at]))
}

/// The case in a form that can be pasted into a test, if it is not too long.
fn short(case: &Case) -> String {
    let mut text = format!("{case:?}");
    text.truncate(6_000);
    text
}
