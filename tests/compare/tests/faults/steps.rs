//! Steps chosen otherwise.

use crate::faulty::{Fault, Named};
use reference::pairs::Pattern;
use reference::phase::Phase;
use reference::record::Record;
use reference::tally::Exchange;

/// The least exchange by another order and other bars.
fn choose(
    phase: &dyn Phase,
    record: &Record,
    better: fn(&Exchange, &Exchange) -> bool,
    barred: &dyn Fn(usize, Pattern) -> bool,
) -> Option<Exchange> {
    let in_use = record.all_in_use(phase.ward());
    let mut best: Option<Exchange> = None;
    for nurse in 0..phase.ward().nurse_count {
        for &pattern in phase.list(nurse).iter().filter(|&&pattern| !barred(nurse, pattern)) {
            let mut after = in_use.clone();
            after[nurse] = Some(pattern);
            let exchange = Exchange { nurse, pattern, penalty: phase.penalty(&after).total() };
            if best.is_none_or(|best| better(&exchange, &best)) {
                best = Some(exchange);
            }
        }
    }
    best
}

fn less(a: &Exchange, b: &Exchange) -> bool {
    a.penalty < b.penalty
}

/// As document 01 bars.
fn bars(record: &Record) -> impl Fn(usize, Pattern) -> bool + '_ {
    |nurse, pattern| record.barred(nurse).contains(&pattern)
}

pub fn right(phase: &dyn Phase, record: &Record) -> Option<Exchange> {
    choose(phase, record, less, &bars(record))
}

fn ties_to_the_last(phase: &dyn Phase, record: &Record) -> Option<Exchange> {
    choose(phase, record, |a, b| a.penalty <= b.penalty, &bars(record))
}

fn ties_to_the_highest_number(phase: &dyn Phase, record: &Record) -> Option<Exchange> {
    let better = |a: &Exchange, b: &Exchange| {
        a.penalty < b.penalty || a.penalty == b.penalty && a.nurse == b.nurse
    };
    choose(phase, record, better, &bars(record))
}

fn ties_to_the_lowest_number(phase: &dyn Phase, record: &Record) -> Option<Exchange> {
    let better = |a: &Exchange, b: &Exchange| (a.penalty, a.pattern) < (b.penalty, b.pattern);
    choose(phase, record, better, &bars(record))
}

fn only_if_it_improves(phase: &dyn Phase, record: &Record) -> Option<Exchange> {
    let now = phase.penalty(&record.all_in_use(phase.ward())).total();
    right(phase, record).filter(|exchange| exchange.penalty < now)
}

fn not_if_it_is_worse(phase: &dyn Phase, record: &Record) -> Option<Exchange> {
    let now = phase.penalty(&record.all_in_use(phase.ward())).total();
    right(phase, record).filter(|exchange| exchange.penalty <= now)
}

fn barred_for_everyone(phase: &dyn Phase, record: &Record) -> Option<Exchange> {
    let given_up = |pattern| record.removals.iter().any(|r| r.given_up && r.pattern == pattern);
    let bars = bars(record);
    choose(phase, record, less, &|nurse, pattern| bars(nurse, pattern) || given_up(pattern))
}

fn tabu_one_shorter(phase: &dyn Phase, record: &Record) -> Option<Exchange> {
    let oldest = phase.ward().tabu_length.saturating_sub(1);
    let mut shorter = record.clone();
    shorter.removals[oldest.min(63)] = Default::default();
    let bars = bars(&shorter);
    choose(phase, record, less, &bars)
}

fn in_use_not_barred(phase: &dyn Phase, record: &Record) -> Option<Exchange> {
    let bars = bars(record);
    let in_use = |nurse, pattern| record.in_use(nurse) == Some(pattern);
    choose(phase, record, less, &|nurse, pattern| bars(nurse, pattern) && !in_use(nurse, pattern))
}

fn only_one_exchange(phase: &dyn Phase, record: &Record) -> Option<Exchange> {
    (record.steps == 0).then(|| right(phase, record)).flatten()
}

fn never_an_empty_pattern(phase: &dyn Phase, record: &Record) -> Option<Exchange> {
    let bars = bars(record);
    choose(phase, record, less, &|nurse, pattern| bars(nurse, pattern) || pattern.days == 0)
}

fn given_up_whatever_the_pair(phase: &dyn Phase, record: &Record) -> Option<Exchange> {
    let given_up = |nurse: usize, pattern: Pattern| {
        let removals = record.removals.iter().filter(|r| r.given_up);
        removals.filter(|r| r.nurse as usize == nurse + 1).any(|r| r.pattern.days == pattern.days)
    };
    let bars = bars(record);
    choose(phase, record, less, &|nurse, pattern| bars(nurse, pattern) || given_up(nurse, pattern))
}

fn in_use_whatever_the_pair(phase: &dyn Phase, record: &Record) -> Option<Exchange> {
    let in_use = |nurse, pattern: Pattern| {
        record.in_use(nurse).is_some_and(|in_use| in_use.days == pattern.days)
    };
    let bars = bars(record);
    choose(phase, record, less, &|nurse, pattern| bars(nurse, pattern) || in_use(nurse, pattern))
}

fn ties_to_the_highest_pair(phase: &dyn Phase, record: &Record) -> Option<Exchange> {
    let better = |a: &Exchange, b: &Exchange| {
        let same_night = a.nurse == b.nurse && a.pattern.days == b.pattern.days;
        a.penalty < b.penalty || a.penalty == b.penalty && same_night
    };
    choose(phase, record, better, &bars(record))
}

fn ties_by_the_pair_first(phase: &dyn Phase, record: &Record) -> Option<Exchange> {
    fn order(e: &Exchange) -> (u64, usize, u32, u32) {
        (e.penalty, e.nurse, e.pattern.pair, e.pattern.days)
    }
    let better = |a: &Exchange, b: &Exchange| order(a) < order(b);
    choose(phase, record, better, &bars(record))
}

pub fn step_faults() -> Vec<Named> {
    use Fault::Step;
    vec![
        ("ties to the last", Step(ties_to_the_last)),
        ("ties to the highest number", Step(ties_to_the_highest_number)),
        ("ties to the lowest number of all nurses", Step(ties_to_the_lowest_number)),
        ("only if it improves", Step(only_if_it_improves)),
        ("not if it is worse", Step(not_if_it_is_worse)),
        ("barred for everyone", Step(barred_for_everyone)),
        ("tabu one shorter", Step(tabu_one_shorter)),
        ("pattern in use not barred", Step(in_use_not_barred)),
        ("only one exchange", Step(only_one_exchange)),
        ("never an empty pattern", Step(never_an_empty_pattern)),
        ("given up whatever the pair", Step(given_up_whatever_the_pair)),
        ("in use whatever the pair", Step(in_use_whatever_the_pair)),
        ("ties to the highest pair", Step(ties_to_the_highest_pair)),
        ("ties by the pair first", Step(ties_by_the_pair_first)),
    ]
}
