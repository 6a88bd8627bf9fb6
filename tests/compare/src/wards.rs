//! Random wards. Each is made around a planned roster, so that most have patterns for everyone
//! and a roster at penalty zero; some are then spoiled.

use reference::days;
use reference::pairs::{self, days_off, Pattern};
use reference::rows::{day_bit, duties, has_day, states, Duty, State};
use reference::samples::{file_of, random_before, random_pairs, ward_of, with_pairs, Dice};
use reference::ward::{old_numbers, Ward};

/// Where D stands among the head's numbers.
const LONGEST_DAY_RUN: usize = 9;
/// Where a nurse's numbers stand: seven duties, bounds of nights and of rests, marks.
const NIGHT_BOUNDS: usize = 7;
const REST_BOUNDS: usize = 9;
const MARKS: usize = 11;

/// From least to most.
type Span = (u64, u64);

/// What is drawn for a ward before anything is planned.
#[derive(Clone, Copy)]
pub struct Size {
    pub name: &'static str,
    pub nurses: Span,
    pub days: Span,
    pub groups: Span,
    /// V, L and each gap
    pub most_nights: Span,
    pub run: Span,
    pub gap: Span,
    pub tabu: Span,
    /// one day in so many keeps mark 0 where the plan would allow another
    pub free: u64,
}

pub const TINY: Size = Size {
    name: "tiny",
    nurses: (1, 3),
    days: (1, 5),
    groups: (0, 2),
    most_nights: (0, 3),
    run: (1, 3),
    gap: (1, 3),
    tabu: (0, 4),
    free: 2,
};
pub const SMALL: Size = Size {
    name: "small",
    nurses: (2, 6),
    days: (4, 10),
    groups: (0, 3),
    most_nights: (1, 5),
    tabu: (0, 12),
    ..TINY
};
/// Every field within its whole range, but for the month's length.
pub const WIDE: Size = Size {
    name: "wide",
    nurses: (1, 6),
    days: (1, 10),
    groups: (0, 16),
    most_nights: (0, 15),
    run: (1, 3),
    gap: (1, 5),
    tabu: (0, 64),
    free: 3,
};
pub const MIDDLE: Size = Size {
    name: "middle",
    nurses: (4, 14),
    days: (9, 16),
    groups: (0, 5),
    most_nights: (1, 5),
    gap: (1, 4),
    tabu: (0, 20),
    free: 3,
    ..TINY
};
pub const MONTH: Size = Size {
    name: "month",
    nurses: (10, 28),
    days: (28, 31),
    groups: (0, 6),
    most_nights: (2, 5),
    run: (1, 1),
    gap: (3, 5),
    tabu: (0, 40),
    free: 9,
};
/// A month with runs of nights.
pub const RUNS: Size = Size {
    name: "runs",
    nurses: (3, 8),
    days: (14, 31),
    most_nights: (4, 4),
    run: (2, 3),
    gap: (1, 5),
    ..MONTH
};
pub const FULL: Size = Size {
    name: "full",
    nurses: (48, 48),
    days: (31, 31),
    groups: (16, 16),
    most_nights: (2, 4),
    tabu: (64, 64),
    ..MONTH
};

/// The numbers of a ward by their parts.
#[derive(Clone)]
pub struct Draft {
    head: Vec<u64>,
    nurses: Vec<Vec<u64>>,
    groups: Vec<u64>,
    days: Vec<Vec<u64>>,
    /// first days of the pairs, in edition two
    pairs: Option<Vec<u64>>,
}

impl Draft {
    pub fn numbers(&self) -> Vec<u64> {
        let parts = [&self.head, &self.nurses.concat(), &self.groups, &self.days.concat()];
        let old = parts.map(Vec::as_slice).concat();
        match &self.pairs {
            None => old,
            Some(first_days) => with_pairs(&old, first_days),
        }
    }

    fn ward(&self) -> Ward {
        ward_of(&self.numbers())
    }
}

/// A ward with the patterns that it was made around.
#[derive(Clone)]
pub struct Planned {
    pub file: Vec<u8>,
    pub ward: Ward,
    pub nights: Vec<Pattern>,
    /// none where some nurse has no day pattern over those nights
    pub days: Option<Vec<u32>>,
}

/// A ward around a plan.
pub fn planned(dice: &mut Dice, size: &Size) -> Planned {
    let mut draft = unbound(dice, size);
    give_pairs(dice, &mut draft);
    let open = draft.ward();
    let nights: Vec<Pattern> = (0..open.nurse_count).map(|i| plan_nights(dice, &open, i)).collect();
    for (nurse, &night) in nights.iter().enumerate() {
        mark_days_off(dice, size, &open, &mut draft, nurse, night);
    }
    give_days(dice, &mut draft, &nights);
    let open = draft.ward();
    let days: Option<Vec<u32>> =
        (0..open.nurse_count).map(|i| plan_days(dice, &open, i, nights[i])).collect();
    let worked = days.clone().unwrap_or(vec![0; open.nurse_count]);
    for (nurse, (night, worked)) in nights.iter().zip(&worked).enumerate() {
        bind_nurse(dice, size, &open, &mut draft, nurse, (night.days, *worked));
    }
    let starts: Vec<u32> = nights.iter().map(|night| night.days).collect();
    bind_days(dice, &open, &mut draft, &starts, &worked);
    finish(draft, nights, days)
}

/// A pair without a night before it, where she may have one off.
fn pair_of_hers(dice: &mut Dice, ward: &Ward, nurse: usize) -> Option<u32> {
    let fits = |&pair: &u32| pairs::fits(ward, nurse, Pattern { days: 0, pair });
    let hers: Vec<u32> = ward.pairs.iter().map(|pair| pair.number).filter(fits).collect();
    (!hers.is_empty()).then(|| dice.pick(&hers))
}

/// In most wards everyone whom last month's night leaves no pair had rests before the month.
fn give_pairs(dice: &mut Dice, draft: &mut Draft) {
    if dice.one_in(6) {
        return;
    }
    let open = draft.ward();
    for nurse in 0..open.nurse_count {
        if pair_of_hers(dice, &open, nurse).is_none() {
            draft.nurses[nurse][..7].fill(0);
        }
    }
}

/// In most wards everyone who has no day pattern loses what stands in its way.
fn give_days(dice: &mut Dice, draft: &mut Draft, nights: &[Pattern]) {
    if dice.one_in(6) {
        return;
    }
    let open = draft.ward();
    for (nurse, &night) in nights.iter().enumerate() {
        if days::count(&open, nurse, night) == 0 {
            draft.nurses[nurse][..7].fill(0);
            draft.nurses[nurse][MARKS..].fill(0);
        }
    }
}

/// The same with one thing changed, so that someone may have no pattern or zero be far.
pub fn spoiled(dice: &mut Dice, size: &Size) -> Planned {
    let planned = planned(dice, size);
    let mut draft = draft_of(&planned.ward);
    match dice.upto(5) {
        0..=1 => spoil_nurse(dice, &mut draft),
        2..=3 => spoil_days(dice, &mut draft),
        _ => spoil_pairs(dice, &mut draft),
    }
    finish(draft, planned.nights, planned.days)
}

fn spoil_nurse(dice: &mut Dice, draft: &mut Draft) {
    let nurse = dice.index(draft.nurses.len());
    let her = &mut draft.nurses[nurse];
    let n = her.len() - MARKS;
    match dice.upto(4) {
        0 => her[MARKS + dice.index(n)] = dice.upto(6),
        1 => her[NIGHT_BOUNDS..REST_BOUNDS].fill(dice.upto(15)),
        2 => her[REST_BOUNDS..MARKS].fill(dice.upto(n as u64)),
        3 => her[..7].copy_from_slice(&random_before(dice)),
        _ => two_starts_together(dice, her),
    }
}

/// More is wanted of a shift than was planned, or less allowed, on one day in so many.
fn spoil_days(dice: &mut Dice, draft: &mut Draft) {
    let (shift, rarely, by_need) = (dice.index(2), dice.from(1, 4), dice.one_in(2));
    for day in &mut draft.days {
        if !dice.one_in(rarely) {
            continue;
        }
        if by_need || day.len() == 2 {
            day[shift] = (day[shift] + 1).min(48);
        }
        for bounds in day[2..].chunks_mut(4).filter(|_| !by_need) {
            bounds[2 * shift + 1] = bounds[2 * shift];
        }
    }
}

/// Nobody may have a pair off, or one nurse may not; or the ward has other pairs.
fn spoil_pairs(dice: &mut Dice, draft: &mut Draft) {
    let n = draft.days.len() as u64;
    match (dice.upto(3), draft.pairs.clone()) {
        (0, Some(first_days)) => {
            draft.nurses.iter_mut().for_each(|her| bar_pairs(dice, her, &first_days));
        }
        (1, Some(first_days)) => {
            let nurse = dice.index(draft.nurses.len());
            bar_pairs(dice, &mut draft.nurses[nurse], &first_days);
        }
        (2, Some(_)) => draft.pairs = None,
        _ => draft.pairs = Some(random_pairs(dice, n)),
    }
}

/// A mark on one of each pair's days under which it is no day off.
fn bar_pairs(dice: &mut Dice, her: &mut [u64], first_days: &[u64]) {
    for &day in first_days {
        her[MARKS + day as usize - 1 + dice.index(2)] = dice.pick(&[2, 4]);
    }
}

/// Marks 3 on two days next to each other: no pattern allows them.
fn two_starts_together(dice: &mut Dice, her: &mut [u64]) {
    let n = her.len() - MARKS;
    let first = dice.index(n);
    her[MARKS + first] = 3;
    her[MARKS + (first + 1).min(n - 1)] = 3;
}

fn finish(draft: Draft, nights: Vec<Pattern>, days: Option<Vec<u32>>) -> Planned {
    let numbers = draft.numbers();
    Planned { file: file_of(&numbers), ward: ward_of(&numbers), nights, days }
}

/// The parts of a ward already read.
pub fn draft_of(ward: &Ward) -> Draft {
    let numbers = old_numbers(&ward.numbers);
    let (per_nurse, per_day) = (MARKS + ward.day_count, 2 + 4 * ward.group_count);
    let groups = 16 + ward.nurse_count * per_nurse;
    let days = groups + ward.group_count;
    let end = days + ward.day_count * per_day;
    Draft {
        head: numbers[..16].to_vec(),
        nurses: numbers[16..groups].chunks(per_nurse).map(<[u64]>::to_vec).collect(),
        groups: numbers[groups..days].to_vec(),
        days: numbers[days..end].chunks(per_day).map(<[u64]>::to_vec).collect(),
        pairs: numbers[end..].get(1..).map(<[u64]>::to_vec),
    }
}

fn draw(dice: &mut Dice, span: Span) -> u64 {
    dice.from(span.0, span.1)
}

/// Seven days that end in a run of four nights, longer than any of one month.
const LONGEST_RUN: [u64; 7] = [2, 3, 2, 3, 2, 3, 2];

/// Seven days that end in a run of day and other duty, after rests or a night.
fn run_before(dice: &mut Dice) -> Vec<u64> {
    let first = dice.from(2, 5) as usize;
    let mut before = vec![0; first];
    if dice.one_in(3) {
        before[first - 2..].copy_from_slice(&[2, 3]);
    }
    before.resize_with(7, || dice.pick(&[1, 4]));
    before
}

/// Head and groups drawn, last month's duties too; no marks, no bounds, no needs.
fn unbound(dice: &mut Dice, size: &Size) -> Draft {
    let (m, n, r) = (draw(dice, size.nurses), draw(dice, size.days), draw(dice, size.groups));
    let mut head = vec![m, n, r, draw(dice, size.most_nights), draw(dice, size.run)];
    head.extend([draw(dice, size.gap), draw(dice, size.gap), draw(dice, size.gap)]);
    head.extend([draw(dice, size.tabu), dice.from(1, 6)]);
    let heaviest = dice.pick(&[1, 5, 100]);
    head.extend((0..6).map(|_| dice.from(1, heaviest)));
    let nurse = |dice: &mut Dice| {
        let before = match dice.upto(11) {
            0..=3 => vec![0; 7],
            4 => LONGEST_RUN.to_vec(),
            5..=6 => run_before(dice),
            _ => random_before(dice),
        };
        [before, vec![0, 15, 0, 31], vec![0; n as usize]].concat()
    };
    let mut any_day = vec![0, 0];
    any_day.extend([0, 48, 0, 48].repeat(r as usize));
    Draft {
        head,
        nurses: (0..m).map(|_| nurse(dice)).collect(),
        groups: (0..r).map(|_| dice.from(1, (1 << m) - 1)).collect(),
        days: vec![any_day; n as usize],
        pairs: pairs_drawn(dice, n),
    }
}

/// One ward in three is of edition one; one in six has weekends a week apart, the others any pairs.
fn pairs_drawn(dice: &mut Dice, n: u64) -> Option<Vec<u64>> {
    match dice.upto(5) {
        0..=1 => None,
        2 => Some((dice.from(1, 7)..n).step_by(7).collect()),
        _ => Some(random_pairs(dice, n)),
    }
}

/// A pair, and starts put in from day 1 on wherever both keep the rules.
fn plan_nights(dice: &mut Dice, ward: &Ward, nurse: usize) -> Pattern {
    let rarely = dice.from(1, 4);
    let pair = pair_of_hers(dice, ward, nurse).unwrap_or(ward.pairs[0].number);
    let mut pattern = Pattern { days: 0, pair };
    for day in 1..=ward.day_count {
        let longer = Pattern { days: pattern.days | day_bit(day), pair };
        if dice.one_in(rarely) && pairs::hers(ward, nurse, longer) {
            pattern = longer;
        }
    }
    pattern
}

/// Any of her day patterns, each as likely.
fn plan_days(dice: &mut Dice, ward: &Ward, nurse: usize, night: Pattern) -> Option<u32> {
    let count = days::count(ward, nurse, night);
    (count > 0).then(|| days::nth(ward, nurse, night, dice.upto(count - 1)))
}

/// Some open days get a mark under which she is not available, but no other duty on her pair.
fn mark_days_off(
    dice: &mut Dice,
    size: &Size,
    ward: &Ward,
    draft: &mut Draft,
    nurse: usize,
    night: Pattern,
) {
    let pair = days_off(ward, night.pair);
    for (at, state) in states(ward, nurse, night.days).into_iter().enumerate() {
        if state == State::Open && dice.one_in(6) && !dice.one_in(size.free) {
            let off = has_day(pair, at + 1);
            draft.nurses[nurse][MARKS + at] = dice.pick(if off { &[1, 6] } else { &[1, 4, 6] });
        }
    }
    if dice.one_in(5) {
        mark_other_duty(dice, ward, draft, nurse, night);
    }
}

/// Other duty on the open ones of some days running, at most one more than D, without her pair.
fn mark_other_duty(dice: &mut Dice, ward: &Ward, draft: &mut Draft, nurse: usize, night: Pattern) {
    let (first, days) = (dice.index(ward.day_count), dice.from(1, draft.head[LONGEST_DAY_RUN] + 1));
    let states = states(ward, nurse, night.days).into_iter().enumerate();
    let open = states.skip(first).take(days as usize).filter(|day| day.1 == State::Open);
    for (at, _) in open.filter(|day| !has_day(days_off(ward, night.pair), day.0 + 1)) {
        draft.nurses[nurse][MARKS + at] = 4;
    }
}

/// Marks and bounds that her planned row keeps.
fn bind_nurse(
    dice: &mut Dice,
    size: &Size,
    ward: &Ward,
    draft: &mut Draft,
    nurse: usize,
    (night, worked): (u32, u32),
) {
    let her = &mut draft.nurses[nurse];
    for (at, state) in states(ward, nurse, night).into_iter().enumerate() {
        if her[MARKS + at] == 0 && !dice.one_in(size.free) {
            her[MARKS + at] = fitting_mark(dice, state, has_day(worked, at + 1));
        }
    }
    let rests = duties(ward, nurse, night, worked).into_iter().filter(|&d| d == Duty::Rest).count();
    her[NIGHT_BOUNDS..REST_BOUNDS].copy_from_slice(&around(dice, night.count_ones().into(), 15));
    her[REST_BOUNDS..MARKS].copy_from_slice(&around(dice, rests as u64, 31));
}

/// A mark that allows the state and leaves the day as it is planned.
fn fitting_mark(dice: &mut Dice, state: State, worked: bool) -> u64 {
    match state {
        State::Start => dice.pick(&[3, 6]),
        State::Second => dice.pick(&[5, 6]),
        State::OwedRest => dice.pick(&[1, 5, 6]),
        State::Open if worked => dice.pick(&[2, 5]),
        State::Open => dice.pick(&[1, 5, 6]),
    }
}

/// A least and a most, with the number between them.
fn around(dice: &mut Dice, number: u64, limit: u64) -> [u64; 2] {
    let slack = dice.upto(3);
    [number.saturating_sub(dice.upto(slack)), (number + dice.upto(slack)).min(limit)]
}

/// Needs, lows and highs that the plan keeps, some of them exactly.
fn bind_days(dice: &mut Dice, ward: &Ward, draft: &mut Draft, nights: &[u32], worked: &[u32]) {
    let loose = dice.upto(3);
    let on = |patterns: &[u32], day: usize, group: u64| -> u64 {
        let member = |&i: &usize| group >> i & 1 == 1 && has_day(patterns[i], day);
        (0..ward.nurse_count).filter(member).count() as u64
    };
    for (at, day) in draft.days.iter_mut().enumerate() {
        for (shift, patterns) in [nights, worked].into_iter().enumerate() {
            let everyone = on(patterns, at + 1, u64::MAX);
            day[shift] = everyone.saturating_sub(dice.upto(loose));
            for (g, &group) in draft.groups.iter().enumerate() {
                let members = on(patterns, at + 1, group);
                let bounds = &mut day[2 + 4 * g + 2 * shift..][..2];
                bounds[0] = members.saturating_sub(dice.upto(loose));
                bounds[1] = (members + dice.upto(2 * loose)).min(48);
            }
        }
    }
}
