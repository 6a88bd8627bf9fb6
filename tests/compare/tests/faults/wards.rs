//! Rules of document 01 and of document 02, job 1, by wards that say something else.

use crate::faulty::{Fault, Named};
use reference::rows::Duty;
use reference::ward::Ward;

pub fn ward_faults() -> Vec<Named> {
    use Fault::Ward;
    vec![
        ("gap one too short", Ward(|w| w.gaps = w.gaps.map(|g| g - 1))),
        ("gap of a run of three as of two", Ward(|w| w.gaps[2] = w.gaps[1])),
        ("one run too long", Ward(|w| w.longest_night_run += 1)),
        ("one night too many in the list", Ward(|w| w.most_nights += 1)),
        ("last month forgotten", Ward(|w| w.nurses.iter_mut().for_each(|n| n.before = [0; 7]))),
        ("day 0 forgotten", Ward(|w| w.nurses.iter_mut().for_each(|n| n.before[6] = 0))),
        ("day -5 forgotten", Ward(|w| w.nurses.iter_mut().for_each(|n| n.before[1] = 0))),
        ("her most nights", Ward(|w| w.nurses.iter_mut().for_each(|n| n.most_nights += 1))),
        ("her least nights", Ward(|w| w.nurses.iter_mut().for_each(|n| n.least_nights = 0))),
        ("her most rests", Ward(|w| w.nurses.iter_mut().for_each(|n| n.most_rests += 1))),
        ("her least rests", Ward(|w| w.nurses.iter_mut().for_each(|n| n.least_rests = 0))),
        ("day run one too long", Ward(|w| w.longest_day_run = (w.longest_day_run + 1).min(6))),
        ("other duty ends a run", Ward(|w| w.run_duties = vec![Duty::Day])),
        ("other duty before the month ends a run", Ward(others_before_end_a_run)),
        ("a night's second day in a run", Ward(|w| w.run_duties.push(Duty::NightSecond))),
        ("mark 5 as 0", Ward(|w| marks_as(w, 5, 0))),
        ("mark 6 as 1", Ward(|w| marks_as(w, 6, 1))),
        ("mark 4 as 1", Ward(|w| marks_as(w, 4, 1))),
        ("tabu one longer", Ward(|w| w.tabu_length = (w.tabu_length + 1).min(64))),
        ("night weights u and v swapped", Ward(|w| swap_weights(&mut w.night_weights))),
        ("day weights u and v swapped", Ward(|w| swap_weights(&mut w.day_weights))),
        ("weights of the other shift", Ward(|w| w.day_weights = w.night_weights)),
        ("last nurse in no group", Ward(|w| leave_groups(w, w.nurse_count))),
        ("night highs ignored", Ward(|w| each_night(w, |b| b.high = 48))),
        ("day highs ignored", Ward(|w| each_day(w, |b| b.high = 48))),
        ("night lows ignored", Ward(|w| each_night(w, |b| b.low = 0))),
        ("day lows ignored", Ward(|w| each_day(w, |b| b.low = 0))),
        ("night needs ignored", Ward(|w| w.days.iter_mut().for_each(|d| d.night.need = 0))),
        ("day needs ignored", Ward(|w| w.days.iter_mut().for_each(|d| d.day.need = 0))),
    ]
}

/// A 3 without its 2 before it ends a run, and is nothing else but on day 0.
fn others_before_end_a_run(ward: &mut Ward) {
    for duty in ward.nurses.iter_mut().flat_map(|nurse| &mut nurse.before[..6]) {
        if *duty == 4 {
            *duty = 3;
        }
    }
}

fn marks_as(ward: &mut Ward, mark: u64, other: u64) {
    for marked in ward.nurses.iter_mut().flat_map(|nurse| &mut nurse.marks) {
        if *marked == mark {
            *marked = other;
        }
    }
}

fn swap_weights(weights: &mut reference::ward::Weights) {
    std::mem::swap(&mut weights.u, &mut weights.v);
}

fn leave_groups(ward: &mut Ward, nurse: usize) {
    ward.groups.iter_mut().for_each(|group| *group &= !(1 << (nurse - 1)));
}

fn each_night(ward: &mut Ward, change: fn(&mut reference::ward::Bounds)) {
    ward.days.iter_mut().flat_map(|day| &mut day.night.bounds).for_each(change);
}

fn each_day(ward: &mut Ward, change: fn(&mut reference::ward::Bounds)) {
    ward.days.iter_mut().flat_map(|day| &mut day.day.bounds).for_each(change);
}
