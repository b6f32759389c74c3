//! How much one delete can touch: the number that the built engine tells against the model's, and what
//! its deletes then change.

use super::met::report_met;
use crate::engine::Built;
use crate::random::Random;
use crate::report::Report;
use crate::trials::bounded_deletes::{BoundedDeletes, OTHERS};
use crate::trials::delete_bounds::DeleteBounds;
use crate::trials::{bound_situations, delete_situations, told_bound};

/// How many bounds there are to be, how large the largest, and how many of each code.
const LEAST_BOUNDS: usize = 60_000;
const LEAST_LARGEST: usize = 5_000;
const LEAST_OF_A_CODE: usize = 100;

/// How many deletes there are to be, how many that change the whole bound, and how many of each code.
const LEAST_DELETES: usize = 80_000;
const LEAST_WHOLE: usize = 100;
const LEAST_DELETES_OF_A_CODE: usize = 20;

/// How many deletes there are to be on schemas whose deletes are not bounded, and how many that change
/// more than the bound.
const LEAST_OTHERS: usize = 5_000;
const LEAST_EXCEEDING: usize = 20;

/// How often each situation is to be met.
const LEAST_OF_A_SITUATION: usize = 5;

/// The codes of deletes where as many records are free as the bound says, and where fewer are.
const CODES_WITH_ROOM: &[i64] = &[0, 11, 14, 16, 17, 18, 19, 20, 23];
const CODES_WITH_LESS: &[i64] = &[0, 11, 14, 15, 16, 17, 18, 19, 20, 23];

pub fn run(r: &mut Random, report: &mut Report) {
    told(r, report);
    let mut trials = BoundedDeletes::new();
    changed(r, report, &mut trials);
    exceeding(r, report, &mut trials);
}

/// Bounds of areas of all sorts.
fn told(r: &mut Random, report: &mut Report) {
    let mut trials = DeleteBounds::new();
    let mut outcome = Ok(());
    while outcome.is_ok() && trials.bounds.codes.sum() < LEAST_BOUNDS {
        outcome = trials.trial(&Built, r);
    }
    println!(
        "{} delete bounds of all sorts compared with the model, the largest {}",
        trials.bounds.codes.sum(),
        trials.largest
    );
    report.test("delete bounds of all sorts", outcome);
    report.test("the largest delete bound", trials.largest(&Built));
    let largest = trials.largest as usize;
    report.at_least("the largest random delete bound", LEAST_LARGEST, largest);
    let codes = trials.bounds.codes.of(told_bound::CODES);
    let title = "delete bounds of all sorts by code";
    report.counts(title, LEAST_OF_A_CODE, &codes);
    let situations = bound_situations::SITUATIONS.iter();
    let least = ("delete bounds", LEAST_OF_A_SITUATION);
    report_met(report, least, situations, &trials.met);
}

/// What deletes change on schemas whose deletes are bounded.
fn changed(r: &mut Random, report: &mut Report, trials: &mut BoundedDeletes) {
    let mut outcome = Ok(());
    while outcome.is_ok() && trials.deletes() < LEAST_DELETES {
        outcome = trials.trial(&Built, r);
    }
    println!(
        "{} deletes on schemas whose deletes are bounded: {} changed the whole bound, the largest share \
         was {} of {} rows; refused by 15: {} with less room than the bound, {} with as much",
        trials.deletes(),
        trials.whole,
        trials.largest.0,
        trials.largest.1,
        trials.with_less.count(&15),
        trials.with_room.count(&15)
    );
    report.test("deletes within their bounds", outcome);
    let name = "deletes that change the whole bound";
    report.at_least(name, LEAST_WHOLE, trials.whole);
    let (with_room, with_less) = (&trials.with_room, &trials.with_less);
    for (room, codes) in [
        ("as much room as the bound", with_room.of(CODES_WITH_ROOM)),
        ("less room", with_less.of(CODES_WITH_LESS)),
    ] {
        let title = format!("deletes with {} by code", room);
        report.counts(&title, LEAST_DELETES_OF_A_CODE, &codes);
    }
    let situations = delete_situations::SITUATIONS.into_iter().flatten();
    let least = ("deletes", LEAST_OF_A_SITUATION);
    report_met(report, least, situations, &trials.met);
}

/// What deletes change on schemas whose deletes are not bounded: the same sum is too small for some.
fn exceeding(r: &mut Random, report: &mut Report, trials: &mut BoundedDeletes) {
    let mut outcome = Ok(());
    while outcome.is_ok() && trials.others < LEAST_OTHERS {
        outcome = trials.other_trial(&Built, r);
    }
    println!(
        "{} deletes accepted on schemas whose deletes are not bounded",
        trials.others
    );
    report.test("deletes that no bound holds for", outcome);
    let names: Vec<&str> = OTHERS.iter().map(|other| other.0).collect();
    let title = "deletes that change more than the sum";
    report.counts(title, LEAST_EXCEEDING, &trials.exceeding.of(&names));
}
