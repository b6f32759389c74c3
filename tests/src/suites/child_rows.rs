//! The built engine against the model on changes of parent rows, with the actions that follow.

use super::met::report_met;
use crate::engine::Built;
use crate::random::Random;
use crate::report::Report;
use crate::trials::child_rows::ChildRows;
use crate::trials::walk_situations::SITUATIONS;

/// How many calls there are to be, how many of each code, and of each situation.
const LEAST_CALLS: usize = 500_000;
const LEAST_OF_A_CODE: usize = 100;
const LEAST_OF_A_SITUATION: usize = 5;

/// The codes of calls that run a statement.
const CODES: &[i64] = &[0, 14, 15, 16, 17, 18, 19, 20, 23];

pub fn run(r: &mut Random, report: &mut Report) {
    let mut trials = ChildRows::new();
    let mut outcome = Ok(());
    while outcome.is_ok() && trials.calls.sum() < LEAST_CALLS {
        outcome = trials.trial(&Built, r);
    }
    println!(
        "{} calls compared with the model, most of them changes of parent rows",
        trials.calls.sum()
    );
    report.test("changes of parent rows", outcome);
    let codes = trials.calls.of(CODES);
    report.counts("changes of parent rows by code", LEAST_OF_A_CODE, &codes);
    let situations = SITUATIONS.into_iter().flatten();
    let least = ("child rows", LEAST_OF_A_SITUATION);
    report_met(report, least, situations, &trials.walks.met);
}
