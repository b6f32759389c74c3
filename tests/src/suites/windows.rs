//! The built engine against the model on windowed keys.

use super::watched;
use crate::engine::Built;
use crate::random::Random;
use crate::report::Report;
use crate::trials::every_day::EveryDay;
use crate::trials::window_situations::SITUATIONS;
use crate::trials::windows::SORT;

const NAME: &str = "windowed keys";

/// The codes of calls, but for those of malformed inputs.
const CODES: &[i64] = &[0, 10, 11, 12, 13, 14, 15, 16, 17, 18, 19, 20, 21, 23, 24];

/// How many accepted calls and refused ones there are to be among every day.
const LEAST_CALLS: usize = 500;

pub fn run(r: &mut Random, report: &mut Report) {
    every_day(report);
    let watched = watched::run(r, report, (NAME, &SORT), CODES);
    let situations = SITUATIONS.into_iter().flatten();
    watched::report_with_lists(report, (NAME, &SORT), situations, &watched);
}

/// Days and windows, every one of some beside every other.
fn every_day(report: &mut Report) {
    let mut every = EveryDay::new();
    report.test("every day beside every window", every.readings(&Built));
    report.test("every window beside every other", every.windows(&Built));
    report.test("every window moved to every other", every.moves(&Built));
    println!(
        "every day and every window of some tried: {} calls accepted, {} refused",
        every.accepted, every.refused
    );
    report.at_least("accepted calls of every day", LEAST_CALLS, every.accepted);
    report.at_least("refused calls of every day", LEAST_CALLS, every.refused);
}
