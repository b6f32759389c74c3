//! The built engine against the model on schemas with broken foreign keys.

use super::watched;
use crate::engine::Built;
use crate::random::Random;
use crate::report::Report;
use crate::trials::broken_keys::SORT;
use crate::trials::broken_keys_situations::SITUATIONS;
use crate::trials::every_parent::EveryParent;

const NAME: &str = "broken keys";

/// How many whole keys and broken ones there are to be among every parent.
const LEAST_KEYS: usize = 100;

/// The codes of calls, but for those of malformed inputs.
const CODES: &[i64] = &[0, 10, 11, 12, 13, 14, 15, 16, 17, 18, 19, 20, 21, 23];

pub fn run(r: &mut Random, report: &mut Report) {
    every_parent(report);
    let watched = watched::run(r, report, (NAME, &SORT), CODES);
    watched::report_with_lists(report, (NAME, &SORT), SITUATIONS.all(), &watched);
}

/// Whether a key is broken, for every parent of some forms.
fn every_parent(report: &mut Report) {
    let mut every = EveryParent::new();
    report.test("every parent table", every.tables(&Built));
    report.test("every parent column", every.columns(&Built));
    report.test("every choice of parent columns", every.choices(&Built));
    report.test("every choice of windows", every.windows(&Built));
    println!(
        "every parent table, column and choice of columns tried: {} whole keys, {} broken",
        every.whole, every.broken
    );
    report.at_least("whole keys among every parent", LEAST_KEYS, every.whole);
    report.at_least("broken keys among every parent", LEAST_KEYS, every.broken);
}
