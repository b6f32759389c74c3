//! The built engine against the model on folded columns.

use super::watched;
use crate::engine::Built;
use crate::random::Random;
use crate::report::Report;
use crate::trials::every_byte::EveryByte;
use crate::trials::folded::SORT;
use crate::trials::folded_situations::SITUATIONS;

/// How many equal pairs of words and unequal ones there are to be among every pair of bytes.
const LEAST_PAIRS: usize = 1_000;

const NAME: &str = "folded columns";

/// The codes of calls, but for those of malformed inputs.
const CODES: &[i64] = &[0, 10, 11, 12, 13, 14, 15, 16, 17, 18, 19, 20, 21, 23];

pub fn run(r: &mut Random, report: &mut Report) {
    every_byte(report);
    let watched = watched::run(r, report, (NAME, &SORT), CODES);
    watched::report_with_lists(report, (NAME, &SORT), SITUATIONS.all(), &watched);
}

/// Whether words are equal, for every pair of bytes at every place.
fn every_byte(report: &mut Report) {
    let mut every = EveryByte::new();
    report.test("every byte at every place", every.pairs(&Built));
    println!(
        "every pair of bytes at every place tried: {} equal words, {} unequal",
        every.equal, every.unequal
    );
    report.at_least("equal words of every byte", LEAST_PAIRS, every.equal);
    report.at_least("unequal words of every byte", LEAST_PAIRS, every.unequal);
}
