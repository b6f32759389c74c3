//! The built engine against the model on half-filled child keys, under both matches.

use super::watched;
use crate::random::Random;
use crate::report::Report;
use crate::trials::half_filled::SORT;
use crate::trials::half_filled_situations::SITUATIONS;

const NAME: &str = "half-filled keys";

/// The codes of calls, but for those of malformed inputs.
const CODES: &[i64] = &[0, 10, 11, 12, 15, 16, 17, 18, 19, 20, 21, 23];

pub fn run(r: &mut Random, report: &mut Report) {
    let watched = watched::run(r, report, (NAME, &SORT), CODES);
    watched::report_situations(report, NAME, SITUATIONS.all(), &watched);
}
