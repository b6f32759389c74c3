//! The built engine against the model on calls, orphan lists and delete bounds of one sort.

use super::met::report_met;
use crate::engine::Built;
use crate::random::Random;
use crate::report::Report;
use crate::trials::origins::Origin;
use crate::trials::watched::{Sort, Watched};

/// How many calls there are to be, how many of each code, and of each situation.
const LEAST_CALLS: usize = 200_000;
const LEAST_OF_A_CODE: usize = 100;
const LEAST_OF_A_SITUATION: usize = 5;

/// The codes of lists, but for those of malformed inputs.
const CODES_OF_LISTS: &[i64] = &[0, 10, 22];

/// Runs the calls of a sort and reports them by code. Their name is that of what they are on.
pub fn run(
    r: &mut Random,
    report: &mut Report,
    (name, sort): (&str, &'static Sort),
    codes: &[i64],
) -> Watched {
    let mut watched = Watched::new(sort);
    let mut outcome = Ok(());
    while outcome.is_ok() && watched.codes.sum() < LEAST_CALLS {
        outcome = watched.trial(&Built, r);
    }
    println!(
        "{} calls, {} orphan lists and {} delete bounds on {} compared with the model",
        watched.codes.sum(),
        watched.lists.codes.sum(),
        watched.bounds.codes.sum(),
        name
    );
    report.test(name, outcome);
    let met = watched.codes.of(codes);
    report.counts(&format!("{} by code", name), LEAST_OF_A_CODE, &met);
    watched
}

/// Reports the codes of the lists, and how often each situation of calls and of lists was met.
pub fn report_with_lists<S: 'static>(
    report: &mut Report,
    (name, sort): (&str, &'static Sort),
    situations: impl Iterator<Item = &'static (&'static str, &'static [Origin], S)> + Clone,
    watched: &Watched,
) {
    let met = watched.lists.codes.of(CODES_OF_LISTS);
    report.counts(&format!("lists on {} by code", name), LEAST_OF_A_CODE, &met);
    report_situations(report, name, situations, watched);
    let title = format!("lists on {}", name);
    report_situations(report, &title, sort.of_lists.iter(), watched);
}

/// Reports how often each situation was met.
pub fn report_situations<S: 'static>(
    report: &mut Report,
    name: &str,
    situations: impl Iterator<Item = &'static (&'static str, &'static [Origin], S)> + Clone,
    watched: &Watched,
) {
    report_met(
        report,
        (name, LEAST_OF_A_SITUATION),
        situations,
        &watched.met,
    );
}
