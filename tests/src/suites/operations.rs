//! The built engine against the model on single operations.

use super::met::report_met;
use crate::engine::Built;
use crate::model::search;
use crate::random::Random;
use crate::report::Report;
use crate::trials::operations::Operations;
use crate::trials::search_situations::SITUATIONS;
use crate::trials::searches::{self, OfKind, Searches};
use crate::trials::{lent_list, told_bound};

/// How many calls there are to be, and how many calls, orphan lists and delete bounds of each code.
const LEAST_CALLS: usize = 300_000;
const LEAST_OF_A_CODE: usize = 100;

/// How often each code and condition of kinds 10 and 11 is to be met, and each situation.
const LEAST_OF_SEARCHES: usize = 10;
const LEAST_OF_A_SITUATION: usize = 3;

/// The codes that a call can be answered by.
const CODES: &[i64] = &[
    0, 1, 3, 4, 10, 11, 12, 13, 14, 15, 16, 17, 18, 19, 20, 21, 23, 24,
];

pub fn run(r: &mut Random, report: &mut Report) {
    let mut operations = Operations::new();
    let mut outcome = Ok(());
    while outcome.is_ok() && operations.calls.sum() < LEAST_CALLS {
        outcome = operations.trial(&Built, r);
    }
    let (calls, lists) = (&operations.calls, &operations.lists.codes);
    let bounds = &operations.bounds.codes;
    println!(
        "{} operations compared with the model: {} calls, {} orphan lists, {} delete bounds, {} others",
        calls.sum() + lists.sum() + bounds.sum() + operations.others,
        calls.sum(),
        lists.sum(),
        bounds.sum(),
        operations.others
    );
    report.test("single operations", outcome);
    report.counts("calls by code", LEAST_OF_A_CODE, &calls.of(CODES));
    let lists = lists.of(lent_list::CODES);
    report.counts("orphan lists by code", LEAST_OF_A_CODE, &lists);
    let bounds = bounds.of(told_bound::CODES);
    report.counts("delete bounds by code", LEAST_OF_A_CODE, &bounds);
    report_searches(report, &operations.searches);
}

/// What was met in calls of kinds 10 and 11.
fn report_searches(report: &mut Report, searches: &Searches) {
    for (kind, of_kind) in (10..).zip(&searches.of_kind) {
        report_kind(report, kind, of_kind);
    }
    let least = ("kinds 10 and 11", LEAST_OF_A_SITUATION);
    report_met(report, least, SITUATIONS.iter(), &searches.met);
}

fn report_kind(report: &mut Report, kind: i64, of_kind: &OfKind) {
    let forms = search::FORMS.iter().filter(|form| form.1.contains(&kind));
    let conditions: Vec<&str> = forms.map(|form| form.0).collect();
    let counts = [
        ("by code", of_kind.codes.of(searches::codes(kind))),
        ("by rows changed", of_kind.changed.of(searches::CHANGED)),
        ("refused by 4 for", of_kind.broken.of(&conditions)),
    ];
    for (title, counts) in counts {
        let title = format!("kind {} {}", kind, title);
        report.counts(&title, LEAST_OF_SEARCHES, &counts);
    }
}
