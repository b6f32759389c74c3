//! The built engine against the model on orphan lists of many foreign keys.

use crate::engine::Built;
use crate::random::Random;
use crate::report::Report;
use crate::trials::lent_list;
use crate::trials::origins::ORIGINS;
use crate::trials::orphan_lists::OrphanLists;
use crate::trials::situations::SITUATIONS;

/// How many lists there are to be, how long the longest, and how many of each code and situation.
const LEAST_LISTS: usize = 20_000;
const LEAST_LONGEST: usize = 5_000;
const LEAST_OF_A_CODE: usize = 100;
const LEAST_OF_A_SITUATION: usize = 10;

pub fn run(r: &mut Random, report: &mut Report) {
    let mut trials = OrphanLists::new();
    let mut outcome = Ok(());
    while outcome.is_ok() && trials.lists.codes.sum() < LEAST_LISTS {
        outcome = trials.trial(&Built, r);
    }
    println!(
        "{} lists of many keys compared with the model, the longest of {} orphans",
        trials.lists.codes.sum(),
        trials.longest
    );
    report.test("lists of many keys", outcome);
    report.test("the largest list", trials.largest(&Built, r));
    report.at_least("the longest random list", LEAST_LONGEST, trials.longest);
    report.counts(
        "lists of many keys by code",
        LEAST_OF_A_CODE,
        &trials.lists.codes.of(lent_list::CODES),
    );
    let situations: Vec<&str> = SITUATIONS.iter().map(|situation| situation.0).collect();
    for (name, origin) in ORIGINS {
        let met = trials.met[*origin as usize].of(&situations);
        report.counts(&format!("lists on {}", name), LEAST_OF_A_SITUATION, &met);
    }
}
