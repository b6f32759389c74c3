//! Calls on different families in either order, on the built engine.

use crate::engine::Built;
use crate::model::families;
use crate::model::schema::Schema;
use crate::random::Random;
use crate::report::Report;
use crate::schema_bytes::build;
use crate::schema_bytes::records::{Key, Schema as Records};
use crate::trials::either_order::EitherOrder;
use crate::trials::order_situations::SITUATIONS;

/// How many pairs on different families are to be accepted inside a transaction, how many of any two
/// kinds, and how many that show each situation.
const LEAST_PAIRS: usize = 60_000;
const LEAST_OF_KINDS: usize = 300;
const LEAST_OF_A_SITUATION: usize = 50;

/// How often each of the calls sent next to both areas is to be met, and how many lists of later calls
/// there are to be that lead to areas alike in every word.
const LEAST_NEXT: usize = 300;
const LEAST_ENDED_ALIKE: usize = 1_000;

/// How many pairs are to fill the journal or to find it one record short, how many to be accepted
/// outside a transaction, and how many on one family to be told apart in each way.
const LEAST_TIGHT: usize = 1_000;
const LEAST_OUTSIDE: usize = 1_000;
const LEAST_TOLD_APART: usize = 1;

/// The kinds of calls that write rows.
const KINDS: &[i64] = &[1, 2, 3, 10, 11];

/// What the other order of two calls on one family gives.
const TOLD_APART: &[&str] = &[
    "refused by 11",
    "refused by 15",
    "refused by 16",
    "refused by 17",
    "refused by 18",
    "refused by 20",
    "refused by 24",
    "other answers",
    "other rows",
    "the same",
];

pub fn run(r: &mut Random, report: &mut Report) {
    by_hand(report);
    let mut trials = EitherOrder::default();
    let mut outcome = Ok(());
    while outcome.is_ok() && trials.kinds.sum() < LEAST_PAIRS {
        outcome = trials.trial(&Built, r);
    }
    println!(
        "{} pairs of calls on different families looked for in a transaction, {} accepted one after the \
         other and sent in the other order",
        trials.sought,
        trials.kinds.sum()
    );
    report.test("calls on different families in either order", outcome);
    report_accepted(report, &trials);
    report_next(report, &trials);
    report_beside(report, &trials);
}

/// What the accepted pairs were.
fn report_accepted(report: &mut Report, trials: &EitherOrder) {
    let of_kind = |&one: &i64| {
        let others = KINDS.iter();
        others.map(move |other| format!("{} and {}", one, other))
    };
    let kinds: Vec<String> = KINDS.iter().flat_map(of_kind).collect();
    let title = "pairs accepted by kinds";
    report.counts(title, LEAST_OF_KINDS, &trials.kinds.of(&kinds));
    let names: Vec<&str> = SITUATIONS.iter().map(|situation| situation.0).collect();
    let title = "pairs accepted";
    report.counts(title, LEAST_OF_A_SITUATION, &trials.met.of(&names));
}

/// What was sent to both areas of a pair.
fn report_next(report: &mut Report, trials: &EitherOrder) {
    let of_levels = |name: &str| -> Vec<String> {
        let levels = 1..=9;
        levels.map(|level| format!("{} {}", name, level)).collect()
    };
    let others = [
        "rollback",
        "rollback to level 1 refused by 12",
        "commit",
        "commit refused by 21",
        "release of level 1 refused by 12",
        "release of level 1 refused by 21",
    ];
    let names = [
        of_levels("rollback to level"),
        of_levels("release of level"),
        others.map(String::from).to_vec(),
    ];
    let counts = trials.next.of(&names.concat());
    report.counts("sent next to both areas", LEAST_NEXT, &counts);
    println!(
        "{} lists of {} later calls sent to both areas, {} of them until every word was alike",
        trials.lists, trials.later, trials.ended_alike
    );
    let name = "lists of later calls until every word was alike";
    report.at_least(name, LEAST_ENDED_ALIKE, trials.ended_alike);
}

/// Pairs in tight journals, outside a transaction and on one family.
fn report_beside(report: &mut Report, trials: &EitherOrder) {
    println!(
        "journals that just hold both calls' records: {}, one record short: {}; outside a transaction {} \
         pairs accepted, {} of them alike in the other order",
        trials.fitted, trials.one_short, trials.outside, trials.outside_alike
    );
    for (name, least, count) in [
        ("journals that just hold both", LEAST_TIGHT, trials.fitted),
        ("journals one record short", LEAST_TIGHT, trials.one_short),
        ("outside a transaction", LEAST_OUTSIDE, trials.outside),
        ("outside, alike", trials.outside, trials.outside_alike),
    ] {
        report.at_least(&format!("pairs: {}", name), least, count);
    }
    let names: Vec<String> = TOLD_APART.iter().map(|name| name.to_string()).collect();
    let title = "pairs on one family in the other order";
    report.counts(title, LEAST_TOLD_APART, &trials.one_family.of(&names));
}

/// The families of five tables whose foreign keys are few.
fn by_hand(report: &mut Report) {
    let broken = Key {
        parent_columns: [7, 255, 255, 255],
        ..refers(2, 0)
    };
    for (name, keys, families) in [
        ("no key", vec![], [0, 1, 2, 3, 4]),
        ("a table's own key", vec![refers(3, 3)], [0, 1, 2, 3, 4]),
        ("one key", vec![refers(4, 1)], [0, 1, 2, 3, 1]),
        (
            "through others",
            vec![refers(4, 3), refers(1, 0), refers(3, 1)],
            [0, 0, 2, 0, 0],
        ),
        (
            "a common parent",
            vec![refers(1, 4), refers(2, 4)],
            [0, 1, 1, 3, 1],
        ),
        ("two", vec![refers(0, 2), refers(3, 1)], [0, 1, 0, 1, 4]),
        ("a broken key", vec![broken, refers(2, 1)], [0, 1, 1, 3, 4]),
    ] {
        let tables = vec![build::table(2, 2, &[1]); 5];
        let schema = Schema::read(&Records::new(1, tables, keys).bytes());
        let found = families::of_tables(&schema.expect("the schema is valid"));
        let outcome = (found == families).then_some(());
        let outcome = outcome.ok_or_else(|| format!("{:?}", found));
        report.test(&format!("families: {}", name), outcome);
    }
}

/// A key from c1 of a table to c0 of another.
fn refers(child: u8, parent: u8) -> Key {
    build::key((child, &[1]), (parent, &[0]), 0, 0)
}
