//! The built engine against stock SQLite.

use super::{sqlite_broken, sqlite_names};
use crate::engine::{Answer, Built, Engine};
use crate::inputs::calls::row_call;
use crate::inputs::grounds::Ground;
use crate::model::form::Call;
use crate::random::Random;
use crate::report::Report;
use crate::schema_bytes::build::{key, match_full, table, NO_ACTION};
use crate::schema_bytes::records::Schema as Records;
use crate::sqlite::database::{version, Database};
use crate::trials::origins::Origin;
use crate::trials::searches;
use crate::trials::sqlite::Alike;

/// How many calls there are to be, and how many that are accepted.
const LEAST_CALLS: usize = 75_000;
const LEAST_ACCEPTED: usize = 20_000;

/// How many calls at most SQLite may accept by a miscount of its own.
const MOST_MISCOUNTED: usize = 20;

/// How many calls of kinds 10 and 11 that are refused, or that change no row, one, or more.
const LEAST_SEARCHES: usize = 500;

/// How many rows that actions change, and how many calls that show each situation below.
const LEAST_BY_ACTIONS: usize = 500;
const LEAST_OF_A_SITUATION: usize = 10;

/// What is to be seen in actions where the order of rows plays no part.
const SITUATIONS: &[&str] = &[
    "taken by a key of 1 column",
    "taken by a key of 2 columns",
    "taken by a key of 3 columns",
    "taken by a key of 4 columns",
    "taken after the parent's own row",
    "taken and keeps the old key",
    "has the new key from the first",
    "old values beside NULL",
    "old values but for the last",
];

/// How many calls on schemas with broken keys are refused by 23 and by SQLite, how many are accepted
/// and change rows, and how many of these enter rows into the parent table of a broken key.
const LEAST_BY_23: usize = 1_000;
const LEAST_BESIDE_BROKEN: usize = 300;
const LEAST_PARENTS_ENTERED: usize = 10;

/// How many calls on names there are to be, and what is to be seen in how many of them.
const LEAST_OF_NAMES: usize = 15_000;
const LEAST_OF_A_SPELLING: usize = 3;
const SPELLINGS: &[&str] = &[
    "parent in another spelling, both columns folded",
    "parent in another spelling, its column alone folded",
    "orphan for its spelling, its column alone folded",
    "two keys of one column, a parent by one",
    "first of several pairs in another spelling",
    "second pair in another spelling",
    "orphan for 40 and 60",
    "orphan for 5B and 7B",
    "mended by a parent in another spelling",
    "unique but for the spelling of an unfolded column",
    "unique for 40 and 60",
    "unique for 5B and 7B",
    "kind 10 finds another spelling",
    "kind 11 finds another spelling",
    "kind 10 passes over another spelling, not folded",
    "kind 11 passes over another spelling, not folded",
    "not found for 40 and 60",
    "not found for 5B and 7B",
    "a parent respelled, on update NO ACTION",
    "a parent respelled, on update RESTRICT",
    "a parent respelled, on update SET NULL",
    "a parent respelled, on update SET DEFAULT",
    "a parent respelled, on update CASCADE",
    "NO ACTION on delete, another spelling",
    "NO ACTION on update, another spelling",
    "SET NULL on delete, another spelling",
    "SET NULL on update, another spelling",
    "SET DEFAULT on delete, another spelling",
    "SET DEFAULT on update, another spelling",
    "CASCADE on delete, another spelling",
    "CASCADE on update, another spelling",
    "CASCADE gives capitals as typed",
    "SET DEFAULT gives the old key in another spelling",
    "actions for the spelling of an unfolded column",
    "17 by another spelling, a row entered",
    "17 by another spelling, a row updated",
    "17 by one folded column of two or more",
    "18 on delete by another spelling",
    "18 on update by another spelling",
    "20 for another spelling than an unfolded parent's",
];

/// How many orphan lists there are to be, and how many with orphans.
const LEAST_LISTS: usize = 10_000;
const LEAST_WITH_ORPHANS: usize = 1_000;

pub fn run(r: &mut Random, report: &mut Report) {
    let mut alike = Alike::new();
    let mut outcome = Ok(());
    while outcome.is_ok() && alike.calls < LEAST_CALLS {
        outcome = alike.trial(&Built, r);
    }
    println!(
        "{} calls compared with SQLite {}: {} accepted, {} of them by a miscount of its own; \
         left out: {} by order, {} by limits, {} by broken keys, {} by spelling",
        alike.calls,
        version(),
        alike.accepted,
        alike.miscounted,
        alike.by_order,
        alike.by_limit,
        alike.by_statement,
        alike.by_spelling
    );
    report.test("calls and orphan lists compared with SQLite", outcome);
    report.at_least("calls sent to SQLite", LEAST_CALLS, alike.calls);
    report.at_least("calls that SQLite accepts", LEAST_ACCEPTED, alike.accepted);
    let few = alike.miscounted <= MOST_MISCOUNTED;
    let outcome = few.then_some(()).ok_or(format!("{}", alike.miscounted));
    report.test("calls that SQLite accepts by a miscount are few", outcome);
    report_searches(report, &alike);
    report_actions(report, &alike);
    report_lists(report, &alike);
    report_broken(report, &alike);
    report_names(report, &alike);
    sqlite_broken::run(report);
    sqlite_names::run(report);
    let name = "SQLite does not enforce MATCH FULL";
    report.test(name, match_full_passes());
}

/// A half-filled key of MATCH FULL passes in SQLite, which has MATCH SIMPLE alone: so no other match
/// is compared.
fn match_full_passes() -> Result<(), String> {
    let own = match_full(key((1, &[0, 1]), (0, &[0, 1]), NO_ACTION, NO_ACTION));
    let tables = vec![table(1, 2, &[3]), table(1, 2, &[])];
    let ground = Ground::new(Records::new(1, tables, vec![own]), Vec::new());
    let row = vec![Some(1), None];
    let insert = row_call(1, 1, 0, &row);
    let answer = Built.call(&ground.bytes, &mut ground.fresh(), &insert);
    let changed = Database::new(&ground.schema).call(&Call::Insert(1, 0, row));
    if (answer, changed) == (Answer::refused(20), Some(1)) {
        return Ok(());
    }
    Err(format!("answer {}, rows changed {:?}", answer, changed))
}

fn report_searches(report: &mut Report, alike: &Alike) {
    println!(
        "{} of kinds 10 and 11, {} refused",
        alike.searches.sum() + alike.searches_refused,
        alike.searches_refused
    );
    let changed = alike.searches.of(searches::CHANGED);
    let title = "kinds 10 and 11 of SQLite by rows changed";
    report.counts(title, LEAST_SEARCHES, &changed);
    report.at_least(
        "kinds 10 and 11 that SQLite refuses",
        LEAST_SEARCHES,
        alike.searches_refused,
    );
}

fn report_actions(report: &mut Report, alike: &Alike) {
    let by_actions = alike.by_actions as usize;
    println!("{} rows changed by actions of SQLite", by_actions);
    let name = "rows changed by actions of SQLite";
    report.at_least(name, LEAST_BY_ACTIONS, by_actions);
    let met = alike.walks.met[Origin::Reached as usize].of(SITUATIONS);
    report.counts("child rows of SQLite", LEAST_OF_A_SITUATION, &met);
}

fn report_lists(report: &mut Report, alike: &Alike) {
    println!(
        "{} orphan lists compared with SQLite: {} with orphans",
        alike.lists, alike.with_orphans
    );
    report.at_least("orphan lists of SQLite", LEAST_LISTS, alike.lists);
    report.at_least(
        "orphan lists of SQLite with orphans",
        LEAST_WITH_ORPHANS,
        alike.with_orphans,
    );
}

fn report_names(report: &mut Report, alike: &Alike) {
    println!(
        "{} calls on names, some in folded columns, compared with SQLite",
        alike.of_names
    );
    report.at_least("calls of SQLite on names", LEAST_OF_NAMES, alike.of_names);
    let met = alike.spellings.of(SPELLINGS);
    report.counts("names of SQLite", LEAST_OF_A_SPELLING, &met);
}

fn report_broken(report: &mut Report, alike: &Alike) {
    println!(
        "on schemas with broken keys: {} refused by 23 and by SQLite, {} accepted that change rows, \
         {} of them enter rows of a broken key's parent",
        alike.refused_by_23, alike.beside_broken, alike.parents_entered
    );
    for (name, least, count) in [
        ("refused by 23", LEAST_BY_23, alike.refused_by_23),
        (
            "beside broken keys",
            LEAST_BESIDE_BROKEN,
            alike.beside_broken,
        ),
        (
            "that enter parents",
            LEAST_PARENTS_ENTERED,
            alike.parents_entered,
        ),
    ] {
        report.at_least(&format!("calls of SQLite {}", name), least, count);
    }
}
