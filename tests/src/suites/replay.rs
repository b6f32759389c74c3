//! Demand 3 on the built engine, on random lists of calls.

use crate::engine::Built;
use crate::random::Random;
use crate::report::Report;
use crate::trials::replay::Replay;

/// How many lists there are to be, how many that end inside a transaction, and how many calls of
/// kinds 10 and 11, and of those that write half-filled keys, striking out leaves and does not.
const LEAST_LISTS: usize = 3_000;
const LEAST_OPEN: usize = 300;
const LEAST_SEARCHES: usize = 10_000;
const LEAST_HALF_FILLING: usize = 200;

/// How many lists on schemas with broken keys there are to be, how many calls refused by 23, and how
/// many that enter rows into the parent table of a broken key striking out leaves and does not.
const LEAST_HALF_DRAWN: usize = 200;
const LEAST_BY_23: usize = 2_000;
const LEAST_PARENTS_ENTERED: usize = 50;

/// How many lists on schemas with folded columns there are to be, and how many calls that spell a row
/// otherwise striking out leaves and does not.
const LEAST_FOLDED: usize = 200;
const LEAST_RESPELLING: usize = 200;

/// How many lists on schemas with windowed keys there are to be, how many calls of each code, and how
/// many calls that move a window striking out leaves and does not.
const LEAST_WINDOWED: usize = 200;
const LEAST_OF_A_CODE: usize = 50;
const LEAST_MOVING: usize = 200;

/// The codes of calls on areas reached from fresh ones.
const CODES: &[i64] = &[0, 4, 11, 12, 15, 16, 17, 18, 20, 21, 23, 24];

pub fn run(r: &mut Random, report: &mut Report) {
    let mut replay = Replay::new();
    let mut outcome = Ok(());
    while outcome.is_ok() && replay.lists < LEAST_LISTS {
        outcome = replay.trial(&Built, r);
    }
    println!(
        "{} lists replayed: {} calls, {} left by striking out, {} lists end inside a transaction",
        replay.lists, replay.calls, replay.left, replay.open
    );
    println!(
        "of kinds 10 and 11: {} calls, {} left by striking out",
        replay.searches, replay.searches_left
    );
    println!(
        "{} calls write half-filled keys of MATCH FULL, {} left by striking out",
        replay.half_filling, replay.half_filling_left
    );
    println!(
        "{} lists on schemas with broken keys: {} calls refused by 23; {} enter rows of a broken \
         key's parent, {} left by striking out",
        replay.half_drawn, replay.refused_by_23, replay.parents_entered, replay.parents_left
    );
    println!(
        "{} lists on schemas with folded columns: {} calls spell a row otherwise, {} left by striking \
         out",
        replay.folded, replay.respelling, replay.respelling_left
    );
    println!(
        "{} lists on schemas with windowed keys: {} calls move a window, {} left by striking out",
        replay.windowed, replay.moving, replay.moving_left
    );
    report.test("lists replayed", outcome);
    report.at_least("lists", LEAST_LISTS, replay.lists);
    report.at_least(
        "lists that end inside a transaction",
        LEAST_OPEN,
        replay.open,
    );
    report_struck(report, &replay);
    report_broken(report, &replay);
    report_folded(report, &replay);
    report_windowed(report, &replay);
}

/// What striking out left, and what it did not.
fn report_struck(report: &mut Report, replay: &Replay) {
    let (searches, half_filling) = (replay.searches_left, replay.half_filling_left);
    for (name, least, count) in [
        ("kinds 10 and 11 left", LEAST_SEARCHES, searches),
        (
            "kinds 10 and 11 struck or refused",
            LEAST_SEARCHES,
            replay.searches - searches,
        ),
        ("half-filled keys left", LEAST_HALF_FILLING, half_filling),
        (
            "half-filled keys struck",
            LEAST_HALF_FILLING,
            replay.half_filling - half_filling,
        ),
    ] {
        report.at_least(&format!("calls of {}", name), least, count);
    }
}

/// What was met on schemas with broken keys.
fn report_broken(report: &mut Report, replay: &Replay) {
    let struck = replay.parents_entered - replay.parents_left;
    let met = [
        ("lists on broken keys", LEAST_HALF_DRAWN, replay.half_drawn),
        ("calls refused by 23", LEAST_BY_23, replay.refused_by_23),
        ("parents left", LEAST_PARENTS_ENTERED, replay.parents_left),
        ("parents struck", LEAST_PARENTS_ENTERED, struck),
    ];
    report_replayed(report, &met);
}

/// What was met on schemas with folded columns.
fn report_folded(report: &mut Report, replay: &Replay) {
    let (left, all) = (replay.respelling_left, replay.respelling);
    let met = [
        ("lists on folded columns", LEAST_FOLDED, replay.folded),
        ("other spellings left", LEAST_RESPELLING, left),
        ("other spellings struck", LEAST_RESPELLING, all - left),
    ];
    report_replayed(report, &met);
}

/// What was met on schemas with windowed keys.
fn report_windowed(report: &mut Report, replay: &Replay) {
    let (left, all) = (replay.moving_left, replay.moving);
    let met = [
        ("lists on windowed keys", LEAST_WINDOWED, replay.windowed),
        ("windows moved left", LEAST_MOVING, left),
        ("windows moved struck", LEAST_MOVING, all - left),
    ];
    report_replayed(report, &met);
    let codes = replay.codes_of_windowed.of(CODES);
    let title = "replayed on windowed keys by code";
    report.counts(title, LEAST_OF_A_CODE, &codes);
}

/// Each with its name, how many there are to be, and how many there were.
fn report_replayed(report: &mut Report, met: &[(&str, usize, usize)]) {
    for &(name, least, count) in met {
        report.at_least(&format!("replayed: {}", name), least, count);
    }
}
