//! The tests can fail: each mistaken engine is caught by a part of them.

use super::edges;
use crate::engine::Engine;
use crate::mistakes;
use crate::random::Random;
use crate::report::Report;
use crate::trials::bounded_deletes::BoundedDeletes;
use crate::trials::broken_keys;
use crate::trials::child_rows::ChildRows;
use crate::trials::delete_bounds::DeleteBounds;
use crate::trials::either_order::EitherOrder;
use crate::trials::every_day::EveryDay;
use crate::trials::every_parent::EveryParent;
use crate::trials::folded;
use crate::trials::half_filled;
use crate::trials::operations::Operations;
use crate::trials::orphan_lists::OrphanLists;
use crate::trials::replay::Replay;
use crate::trials::sqlite::Alike;
use crate::trials::watched::{Sort, Watched};
use crate::trials::windows;

/// No more parts are tried with an engine once so many have caught it.
const ENOUGH_PARTS: usize = 3;

/// A part's name, and whether it catches an engine.
type Part = (&'static str, fn(&dyn Engine, &mut Random) -> bool);

/// From the quickest on.
const PARTS: &[Part] = &[
    ("edge cases", |engine, _| edges::compare(engine).is_err()),
    ("deletes within their bounds", |engine, r| {
        let mut deletes = BoundedDeletes::new();
        (0..60).any(|_| deletes.trial(engine, r).is_err())
    }),
    ("every day", |engine, _| {
        let mut every = EveryDay::new();
        let outcomes = [
            every.readings(engine),
            every.windows(engine),
            every.moves(engine),
        ];
        outcomes.iter().any(|outcome| outcome.is_err())
    }),
    ("half-filled keys", |engine, r| {
        caught_on(&half_filled::SORT, 60, engine, r)
    }),
    ("calls in either order", |engine, r| {
        let mut orders = EitherOrder::default();
        (0..8).any(|_| orders.trial(engine, r).is_err())
    }),
    ("folded columns", |engine, r| {
        caught_on(&folded::SORT, 60, engine, r)
    }),
    ("windowed keys", |engine, r| {
        caught_on(&windows::SORT, 100, engine, r)
    }),
    ("broken keys", |engine, r| {
        caught_on(&broken_keys::SORT, 200, engine, r)
    }),
    ("orphan lists", |engine, r| {
        let mut lists = OrphanLists::new();
        (0..10).any(|_| lists.trial(engine, r).is_err())
    }),
    ("delete bounds", |engine, r| {
        let mut bounds = DeleteBounds::new();
        (0..80).any(|_| bounds.trial(engine, r).is_err()) || bounds.largest(engine).is_err()
    }),
    ("every parent", |engine, _| {
        let mut every = EveryParent::new();
        let outcomes = [
            every.tables(engine),
            every.columns(engine),
            every.choices(engine),
            every.windows(engine),
        ];
        outcomes.iter().any(|outcome| outcome.is_err())
    }),
    ("lists replayed", |engine, r| {
        let mut replay = Replay::new();
        (0..100).any(|_| replay.trial(engine, r).is_err())
    }),
    ("SQLite", |engine, r| {
        let mut alike = Alike::new();
        (0..40).any(|_| alike.trial(engine, r).is_err())
    }),
    ("changes of parent rows", |engine, r| {
        let mut child_rows = ChildRows::new();
        (0..1_000).any(|_| child_rows.trial(engine, r).is_err())
    }),
    ("single operations", |engine, r| {
        let mut operations = Operations::new();
        (0..4_000).any(|_| operations.trial(engine, r).is_err())
    }),
];

/// Whether so many trials of a sort catch an engine.
fn caught_on(sort: &'static Sort, trials: usize, engine: &dyn Engine, r: &mut Random) -> bool {
    let mut watched = Watched::new(sort);
    (0..trials).any(|_| watched.trial(engine, r).is_err())
}

pub fn run(r: &mut Random, report: &mut Report) {
    let engines = mistakes::all();
    let mut caught_all = 0;
    for (name, engine) in &engines {
        let parts = PARTS.iter().filter(|part| (part.1)(engine.as_ref(), r));
        let caught: Vec<&str> = parts.map(|part| part.0).take(ENOUGH_PARTS).collect();
        let outcome = if caught.is_empty() {
            Err("no part of the tests tells it from the paper".into())
        } else {
            caught_all += 1;
            println!("caught: {} ({})", name, caught.join(", "));
            Ok(())
        };
        report.test(&format!("mistake: {}", name), outcome);
    }
    println!(
        "{} of {} mistaken engines caught",
        caught_all,
        engines.len()
    );
}
