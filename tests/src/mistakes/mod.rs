//! Engines with one mistake each: the model with one rule of the paper read wrongly, and engines
//! that are worth nothing. The tests must tell each from the paper's.

mod actions;
mod bound_answers;
mod broken_keys;
mod broken_readings;
mod delete_bound;
mod families;
mod folded;
mod left_days;
mod match_full;
mod old_key;
mod orphan_list;
mod other_bytes;
mod refusals;
mod searches;
mod shared_days;
mod spellings;
mod transactions;
mod windows;
mod worthless;

use crate::engine::Engine;
use crate::model::rules::Rules;
use crate::model::Model;

/// A name, and the change of the rules.
pub type Mistake = (&'static str, fn(&mut Rules));

/// An engine with its name.
pub type Named = (&'static str, Box<dyn Engine>);

/// The engines with their names.
pub fn all() -> Vec<Named> {
    let lists = [
        actions::ALL,
        old_key::ALL,
        match_full::ALL,
        refusals::ALL,
        transactions::ALL,
        orphan_list::ALL,
        delete_bound::ROWS,
        delete_bound::COLUMNS,
        delete_bound::KEYS,
        searches::ALL,
        broken_keys::NUMBERS,
        broken_keys::ORDER,
        broken_keys::KINDS,
        broken_keys::VALUES,
        broken_readings::ALL,
        folded::BYTES,
        folded::MARKS,
        spellings::ALL,
        windows::DAYS,
        windows::BROKEN,
        windows::CHANGES,
        windows::ORPHANS,
        left_days::ALL,
        shared_days::ORDER,
        shared_days::SHARED,
        families::ALL,
    ];
    let misread = lists.into_iter().flatten().map(|&(name, change)| {
        let mut model = Model::of_the_paper();
        change(&mut model.rules);
        (name, Box::new(model) as Box<dyn Engine>)
    });
    let readings = [match_full::READINGS, folded::READINGS, windows::READINGS];
    let readings = readings.into_iter().flatten().map(other_bytes::engine);
    let bounds = bound_answers::ALL.iter().map(worthless::with_bounds);
    let others = [
        worthless::all(),
        broken_readings::by_statement(),
        families::of_rollbacks(),
    ];
    let others = others.into_iter().flatten();
    let engines = misread.chain(readings).chain(bounds);
    engines.chain(others).collect()
}
