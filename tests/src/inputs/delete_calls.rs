//! Deletes: calls of kinds 3 and 10.

use super::calls::{self, row_call, some_row};
use super::grounds::Ground;
use super::{parents, searches};
use crate::model::area::Area;
use crate::model::search::Search;
use crate::random::Random;

/// The deletion of a row, most often of one that others refer to, or of all rows that a value finds.
pub fn any(r: &mut Random, ground: &Ground, words: &[i64]) -> Vec<i64> {
    let area = ground.area(words);
    let deletion = match r.between(0, 5) {
        0 | 1 => None,
        2 => one_row(r, ground, &area),
        _ => parents::deletion(r, ground, &area),
    };
    deletion.unwrap_or_else(|| rows_found(r, ground, &area))
}

/// The deletion of some row; once in ten times whether it is live or not.
fn one_row(r: &mut Random, ground: &Ground, area: &Area) -> Option<Vec<i64>> {
    let tables = &ground.schema.tables;
    let table = r.between(0, tables.len() - 1);
    let row = if r.once_in(10) {
        r.between(0, tables[table].rows - 1)
    } else {
        some_row(r, area, table)?.0
    };
    Some(row_call(3, table, row, &[]))
}

fn rows_found(r: &mut Random, ground: &Ground, area: &Area) -> Vec<i64> {
    let search = Search {
        set: None,
        ..searches::any(r, ground, area)
    };
    search.words()
}

/// The deletion of the first row of a chain in table 0 that is still there, or one of these.
pub fn on_chain(r: &mut Random, ground: &Ground, words: &[i64]) -> Vec<i64> {
    let deletion = calls::chain_deletion(r, &ground.area(words), 2, |row| row[0]);
    deletion.unwrap_or_else(|| any(r, ground, words))
}
