//! Areas full of rows that are made one by one: entered by calls, or put in their places.

use super::areas::open_levels;
use super::calls::{plain_call, row_call};
use super::damages;
use super::grounds::Ground;
use crate::engine::Engine;
use crate::model::area::Area;
use crate::model::keys::orphan_counts;
use crate::model::schema::Row;
use crate::model::Model;
use crate::random::Random;

/// Makes a row of a table, given the area so far.
pub type MakeRow<'a> = &'a dyn Fn(&mut Random, &Ground, &Area, usize) -> Row;

/// An area that inserts lead to, most of them in a transaction.
pub fn reached(r: &mut Random, ground: &Ground, make: MakeRow) -> Vec<i64> {
    let model = Model::of_the_paper();
    let mut area = ground.area(&ground.fresh());
    if !r.once_in(4) {
        let opening = plain_call(r.pick(&[4, 5]), 0);
        model.call(&ground.bytes, &mut area.words, &opening);
    }
    for (table, row) in places(r, ground) {
        let new = make(r, ground, &area, table);
        let insert = row_call(1, table, row, &new);
        model.call(&ground.bytes, &mut area.words, &insert);
    }
    area.words
}

/// The same, once in so many times with a level that can be rolled back to.
pub fn reached_with_level(
    r: &mut Random,
    ground: &Ground,
    times: usize,
    make: MakeRow,
) -> Vec<i64> {
    let words = reached(r, ground, make);
    with_level(r, ground, times, words)
}

/// The words, once in so many times with a level more, which can be rolled back to.
pub fn with_level(r: &mut Random, ground: &Ground, times: usize, mut words: Vec<i64>) -> Vec<i64> {
    if r.once_in(times) {
        Model::of_the_paper().call(&ground.bytes, &mut words, &plain_call(5, 0));
    }
    words
}

/// An area with such rows, whatever NOT NULL and unique keys say, some with damaged states, with
/// levels or without.
pub fn filled(r: &mut Random, ground: &Ground, make: MakeRow) -> Vec<i64> {
    let mut area = ground.area(&ground.fresh());
    for (table, row) in places(r, ground) {
        let new = make(r, ground, &area, table);
        area.put_row(table, row, Some(&new));
    }
    if r.once_in(2) {
        area.words = damages::damaged_rows(r, ground, &area.words);
    }
    let counts = orphan_counts(&Model::of_the_paper().rules, &area);
    area.kept_mut()[..counts.len()].copy_from_slice(&counts);
    if !r.once_in(4) {
        open_levels(r, ground, &mut area);
    }
    area.words
}

/// Most rows of all tables, in any order.
fn places(r: &mut Random, ground: &Ground) -> Vec<(usize, usize)> {
    let tables = ground.schema.tables.iter().enumerate();
    let rows = tables.flat_map(|(number, table)| (0..table.rows).map(move |row| (number, row)));
    let mut places: Vec<(usize, usize)> = rows.collect();
    places.retain(|_| !r.once_in(5));
    r.shuffle(&mut places);
    places
}
