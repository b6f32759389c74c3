//! Calls on tables that broken foreign keys touch, and on those that lead to them by actions.

use super::calls::{self, new_row, row_call, value};
use super::grounds::Ground;
use super::half_filled::empty;
use super::{folded_calls, searches};
use crate::model::area::Area;
use crate::model::schema::{Key, Row};
use crate::random::Random;

/// A call on a table that a broken key touches, or one that leads to actions.
pub fn any(r: &mut Random, ground: &Ground, words: &[i64]) -> Vec<i64> {
    let area = ground.area(words);
    let broken: Vec<&Key> = ground.schema.keys.iter().filter(|k| k.broken).collect();
    if broken.is_empty() || r.once_in(3) {
        return calls::leading_to_actions(r, ground, words);
    }
    if r.once_in(8) {
        return calls::transaction_call(r, words[0]);
    }
    if r.once_in(10) {
        return search_above(r, ground, &area);
    }
    let key = r.pick(&broken);
    let has_parent = key.parent < ground.schema.tables.len();
    let table = if has_parent && r.once_in(2) {
        key.parent
    } else {
        key.child
    };
    on_table(r, ground, &area, table, key)
}

/// A search among the parents of a whole key, or any.
fn search_above(r: &mut Random, ground: &Ground, area: &Area) -> Vec<i64> {
    let whole: Vec<&Key> = ground.schema.keys.iter().filter(|k| !k.broken).collect();
    if whole.is_empty() {
        return searches::any(r, ground, area).words();
    }
    let table = r.pick(&whole).parent;
    searches::of_table(r, ground, area, table).words()
}

/// The deletion of the first row of a chain in table 0 that is still there, or one of these calls.
pub fn on_chain(r: &mut Random, ground: &Ground, words: &[i64]) -> Vec<i64> {
    let deletion = calls::chain_deletion(r, &ground.area(words), 2, |row| row[0]);
    deletion.unwrap_or_else(|| any(r, ground, words))
}

/// A change of rows of a table that the key touches.
fn on_table(r: &mut Random, ground: &Ground, area: &Area, table: usize, key: &Key) -> Vec<i64> {
    if r.once_in(4) {
        return searches::of_table(r, ground, area, table).words();
    }
    let live = area.live_rows(table);
    if live.is_empty() || r.once_in(3) {
        let number = r.between(0, ground.schema.tables[table].rows - 1);
        return row_call(1, table, number, &entered(r, ground, area, table, key));
    }
    let (number, old) = live[r.between(0, live.len() - 1)].clone();
    match r.between(0, 2) {
        0 => row_call(3, table, number, &[]),
        _ => row_call(
            2,
            table,
            number,
            &updated(r, ground, area, (table, old), key),
        ),
    }
}

/// A new row, now and then with NULL in every column of the child key.
fn entered(r: &mut Random, ground: &Ground, area: &Area, table: usize, key: &Key) -> Row {
    let mut row = new_row(r, ground, area, table);
    if key.child == table && r.once_in(3) {
        empty(key, &mut row);
    }
    row
}

/// The old row as it is, with an empty child key, with one column changed, or a new one.
fn updated(
    r: &mut Random,
    ground: &Ground,
    area: &Area,
    (table, mut row): (usize, Row),
    key: &Key,
) -> Row {
    match r.between(0, 4) {
        0 | 1 => {}
        2 if key.child == table => empty(key, &mut row),
        3 => return new_row(r, ground, area, table),
        _ => {
            let column = r.between(0, row.len() - 1);
            row[column] = value(r, ground, table, column);
        }
    }
    row
}

/// A call that suits the area, now and then one of these, or one in which spellings matter.
pub fn now_and_then(r: &mut Random, ground: &Ground, words: &[i64]) -> Vec<i64> {
    if ground.schema.any_broken() && r.once_in(3) {
        any(r, ground, words)
    } else {
        folded_calls::now_and_then(r, ground, words)
    }
}
