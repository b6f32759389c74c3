//! Calls on rows with half-filled child keys, and on parents that are equal in the filled columns.

use super::calls::{self, new_row, put, row_call, value, Numbered};
use super::grounds::Ground;
use super::half_filled::{empty, empty_some, row};
use crate::model::area::Area;
use crate::model::keys::{equal_where_filled, half_filled};
use crate::model::schema::{Key, Row};
use crate::model::search::Search;
use crate::random::Random;

/// A call on such a row or on such a parent, or one that leads to actions.
pub fn any(r: &mut Random, ground: &Ground, words: &[i64]) -> Vec<i64> {
    let area = ground.area(words);
    let keys = ground.schema.keys.iter();
    let keys: Vec<&Key> = keys.filter(|key| ground.schema.has_parent(key)).collect();
    if keys.is_empty() || r.once_in(3) {
        return calls::leading_to_actions(r, ground, words);
    }
    let key = r.pick(&keys);
    if r.once_in(6) {
        return column_set(r, ground, key);
    }
    let mut halves = area.live_rows(key.child);
    halves.retain(|(_, row)| half_filled(&key.child_key(row)));
    if halves.is_empty() || r.once_in(5) {
        return half_filling(r, ground, &area, key);
    }
    let child = &halves[r.between(0, halves.len() - 1)];
    if r.once_in(2) {
        on_child(r, ground, &area, key, child)
    } else {
        on_parent(r, ground, &area, key, child)
    }
}

/// A call that suits the area, now and then one of these.
pub fn now_and_then(r: &mut Random, ground: &Ground, words: &[i64]) -> Vec<i64> {
    if r.once_in(4) {
        any(r, ground, words)
    } else {
        calls::any(r, ground, words)
    }
}

/// One column of a child key is set to NULL or a value in many rows.
fn column_set(r: &mut Random, ground: &Ground, key: &Key) -> Vec<i64> {
    let [column, set] = [0; 2].map(|_| r.pick(&key.child_columns));
    let new = value(r, ground, key.child, set).filter(|_| r.once_in(2));
    let search = Search {
        table: key.child,
        column,
        sought: value(r, ground, key.child, column),
        set: Some((set, new)),
    };
    search.words()
}

/// An insert of a child row, or an update of one that sets some columns of its key to NULL.
fn half_filling(r: &mut Random, ground: &Ground, area: &Area, key: &Key) -> Vec<i64> {
    let number = r.between(0, ground.schema.tables[key.child].rows - 1);
    match area.row(key.child, number) {
        Some(mut old) => {
            empty_some(r, key, &mut old);
            row_call(2, key.child, number, &old)
        }
        None => row_call(1, key.child, number, &row(r, ground, area, key.child)),
    }
}

/// The row is deleted, its key emptied, or the key's NULL columns get values.
fn on_child(r: &mut Random, ground: &Ground, area: &Area, key: &Key, child: &Numbered) -> Vec<i64> {
    let (number, mut new) = child.clone();
    match r.between(0, 5) {
        0 => return row_call(3, key.child, number, &[]),
        1 => empty(key, &mut new),
        2 => fill(r, ground, key, &mut new),
        _ => fill_from_parent(r, ground, area, key, &mut new),
    }
    row_call(2, key.child, number, &new)
}

/// Gives values to the columns of a child key that are NULL.
fn fill(r: &mut Random, ground: &Ground, key: &Key, row: &mut Row) {
    for &column in &key.child_columns {
        row[column] = row[column].or_else(|| value(r, ground, key.child, column));
    }
}

/// Gives a child key the values of a parent that is equal in the filled columns, if there is one.
fn fill_from_parent(r: &mut Random, ground: &Ground, area: &Area, key: &Key, row: &mut Row) {
    let alike = alike(area, key, row);
    if alike.is_empty() {
        return fill(r, ground, key, row);
    }
    let (_, parent) = &alike[r.between(0, alike.len() - 1)];
    for (&column, &from) in key.child_columns.iter().zip(&key.parent_columns) {
        row[column] = parent[from];
    }
}

/// The live parent rows that are equal to a child row in the filled columns of its key.
fn alike(area: &Area, key: &Key, child: &Row) -> Vec<Numbered> {
    let child_key = key.compared(&key.child_key(child));
    let parent_key = |row: &Row| key.compared(&key.parent_key(row));
    let mut parents = area.live_rows(key.parent);
    parents.retain(|(_, row)| equal_where_filled(&child_key, &parent_key(row)));
    parents
}

/// A parent that is equal in the filled columns is deleted, changed or entered.
fn on_parent(
    r: &mut Random,
    ground: &Ground,
    area: &Area,
    key: &Key,
    child: &Numbered,
) -> Vec<i64> {
    let alike = alike(area, key, &child.1);
    if alike.is_empty() || r.once_in(3) {
        return parent_entered(r, ground, area, key, &child.1);
    }
    let (number, mut parent) = alike[r.between(0, alike.len() - 1)].clone();
    if r.once_in(2) {
        return row_call(3, key.parent, number, &[]);
    }
    let column = r.pick(&key.parent_columns);
    parent[column] = value(r, ground, key.parent, column);
    row_call(2, key.parent, number, &parent)
}

/// A parent row gets the values of the child key, and values or NULL where that has NULL.
fn parent_entered(
    r: &mut Random,
    ground: &Ground,
    area: &Area,
    key: &Key,
    child: &Row,
) -> Vec<i64> {
    let mut parent = new_row(r, ground, area, key.parent);
    for (&column, &from) in key.parent_columns.iter().zip(&key.child_columns) {
        parent[column] = match child[from] {
            None if !r.once_in(4) => Some(r.pick(&ground.values)),
            value => value,
        };
    }
    put(r, ground, area, (key.parent, parent))
}
