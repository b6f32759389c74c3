//! Changes of rows that others refer to.

use super::calls::{another, row_call, Numbered};
use super::grounds::Ground;
use crate::model::area::Area;
use crate::model::keys::{full, maps};
use crate::model::schema::{Key, Row};
use crate::random::Random;

/// The deletion of a row that a child row refers to, or a change of its key. None where a child row
/// picked at random has no parent.
pub fn any(r: &mut Random, ground: &Ground, area: &Area) -> Option<Vec<i64>> {
    of_keys(r, ground, area, &all_keys(ground))
}

/// The same by one of these keys.
pub fn of_keys(r: &mut Random, ground: &Ground, area: &Area, keys: &[&Key]) -> Option<Vec<i64>> {
    let (key, (row, parent)) = some_parent(r, area, keys)?;
    if r.once_in(2) {
        return Some(row_call(3, key.parent, row, &[]));
    }
    let new = with_other_key(r, ground, area, key, parent);
    Some(row_call(2, key.parent, row, &new))
}

/// The deletion of a row that a child row refers to. None as above.
pub fn deletion(r: &mut Random, ground: &Ground, area: &Area) -> Option<Vec<i64>> {
    let (key, (row, _)) = some_parent(r, area, &all_keys(ground))?;
    Some(row_call(3, key.parent, row, &[]))
}

fn all_keys(ground: &Ground) -> Vec<&Key> {
    ground.schema.keys.iter().collect()
}

/// The parent of some child row, and the one of these keys by which that refers to it.
fn some_parent<'a>(r: &mut Random, area: &Area, keys: &[&'a Key]) -> Option<(&'a Key, Numbered)> {
    if keys.is_empty() {
        return None;
    }
    let key = r.pick(keys);
    let parent = referred_to(r, area, key)?;
    Some((key, parent))
}

/// The parent of some child row by this key.
fn referred_to(r: &mut Random, area: &Area, key: &Key) -> Option<Numbered> {
    let mut wanted: Vec<Row> = area
        .live_rows(key.child)
        .iter()
        .map(|(_, row)| key.compared(&key.child_key(row)))
        .collect();
    wanted.retain(full);
    if wanted.is_empty() {
        return None;
    }
    let wanted = &wanted[r.between(0, wanted.len() - 1)];
    let mut parents = area.live_rows(key.parent).into_iter();
    parents.find(|(_, row)| maps(key, wanted, &key.compared(&key.parent_key(row))))
}

/// The row with other values in its key: now and then those that some child row has, else a new one
/// in one column, or the same in another spelling.
fn with_other_key(r: &mut Random, ground: &Ground, area: &Area, key: &Key, mut row: Row) -> Row {
    let children = area.live_rows(key.child);
    if r.once_in(3) && !children.is_empty() {
        let (_, child) = &children[r.between(0, children.len() - 1)];
        for (&column, &from) in key.parent_columns.iter().zip(&key.child_columns) {
            row[column] = child[from];
        }
        return row;
    }
    let column = r.pick(&key.parent_columns);
    row[column] = another(r, ground, (key.parent, column), row[column]);
    row
}
