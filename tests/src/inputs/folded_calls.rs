//! Calls in which spellings matter: parents and child rows in other spellings, unique keys that are
//! equal without regard to capitals or nearly, and searches for other spellings.

use super::calls::{self, new_row, put, row_call, some_row, value};
use super::folded::row;
use super::grounds::Ground;
use super::{searches, spellings};
use crate::model::area::Area;
use crate::model::keys::row_maps;
use crate::model::schema::{Key, Row};
use crate::model::search::Search;
use crate::random::Random;

/// A call in which spellings matter, or one that leads to actions.
pub fn any(r: &mut Random, ground: &Ground, words: &[i64]) -> Vec<i64> {
    let area = ground.area(words);
    let keys: Vec<&Key> = ground.schema.keys.iter().filter(|k| !k.broken).collect();
    if r.once_in(8) {
        return calls::transaction_call(r, words[0]);
    }
    if r.once_in(5) {
        return searches::any(r, ground, &area).words();
    }
    if keys.is_empty() || r.once_in(4) {
        return on_table(r, ground, &area);
    }
    let key = r.pick(&keys);
    let call = match r.between(0, 4) {
        0 => parent_entered(r, ground, &area, key),
        1 => child_entered(r, ground, &area, key),
        _ => on_parent(r, ground, &area, key),
    };
    call.unwrap_or_else(|| calls::leading_to_actions(r, ground, words))
}

/// A call that suits the area, in schemas with folded columns now and then one of these.
pub fn now_and_then(r: &mut Random, ground: &Ground, words: &[i64]) -> Vec<i64> {
    if ground.schema.any_folded() && r.once_in(3) {
        any(r, ground, words)
    } else {
        calls::any(r, ground, words)
    }
}

/// The deletion of the first row of a chain in table 0 that is still there, or one of these calls.
pub fn on_chain(r: &mut Random, ground: &Ground, words: &[i64]) -> Vec<i64> {
    let key = &ground.schema.keys[0];
    let values = |row: &Row| key.compared(&key.parent_key(row));
    let deletion = calls::chain_deletion(r, &ground.area(words), 2, values);
    deletion.unwrap_or_else(|| any(r, ground, words))
}

/// The row with the values of these columns in other spellings.
fn respelled(r: &mut Random, mut row: Row, columns: &[usize]) -> Row {
    for &column in columns {
        if !r.once_in(3) {
            row[column] = spellings::other(r, row[column]);
        }
    }
    row
}

/// A parent of some child row, if there is one, is respelled, also by kind 11, or nearly so, renamed
/// or deleted.
fn on_parent(r: &mut Random, ground: &Ground, area: &Area, key: &Key) -> Option<Vec<i64>> {
    let (_, child) = some_row(r, area, key.child)?;
    let mut parents = area.live_rows(key.parent);
    parents.retain(|(_, row)| row_maps(key, &child, row));
    let (number, mut parent) = parents.pop()?;
    let column = r.pick(&key.parent_columns);
    match r.between(0, 5) {
        0 => return Some(row_call(3, key.parent, number, &[])),
        1 => return Some(spelling_set(r, key, &parent).words()),
        2 => parent = respelled(r, parent, &key.parent_columns),
        3 => parent[column] = parent[column].map(|word| spellings::nearly(r, word)),
        _ => parent[column] = value(r, ground, key.parent, column),
    }
    Some(row_call(2, key.parent, number, &parent))
}

/// A column of a parent key is set to another spelling where it is equal to what the row has.
fn spelling_set(r: &mut Random, key: &Key, parent: &Row) -> Search {
    let column = r.pick(&key.parent_columns);
    let [sought, new] = [0; 2].map(|_| spellings::other(r, parent[column]));
    Search {
        table: key.parent,
        column,
        sought,
        set: Some((column, new)),
    }
}

/// A parent is entered, or made of another row, with the key of a child row in another spelling, or
/// with the default of one.
fn parent_entered(r: &mut Random, ground: &Ground, area: &Area, key: &Key) -> Option<Vec<i64>> {
    let child = if r.once_in(3) {
        ground.schema.tables[key.child].defaults.clone()
    } else {
        some_row(r, area, key.child)?.1
    };
    let mut parent = new_row(r, ground, area, key.parent);
    for (&column, value) in key.parent_columns.iter().zip(key.child_key(&child)) {
        parent[column] = value;
    }
    let parent = respelled(r, parent, &key.parent_columns);
    Some(put(r, ground, area, (key.parent, parent)))
}

/// A child row is entered, or made of another row, with the key of a parent in another spelling.
fn child_entered(r: &mut Random, ground: &Ground, area: &Area, key: &Key) -> Option<Vec<i64>> {
    let (_, parent) = some_row(r, area, key.parent)?;
    let mut child = new_row(r, ground, area, key.child);
    for (&column, value) in key.child_columns.iter().zip(key.parent_key(&parent)) {
        child[column] = value;
    }
    let child = respelled(r, child, &key.child_columns);
    Some(put(r, ground, area, (key.child, child)))
}

/// A row is respelled, or one is put in that has the unique key of another in another spelling, or
/// nearly.
fn on_table(r: &mut Random, ground: &Ground, area: &Area) -> Vec<i64> {
    let table = r.between(0, ground.schema.tables.len() - 1);
    let columns: Vec<usize> = (0..ground.schema.tables[table].columns).collect();
    let (number, old) = match some_row(r, area, table) {
        Some(found) => found,
        None => {
            let first = row(r, ground, area, table);
            return put(r, ground, area, (table, first));
        }
    };
    if r.once_in(3) {
        let new = respelled(r, old, &columns);
        return row_call(2, table, number, &new);
    }
    let mut new = row(r, ground, area, table);
    let unique = &ground.schema.tables[table].unique;
    if !unique.is_empty() {
        let key = &unique[r.between(0, unique.len() - 1)];
        key.iter().for_each(|&column| new[column] = old[column]);
        new = respelled(r, new, key);
    }
    put(r, ground, area, (table, new))
}
