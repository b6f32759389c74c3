//! Calls in which windows matter: days at the ends of windows, windows moved, shortened and
//! lengthened, windows that touch or share a day, and searches for days.

use super::calls::{self, put, row_call, some_row};
use super::grounds::Ground;
use super::windows::{as_child, as_parent, row, set_window, window, window_of, windowed_keys};
use super::{broken_key_calls, searches, spellings};
use crate::model::area::Area;
use crate::model::keys::{full, row_maps};
use crate::model::schema::{Key, Row, Value};
use crate::model::search::Search;
use crate::random::Random;

/// A call in which windows matter, or one that leads to actions.
pub fn any(r: &mut Random, ground: &Ground, words: &[i64]) -> Vec<i64> {
    let area = ground.area(words);
    if r.once_in(8) {
        return calls::transaction_call(r, words[0]);
    }
    if ground.schema.any_broken() && r.once_in(3) {
        return broken_key_calls::any(r, ground, words);
    }
    let keys: Vec<&Key> = windowed_keys(ground).collect();
    if keys.is_empty() || r.once_in(6) {
        return calls::leading_to_actions(r, ground, words);
    }
    let key = r.pick(&keys);
    let call = match r.between(0, 9) {
        0 | 1 => Some(entered(r, ground, &area, key.child)),
        2 | 3 => Some(entered(r, ground, &area, key.parent)),
        4 => over_orphan(r, ground, &area, key),
        5 => search(r, ground, &area, key),
        _ => on_parent(r, ground, &area, key),
    };
    call.unwrap_or_else(|| calls::leading_to_actions(r, ground, words))
}

/// A call that suits the area, in schemas with windowed keys now and then one of these.
pub fn now_and_then(r: &mut Random, ground: &Ground, words: &[i64]) -> Vec<i64> {
    if ground.schema.any_windowed() && r.once_in(2) {
        any(r, ground, words)
    } else {
        broken_key_calls::now_and_then(r, ground, words)
    }
}

/// The deletion of the first row of a chain in table 0 that is still there, or one of these calls.
pub fn on_chain(r: &mut Random, ground: &Ground, words: &[i64]) -> Vec<i64> {
    let deletion = calls::chain_deletion(r, &ground.area(words), 3, |row| row[0]);
    deletion.unwrap_or_else(|| any(r, ground, words))
}

/// A row is entered, or made of another one; searches where the table is missing.
fn entered(r: &mut Random, ground: &Ground, area: &Area, table: usize) -> Vec<i64> {
    if table >= ground.schema.tables.len() {
        return searches::any(r, ground, area).words();
    }
    let new = row(r, ground, area, table);
    put(r, ground, area, (table, new))
}

/// A parent, most often one of some child row, is deleted or changed in its window or its names.
fn on_parent(r: &mut Random, ground: &Ground, area: &Area, key: &Key) -> Option<Vec<i64>> {
    let child = some_row(r, area, key.child).map(|(_, row)| row);
    let mut parents = area.live_rows(key.parent);
    if let Some(child) = child.as_ref().filter(|_| !r.once_in(6)) {
        parents.retain(|(_, row)| row_maps(key, child, row));
    }
    let (number, parent) = parents.get(r.between(0, parents.len().max(1) - 1))?.clone();
    if r.once_in(7) {
        return Some(row_call(3, key.parent, number, &[]));
    }
    let day = child.and_then(|child| key.child_key(&child).last().copied().flatten());
    let new = changed(r, ground, area, (key, parent), day);
    Some(row_call(2, key.parent, number, &new))
}

/// The parent row changed, given a day that is often in its window.
fn changed(
    r: &mut Random,
    ground: &Ground,
    area: &Area,
    (key, mut parent): (&Key, Row),
    day: Value,
) -> Row {
    let (first, end) = window_of(key, &parent);
    let after = day.and_then(|day| day.checked_add(1));
    let other = Some(r.pick(&ground.values));
    match r.between(0, 17) {
        0 => set_window(key, &mut parent, (first, day)),
        1 | 2 => set_window(key, &mut parent, (first, after)),
        3 => set_window(key, &mut parent, (day, end)),
        4 => set_window(key, &mut parent, (after, end)),
        5 => set_window(key, &mut parent, (day, after)),
        6 => set_window(key, &mut parent, (first, other)),
        7 => set_window(key, &mut parent, (other, end)),
        8 => set_window(key, &mut parent, (first, None)),
        9 => set_window(key, &mut parent, window(r, ground)),
        10 => parent = renamed(r, ground, (key, parent)),
        11 => as_parent(r, ground, area, key, &mut parent),
        12..=15 => set_window(key, &mut parent, (spellings::other(r, first), end)),
        16 => as_child_of_its_table(r, ground, area, key, &mut parent),
        _ => {}
    }
    parent
}

/// The row with one of its names another, or in another spelling.
fn renamed(r: &mut Random, ground: &Ground, (key, mut parent): (&Key, Row)) -> Row {
    let others = &key.parent_columns[..key.parent_columns.len() - 1];
    let column = r.pick(others);
    if let Some(place) = parent.get_mut(column) {
        *place = if r.once_in(2) {
            Some(r.pick(&ground.values[..2]))
        } else {
            spellings::other(r, *place)
        };
    }
    parent
}

/// A row of a table that refers to itself gets another parent.
fn as_child_of_its_table(r: &mut Random, ground: &Ground, area: &Area, key: &Key, row: &mut Row) {
    if key.child == key.parent {
        as_child(r, ground, area, key, row);
    }
}

/// A row that no parent serves, if there is one, gets one: by a longer window, or by a new row.
fn over_orphan(r: &mut Random, ground: &Ground, area: &Area, key: &Key) -> Option<Vec<i64>> {
    ground.schema.tables.get(key.parent)?;
    let parents = area.live_rows(key.parent);
    let mut orphans = area.live_rows(key.child);
    orphans.retain(|(_, row)| {
        full(&key.child_key(row)) && !parents.iter().any(|(_, parent)| row_maps(key, row, parent))
    });
    let (_, orphan) = orphans.get(r.between(0, orphans.len().max(1) - 1))?;
    let child_key = key.child_key(orphan);
    let (day, others) = child_key.split_last()?;
    let after = day.and_then(|day| day.checked_add(1));
    let same = |parent: &Row| key.parent_key(parent)[..others.len()] == *others;
    let beside = parents.iter().find(|(_, parent)| same(parent));
    if let Some((number, parent)) = beside.filter(|_| !r.once_in(4)) {
        let mut parent = parent.clone();
        let (first, end) = window_of(key, &parent);
        set_window(key, &mut parent, (first.min(*day), end.max(after)));
        return Some(row_call(2, key.parent, *number, &parent));
    }
    let mut parent = row(r, ground, area, key.parent);
    for (&column, &value) in key.parent_columns.iter().zip(others) {
        *parent.get_mut(column)? = value;
    }
    set_window(key, &mut parent, (*day, after));
    Some(put(r, ground, area, (key.parent, parent)))
}

/// A search for a day, a first day, an end or a name of some row: the rows found are deleted, or a day
/// of them is set.
fn search(r: &mut Random, ground: &Ground, area: &Area, key: &Key) -> Option<Vec<i64>> {
    let (table, columns) = if r.once_in(3) {
        (key.child, key.child_columns.clone())
    } else {
        (key.parent, key.columns_in_parent().collect())
    };
    let (_, found) = some_row(r, area, table)?;
    let column = r.pick(&columns);
    let set = (!r.once_in(4)).then(|| {
        let days = &columns[columns.len().max(2) - 2..];
        let column = r.pick(days);
        (column, Some(r.pick(&ground.values)))
    });
    let there = |column: usize| column < found.len();
    (there(column) && set.map_or(true, |set| there(set.0))).then(|| {
        let search = Search {
            table,
            column,
            sought: found[column],
            set,
        };
        search.words()
    })
}
