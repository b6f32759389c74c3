//! Keys and orphans.

use super::area::Area;
use super::rules::Rules;
use super::schema::{Key, Match, Row};
use std::collections::BTreeSet;

/// Whether no value of the key is NULL.
pub fn full(key: &Row) -> bool {
    key.iter().all(|value| value.is_some())
}

/// Whether every value of the key is NULL.
pub fn empty(key: &Row) -> bool {
    key.iter().all(|value| value.is_none())
}

/// Whether some but not all values of the key are NULL.
pub fn half_filled(key: &Row) -> bool {
    !full(key) && !empty(key)
}

/// Whether two keys, both as they are compared, are equal. NULL equals nothing.
pub fn equal(one: &Row, other: &Row) -> bool {
    full(one) && one == other
}

/// Whether two keys, both as they are compared, are equal in every column in which the first is not
/// NULL.
pub fn equal_where_filled(one: &Row, other: &Row) -> bool {
    let mut pairs = one.iter().zip(other);
    pairs.all(|(one, other)| one.is_none() || one == other)
}

/// Whether a child key maps to a parent key, both as they are compared: they are equal, or under a
/// windowed key equal but for the day, which lies in the window.
pub fn maps(key: &Key, child: &Row, parent: &Row) -> bool {
    let window = match key.window {
        None => return equal(child, parent),
        Some(window) => window,
    };
    let last = child.len() - 1;
    let others = |key: &Row| key[..last].to_vec();
    let end = parent.get(last + 1).copied().flatten();
    equal(&others(child), &others(parent)) && (window.holds)(child[last], parent[last], end)
}

/// Whether a child row maps to a parent row.
pub fn row_maps(key: &Key, child: &Row, parent: &Row) -> bool {
    let child = key.compared(&key.child_key(child));
    maps(key, &child, &key.compared(&key.parent_key(parent)))
}

/// The child rows that map to this parent key, rising.
pub fn having(area: &Area, key: &Key, wanted: &Row) -> Vec<usize> {
    let rows = area.live_rows(key.child).into_iter();
    let wanted = key.compared(wanted);
    rows.filter(|(_, row)| maps(key, &key.compared(&key.child_key(row)), &wanted))
        .map(|(number, _)| number)
        .collect()
}

/// Whether a child key maps to one of these parent keys, all as they are compared. Those that are
/// equal but for the days stand together.
pub fn served(key: &Key, child_key: &Row, parent_keys: &BTreeSet<Row>) -> bool {
    if key.window.is_none() {
        return parent_keys.contains(child_key);
    }
    let others = child_key[..child_key.len() - 1].to_vec();
    let from_there = parent_keys.range(others.clone()..);
    let mut beside = from_there.take_while(|parent| parent.starts_with(&others));
    beside.any(|parent| maps(key, child_key, parent))
}

/// Whether a live row with this child key is an orphan, given the keys of the live parent rows, all
/// as they are compared. A broken key has none.
pub fn orphan(key: &Key, child_key: &Row, parent_keys: &BTreeSet<Row>) -> bool {
    !key.broken && unserved(key, child_key, parent_keys)
}

/// Whether a live row with this child key is an orphan by the key's match.
pub fn unserved(key: &Key, child_key: &Row, parent_keys: &BTreeSet<Row>) -> bool {
    match key.matching {
        Match::Full if half_filled(child_key) => true,
        _ => full(child_key) && !served(key, child_key, parent_keys),
    }
}

/// The child rows that are orphans of a foreign key, rising.
pub fn orphans(rules: &Rules, area: &Area, key: usize) -> Vec<usize> {
    let key = &area.schema.keys[key];
    let parents = area.live_rows(key.parent).into_iter();
    let parent_keys = parents.map(|(_, row)| key.compared(&key.parent_key(&row)));
    let parent_keys: BTreeSet<Row> = parent_keys.collect();
    let children = area.live_rows(key.child).into_iter();
    let child_key = |row: &Row| key.compared(&key.child_key(row));
    children
        .filter(|(_, row)| (rules.orphan)(key, &child_key(row), &parent_keys))
        .map(|(number, _)| number)
        .collect()
}

/// How many orphans each foreign key has.
pub fn orphan_counts(rules: &Rules, area: &Area) -> Vec<i64> {
    let keys = 0..area.schema.keys.len();
    keys.map(|k| orphans(rules, area, k).len() as i64).collect()
}
