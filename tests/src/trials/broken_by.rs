//! By what a foreign key is broken.

use crate::model::schema::{has_unique, same, Key, Schema};

pub const CAUSES: &[&str] = &[
    "a parent table missing",
    "a parent column missing",
    "a parent without a unique key",
    "a part of a unique key",
    "more than a unique key",
    "as many other columns as a unique key",
    "the end of a window missing",
    "the end of a window in the key",
];

/// What breaks the key, more than one where there are several unique keys.
pub fn of(schema: &Schema, key: &Key) -> Vec<&'static str> {
    let parent = match schema.tables.get(key.parent) {
        Some(parent) => parent,
        None => return vec![CAUSES[0]],
    };
    if !schema.has_parent(key) {
        return vec![CAUSES[1]];
    }
    if parent.unique.is_empty() {
        return vec![CAUSES[2]];
    }
    if let Some(window) = key
        .window
        .filter(|_| has_unique(parent, &key.parent_columns))
    {
        return vec![CAUSES[if window.end < parent.columns { 7 } else { 6 }]];
    }
    let own = &key.parent_columns;
    let within = |one: &[usize], other: &[usize]| one.iter().all(|column| other.contains(column));
    let stands = |stand: &dyn Fn(&[usize]) -> bool| parent.unique.iter().any(|u| stand(u));
    let so = [
        stands(&|unique| within(own, unique) && !same(own, unique)),
        stands(&|unique| within(unique, own) && !same(own, unique)),
        stands(&|unique| unique.len() == own.len() && !same(own, unique)),
    ];
    let named = so.iter().zip(&CAUSES[3..]).filter(|(is, _)| **is);
    named.map(|(_, name)| *name).collect()
}
