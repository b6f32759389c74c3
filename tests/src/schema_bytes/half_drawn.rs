//! Half-drawn schemas: changes by which foreign keys are broken. They are accepted, but for what
//! leads to refusal 1 beside.

use crate::random::Random;
use crate::schema_bytes::breaks::Break;
use crate::schema_bytes::records::{Key, Schema, Table};

/// A name, and what breaks a foreign key whose parent table exists. One for which there is no such
/// change is left as it is.
pub type Way = (&'static str, fn(&mut Key, &mut [Table], &mut Random));

pub const WAYS: &[Way] = &[
    ("a parent table missing", |key, tables, r| {
        key.parent = r.edged(tables.len(), 255) as u8;
    }),
    ("a parent column missing", |key, tables, r| {
        let columns = parent_of(key, tables).columns;
        set_column(key, r.edged(columns.into(), 254) as u8, r);
    }),
    ("a parent column that is another but for 8", |key, _, r| {
        let place = r.between(0, key.n() - 1);
        key.parent_columns[place] += 8 * r.edged(1, 30) as u8;
    }),
    ("a parent column 255", |key, _, r| set_column(key, 255, r)),
    ("every parent column missing", |key, _, r| {
        let past = r.edged(8, 250) as u8;
        let columns = &mut key.parent_columns[..key.count.into()];
        (past..).zip(columns).for_each(|(n, column)| *column = n);
    }),
    ("no unique key in the parent", |key, tables, _| {
        parent_of(key, tables).unique = [0; 4];
    }),
    ("unique keys of more columns", |key, tables, r| {
        keep_unique(key, tables, r, |mask, own| mask != own && mask & own == own);
    }),
    ("unique keys of fewer columns", |key, tables, r| {
        keep_unique(key, tables, r, |mask, own| {
            mask != own && mask & own == mask
        });
    }),
    ("unique keys of as many other columns", |key, tables, r| {
        keep_unique(key, tables, r, |mask, own| {
            mask != own && mask.count_ones() == own.count_ones()
        });
    }),
    ("other parent columns", |key, tables, r| {
        let (parent, old) = (parent_of(key, tables), key.parent_columns);
        let mut columns: Vec<u8> = (0..parent.columns).collect();
        r.shuffle(&mut columns);
        let own = &mut key.parent_columns[..key.count.into()];
        own.copy_from_slice(&columns[..own.len()]);
        if parent.unique.contains(&key.parent_mask()) {
            key.parent_columns = old;
        }
    }),
    ("the end of a window missing", |key, tables, _| {
        let last = parent_of(key, tables).columns - 1;
        let columns = &key.parent_columns[..key.n()];
        let place = columns.iter().position(|&column| column == last);
        if let Some(place) = place.filter(|_| key.n() >= 2) {
            key.made_windowed(place);
        }
    }),
    ("the end of a window in the key", |key, _, _| {
        let columns = &key.parent_columns[..key.n()];
        let in_key = |&column: &u8| columns.contains(&(column + 1));
        if let Some(place) = columns.iter().position(in_key) {
            key.made_windowed(place);
        }
    }),
];

/// Breaks of rules beside broken keys.
pub const BESIDE: &[Break] = &[
    ("a broken first key and 1 in the last", 1, |s, r| {
        if let [first, .., last] = &mut s.keys[..] {
            first.parent = 255;
            last.on_update = r.edged(5, 255) as u8;
        }
    }),
    ("1 in the first key and a broken last", 1, |s, r| {
        if let [first, .., last] = &mut s.keys[..] {
            first.deferred = r.edged(2, 255) as u8;
            last.parent = 255;
        }
    }),
    ("1 in a broken key", 1, |s, r| {
        let key = s.any_key(r);
        key.parent = 255;
        key.windowed = r.edged(2, 255) as u8;
    }),
    ("a match above 1 in a broken key", 1, |s, r| {
        let key = s.any_key(r);
        key.parent = 255;
        key.matching = r.edged(2, 255) as u8;
    }),
    ("a broken windowed key of one column", 1, |s, r| {
        let key = s.any_key(r);
        if key.count == 1 {
            (key.on_delete, key.on_update) = (0, 0);
            key.windowed = 1;
            key.parent = 255;
        }
    }),
    ("another action in a broken windowed key", 1, |s, r| {
        let key = s.any_key(r);
        if key.count >= 2 {
            (key.on_delete, key.on_update) = r.pick(&[(2, 0), (0, 4), (3, 3)]);
            key.windowed = 1;
            key.parent = 255;
        }
    }),
    ("a child table missing in a broken key", 1, |s, r| {
        let tables = s.tables.len();
        let key = s.any_key(r);
        key.parent = 255;
        key.child = r.edged(tables, 255) as u8;
    }),
    ("a child column missing in a broken key", 1, |s, r| {
        let (key, child) = s.key_and_child(r);
        key.parent = 255;
        key.child_columns[0] = r.edged(child.columns.into(), 255) as u8;
    }),
    ("a parent column past n in a broken key", 1, |s, r| {
        let key = s.any_key(r);
        if let Some(past) = key.parent_columns.get_mut(usize::from(key.count)) {
            *past = r.edged(0, 254) as u8;
            key.parent = 255;
        }
    }),
    ("1 in a table beside a broken key", 1, |s, r| {
        s.any_key(r).parent = 255;
        s.any_table(r).rows = 0;
    }),
];

/// Breaks one foreign key in this way.
pub fn break_one(s: &mut Schema, way: &Way, r: &mut Random) {
    let number = r.between(0, s.keys.len() - 1);
    (way.1)(&mut s.keys[number], &mut s.tables, r);
}

/// Breaks some foreign keys of a valid schema, each in some way.
pub fn break_some(s: &mut Schema, r: &mut Random) {
    if s.keys.is_empty() {
        return;
    }
    let always = r.between(0, s.keys.len() - 1);
    for number in 0..s.keys.len() {
        if number == always || r.once_in(3) {
            let way = r.pick(WAYS);
            (way.1)(&mut s.keys[number], &mut s.tables, r);
        }
    }
}

fn parent_of<'a>(key: &Key, tables: &'a mut [Table]) -> &'a mut Table {
    &mut tables[usize::from(key.parent)]
}

/// Sets some parent column.
fn set_column(key: &mut Key, column: u8, r: &mut Random) {
    key.parent_columns[r.between(0, key.n() - 1)] = column;
}

/// Gives the parent up to four unique masks that stand so to the mask of the key's parent columns,
/// if there are any.
fn keep_unique(key: &Key, tables: &mut [Table], r: &mut Random, stands: fn(u8, u8) -> bool) {
    let parent = parent_of(key, tables);
    let masks = (1..=255u8).filter(|mask| u32::from(parent.columns) + mask.leading_zeros() >= 8);
    let mut found: Vec<u8> = masks
        .filter(|&mask| stands(mask, key.parent_mask()))
        .collect();
    r.shuffle(&mut found);
    found.truncate(r.between(1, 4));
    if !found.is_empty() {
        parent.unique = [0; 4];
        parent.unique[..found.len()].copy_from_slice(&found);
    }
}
