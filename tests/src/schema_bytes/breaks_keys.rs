//! Breaks of the rules of foreign keys.

use crate::random::Random;
use crate::schema_bytes::breaks::Break;
use crate::schema_bytes::records::{Key, Schema};

pub const KEYS: &[Break] = &[
    ("a child table missing", 1, |s, r| {
        s.any_key(r).child = r.edged(s.tables.len(), 255) as u8;
    }),
    ("deferred above 1", 1, |s, r| {
        s.any_key(r).deferred = r.edged(2, 255) as u8;
    }),
    ("an on-delete action above 4", 1, |s, r| {
        s.any_key(r).on_delete = r.edged(5, 255) as u8;
    }),
    ("an on-update action above 4", 1, |s, r| {
        s.any_key(r).on_update = r.edged(5, 255) as u8;
    }),
    ("a column count of 0", 1, |s, r| s.any_key(r).count = 0),
    ("a column count of 0, and no column", 1, |s, r| {
        let key = s.any_key(r);
        key.count = 0;
        key.child_columns = [255; 4];
        key.parent_columns = [255; 4];
    }),
    ("a column count above 4", 1, |s, r| {
        s.any_key(r).count = r.edged(5, 255) as u8;
    }),
    ("another column count", 1, |s, r| {
        let key = s.any_key(r);
        key.count = r.other_than(key.n(), 1, 4) as u8;
    }),
    ("a child column missing", 1, |s, r| {
        let (key, child) = s.key_and_child(r);
        let column = r.edged(child.columns.into(), 254);
        key.child_columns[r.between(0, key.n() - 1)] = column as u8;
    }),
    ("a child column 255", 1, |s, r| {
        let key = s.any_key(r);
        key.child_columns[r.between(0, key.n() - 1)] = 255;
    }),
    ("a child column past n", 1, |s, r| {
        let key = s.any_key(r);
        set_past(&mut key.child_columns, key.count, r);
    }),
    ("a parent column past n", 1, |s, r| {
        let key = s.any_key(r);
        set_past(&mut key.parent_columns, key.count, r);
    }),
    ("a child column doubled", 1, |s, r| {
        let key = s.any_key(r);
        double(&mut key.child_columns, key.count, r);
    }),
    ("a parent column doubled", 1, |s, r| {
        let key = s.any_key(r);
        double(&mut key.parent_columns, key.count, r);
    }),
    ("a missing parent column doubled", 1, |s, r| {
        let (key, parent) = s.key_and_parent(r);
        if key.count >= 2 {
            key.parent_columns[0] = r.edged(parent.columns.into(), 255) as u8;
            key.parent_columns[1] = key.parent_columns[0];
        }
    }),
    ("a parent column doubled, its table missing", 1, |s, r| {
        let tables = s.tables.len();
        let key = s.any_key(r);
        if key.count >= 2 {
            double(&mut key.parent_columns, key.count, r);
            key.parent = r.edged(tables, 255) as u8;
        }
    }),
    ("a match of 2", 1, |s, r| s.any_key(r).matching = 2),
    ("a match above 1", 1, |s, r| {
        s.any_key(r).matching = r.edged(2, 255) as u8;
    }),
    ("a match above 1 in the last key only", 1, |s, r| {
        if let [.., last] = &mut s.keys[..] {
            last.matching = r.edged(2, 255) as u8;
        }
    }),
    ("a windowed byte of 2", 1, |s, r| s.any_key(r).windowed = 2),
    ("a windowed byte of 255", 1, |s, r| {
        s.any_key(r).windowed = 255
    }),
    ("a windowed byte above 1", 1, |s, r| {
        s.any_key(r).windowed = r.edged(2, 255) as u8;
    }),
    ("a windowed byte above 1 in the last key only", 1, |s, r| {
        if let [.., last] = &mut s.keys[..] {
            last.windowed = r.edged(2, 255) as u8;
        }
    }),
    ("a windowed key of one column", 1, |s, r| {
        let key = s.any_key(r);
        if key.count == 1 {
            (key.on_delete, key.on_update) = (r.between(0, 1) as u8, r.between(0, 1) as u8);
            key.windowed = 1;
        }
    }),
    ("a windowed key with SET NULL on delete", 1, |s, r| {
        if let Some(key) = some_windowed(s, r) {
            key.on_delete = 2;
        }
    }),
    ("a windowed key with SET NULL on update", 1, |s, r| {
        if let Some(key) = some_windowed(s, r) {
            key.on_update = 2;
        }
    }),
    (
        "a windowed key with an on-delete action above 1",
        1,
        |s, r| {
            if let Some(key) = some_windowed(s, r) {
                key.on_delete = r.between(2, 4) as u8;
            }
        },
    ),
    (
        "a windowed key with an on-update action above 1",
        1,
        |s, r| {
            if let Some(key) = some_windowed(s, r) {
                key.on_update = r.between(2, 4) as u8;
            }
        },
    ),
    ("a key with other actions made windowed", 1, |s, r| {
        let key = s.any_key(r);
        if key.on_delete > 1 || key.on_update > 1 {
            key.windowed = 1;
        }
    }),
];

/// Some windowed key, if there is one.
fn some_windowed<'a>(s: &'a mut Schema, r: &mut Random) -> Option<&'a mut Key> {
    let windowed = s.keys.iter_mut().filter(|key| key.windowed == 1);
    let mut keys: Vec<&mut Key> = windowed.collect();
    r.shuffle(&mut keys);
    keys.pop()
}

/// Sets a column past the first `count`, if there is one.
fn set_past(columns: &mut [u8; 4], count: u8, r: &mut Random) {
    if count < 4 {
        columns[r.between(count.into(), 3)] = r.edged(0, 254) as u8;
    }
}

/// Gives two of the first `count` columns the same number, if there are two.
fn double(columns: &mut [u8; 4], count: u8, r: &mut Random) {
    if count >= 2 {
        let from = r.between(0, usize::from(count) - 2);
        columns[r.between(from + 1, usize::from(count) - 1)] = columns[from];
    }
}
