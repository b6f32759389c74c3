//! Changes of valid schemas that break no rule.

use crate::schema_bytes::breaks::Break;
use crate::schema_bytes::build::{FULL, SIMPLE};
use crate::schema_bytes::records::{Key, Schema, Table};
use crate::schema_bytes::valid::{four, low_bits, valid};

pub const HARMLESS: &[Break] = &[
    ("schema S of the paper", 0, |s, _| *s = paper()),
    ("all counts at their largest", 0, |s, r| {
        *s = valid(r, 16, 32);
        s.header.room = 4096;
        for table in &mut s.tables {
            table.rows = 1024;
            table.columns = 8;
        }
    }),
    ("one table and no key", 0, |s, r| *s = valid(r, 1, 0)),
    ("parent columns in another order", 0, |s, r| {
        let key = s.any_key(r);
        let n = key.n() - usize::from(key.windowed);
        key.parent_columns[..n].reverse();
    }),
    ("a mask in two slots", 0, |s, _| {
        s.keys.truncate(1);
        s.recount();
        let mask = s.keys[0].parent_mask();
        s.tables[usize::from(s.keys[0].parent)].unique = [mask, mask, 0, 0];
    }),
    ("the matching mask in the last slot", 0, |s, _| {
        s.keys.truncate(1);
        s.recount();
        let mask = s.keys[0].parent_mask();
        s.tables[usize::from(s.keys[0].parent)].unique = [1, 1, 1, mask];
    }),
    ("the other match in one key", 0, |s, r| {
        s.any_key(r).matching ^= 1;
    }),
    ("MATCH SIMPLE in every key", 0, |s, _| {
        s.keys.iter_mut().for_each(|key| key.matching = SIMPLE);
    }),
    ("MATCH FULL in every key", 0, |s, _| {
        s.keys.iter_mut().for_each(|key| key.matching = FULL);
    }),
    ("windowed in no key", 0, |s, _| {
        s.keys.iter_mut().for_each(|key| key.windowed = 0);
    }),
    ("windowed in every key that has an end", 0, |s, _| {
        for key in &mut s.keys {
            let parent = &s.tables[usize::from(key.parent)];
            let ends = |&place: &usize| key.window_ends(key.parent_columns[place], parent);
            let place = (0..key.n()).find(ends);
            if let Some(place) = place.filter(|_| key.n() >= 2) {
                key.made_windowed(place);
            }
        }
    }),
    ("the actions of a windowed key", 0, |s, r| {
        let windowed = s.keys.iter_mut().filter(|key| key.windowed == 1);
        for key in windowed {
            (key.on_delete, key.on_update) = (r.between(0, 1) as u8, r.between(0, 1) as u8);
        }
    }),
    ("another folded mask", 0, |s, r| {
        let t = s.any_table(r);
        t.folded = r.byte() & low_bits(t.columns.into());
    }),
    ("every column of every table folded", 0, |s, _| {
        let tables = s.tables.iter_mut();
        tables.for_each(|t| t.folded = low_bits(t.columns.into()));
    }),
    ("no column folded", 0, |s, _| {
        s.tables.iter_mut().for_each(|t| t.folded = 0);
    }),
    ("a key that refers to its own table", 0, |s, r| {
        let key = s.any_key(r);
        key.child = key.parent;
        key.child_columns = key.parent_columns;
    }),
];

/// Schema S.
pub fn paper() -> Schema {
    let table = Table {
        rows: 4,
        columns: 1,
        not_null: 1,
        unique: [1, 0, 0, 0],
        default_null: 0,
        folded: 0,
        zeros: [0; 6],
        defaults: [0; 8],
    };
    let mut child = table.clone();
    child.columns = 2;
    let key = Key {
        child: 1,
        parent: 0,
        deferred: 1,
        on_delete: 4,
        on_update: 4,
        count: 1,
        child_columns: four(&[1]),
        parent_columns: four(&[0]),
        matching: SIMPLE,
        windowed: 0,
    };
    Schema::new(8, vec![table, child], vec![key])
}
