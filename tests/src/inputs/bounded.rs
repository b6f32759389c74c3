//! Schemas whose deletes are bounded by the sum over all live rows, and areas with about as many free
//! journal records.

use super::grounds::{self, Ground};
use super::{broken_keys, folded, half_filled, herds, spellings, windows};
use crate::model::bound::touches_parent_key;
use crate::random::Random;
use crate::schema_bytes::build;
use crate::schema_bytes::records::{Key, Schema as Records, Table};
use crate::schema_bytes::valid;

/// A schema whose deletes are bounded, most of them with many keys of SET NULL and CASCADE.
pub fn ground(r: &mut Random) -> Ground {
    let ground = match r.between(0, 11) {
        0 => windows::ground(r),
        1 => broken_keys::ground(r),
        2 => folded::ground(r, spellings::ANY),
        3 => herds::ground(r),
        4 => half_filled::ground(r),
        _ => yards(r),
    };
    bounded(r, ground)
}

/// The same schema with on-delete actions under which its deletes are bounded, and any on-update
/// actions.
pub fn bounded(r: &mut Random, mut ground: Ground) -> Ground {
    let keys = &ground.schema.keys;
    let touching: Vec<bool> = keys
        .iter()
        .map(|key| touches_parent_key(&ground.schema, key))
        .collect();
    for (number, key) in ground.records.keys.iter_mut().enumerate() {
        if key.windowed == 0 {
            key.on_delete = if touching[number] {
                r.pick(&[0, 1, 4, 4, 4, 4])
            } else {
                r.pick(&[0, 1, 2, 2, 2, 2, 2, 4, 4, 4])
            };
            key.on_update = r.between(0, 4) as u8;
        }
    }
    Ground::new(ground.records, ground.values)
}

/// One to five tables of a few rows, with a key in c0 and some with one in c0 and c1 or in any column,
/// and foreign keys to them: several of one column, some windowed, some broken, some columns folded.
fn yards(r: &mut Random) -> Ground {
    let values: Vec<i64> = (0..r.pick(&[2, 2, 2, 3, 4])).collect();
    let count = r.pick(&[1, 2, 2, 3, 3, 4, 5]);
    let tables: Vec<Table> = (0..count).map(|_| table(r, &values)).collect();
    let count = r.pick(&[1, 2, 3, 4, 5, 6, 8, 12]);
    let keys = (0..count).map(|_| key(r, &tables)).collect();
    let room = if r.once_in(40) {
        4096
    } else {
        r.pick(&[4, 20, 60, 60, 200])
    };
    let ground = Ground::new(Records::new(room, tables, keys), values);
    let ground = ground.half_drawn_once_in(r, 8);
    ground.folded_once_in(r, 4)
}

fn table(r: &mut Random, values: &[i64]) -> Table {
    let columns = r.pick(&[2, 3, 3, 4, 4, 5, 6, 8]);
    let any = 1 << r.between(0, columns - 1);
    let unique = r.pick(&[[1, 0], [1, 0], [1, 3], [3, 1], [1, any]]);
    let mut table = build::table(r.pick(&[1, 2, 2, 3, 4]), columns as u8, &unique);
    if r.once_in(8) {
        table.not_null = 1 << r.between(0, columns - 1);
    }
    table.default_null = r.byte() & valid::low_bits(columns) & r.pick(&[0, 255]);
    table.defaults = grounds::defaults(r, values, columns, table.default_null);
    table
}

/// A foreign key from any columns, most often not from those of a key, to a unique key; some of those
/// of two columns are windowed.
fn key(r: &mut Random, tables: &[Table]) -> Key {
    let parents = valid::parents(tables);
    let mut key = valid::key(r, tables, &parents);
    let columns = tables[usize::from(key.child)].columns;
    let first = r.pick(&[0, 1, 2, 2]).min(columns - key.count);
    let mut from: Vec<u8> = (first..columns).collect();
    r.shuffle(&mut from);
    key.child_columns = valid::four(&from[..key.n()]);
    key.deferred = r.pick(&[0, 1, 1, 1]);
    key
}

/// The schema of the largest sum: two keys of each of 16 tables clear all of its eight columns.
pub fn largest() -> Ground {
    let tables: Vec<Table> = (0..16).map(|_| build::table(1024, 8, &[15])).collect();
    let (low, high): (&[u8], &[u8]) = (&[0, 1, 2, 3], &[4, 5, 6, 7]);
    let key = |table, columns| build::key((table, columns), (table, low), build::SET_NULL, 0);
    let of_table = |table: u8| [key(table, low), key(table, high)];
    let keys: Vec<Key> = (0..16).flat_map(of_table).collect();
    Ground::new(Records::new(1, tables, keys), Vec::new())
}

/// The schema and the area with a journal that has so many free records, or as nearly so many as one
/// can have.
pub fn with_free_records(ground: &Ground, words: &[i64], free: usize) -> (Ground, Vec<i64>) {
    let mut records = ground.records.clone();
    let used = ground.area(words).used();
    records.header.room = (used + free).clamp(1, 4096) as u16;
    let other = Ground::new(records, ground.values.clone());
    let mut words = words.to_vec();
    words.resize(other.schema.area_words(), 0);
    (other, words)
}
