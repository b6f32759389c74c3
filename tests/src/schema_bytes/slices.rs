//! Families of random slices.

use crate::random::Random;
use crate::schema_bytes::build;
use crate::schema_bytes::half_drawn::break_some;
use crate::schema_bytes::records::{Key, Schema, Table};
use crate::schema_bytes::valid::{any_valid, four, low_bits, valid};

pub struct Family {
    pub name: &'static str,
    /// How many slices are made.
    pub count: usize,
    /// The code of every slice, where it is known beforehand.
    pub code: Option<i64>,
    /// Makes the slice of a number.
    pub make: fn(&mut Random, usize) -> Vec<u8>,
}

pub const FAMILIES: &[Family] = &[
    Family {
        name: "valid schemas of every size",
        count: 20 * 16 * 33,
        code: Some(0),
        make: |r, i| valid(r, 1 + i % 16, i / 16 % 33).bytes(),
    },
    Family {
        name: "half-drawn schemas of every size",
        count: 10 * 16 * 32,
        code: Some(0),
        make: |r, i| half_drawn(r, 1 + i % 16, 1 + i / 16 % 32),
    },
    Family {
        name: "every folded mask of every number of columns",
        count: 2 + 4 + 8 + 16 + 32 + 64 + 128 + 256,
        code: Some(0),
        make: |r, i| {
            let columns = (usize::BITS - 1 - (i + 2).leading_zeros()) as usize;
            beside(r, columns, |table| {
                table.folded = (i + 2 - (1 << columns)) as u8
            })
        },
    },
    Family {
        name: "every folded mask with a bit of no column",
        count: 7 * 256,
        code: Some(1),
        make: |r, i| {
            let (columns, mask) = (1 + i / 256, i % 256);
            let past = usize::from(mask >> columns == 0) << columns;
            beside(r, columns, |table| table.folded = (mask | past) as u8)
        },
    },
    Family {
        name: "every number in every zero byte of a table",
        count: 6 * 255,
        code: Some(1),
        make: |r, i| {
            let columns = r.between(1, 8);
            beside(r, columns, |table| table.zeros[i % 6] = (1 + i / 6) as u8)
        },
    },
    Family {
        name: "every number above 1 in byte 15 of a key",
        count: 254,
        code: Some(1),
        make: |r, i| {
            let columns = r.between(1, 4);
            of_one_key(r, columns, |key| key.windowed = (2 + i) as u8)
        },
    },
    Family {
        name: "every column count and pair of actions of a windowed key",
        count: 20 * 4 * 25,
        code: None,
        make: |r, i| {
            of_one_key(r, 1 + i % 4, |key| {
                (key.on_delete, key.on_update) = ((i / 4 % 5) as u8, (i / 20 % 5) as u8);
                key.windowed = 1;
            })
        },
    },
    Family {
        name: "windowed keys with their first day in any column",
        count: 4_000,
        code: Some(0),
        make: |r, i| with_first_day(r, 2 + i % 3),
    },
    Family {
        name: "valid schemas with some bytes changed",
        count: 70_000,
        code: None,
        make: |r, _| with_changes(r),
    },
    Family {
        name: "valid schemas cut short",
        count: 10_000,
        code: Some(1),
        make: |r, _| cut_short(r),
    },
    Family {
        name: "valid schemas with bytes after them",
        count: 10_000,
        code: Some(1),
        make: |r, _| with_more(r),
    },
    Family {
        name: "random bytes",
        count: 301 * 150,
        code: None,
        make: |r, i| r.bytes(i % 301),
    },
    Family {
        name: "random headers over random records",
        count: 40_000,
        code: None,
        make: |r, _| random_header(r),
    },
    Family {
        name: "random foreign keys over valid tables",
        count: 40_000,
        code: None,
        make: |r, _| random_keys(r),
    },
];

/// A schema of these numbers of tables and foreign keys, some of them broken.
fn half_drawn(r: &mut Random, tables: usize, keys: usize) -> Vec<u8> {
    let mut schema = valid(r, tables, keys);
    break_some(&mut schema, r);
    schema.bytes()
}

/// A schema with a table of so many columns that no key touches, changed in some way.
fn beside(r: &mut Random, columns: usize, change: impl Fn(&mut Table)) -> Vec<u8> {
    let (tables, keys) = (r.between(1, 3), r.between(0, 2));
    let mut schema = valid(r, tables, keys);
    let mut table = build::table(r.edged(1, 1024) as u16, columns as u8, &[]);
    change(&mut table);
    schema.tables.push(table);
    schema.recount();
    schema.bytes()
}

/// A schema with a key of so many columns, changed in some way, that refers to the first columns of
/// a table of eight.
fn of_one_key(r: &mut Random, columns: usize, change: impl Fn(&mut Key)) -> Vec<u8> {
    let list: Vec<u8> = (0..columns as u8).collect();
    let parent = build::table(r.edged(1, 1024) as u16, 8, &[low_bits(columns)]);
    let mut key = build::key((0, &list), (0, &list), 0, 0);
    (key.deferred, key.matching) = (r.between(0, 1) as u8, r.between(0, 1) as u8);
    change(&mut key);
    Schema::new(r.edged(1, 4096) as u16, vec![parent], vec![key]).bytes()
}

/// A schema with a windowed key of so many columns to any columns of a table that are a unique key.
fn with_first_day(r: &mut Random, columns: usize) -> Vec<u8> {
    let of_parent = r.between(columns, 8) as u8;
    let mut list: Vec<u8> = (0..of_parent).collect();
    r.shuffle(&mut list);
    list.truncate(columns);
    let mut key = build::windowed(build::key((0, &list), (0, &list), 0, 0));
    (key.on_delete, key.on_update) = (r.between(0, 1) as u8, r.between(0, 1) as u8);
    let parent = build::table(r.edged(1, 1024) as u16, of_parent, &[key.parent_mask()]);
    Schema::new(r.edged(1, 4096) as u16, vec![parent], vec![key]).bytes()
}

fn with_changes(r: &mut Random) -> Vec<u8> {
    let mut bytes = any_valid(r).bytes();
    for _ in 0..r.between(1, 3) {
        let at = r.between(0, bytes.len() - 1);
        bytes[at] = match r.between(0, 2) {
            0 => bytes[at] ^ 1 << r.between(0, 7),
            1 => r.between(0, 9) as u8,
            _ => r.byte(),
        };
    }
    bytes
}

fn cut_short(r: &mut Random) -> Vec<u8> {
    let mut bytes = any_valid(r).bytes();
    bytes.truncate(r.edged(0, bytes.len() - 1));
    bytes
}

fn with_more(r: &mut Random) -> Vec<u8> {
    let mut bytes = any_valid(r).bytes();
    let more = r.edged(1, 100);
    bytes.extend(r.bytes(more));
    bytes
}

/// Each field of the header is right or random; the records are valid or random.
fn random_header(r: &mut Random) -> Vec<u8> {
    let mut schema = any_valid(r);
    let header = &mut schema.header;
    let fields = [
        &mut header.tables,
        &mut header.keys,
        &mut header.tables_at,
        &mut header.keys_at,
        &mut header.room,
        &mut header.length,
    ];
    for field in fields {
        if r.once_in(12) {
            *field = r.pick(&[0, 1, 16, 17, 32, 33, 4096, 4097, 65535]);
        } else if r.once_in(12) {
            *field = r.word() as u16;
        }
    }
    let mut bytes = schema.bytes();
    if r.once_in(2) {
        let records = r.bytes(bytes.len() - 16);
        bytes[16..].copy_from_slice(&records);
    }
    bytes
}

/// The columns and tables of the keys are random, and other fields now and then.
fn random_keys(r: &mut Random) -> Vec<u8> {
    let (tables, keys) = (r.between(1, 3), r.between(1, 2));
    let mut schema = valid(r, tables, keys);
    for key in &mut schema.keys {
        let count = r.edged(1, 4);
        key.count = count as u8;
        key.child_columns = random_columns(r, count);
        key.parent_columns = random_columns(r, count);
        key.child = near(r, key.child, tables);
        key.parent = near(r, key.parent, tables);
        key.deferred = near(r, key.deferred, 2);
        key.on_delete = near(r, key.on_delete, 5);
        key.on_update = near(r, key.on_update, 5);
        key.matching = near(r, key.matching, 2);
        key.windowed = near(r, key.windowed, 2);
    }
    schema.bytes()
}

fn random_columns(r: &mut Random, count: usize) -> [u8; 4] {
    let bound = r.between(count, 8) as u8;
    let mut columns: Vec<u8> = (0..bound).collect();
    r.shuffle(&mut columns);
    let mut columns = four(&columns[..count]);
    if r.once_in(8) {
        columns[r.between(0, 3)] = r.pick(&[0, 1, 7, 8, 255]);
    }
    columns
}

/// The number itself, or now and then one from 0 to `bound`.
fn near(r: &mut Random, number: u8, bound: usize) -> u8 {
    if r.once_in(10) {
        r.edged(0, bound) as u8
    } else {
        number
    }
}
