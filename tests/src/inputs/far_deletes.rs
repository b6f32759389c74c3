//! Schemas and areas in which a delete goes far: rows of later tables refer by all of their columns to
//! rows of earlier ones, most often to the first. Inserts lead to them.

use super::grounds::Ground;
use super::populated;
use crate::model::schema::Row;
use crate::random::Random;
use crate::schema_bytes::build;
use crate::schema_bytes::records::{Key, Schema as Records, Table};
use crate::schema_bytes::valid::low_bits;

/// Keys clear single columns, and most often after them one takes the row along: deletes are bounded.
pub fn by_null(r: &mut Random) -> (Ground, Vec<i64>) {
    let (tables, mut keys) = yard(r);
    if !r.once_in(4) {
        keys.sort_by_key(|key| key.on_delete);
    }
    with_rows(r, tables, keys)
}

/// Most of the keys give NULL as a default in place of clearing.
pub fn by_default(r: &mut Random) -> (Ground, Vec<i64>) {
    let (mut tables, mut keys) = yard(r);
    for table in &mut tables {
        table.default_null = low_bits(table.columns.into());
    }
    for key in &mut keys {
        if key.on_delete == build::SET_NULL && !r.once_in(3) {
            key.on_delete = build::SET_DEFAULT;
        }
    }
    with_rows(r, tables, keys)
}

/// c0 of the later tables is cleared, and by that the columns that refer to it, which no deletion of
/// their parent clears.
pub fn by_parent_key(r: &mut Random) -> (Ground, Vec<i64>) {
    let (mut tables, mut keys) = yard(r);
    tables.iter_mut().for_each(|table| table.rows = 1);
    for key in &mut keys {
        (key.on_delete, key.on_update) = (build::NO_ACTION, build::SET_NULL);
        key.deferred = 1;
    }
    for child in 1..tables.len() as u8 {
        keys.push(to_earlier(r, (child, 0)));
    }
    with_rows(r, tables, keys)
}

/// Two to four tables with a key in c0, and keys from all other columns of the later ones: the last of
/// a table takes its rows along.
fn yard(r: &mut Random) -> (Vec<Table>, Vec<Key>) {
    let count = r.between(2, 4);
    let mut table = |_| build::table(r.pick(&[1, 1, 2, 3]), r.pick(&[2, 3, 4, 5, 8]), &[1]);
    let tables: Vec<Table> = (0..count).map(&mut table).collect();
    let mut keys: Vec<Key> = Vec::new();
    for (child, table) in (0..).zip(&tables).skip(1) {
        let columns = 1..table.columns;
        keys.extend(columns.map(|column| to_earlier(r, (child, column))));
        let last = keys.last_mut().expect("a table has two columns");
        last.on_delete = build::CASCADE;
    }
    (tables, keys)
}

/// A key that clears a column, which refers to c0 of an earlier table.
fn to_earlier(r: &mut Random, (child, column): (u8, u8)) -> Key {
    let parent = r.between(0, usize::from(child) - 1) as u8;
    Key {
        on_update: r.between(0, 4) as u8,
        deferred: r.between(0, 1) as u8,
        matching: r.between(0, 1) as u8,
        ..build::key((child, &[column]), (parent, &[0]), build::SET_NULL, 0)
    }
}

fn with_rows(r: &mut Random, tables: Vec<Table>, keys: Vec<Key>) -> (Ground, Vec<i64>) {
    let room = r.pick(&[20, 60, 200]);
    let ground = Ground::new(Records::new(room, tables, keys), vec![0, 1, 2]);
    let mut area = ground.area(&ground.fresh());
    for (table, rows) in ground.schema.tables.iter().map(|t| t.rows).enumerate() {
        for number in 0..rows {
            let new = row(r, &ground, table, number);
            area.put_row(table, number, Some(&new));
        }
    }
    let words = populated::with_level(r, &ground, 2, area.words);
    (ground, words)
}

/// A row of this number: its key is the number, and its other columns are keys of parents, most often
/// of the first.
fn row(r: &mut Random, ground: &Ground, table: usize, number: usize) -> Row {
    let tables = &ground.schema.tables;
    let mut row: Row = vec![Some(number as i64); tables[table].columns];
    for key in ground.schema.keys.iter().filter(|key| key.child == table) {
        let last = tables[key.parent].rows - 1;
        let parent = if r.once_in(6) { last } else { 0 };
        row[key.child_columns[0]] = (!r.once_in(15)).then_some(parent as i64);
    }
    row
}
