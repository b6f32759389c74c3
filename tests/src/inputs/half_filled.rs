//! Schemas and areas in which many child keys are half-filled: some but not all columns are NULL.

use super::calls::new_row;
use super::grounds::{defaults, Ground};
use crate::model::area::Area;
use crate::model::schema::{self, Row};
use crate::random::Random;
use crate::schema_bytes::build;
use crate::schema_bytes::records::{Key, Schema as Records, Table};
use crate::schema_bytes::valid::low_bits;

/// Schemas on which child keys can be half-filled, some with broken keys, some with folded columns.
pub fn ground(r: &mut Random) -> Ground {
    let ground = whole(r).half_drawn_once_in(r, 10);
    ground.folded_once_in(r, 4)
}

/// One or two tables with keys in their first columns. Foreign keys of either match share child
/// columns; two of them have often the same columns and not the same match.
pub fn whole(r: &mut Random) -> Ground {
    let width = r.pick(&[2, 2, 3, 4]);
    let columns = r.between(width + 1, 2 * width);
    let widths = r.pick(&[[width, width], [width, width], [width, width - 1]]);
    let values: Vec<i64> = (0..=r.between(1, 2) as i64).collect();
    let count = r.pick(&[1, 2, 2]);
    let tables = (0..count).map(|_| table(r, &values, widths, columns));
    let tables = tables.collect();
    let keys = (0..r.pick(&[1, 2, 2, 3])).map(|_| key(r, count, widths, columns));
    let mut keys: Vec<Key> = keys.collect();
    if keys.len() > 1 && r.once_in(2) {
        keys[1] = with_other_match(&keys[0], &keys[1]);
    }
    let room = r.pick(&[16, 30, 60]);
    Ground::new(Records::new(room, tables, keys), values)
}

/// Many columns have NULL as default.
fn table(r: &mut Random, values: &[i64], widths: [usize; 2], columns: usize) -> Table {
    let rows = r.pick(&[3, 4, 6]);
    let mut table = build::table(rows, columns as u8, &widths.map(low_bits));
    table.default_null = r.byte() & low_bits(columns) & r.pick(&[0, 255, 255]);
    table.defaults = defaults(r, values, columns, table.default_null);
    if r.once_in(4) {
        table.not_null = 1 << r.between(0, columns - 1);
    }
    table
}

fn key(r: &mut Random, tables: u8, widths: [usize; 2], columns: usize) -> Key {
    let width = r.pick(&widths);
    let mut parent_columns: Vec<u8> = (0..width as u8).collect();
    let mut child_columns: Vec<u8> = (1..columns as u8).collect();
    r.shuffle(&mut parent_columns);
    r.shuffle(&mut child_columns);
    let child = r.pick(&[0, 1, 1, 1]).min(tables - 1);
    let parent = r.pick(&[0, 0, 0, 1]).min(tables - 1);
    let mut action = || r.pick(&[0, 1, 2, 2, 3, 3, 4, 4]);
    let actions = (action(), action());
    Key {
        deferred: r.pick(&[0, 1, 1]),
        matching: r.pick(&[build::SIMPLE, build::FULL, build::FULL]),
        ..build::key(
            (child, &child_columns[..width]),
            (parent, &parent_columns),
            actions.0,
            actions.1,
        )
    }
}

/// The columns of one key with the other match; the rest of another key.
fn with_other_match(one: &Key, other: &Key) -> Key {
    Key {
        deferred: other.deferred,
        on_delete: other.on_delete,
        on_update: other.on_update,
        matching: 1 - one.matching,
        ..one.clone()
    }
}

/// A row whose child keys are often half-filled, and now and then empty.
pub fn row(r: &mut Random, ground: &Ground, area: &Area, table: usize) -> Row {
    let mut row = new_row(r, ground, area, table);
    let keys = ground.schema.keys.iter();
    for key in keys.filter(|key| key.child == table) {
        match r.between(0, 5) {
            0 | 1 => empty_some(r, key, &mut row),
            2 => empty(key, &mut row),
            _ => {}
        }
    }
    row
}

/// Sets some but not all columns of a composite child key to NULL.
pub fn empty_some(r: &mut Random, key: &schema::Key, row: &mut Row) {
    let mut columns = key.child_columns.clone();
    let most = columns.len() - 1;
    r.shuffle(&mut columns);
    columns.truncate(r.edged(most.min(1), most));
    columns.into_iter().for_each(|column| row[column] = None);
}

/// Sets all columns of a child key to NULL.
pub fn empty(key: &schema::Key, row: &mut Row) {
    let columns = key.child_columns.iter();
    columns.for_each(|&column| row[column] = None);
}
