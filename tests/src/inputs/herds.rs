//! Schemas and areas in which many child rows have one parent's key, or nearly.

use super::calls::{new_row, value};
use super::grounds::Ground;
use super::populated;
use crate::model::area::Area;
use crate::model::schema::{self, Row};
use crate::random::Random;
use crate::schema_bytes::build;
use crate::schema_bytes::records::{Key, Schema as Records, Table};
use crate::schema_bytes::valid::low_bits;

/// Schemas in which many rows can refer to one, some with broken keys, some with folded columns.
pub fn ground(r: &mut Random) -> Ground {
    let ground = whole(r).half_drawn_once_in(r, 10);
    ground.folded_once_in(r, 4)
}

/// One or two tables with a key in their first columns, referred to by their last ones.
pub fn whole(r: &mut Random) -> Ground {
    let width = r.between(1, 4);
    let columns = r.between(width + 1, 2 * width);
    let count = r.pick(&[1, 2, 2]);
    let values: Vec<i64> = (0..=r.between(2, 8) as i64).collect();
    let tables = (0..count).map(|_| table(r, &values, width, columns));
    let tables = tables.collect();
    let keys = (0..r.pick(&[1, 2, 2, 3])).map(|_| key(r, count, width, columns));
    let mut keys: Vec<Key> = keys.collect();
    if count == 2 && keys.len() > 1 && r.once_in(2) {
        tie(r, &mut keys);
    }
    let room = r.pick(&[16, 24, 40, 60]);
    Ground::new(Records::new(room, tables, keys), values)
}

/// Rows of table 1 go with their parents in table 0, and are parents themselves.
fn tie(r: &mut Random, keys: &mut [Key]) {
    (keys[0].child, keys[0].parent) = (1, 0);
    keys[0].on_delete = build::CASCADE;
    keys[1].parent = 1;
    keys[1].on_delete = r.pick(&[1, 2, 3, 3, 3]);
}

fn table(r: &mut Random, values: &[i64], width: usize, columns: usize) -> Table {
    let mut table = build::table(r.pick(&[4, 6, 8]), columns as u8, &[low_bits(width)]);
    table.defaults[..columns].fill_with(|| r.pick(values));
    if r.once_in(2) {
        table.not_null = 1 << r.between(0, columns - 1);
    }
    table
}

fn key(r: &mut Random, tables: usize, width: usize, columns: usize) -> Key {
    let mut parent_columns: Vec<u8> = (0..width as u8).collect();
    let mut child_columns: Vec<u8> = ((columns - width) as u8..columns as u8).collect();
    r.shuffle(&mut parent_columns);
    r.shuffle(&mut child_columns);
    let child = (r.between(0, tables - 1) as u8, &child_columns[..]);
    let parent = (r.between(0, tables - 1) as u8, &parent_columns[..]);
    let mut action = || r.pick(&[1, 2, 3, 3, 4, 4, 4]);
    let mut key = build::key(child, parent, action(), action());
    key.matching = r.between(0, 1) as u8;
    if r.once_in(4) {
        key
    } else {
        build::deferred(key)
    }
}

/// The foreign key by which the rows of a herd refer to one parent, and the values of its key.
struct Herd<'a> {
    key: &'a schema::Key,
    values: Vec<i64>,
}

/// An area with a herd that inserts lead to.
pub fn reached(r: &mut Random, ground: &Ground) -> Vec<i64> {
    let herd = Herd::new(r, ground);
    populated::reached(r, ground, &|r, g, area, table| herd.row(r, g, area, table))
}

/// An area with a herd, whatever NOT NULL and unique keys say.
pub fn filled(r: &mut Random, ground: &Ground) -> Vec<i64> {
    let herd = Herd::new(r, ground);
    populated::filled(r, ground, &|r, g, area, table| herd.row(r, g, area, table))
}

impl<'a> Herd<'a> {
    /// The parent's key is often the default of the child key.
    fn new(r: &mut Random, ground: &'a Ground) -> Herd<'a> {
        let keys = &ground.schema.keys;
        let key = &keys[r.between(0, keys.len() - 1)];
        let defaults = key.child_key(&ground.schema.tables[key.child].defaults);
        let as_default = !r.once_in(3);
        let value = |default: Option<i64>| match default {
            Some(value) if as_default => value,
            _ => r.pick(&ground.values),
        };
        Herd {
            key,
            values: defaults.into_iter().map(value).collect(),
        }
    }

    /// A row of the table: the parent, one of the herd, or another.
    fn row(&self, r: &mut Random, ground: &Ground, area: &Area, table: usize) -> Row {
        let mut row = new_row(r, ground, area, table);
        if table == self.key.parent && r.once_in(3) {
            self.set(&mut row, &self.key.parent_columns);
        }
        if table == self.key.child && r.once_in(2) {
            self.set(&mut row, &self.key.child_columns);
            if r.once_in(4) {
                let column = r.pick(&self.key.child_columns);
                row[column] = value(r, ground, table, column);
            }
        }
        row
    }

    /// Sets those of the columns that the row has.
    fn set(&self, row: &mut Row, columns: &[usize]) {
        for (&column, &value) in columns.iter().zip(&self.values) {
            if let Some(place) = row.get_mut(column) {
                *place = Some(value);
            }
        }
    }
}
