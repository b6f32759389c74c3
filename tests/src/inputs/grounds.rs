//! Valid schemas on which calls are tried: small, so that keys collide.

use super::{broken_keys, half_filled, spellings, windows};
use crate::model::area::Area;
use crate::model::schema::Schema;
use crate::random::Random;
use crate::schema_bytes::build::SIMPLE;
use crate::schema_bytes::half_drawn::break_some;
use crate::schema_bytes::records::{Key, Schema as Records, Table};
use crate::schema_bytes::valid::{any_valid, four, key, low_bits, parents};

/// A valid schema as records, as bytes and as the model reads it, and the values that calls give.
pub struct Ground {
    pub records: Records,
    pub bytes: Vec<u8>,
    pub schema: Schema,
    pub values: Vec<i64>,
}

impl Ground {
    pub fn new(records: Records, values: Vec<i64>) -> Ground {
        let bytes = records.bytes();
        let schema = Schema::read(&bytes).expect("the schema is valid");
        Ground {
            records,
            bytes,
            schema,
            values,
        }
    }

    pub fn fresh(&self) -> Vec<i64> {
        vec![0; self.schema.area_words()]
    }

    /// An area of these words.
    pub fn area(&self, words: &[i64]) -> Area<'_> {
        Area {
            schema: &self.schema,
            words: words.to_vec(),
        }
    }

    /// The same with some columns folded, and with words of these bytes, many of which differ in
    /// nothing but the spelling, in place of its values.
    pub fn folded(mut self, r: &mut Random, bytes: &[u8]) -> Ground {
        let words = spellings::domain(r, self.values.len().max(4), bytes);
        for table in &mut self.records.tables {
            let (columns, some) = (usize::from(table.columns), r.byte());
            table.folded = low_bits(columns) & r.pick(&[0, 255, some, some]);
            for (column, default) in table.defaults.iter_mut().enumerate() {
                let place = self.values.iter().position(|value| value == default);
                let there = column < columns && table.default_null >> column & 1 == 0;
                *default = place.filter(|_| there).map_or(*default, |at| words[at]);
            }
        }
        Ground::new(self.records, words)
    }

    /// The same with some columns folded, once in so many schemas.
    pub fn folded_once_in(self, r: &mut Random, turns: usize) -> Ground {
        if r.once_in(turns) {
            self.folded(r, spellings::ANY)
        } else {
            self
        }
    }

    /// The same with no column folded.
    pub fn unfolded(mut self) -> Ground {
        let tables = self.records.tables.iter_mut();
        tables.for_each(|table| table.folded = 0);
        Ground::new(self.records, self.values)
    }

    /// The same with some foreign keys broken, where none was.
    pub fn half_drawn(mut self, r: &mut Random) -> Ground {
        break_some(&mut self.records, r);
        Ground::new(self.records, self.values)
    }

    /// The same with some foreign keys broken, once in so many schemas.
    pub fn half_drawn_once_in(self, r: &mut Random, turns: usize) -> Ground {
        if r.once_in(turns) {
            self.half_drawn(r)
        } else {
            self
        }
    }

    /// The same with no foreign key windowed.
    pub fn unwindowed(mut self) -> Ground {
        let keys = self.records.keys.iter_mut();
        keys.for_each(|key| key.windowed = 0);
        Ground::new(self.records, self.values)
    }

    /// The same with MATCH SIMPLE in every foreign key.
    pub fn of_match_simple(mut self) -> Ground {
        let keys = self.records.keys.iter_mut();
        keys.for_each(|key| key.matching = SIMPLE);
        Ground::new(self.records, self.values)
    }
}

/// A schema on which keys collide: in some of them some are broken or windowed, in some columns are
/// folded.
pub fn collisions(r: &mut Random) -> Ground {
    match r.between(0, 7) {
        0 => broken_keys::ground(r),
        1 => windows::ground(r),
        _ => whole_collisions(r).folded_once_in(r, 3),
    }
}

/// A schema on which keys collide, none of them broken, and no column folded.
pub fn whole_collisions(r: &mut Random) -> Ground {
    match r.between(0, 9) {
        0..=2 => tangled(r),
        3..=5 => gathered(r),
        6 => half_filled::whole(r),
        _ => small(r),
    }
}

/// Up to four tables of a few rows, and up to six foreign keys.
pub fn small(r: &mut Random) -> Ground {
    let values = domain(r);
    let count = r.between(1, 4);
    let mut tables: Vec<Table> = (0..count).map(|_| small_table(r, &values)).collect();
    if parents(&tables).is_empty() {
        tables[0].unique[0] = 1;
    }
    let parents = parents(&tables);
    let count = r.between(0, 6).max(r.between(0, 1));
    let keys = (0..count).map(|_| key(r, &tables, &parents)).collect();
    let room = r.pick(&[1, 2, 4, 6, 8, 12, 20, 40, 60, 60]);
    Ground::new(Records::new(room, tables, keys), values)
}

/// A few small numbers, often with both ends of 64 bits.
fn domain(r: &mut Random) -> Vec<i64> {
    let mut values: Vec<i64> = (0..=r.between(1, 4) as i64).collect();
    if r.once_in(3) {
        values.extend([i64::MIN, i64::MAX, -1]);
    }
    values
}

/// Default values of the columns whose default is not NULL, as bits.
pub fn defaults(r: &mut Random, values: &[i64], columns: usize, default_null: u8) -> [i64; 8] {
    let mut defaults = [0; 8];
    for (column, default) in defaults.iter_mut().enumerate().take(columns) {
        if default_null >> column & 1 == 0 {
            *default = r.pick(values);
        }
    }
    defaults
}

fn small_table(r: &mut Random, values: &[i64]) -> Table {
    let columns = r.pick(&[1, 2, 2, 3, 3, 4, 8]);
    let mask = low_bits(columns);
    let mut unique = [0; 4];
    for slot in unique.iter_mut().take(r.pick(&[0, 1, 1, 1, 2, 3])) {
        *slot = key_mask(r, columns);
    }
    let default_null = r.byte() & mask;
    let defaults = defaults(r, values, columns, default_null);
    Table {
        rows: r.pick(&[1, 2, 3, 4, 4, 6, 8]),
        columns: columns as u8,
        not_null: r.byte() & r.byte() & mask,
        unique,
        default_null,
        folded: 0,
        zeros: [0; 6],
        defaults,
    }
}

/// One column, or sometimes more of them.
fn key_mask(r: &mut Random, columns: usize) -> u8 {
    let one = 1 << r.between(0, columns - 1);
    if r.once_in(2) {
        one
    } else {
        one | r.byte() & r.byte() & low_bits(columns)
    }
}

/// One table whose rows refer to each other, with room for chains of 17 rows and more. Its foreign
/// key has one or two columns: it refers from those after the first column to those before the last.
/// With two columns a chain begins with a half-filled key, so they are of MATCH SIMPLE.
pub fn chain(r: &mut Random) -> Ground {
    let rows = r.between(18, 24);
    let width = r.between(1, 2);
    let table = Table {
        rows: rows as u16,
        columns: 1 + width as u8,
        not_null: r.pick(&[0, 0, 1]),
        unique: [low_bits(width), 0, 0, 0],
        default_null: low_bits(width) << 1,
        folded: 0,
        zeros: [0; 6],
        defaults: [0; 8],
    };
    let key = Key {
        child: 0,
        parent: 0,
        deferred: r.between(0, 1) as u8,
        on_delete: r.pick(&[4, 4, 4, 1, 2]),
        on_update: r.between(0, 4) as u8,
        count: width as u8,
        child_columns: four(&[1, 2][..width]),
        parent_columns: four(&[0, 1][..width]),
        matching: if width == 1 {
            r.between(0, 1) as u8
        } else {
            SIMPLE
        },
        windowed: 0,
    };
    let keys = vec![key; r.pick(&[1, 1, 1, 2])];
    let room = r.pick(&[8, 16, 17, 32, 40, 40]);
    let values = (0..=rows as i64).collect();
    Ground::new(Records::new(room, vec![table], keys), values)
}

/// One or two tables with a key in c0, foreign keys from c1 and c2 to such keys, and c3 in no key:
/// many rows come to have one value in c3, so that one statement finds several parents.
pub fn gathered(r: &mut Random) -> Ground {
    let values: Vec<i64> = (0..=r.between(3, 6) as i64).collect();
    let count = r.between(1, 2);
    let tables = (0..count).map(|_| gathered_table(r, &values)).collect();
    let keys = (0..r.between(1, 4)).map(|_| gathered_key(r, count));
    let keys = keys.collect();
    let room = r.pick(&[4, 8, 20, 40, 60]);
    Ground::new(Records::new(room, tables, keys), values)
}

fn gathered_table(r: &mut Random, values: &[i64]) -> Table {
    let mut defaults = [0; 8];
    defaults[2] = r.pick(values);
    Table {
        rows: r.pick(&[4, 6, 8]),
        columns: 4,
        not_null: r.pick(&[0, 0, 2, 4, 6]),
        unique: [1, 0, 0, 0],
        default_null: 2,
        folded: 0,
        zeros: [0; 6],
        defaults,
    }
}

fn gathered_key(r: &mut Random, tables: usize) -> Key {
    Key {
        child: r.between(0, tables - 1) as u8,
        parent: r.between(0, tables - 1) as u8,
        deferred: r.between(0, 1) as u8,
        on_delete: r.between(0, 4) as u8,
        on_update: r.between(0, 4) as u8,
        count: 1,
        child_columns: four(&[r.between(1, 2) as u8]),
        parent_columns: four(&[0]),
        matching: r.between(0, 1) as u8,
        windowed: 0,
    }
}

/// Keys of one width between one or two tables, their columns shared, their actions seldom NO
/// ACTION: one change often follows from another.
pub fn tangled(r: &mut Random) -> Ground {
    let values: Vec<i64> = (0..=r.between(1, 3) as i64).collect();
    let width = r.pick(&[1, 1, 2, 2, 3, 4]);
    let columns = r.between(width + 1, (2 * width).max(3));
    let any_columns = r.once_in(2);
    let count = r.between(1, 2);
    let tables: Vec<Table> = (0..count)
        .map(|_| tangled_table(r, &values, width, columns))
        .collect();
    let keys = (0..r.between(1, 4))
        .map(|_| tangled_key(r, (count, width, columns), any_columns))
        .collect();
    let room = r.pick(&[4, 8, 20, 40, 60]);
    Ground::new(Records::new(room, tables, keys), values)
}

/// Its key is in the first columns. Some columns are NOT NULL, or have NULL as default.
fn tangled_table(r: &mut Random, values: &[i64], width: usize, columns: usize) -> Table {
    let mask = low_bits(columns);
    let default_null = r.byte() & r.byte() & mask & r.pick(&[0, 0, 255]);
    let defaults = defaults(r, values, columns, default_null);
    Table {
        rows: r.pick(&[3, 4, 6, 8]),
        columns: columns as u8,
        not_null: r.byte() & r.byte() & mask & r.pick(&[0, 0, 255]),
        unique: [low_bits(width), 0, 0, 0],
        default_null,
        folded: 0,
        zeros: [0; 6],
        defaults,
    }
}

/// The child columns are the last, or any.
fn tangled_key(
    r: &mut Random,
    (tables, width, columns): (usize, usize, usize),
    any_columns: bool,
) -> Key {
    let mut child_columns: Vec<u8> = (0..columns as u8).rev().collect();
    let mut parent_columns: Vec<u8> = (0..width as u8).collect();
    if any_columns && r.once_in(2) {
        r.shuffle(&mut child_columns);
    }
    r.shuffle(&mut parent_columns);
    Key {
        child: r.between(0, tables - 1) as u8,
        parent: r.between(0, tables - 1) as u8,
        deferred: r.pick(&[0, 1, 1]),
        on_delete: r.pick(&[0, 1, 2, 3, 3, 4, 4]),
        on_update: r.pick(&[0, 1, 2, 3, 3, 4, 4]),
        count: width as u8,
        child_columns: four(&child_columns[..width]),
        parent_columns: four(&parent_columns),
        matching: r.between(0, 1) as u8,
        windowed: 0,
    }
}

/// A valid schema of any size, some with broken keys, most with folded columns.
pub fn large(r: &mut Random) -> Ground {
    let mut values = spellings::domain(r, 4, spellings::ANY);
    values.extend([0, 1, 2, i64::MIN, i64::MAX]);
    let whole = Ground::new(any_valid(r), values);
    whole.half_drawn_once_in(r, 3)
}
