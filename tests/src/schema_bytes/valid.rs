//! Valid schemas at random.

use crate::random::Random;
use crate::schema_bytes::records::{Key, Schema, Table};

/// A valid schema of these numbers of tables and foreign keys.
pub fn valid(r: &mut Random, tables: usize, keys: usize) -> Schema {
    let mut tables: Vec<Table> = (0..tables).map(|_| table(r)).collect();
    if keys > 0 && parents(&tables).is_empty() {
        tables[0].unique[0] = 1;
    }
    let parents = parents(&tables);
    let keys = (0..keys).map(|_| key(r, &tables, &parents)).collect();
    Schema::new(r.edged(1, 4096) as u16, tables, keys)
}

/// A valid schema, more often small than large.
pub fn any_valid(r: &mut Random) -> Schema {
    let (tables, keys) = if r.once_in(6) { (16, 32) } else { (4, 5) };
    let (tables, keys) = (r.between(1, tables), r.edged(0, keys));
    valid(r, tables, keys)
}

pub fn table(r: &mut Random) -> Table {
    let columns = r.edged(1, 8);
    let mask = low_bits(columns);
    let default_null = r.byte() & mask;
    let mut defaults = [0; 8];
    for (i, default) in defaults.iter_mut().enumerate().take(columns) {
        if default_null >> i & 1 == 0 {
            *default = number(r);
        }
    }
    Table {
        rows: r.edged(1, 1024) as u16,
        columns: columns as u8,
        not_null: r.byte() & mask,
        unique: unique(r, mask),
        default_null,
        folded: folded(r, mask),
        zeros: [0; 6],
        defaults,
    }
}

/// The folded columns: none in every other table.
fn folded(r: &mut Random, mask: u8) -> u8 {
    r.byte() & mask & r.pick(&[0, 255])
}

/// Up to four masks, sometimes one of them in two slots.
fn unique(r: &mut Random, mask: u8) -> [u8; 4] {
    let mut masks = [0; 4];
    for i in 0..r.edged(0, 4) {
        masks[i] = if i > 0 && r.once_in(6) {
            masks[i - 1]
        } else {
            some_bits(r, mask)
        };
    }
    masks
}

fn some_bits(r: &mut Random, mask: u8) -> u8 {
    loop {
        let bits = r.byte() & mask & if r.once_in(2) { r.byte() } else { 255 };
        if bits != 0 {
            return bits;
        }
    }
}

fn number(r: &mut Random) -> i64 {
    let n = r.word() as i64;
    r.pick(&[0, 1, -1, i64::MAX, i64::MIN, n, n, n])
}

/// The tables and unique masks that a foreign key can refer to.
pub fn parents(tables: &[Table]) -> Vec<(usize, u8)> {
    let masks = tables.iter().enumerate();
    masks
        .flat_map(|(t, table)| table.unique.map(|mask| (t, mask)))
        .filter(|(_, mask)| (1..=4).contains(&mask.count_ones()))
        .collect()
}

pub fn key(r: &mut Random, tables: &[Table], parents: &[(usize, u8)]) -> Key {
    let (parent, mask) = r.pick(parents);
    let mut parent_columns: Vec<u8> = (0..8).filter(|i| mask >> i & 1 == 1).collect();
    r.shuffle(&mut parent_columns);
    let count = parent_columns.len();
    let wide = |&t: &usize| usize::from(tables[t].columns) >= count;
    let children: Vec<usize> = (0..tables.len()).filter(wide).collect();
    let child = r.pick(&children);
    let mut child_columns: Vec<u8> = (0..tables[child].columns).collect();
    r.shuffle(&mut child_columns);
    let key = Key {
        child: child as u8,
        parent: parent as u8,
        deferred: r.between(0, 1) as u8,
        on_delete: r.between(0, 4) as u8,
        on_update: r.between(0, 4) as u8,
        count: count as u8,
        child_columns: four(&child_columns[..count]),
        parent_columns: four(&parent_columns),
        matching: r.between(0, 1) as u8,
        windowed: 0,
    };
    windowed(r, key, &tables[parent])
}

/// The key, every other time as a windowed one where it has several columns and the parent has an end
/// for windows.
fn windowed(r: &mut Random, mut key: Key, parent: &Table) -> Key {
    let ends = |&place: &usize| key.window_ends(key.parent_columns[place], parent);
    let places: Vec<usize> = (0..key.n()).filter(ends).collect();
    if key.n() >= 2 && !places.is_empty() && r.once_in(2) {
        key.made_windowed(r.pick(&places));
    }
    key
}

/// The columns, and 255 past them.
pub fn four(columns: &[u8]) -> [u8; 4] {
    let mut out = [255; 4];
    out[..columns.len()].copy_from_slice(columns);
    out
}

/// The mask of the columns below `columns`.
pub fn low_bits(columns: usize) -> u8 {
    255 >> (8 - columns)
}
