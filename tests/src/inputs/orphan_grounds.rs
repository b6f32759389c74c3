//! Valid schemas on which orphan lists are long: up to 32 foreign keys, most of them deferred, and
//! tables of a few rows or of up to 1,024.

use super::grounds::Ground;
use crate::random::Random;
use crate::schema_bytes::records::{Key, Schema as Records, Table};
use crate::schema_bytes::valid::{key, low_bits, parents};
use crate::schema_bytes::{build, half_drawn};

/// Up to four tables, some schemas with a broken key, some with folded columns. As many values as a
/// table can have rows: some rows have parents, some none.
pub fn many_keys(r: &mut Random) -> Ground {
    let most_rows = if r.once_in(8) {
        1024
    } else {
        r.pick(&[4, 8, 12, 16])
    };
    let count = r.between(1, 4);
    let tables: Vec<Table> = (0..count).map(|_| table(r, most_rows)).collect();
    let keys = keys(r, &tables);
    let values = (0..most_rows as i64).collect();
    let mut records = Records::new(60, tables, keys);
    if !records.keys.is_empty() && r.once_in(4) {
        half_drawn::break_one(&mut records, &r.pick(half_drawn::WAYS), r);
    }
    Ground::new(records, values).folded_once_in(r, 3)
}

/// A table whose first column is a unique key, and sometimes the first two or all are one.
fn table(r: &mut Random, most_rows: usize) -> Table {
    let rows = if r.once_in(2) {
        most_rows
    } else {
        r.between(1, most_rows)
    };
    let columns = r.between(2, 4);
    let unique = r.pick(&[[1, 0], [1, 3], [3, 1], [low_bits(columns), 1]]);
    build::table(rows as u16, columns as u8, &unique)
}

/// Foreign keys between any tables, some of them declared again under another number, with either
/// match.
fn keys(r: &mut Random, tables: &[Table]) -> Vec<Key> {
    let parents = parents(tables);
    let all_deferred = r.once_in(2);
    let mut keys: Vec<Key> = Vec::new();
    for number in 0..r.pick(&[0, 1, 2, 3, 4, 6, 10, 32]) {
        let mut new = if number > 0 && r.once_in(4) {
            let again = keys[r.between(0, number - 1)].clone();
            Key {
                matching: r.between(0, 1) as u8,
                ..again
            }
        } else {
            key(r, tables, &parents)
        };
        if all_deferred {
            new.deferred = 1;
        }
        keys.push(new);
    }
    keys
}

/// One table of 1,024 rows and 32 equal keys: as many orphans as there can be.
pub fn largest() -> Ground {
    let one = build::to_itself(1024, 1, build::NO_ACTION);
    let key = build::deferred(one.keys[0].clone());
    Ground::new(Records::new(1, one.tables, vec![key; 32]), Vec::new())
}
