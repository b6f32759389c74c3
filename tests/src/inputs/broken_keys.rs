//! Schemas and areas with broken foreign keys beside whole ones.

use super::calls::new_row;
use super::grounds::{self, Ground};
use super::populated::{self, MakeRow};
use super::{areas, half_filled, herds};
use crate::model::schema;
use crate::random::Random;
use crate::schema_bytes::build;
use crate::schema_bytes::half_drawn::WAYS;
use crate::schema_bytes::records::{Key, Schema as Records, Table};

/// A schema, most of them with broken keys, some with folded columns.
pub fn ground(r: &mut Random) -> Ground {
    let ground = match r.between(0, 9) {
        0 => herds::whole(r).half_drawn(r),
        1 => half_filled::whole(r).half_drawn(r),
        2 | 3 => grounds::small(r).half_drawn(r),
        _ => yard(r),
    };
    ground.folded_once_in(r, 4)
}

/// Table 0, horses, is touched by no broken key. Table 1, hooves, refers to it, and so do often
/// table 3, visits, and table 2, readings, of which a key is broken. Visits often hold a horse by
/// RESTRICT. Foreign keys stand in any order.
fn yard(r: &mut Random) -> Ground {
    let values: Vec<i64> = (0..=r.between(2, 4) as i64).collect();
    let mut tables: Vec<Table> = (0..4).map(|_| table(r, &values)).collect();
    let mut keys = vec![key(r, 1, 0)];
    for (child, parent) in [(1, 0), (2, 0), (3, 1), (1, 1), (2, 3)] {
        if r.once_in(2) {
            keys.push(key(r, child, parent));
        }
    }
    if r.once_in(2) {
        let held = key(r, 3, 0);
        keys.push(Key {
            on_delete: build::RESTRICT,
            on_update: build::RESTRICT,
            ..held
        });
    }
    for _ in 0..r.pick(&[1, 1, 2, 3]) {
        let (child, parent) = r.pick(&[(2, 1), (2, 1), (2, 2), (1, 2), (2, 3), (3, 2)]);
        let whole = key(r, child, parent);
        keys.push(broken(r, whole, &mut tables));
    }
    r.shuffle(&mut keys);
    let room = r.pick(&[3, 6, 12, 40, 40]);
    Ground::new(Records::new(room, tables, keys), values)
}

/// c0 is a unique key, and sometimes c3 or both together; c1 and c2 refer to other tables.
pub fn table(r: &mut Random, values: &[i64]) -> Table {
    let unique = r.pick(&[[1, 0], [1, 0], [1, 8], [1, 9], [9, 1]]);
    let used = unique.iter().take_while(|&&mask| mask != 0).count();
    let mut table = build::table(r.pick(&[3, 4, 6]), 4, &unique[..used]);
    table.not_null = r.pick(&[0, 0, 1, 2, 4, 8]);
    table.default_null = r.pick(&[0, 2, 6]);
    table.defaults = grounds::defaults(r, values, 4, table.default_null);
    table
}

/// A foreign key from c1 or c2 to c0.
pub fn key(r: &mut Random, child: u8, parent: u8) -> Key {
    let mut action = || r.pick(&[0, 1, 2, 3, 4, 4, 4]);
    let actions = (action(), action());
    let column = r.between(1, 2) as u8;
    Key {
        deferred: r.between(0, 1) as u8,
        matching: r.between(0, 1) as u8,
        ..build::key((child, &[column]), (parent, &[0]), actions.0, actions.1)
    }
}

/// The key broken in some way, if there is such a change; some of them with two columns.
fn broken(r: &mut Random, mut key: Key, tables: &mut [Table]) -> Key {
    if r.once_in(3) {
        key.count = 2;
        key.child_columns = [1, 2, 255, 255];
        key.parent_columns = r.pick(&[[0, 3, 255, 255], [3, 0, 255, 255], [0, 1, 255, 255]]);
    }
    let (_, way) = r.pick(WAYS);
    way(&mut key, tables, r);
    key
}

/// Rows of table 0 refer to each other in a chain, and rows of table 1 to rows of the chain. The key
/// of table 2 to table 1 is broken: a deletion is refused by depth or by the broken key.
pub fn deep(r: &mut Random) -> Ground {
    let rows = r.between(18, 20) as u16;
    let tables = vec![
        build::table(rows, 2, &[1]),
        build::table(4, 2, &[]),
        build::table(2, 1, &[]),
    ];
    let action = r.pick(&[build::SET_NULL, build::CASCADE, build::CASCADE]);
    let keys = vec![
        build::key((0, &[1]), (0, &[0]), build::CASCADE, r.between(0, 4) as u8),
        build::key((1, &[1]), (0, &[0]), action, r.between(0, 4) as u8),
        build::key((2, &[0]), (1, &[r.pick(&[0, 1, 9])]), build::CASCADE, 0),
    ];
    let room = r.pick(&[16, 17, 32, 40]);
    let values = (0..rows as i64).collect();
    Ground::new(Records::new(room, tables, keys), values)
}

/// A chain of the schema above, with rows of table 1 that refer to its later rows. Inserts lead to
/// it.
pub fn chained(r: &mut Random, ground: &Ground) -> Vec<i64> {
    let words = areas::chained(r, ground);
    let mut area = ground.area(&words);
    for row in 0..r.between(1, 4) {
        let chain = area.live_rows(0).into_iter().map(|(_, row)| row[0]);
        let late: Vec<_> = chain.filter(|first| *first >= Some(12)).collect();
        area.put_row(1, row, Some(&vec![Some(row as i64), r.pick(&late)]));
    }
    area.words
}

/// An area with rows also in the child tables of broken keys, whatever the rules say, some with kept
/// numbers of broken keys that are not 0.
pub fn filled(r: &mut Random, ground: &Ground) -> Vec<i64> {
    let make: MakeRow = if r.once_in(2) {
        &half_filled::row
    } else {
        &new_row
    };
    let words = populated::filled(r, ground, make);
    if r.once_in(4) {
        with_kept_numbers(r, ground, &words)
    } else {
        words
    }
}

/// The words with kept numbers of some broken keys set, most of them within their range.
pub fn with_kept_numbers(r: &mut Random, ground: &Ground, words: &[i64]) -> Vec<i64> {
    let mut words = words.to_vec();
    let keys = ground.schema.keys.iter().enumerate();
    for (number, key) in keys.filter(|(_, key)| key.broken) {
        if !r.once_in(3) {
            words[4 + number] = kept_number(r, ground, key);
        }
    }
    words
}

fn kept_number(r: &mut Random, ground: &Ground, key: &schema::Key) -> i64 {
    let most = ground.schema.tables[key.child].rows;
    if r.once_in(6) {
        r.pick(&[-1, most as i64 + 1])
    } else {
        r.edged(1, most) as i64
    }
}
