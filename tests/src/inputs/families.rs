//! Schemas with several families of tables, and calls on the tables of a family.

use super::calls::{row_call, some_row, updated};
use super::grounds::{self, Ground};
use super::{broken_keys, herds, parents, searches, windows};
use crate::model::area::Area;
use crate::model::schema;
use crate::random::Random;
use crate::schema_bytes::build;
use crate::schema_bytes::records::{Key, Schema as Records, Table};
use crate::schema_bytes::valid;

/// Two or three yards in one schema, their tables and foreign keys in any order. In some of them a
/// broken key stands between two yards, in some columns are folded.
pub fn ground(r: &mut Random) -> Ground {
    let (mut tables, mut keys, mut values) = (Vec::new(), Vec::new(), Vec::new());
    for _ in 0..r.pick(&[2, 2, 3]) {
        let yard = yard(r);
        let first = tables.len();
        let own = yard.records.tables.len();
        let moved = |table: u8| match usize::from(table) {
            table if table < own => (first + table) as u8,
            _ => u8::MAX,
        };
        keys.extend(yard.records.keys.iter().map(|key| renumbered(key, moved)));
        tables.extend(yard.records.tables);
        values.extend(yard.values);
    }
    if r.once_in(3) {
        add_readings(r, &mut tables, &mut keys);
    }
    values.sort_unstable();
    values.dedup();
    let room = r.pick(&[2, 4, 6, 8, 12, 20, 40, 40, 60, 60, 100]);
    let records = Records::new(room, tables, keys);
    Ground::new(in_any_order(r, records), values).folded_once_in(r, 4)
}

/// A schema of one family or of few.
fn yard(r: &mut Random) -> Ground {
    match r.between(0, 9) {
        0 | 1 => windows::ground(r),
        2 => broken_keys::ground(r),
        3 => herds::whole(r),
        4..=6 => linked(r),
        _ => grounds::whole_collisions(r),
    }
}

/// Two to four tables, each of which but the first refers to one before it.
fn linked(r: &mut Random) -> Ground {
    let values: Vec<i64> = (0..=r.between(3, 6) as i64).collect();
    let count = r.between(2, 4) as u8;
    let tables = (0..count).map(|_| broken_keys::table(r, &values));
    let tables = tables.collect();
    let mut keys = Vec::new();
    for child in 1..count {
        let parent = r.between(0, usize::from(child) - 1) as u8;
        keys.push(broken_keys::key(r, child, parent));
    }
    Ground::new(Records::new(1, tables, keys), values)
}

/// The key with its tables numbered otherwise.
fn renumbered(key: &Key, number: impl Fn(u8) -> u8) -> Key {
    Key {
        child: number(key.child),
        parent: number(key.parent),
        ..key.clone()
    }
}

/// Adds a table that refers to some table by a whole key, and to one, mostly another, by a broken key.
fn add_readings(r: &mut Random, tables: &mut Vec<Table>, keys: &mut Vec<Key>) {
    let (own, parents) = (tables.len(), valid::parents(tables));
    let other = r.between(0, own - 1) as u8;
    tables.push(build::table(2, 5, &[]));
    let missing = r.edged(8, 254) as u8;
    let child = (own as u8, &[4][..]);
    let action = r.between(0, 4) as u8;
    keys.push(build::key(child, (other, &[missing]), action, action));
    if !parents.is_empty() {
        let mut whole = valid::key(r, &tables[..own], &parents);
        whole.child = own as u8;
        whole.child_columns = valid::four(&[0, 1, 2, 3][..whole.n()]);
        keys.push(whole);
    }
}

/// The schema with its tables and its keys in another order.
fn in_any_order(r: &mut Random, mut schema: Records) -> Records {
    let mut tables: Vec<(u8, Table)> = (0..).zip(schema.tables).collect();
    r.shuffle(&mut tables);
    let place = |table: u8| tables.iter().position(|(old, _)| *old == table);
    let number = |table: u8| place(table).map_or(u8::MAX, |place| place as u8);
    let keys = schema.keys.iter();
    schema.keys = keys.map(|key| renumbered(key, number)).collect();
    r.shuffle(&mut schema.keys);
    schema.tables = tables.into_iter().map(|(_, table)| table).collect();
    schema
}

/// A call of kind 1, 2, 3, 10 or 11 on one of these tables that is often accepted.
pub fn call(r: &mut Random, ground: &Ground, area: &Area, tables: &[usize]) -> Vec<i64> {
    let table = r.pick(tables);
    let call = match r.between(0, 15) {
        0..=3 => inserted(r, ground, area, table),
        4..=6 => changed(r, ground, area, table),
        7 => deleted(r, area, table),
        8..=12 => on_parent(r, ground, area, tables),
        _ => None,
    };
    call.unwrap_or_else(|| searches::of_table(r, ground, area, table).words())
}

/// An insert at a vacant row, if there is one.
pub fn inserted(r: &mut Random, ground: &Ground, area: &Area, table: usize) -> Option<Vec<i64>> {
    let rows = 0..ground.schema.tables[table].rows;
    let vacant: Vec<usize> = rows.filter(|&n| area.row(table, n).is_none()).collect();
    (!vacant.is_empty()).then(|| {
        let new = windows::row(r, ground, area, table);
        row_call(1, table, r.pick(&vacant), &new)
    })
}

/// An update of some row, if there is one.
fn changed(r: &mut Random, ground: &Ground, area: &Area, table: usize) -> Option<Vec<i64>> {
    let (number, old) = some_row(r, area, table)?;
    let new = if r.once_in(3) {
        windows::row(r, ground, area, table)
    } else {
        updated(r, ground, area, table, Some(old))
    };
    Some(row_call(2, table, number, &new))
}

/// The deletion of some row, if there is one.
fn deleted(r: &mut Random, area: &Area, table: usize) -> Option<Vec<i64>> {
    let (number, _) = some_row(r, area, table)?;
    Some(row_call(3, table, number, &[]))
}

/// A change of a row in one of these tables that another refers to, if there is one.
fn on_parent(r: &mut Random, ground: &Ground, area: &Area, tables: &[usize]) -> Option<Vec<i64>> {
    let keys = ground.schema.keys.iter().filter(|key| !key.broken);
    let keys: Vec<&schema::Key> = keys.filter(|key| tables.contains(&key.parent)).collect();
    parents::of_keys(r, ground, area, &keys)
}
