//! Schemas with folded columns, and areas in which keys are spelled in several ways.

use super::calls::new_row;
use super::grounds::{self, Ground};
use super::{areas, broken_keys, half_filled, herds, spellings};
use crate::model::area::Area;
use crate::model::schema::{self, Row};
use crate::random::Random;
use crate::schema_bytes::build;
use crate::schema_bytes::records::{Key, Schema as Records, Table};
use crate::schema_bytes::valid::low_bits;

/// A schema, most of them with folded columns, with words of these bytes.
pub fn ground(r: &mut Random, bytes: &[u8]) -> Ground {
    match r.between(0, 12) {
        0 => herds::whole(r).folded(r, bytes),
        1 => half_filled::whole(r).folded(r, bytes),
        2 => broken_keys::ground(r).folded(r, bytes),
        3 => grounds::tangled(r).folded(r, bytes),
        4 | 5 => relayed(r, bytes),
        6..=8 => sensors(r, bytes),
        _ => composite(r, bytes),
    }
}

/// Tables 0 and 1 are parents, one of them folded in its key c0. Table 2 refers to both, often by one
/// column.
fn sensors(r: &mut Random, bytes: &[u8]) -> Ground {
    let values = domain(r, bytes);
    let mut tables: Vec<Table> = (0..3).map(|_| table(r, &values, 4, &[1])).collect();
    tables[0].folded |= 1;
    tables[1].folded &= !1;
    if r.once_in(2) {
        tables[2].unique = [r.pick(&[1, 9]), 0, 0, 0];
    }
    let mut keys: Vec<Key> = (0..2).map(|parent| key(r, (2, 4), (parent, 1))).collect();
    if r.once_in(2) {
        keys[1].child_columns = keys[0].child_columns;
    }
    if r.once_in(3) {
        keys.push(key(r, (0, 4), (0, 1)));
    }
    r.shuffle(&mut keys);
    keys.truncate(r.pick(&[1, 2, 3, 3]));
    Ground::new(Records::new(r.pick(&[8, 20, 40, 40]), tables, keys), values)
}

/// Table 0 is not folded in its key c0. Table 1 refers to it by c1, which is a folded key too, and
/// table 2 to that: a respelling of the first runs an action that respells the second.
fn relayed(r: &mut Random, bytes: &[u8]) -> Ground {
    let values = domain(r, bytes);
    let unique: [&[u8]; 3] = [&[1], &[2], &[]];
    let tables = unique.map(|unique| table(r, &values, 3, unique));
    let mut tables: Vec<Table> = tables.into_iter().collect();
    tables[0].folded &= !1;
    tables[1].folded |= 2;
    let mut actions = || (r.between(0, 4) as u8, r.pick(&[3, 4, 4, 4]));
    let (first, second) = (actions(), actions());
    let keys = vec![
        build::deferred(build::key((1, &[1]), (0, &[0]), first.0, first.1)),
        build::deferred(build::key((2, &[1]), (1, &[1]), second.0, second.0)),
    ];
    Ground::new(Records::new(40, tables, keys), values)
}

/// One or two tables with keys of two to four columns, of which some are folded.
fn composite(r: &mut Random, bytes: &[u8]) -> Ground {
    let values = domain(r, bytes);
    let width = r.pick(&[2, 2, 3, 3, 4, 4]);
    let columns = r.between(width + 1, 2 * width);
    let count = r.pick(&[1, 2, 2]);
    let unique = [low_bits(width)];
    let tables = (0..count).map(|_| table(r, &values, columns, &unique));
    let mut tables: Vec<Table> = tables.collect();
    for table in &mut tables {
        table.folded |= 1 << r.between(0, width - 1);
        table.folded &= !(1 << r.between(0, width - 1));
    }
    let keys = (0..r.pick(&[1, 1, 2])).map(|_| {
        let (child, parent) = (r.between(0, count - 1), r.between(0, count - 1));
        key(r, (child as u8, columns), (parent as u8, width))
    });
    let keys = keys.collect();
    Ground::new(Records::new(r.pick(&[20, 40, 60]), tables, keys), values)
}

/// A schema whose table refers to itself by folded columns, and an area with a chain of rows, each of
/// which has the key of the one before it in any spelling. Inserts lead to it.
pub fn chained(r: &mut Random) -> (Ground, Vec<i64>) {
    let plain = grounds::chain(r);
    let numbers = areas::chained(r, &plain);
    let mut records = plain.records.clone();
    let table = &mut records.tables[0];
    table.folded = table.unique[0] | r.byte() & low_bits(table.columns.into());
    let (others, place) = (spellings::word(r, spellings::ANY), r.between(0, 7));
    let mut name = |number: i64| {
        let word = lettered(others, place, number);
        let other = spellings::respelled(r, word);
        r.pick(&[word, other])
    };
    let values = plain.values.iter().map(|&number| name(number)).collect();
    let ground = Ground::new(records, values);
    let mut area = ground.area(&ground.fresh());
    for (number, row) in plain.area(&numbers).live_rows(0) {
        let row: Row = row.into_iter().map(|value| value.map(&mut name)).collect();
        area.put_row(0, number, Some(&row));
    }
    let words = area.words;
    (ground, words)
}

/// The word with a letter at this place that tells the number: A for -1, and so on.
fn lettered(word: i64, place: usize, number: i64) -> i64 {
    let mut bytes = word.to_le_bytes();
    bytes[place] = b'A' + (number + 1) as u8;
    i64::from_le_bytes(bytes)
}

/// A few words in several spellings.
fn domain(r: &mut Random, bytes: &[u8]) -> Vec<i64> {
    let count = r.between(3, 7);
    spellings::domain(r, count, bytes)
}

/// Any columns are folded. Of some tables one column is NULL by default, and one is NOT NULL.
fn table(r: &mut Random, values: &[i64], columns: usize, unique: &[u8]) -> Table {
    let mut table = build::table(r.pick(&[3, 4, 6]), columns as u8, unique);
    table.folded = r.byte() & low_bits(columns);
    let some = 1 << r.between(0, columns - 1);
    table.default_null = r.pick(&[0, 0, some]);
    table.defaults = grounds::defaults(r, values, columns, table.default_null);
    if r.once_in(5) {
        table.not_null = 1 << r.between(0, columns - 1);
    }
    table
}

/// A foreign key of a table of so many columns, from any but the first, to the first so many columns
/// of another.
fn key(r: &mut Random, (child, columns): (u8, usize), (parent, width): (u8, usize)) -> Key {
    let mut parent_columns: Vec<u8> = (0..width as u8).collect();
    let mut child_columns: Vec<u8> = (1..columns as u8).collect();
    r.shuffle(&mut parent_columns);
    r.shuffle(&mut child_columns);
    let mut action = || r.between(0, 4) as u8;
    let actions = (action(), action());
    Key {
        deferred: r.pick(&[0, 1, 1]),
        matching: r.between(0, 1) as u8,
        ..build::key(
            (child, &child_columns[..width]),
            (parent, &parent_columns),
            actions.0,
            actions.1,
        )
    }
}

/// A row: its child keys are often those of parents in another spelling, and its parent key now and
/// then the default of a child key in another spelling.
pub fn row(r: &mut Random, ground: &Ground, area: &Area, table: usize) -> Row {
    let mut row = new_row(r, ground, area, table);
    let is_parent = |key: &&schema::Key| key.parent == table && !key.broken;
    for key in ground.schema.keys.iter().filter(is_parent) {
        if r.once_in(5) {
            let defaults = key.child_key(&ground.schema.tables[key.child].defaults);
            for (&column, default) in key.parent_columns.iter().zip(defaults) {
                row[column] = spellings::other(r, default);
            }
        }
    }
    row
}
