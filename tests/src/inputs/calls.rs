//! Well-formed calls at random.

use super::grounds::Ground;
use super::{parents, searches, spellings};
use crate::model::area::Area;
use crate::model::schema::{Row, Value};
use crate::random::Random;

/// A row with its number.
pub type Numbered = (usize, Row);

/// The words of an insert (1), update (2) or, without a row, delete (3).
pub fn row_call(kind: i64, table: usize, row: usize, new: &[Value]) -> Vec<i64> {
    let mut words = vec![kind, table as i64, row as i64, 0];
    for (i, value) in new.iter().enumerate() {
        words[3] |= i64::from(value.is_none()) << i;
        words.push(value.unwrap_or(0));
    }
    words.resize(12, 0);
    words
}

/// The words of a call of kinds 4 to 9; the level is 0 where the kind has none.
pub fn plain_call(kind: i64, level: i64) -> Vec<i64> {
    let mut words = vec![kind, level];
    words.resize(12, 0);
    words
}

/// A call that mostly suits the area: its length is right, its header can be damaged.
pub fn any(r: &mut Random, ground: &Ground, area: &[i64]) -> Vec<i64> {
    let area = ground.area(area);
    if r.once_in(4) {
        transaction_call(r, area.words[0])
    } else if r.once_in(3) {
        searches::any(r, ground, &area).words()
    } else {
        change_call(r, ground, &area)
    }
}

/// As `any`, but mostly a change of a row that others refer to.
pub fn leading_to_actions(r: &mut Random, ground: &Ground, words: &[i64]) -> Vec<i64> {
    let area = ground.area(words);
    let call = if r.once_in(4) {
        None
    } else {
        parents::any(r, ground, &area)
    };
    call.unwrap_or_else(|| any(r, ground, words))
}

/// A call that opens a transaction where none is open. Inside one, most are inserts of any values,
/// often in the first or the last row of a table.
pub fn leading_to_orphans(r: &mut Random, ground: &Ground, area: &[i64]) -> Vec<i64> {
    if area[0] == 0 {
        return plain_call(r.pick(&[4, 5]), 0);
    }
    if r.once_in(3) {
        return any(r, ground, area);
    }
    let table = r.between(0, ground.schema.tables.len() - 1);
    let rows = ground.schema.tables[table].rows;
    let columns = 0..ground.schema.tables[table].columns;
    let new: Row = columns.map(|c| value(r, ground, table, c)).collect();
    row_call(1, table, r.edged(0, rows - 1), &new)
}

pub fn transaction_call(r: &mut Random, open: i64) -> Vec<i64> {
    let suits_none = [4, 4, 5, 5, 5];
    let suits_open = [5, 5, 5, 5, 5, 6, 6, 7, 7, 7, 8, 9, 9];
    let kind = match open {
        _ if r.once_in(12) => r.between(4, 9) as i64,
        0 => r.pick(&suits_none),
        _ => r.pick(&suits_open),
    };
    let level = match kind {
        6 | 7 if r.once_in(8) => r.between(1, 9),
        6 | 7 => r.edged(1, open.clamp(1, 9) as usize),
        _ => 0,
    };
    plain_call(kind, level as i64)
}

fn change_call(r: &mut Random, ground: &Ground, area: &Area) -> Vec<i64> {
    let tables = &ground.schema.tables;
    let table = r.between(0, tables.len() - 1);
    let row = r.between(0, tables[table].rows - 1);
    let old = area.row(table, row);
    let kind = match old {
        _ if r.once_in(20) => r.between(1, 3),
        None => 1,
        Some(_) => r.pick(&[2, 2, 2, 3, 3]),
    };
    match kind {
        1 => row_call(1, table, row, &new_row(r, ground, area, table)),
        2 => row_call(2, table, row, &updated(r, ground, area, table, old)),
        _ => row_call(3, table, row, &[]),
    }
}

/// Some live row of a table, if there is one.
pub fn some_row(r: &mut Random, area: &Area, table: usize) -> Option<Numbered> {
    let live = area.live_rows(table);
    (!live.is_empty()).then(|| live[r.between(0, live.len() - 1)].clone())
}

/// An insert of the row at some number, or an update where there is one.
pub fn put(r: &mut Random, ground: &Ground, area: &Area, (table, row): (usize, Row)) -> Vec<i64> {
    let number = r.between(0, ground.schema.tables[table].rows - 1);
    let kind = match area.row(table, number) {
        Some(_) => 2,
        None => 1,
    };
    row_call(kind, table, number, &row)
}

/// Once in so many times the deletion of the first row, by these values, of a chain in table 0.
pub fn chain_deletion<V: Ord>(
    r: &mut Random,
    area: &Area,
    times: usize,
    values: impl Fn(&Row) -> V,
) -> Option<Vec<i64>> {
    let rows = area.live_rows(0).into_iter();
    let (number, _) = rows.min_by_key(|(_, row)| values(row))?;
    r.once_in(times).then(|| row_call(3, 0, number, &[]))
}

/// A row whose child keys are often those of a live parent row, or nearly.
pub fn new_row(r: &mut Random, ground: &Ground, area: &Area, table: usize) -> Row {
    let columns = 0..ground.schema.tables[table].columns;
    let mut row: Row = columns.map(|c| value(r, ground, table, c)).collect();
    let keys = ground.schema.keys.iter();
    for key in keys.filter(|key| key.child == table) {
        let parents = area.live_rows(key.parent);
        if parents.is_empty() || r.once_in(4) {
            continue;
        }
        let (_, parent) = &parents[r.between(0, parents.len() - 1)];
        for (&column, value) in key.child_columns.iter().zip(key.parent_key(parent)) {
            row[column] = spelled(r, ground, value);
        }
        if r.once_in(8) {
            let column = r.pick(&key.child_columns);
            row[column] = value(r, ground, table, column);
        }
    }
    row
}

/// The old row with some columns changed, or a new one.
pub fn updated(
    r: &mut Random,
    ground: &Ground,
    area: &Area,
    table: usize,
    old: Option<Row>,
) -> Row {
    let mut row = match old {
        Some(row) if !r.once_in(4) => row,
        _ => return new_row(r, ground, area, table),
    };
    for _ in 0..r.between(0, 2) {
        let column = r.between(0, row.len() - 1);
        row[column] = another(r, ground, (table, column), row[column]);
    }
    row
}

/// A value of the column in place of an old one: where columns are folded, now and then the old one
/// in another spelling.
pub fn another(r: &mut Random, ground: &Ground, place: (usize, usize), old: Value) -> Value {
    if ground.schema.any_folded() && r.once_in(3) {
        spellings::other(r, old)
    } else {
        value(r, ground, place.0, place.1)
    }
}

/// The value as it is, or, where columns are folded, every other time in another spelling.
pub fn spelled(r: &mut Random, ground: &Ground, value: Value) -> Value {
    if ground.schema.any_folded() && r.once_in(2) {
        spellings::other(r, value)
    } else {
        value
    }
}

/// A value of the column, NULL seldom where that is not let pass.
pub fn value(r: &mut Random, ground: &Ground, table: usize, column: usize) -> Value {
    let not_null = ground.schema.tables[table].not_null.contains(&column);
    let null = r.once_in(if not_null { 30 } else { 6 });
    (!null).then(|| r.pick(&ground.values))
}
