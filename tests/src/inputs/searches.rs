//! Calls of kinds 10 and 11 at random: one statement for many rows.

use super::calls::{new_row, spelled, value};
use super::grounds::Ground;
use crate::model::area::Area;
use crate::model::schema::{Row, Value};
use crate::model::search::Search;
use crate::random::Random;

/// A search that mostly finds rows, often several.
pub fn any(r: &mut Random, ground: &Ground, area: &Area) -> Search {
    let table = fuller_table(r, ground, area);
    of_table(r, ground, area, table)
}

/// A search in a table that mostly finds rows.
pub fn of_table(r: &mut Random, ground: &Ground, area: &Area, table: usize) -> Search {
    let live = area.live_rows(table).into_iter();
    let live: Vec<Row> = live.map(|(_, row)| row).collect();
    let column = r.between(0, ground.schema.tables[table].columns - 1);
    let (column, sought) = match r.between(0, 5) {
        0 => (column, value(r, ground, table, column)),
        1 => (column, None),
        _ if live.is_empty() => (column, value(r, ground, table, column)),
        _ => common_value(r, &live),
    };
    let set = (!r.once_in(3)).then(|| set(r, ground, area, table, column));
    Search {
        table,
        column,
        sought: spelled(r, ground, sought),
        set,
    }
}

/// The one of two tables that has more live rows.
fn fuller_table(r: &mut Random, ground: &Ground, area: &Area) -> usize {
    let last = ground.schema.tables.len() - 1;
    let (one, other) = (r.between(0, last), r.between(0, last));
    let rows = |table| area.live_rows(table).len();
    if rows(one) < rows(other) {
        other
    } else {
        one
    }
}

/// Of the values of four rows in some column each, the one that most rows have.
fn common_value(r: &mut Random, live: &[Row]) -> (usize, Value) {
    let of_some_row = |_| {
        let row = &live[r.between(0, live.len() - 1)];
        let column = r.between(0, row.len() - 1);
        (column, row[column])
    };
    let some = [0; 4].map(of_some_row);
    let having = |&(column, value): &(usize, Value)| {
        let alike = live.iter().filter(|row| row[column] == value);
        alike.count()
    };
    some.into_iter().max_by_key(having).expect("there are four")
}

/// The column to set, now and then the one sought, and a value that is often a live parent's, or
/// NULL, which many rows can have in a unique key.
fn set(r: &mut Random, g: &Ground, area: &Area, table: usize, sought: usize) -> (usize, Value) {
    let last = g.schema.tables[table].columns - 1;
    let column = if r.once_in(4) {
        sought
    } else {
        r.between(0, last)
    };
    let mut unique = g.schema.tables[table].unique.iter();
    if unique.any(|key| key.contains(&column)) && r.once_in(3) {
        return (column, None);
    }
    (column, new_row(r, g, area, table)[column])
}
