//! What there is to see where a delete bound is told of an area, by name, so that it can be counted.

use super::origins::Origin::{self, Damaged, Reached};
use super::origins::{ANY, NOT_REACHED};
use crate::model::area::Area;
use crate::model::bound::{self, cleared, clears, filled, is_bounded};
use crate::model::keys::half_filled;
use crate::model::schema::{Action, Key, Row};

/// A name, the areas on which it is to be seen, and whether an area shows it.
pub type Situation = (&'static str, &'static [Origin], fn(&Area) -> bool);

pub const SITUATIONS: &[Situation] = &[
    ("no live row", &[Reached], |area| bound(area) == 0),
    ("a column of two keys", ANY, |area| {
        any_filled(area, |key, column| {
            let others = area.schema.keys.iter().filter(|other| clears(other));
            let mut others = others.filter(|other| !std::ptr::eq(*other, key));
            others.any(|other| other.child == key.child && other.child_columns.contains(&column))
        })
    }),
    ("NULL in a column of SET NULL", ANY, |area| {
        any_row(area, |table, _, row| {
            let mut columns = cleared(area.schema, table).into_iter();
            columns.any(|column| row[column].is_none())
        })
    }),
    ("a half-filled key of SET NULL", ANY, |area| {
        any_row(area, |table, _, row| {
            let mut keys = area.schema.keys.iter().filter(|key| clears(key));
            keys.any(|key| key.child == table && half_filled(&key.child_key(row)))
        })
    }),
    ("a vacant row before a live one", ANY, |area| {
        any_row(area, |table, number, _| {
            (0..number).any(|before| area.row(table, before).is_none())
        })
    }),
    ("the last row of the last of several tables", ANY, |area| {
        let last = area.schema.tables.len() - 1;
        let row = area.row(last, area.schema.tables[last].rows - 1);
        last > 0 && row.is_some()
    }),
    ("column 7", ANY, |area| {
        any_filled(area, |_, column| column == 7)
    }),
    ("a key of its own table", ANY, |area| {
        any_filled(area, |key, _| key.parent == key.child)
    }),
    ("a column that is not a key's first", ANY, |area| {
        any_filled(area, |key, column| key.child_columns[0] != column)
    }),
    (
        "SET NULL upon an update, and not upon a delete",
        ANY,
        |area| any_not_counted(area, |key| key.on_update == Action::SetNull),
    ),
    ("CASCADE upon a delete", ANY, |area| {
        any_not_counted(area, |key| key.on_delete == Action::Cascade)
    }),
    ("SET DEFAULT upon a delete", ANY, |area| {
        any_not_counted(area, |key| key.on_delete == Action::SetDefault)
    }),
    ("a column that another table's key clears", ANY, |area| {
        any_row(area, |table, _, row| {
            let own = cleared(area.schema, table);
            let others = bound::child_columns(area.schema, clears).into_iter();
            let mut others = others.filter(|column| !own.contains(column));
            others.any(|column| row.get(column).map_or(false, |value| value.is_some()))
        })
    }),
    ("a broken key's column", NOT_REACHED, |area| {
        any_filled(area, |key, _| key.broken)
    }),
    ("a state with bits past the columns", NOT_REACHED, |area| {
        any_state(area, |columns, state| {
            (256..512).contains(&state) && (state - 256) >> columns != 0
        })
    }),
    ("a state just past those of live rows", &[Damaged], |area| {
        any_state(area, |_, state| state == 255 || state == 512)
    }),
    ("a journal in use", ANY, |area| area.used() > 0),
    ("more rows than the journal has records", ANY, |area| {
        bound(area) > area.schema.room as i64
    }),
    ("a schema whose deletes are bounded", ANY, |area| {
        !area.schema.keys.is_empty() && is_bounded(area.schema) && bound(area) > 0
    }),
    ("a schema whose deletes are not bounded", ANY, |area| {
        !is_bounded(area.schema) && bound(area) > 0
    }),
    ("the first and the last of 1,024 rows", ANY, |area| {
        let mut tables = area.schema.tables.iter().enumerate();
        tables.any(|(number, table)| {
            let live = |row| area.row(number, row).is_some();
            table.rows == 1024 && live(0) && live(1023)
        })
    }),
];

fn bound(area: &Area) -> i64 {
    bound::sum(bound::PAPER, area)
}

/// Whether a live row is so: its table, its number and its values.
fn any_row(area: &Area, such: impl Fn(usize, usize, &Row) -> bool) -> bool {
    (0..area.schema.tables.len()).any(|table| {
        let rows = area.live_rows(table);
        rows.iter().any(|(number, row)| such(table, *number, row))
    })
}

/// Whether a column that is not NULL in a live row is such a child column of a key that clears it.
fn any_filled(area: &Area, such: impl Fn(&Key, usize) -> bool) -> bool {
    let mut keys = area.schema.keys.iter().filter(|key| clears(key));
    keys.any(|key| {
        let columns = key.child_columns.iter().copied();
        let columns: Vec<usize> = columns.filter(|&column| such(key, column)).collect();
        let mut rows = bound::live(area, key.child).into_iter();
        rows.any(|row| !filled(area.stored(key.child, row).0, columns.clone()).is_empty())
    })
}

/// Whether a column that is not NULL in a live row is a child column of such a key and is not counted.
fn any_not_counted(area: &Area, such: impl Fn(&Key) -> bool) -> bool {
    any_row(area, |table, _, row| {
        let columns = bound::child_columns(area.schema, |key| key.child == table && such(key));
        let counted = cleared(area.schema, table);
        let mut others = columns
            .into_iter()
            .filter(|column| !counted.contains(column));
        others.any(|column| row[column].is_some())
    })
}

/// Whether a row, live or vacant, is so: how many columns its table has, and its state.
fn any_state(area: &Area, such: impl Fn(usize, i64) -> bool) -> bool {
    let mut tables = area.schema.tables.iter().enumerate();
    tables.any(|(number, table)| {
        let mut rows = 0..table.rows;
        rows.any(|row| such(table.columns, area.stored(number, row).0))
    })
}
