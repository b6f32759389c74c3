//! Mistakes in one statement for many rows: which rows are met, in which order, and how it ends.

use super::refusals::drop_form;
use super::Mistake;
use crate::model::schema::Row;
use crate::model::search;
use crate::model::statement;

pub const ALL: &[Mistake] = &[
    ("rows met from the last to the first", |rules| {
        rules.rows_sought = |area, search| search::rows(area, search).into_iter().rev().collect();
    }),
    ("the first row met only", |rules| {
        rules.rows_sought = |area, search| {
            let mut rows = search::rows(area, search).into_iter();
            let first = rows.find(|&row| search::met(area, search, row).is_some());
            first.into_iter().collect()
        };
    }),
    ("rows listed before the first is changed", |rules| {
        rules.met = search::listed;
    }),
    ("a row that comes to be met passed over", |rules| {
        rules.met = |entry, area, search, row| {
            search::met(entry, search, row).and_then(|_| search::met(area, search, row))
        };
    }),
    (
        "a row written as it was when the statement began",
        |rules| {
            rules.met = |entry, area, search, row| {
                search::met(area, search, row).and_then(|_| entry.row(search.table, row))
            };
        },
    ),
    ("NULL sought meets no row", |rules| {
        rules.met = |_, area, search, row| {
            let met = search::met(area, search, row);
            met.filter(|_| search.sought.is_some())
        };
    }),
    ("NULL met by its stored value 0", |rules| {
        rules.met = |_, area, search, row| {
            let stored = |row: &Row| row[search.column].unwrap_or(0);
            let live = area.row(search.table, row);
            live.filter(|row| stored(row) == search.sought.unwrap_or(0))
        };
    }),
    ("a vacant row met by its zeros", |rules| {
        rules.met = |_, area, search, row| {
            let zeros = vec![Some(0); area.schema.tables[search.table].columns];
            match area.row(search.table, row) {
                Some(_) => search::met(area, search, row),
                None => Some(zeros).filter(|_| search.sought == Some(0)),
            }
        };
    }),
    ("a row that has the new value passed over", |rules| {
        rules.met = |_, area, search, row| {
            let met = search::met(area, search, row);
            met.filter(|row| {
                search
                    .set
                    .map_or(true, |(column, value)| row[column] != value)
            })
        };
    }),
    ("a row met is at depth 2", |rules| rules.depth_of_met = 2),
    ("keys judged after each row met", |rules| {
        rules.between_rows =
            |rules, entry, area| statement::settle(rules, entry, &mut area.clone()).map(drop);
    }),
    ("finding no row refused by 11", |rules| {
        rules.settle = |rules, entry, area| {
            if area.used() == entry.used() {
                return Err(11);
            }
            statement::settle(rules, entry, area)
        };
    }),
    ("finding no row ends the statement at once", |rules| {
        rules.settle = |rules, entry, area| {
            if area.used() == entry.used() {
                return Ok((0, 0));
            }
            statement::settle(rules, entry, area)
        };
    }),
    ("a value beside NULL sought let pass", |rules| {
        drop_form(rules, "value beside NULL sought")
    }),
    ("a value beside NULL set let pass", |rules| {
        drop_form(rules, "value beside NULL set")
    }),
    ("other bits of word 3 let pass", |rules| {
        drop_form(rules, "bits of word 3")
    }),
    ("unused words of a search let pass", |rules| {
        drop_form(rules, "unused words of a search")
    }),
];
