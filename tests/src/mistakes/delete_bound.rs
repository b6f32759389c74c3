//! Mistakes in how much one delete can touch: which rows and columns are counted.

use super::Mistake;
use crate::model::area::Area;
use crate::model::bound::{self, child_columns, cleared, clears, filled};
use crate::model::schema::{Action, Key, Schema};
use std::collections::BTreeSet;

/// Other rows are counted.
pub const ROWS: &[Mistake] = &[
    ("bound: vacant rows counted", |rules| {
        rules.bound.rows = |area, table| (0..area.schema.tables[table].rows).collect();
    }),
    ("bound: a row of state 512 counted", |rules| {
        rules.bound.rows = |area, table| of_states(area, table, |state| state >= 256);
    }),
    ("bound: a row of state 255 counted", |rules| {
        rules.bound.rows =
            |area, table| of_states(area, table, |state| state >> 9 == 0 && state >= 255);
    }),
    ("bound: only rows without NULL counted", |rules| {
        rules.bound.rows = |area, table| of_states(area, table, |state| state == 256);
    }),
    ("bound: the last table left out", |rules| {
        rules.bound.rows = |area, table| {
            let mut rows = bound::live(area, table);
            rows.retain(|_| table + 1 < area.schema.tables.len());
            rows
        };
    }),
    ("bound: row 0 of each table left out", |rules| {
        rules.bound.rows = |area, table| without_row(area, table, 0);
    }),
    ("bound: the last row of each table left out", |rules| {
        rules.bound.rows =
            |area, table| without_row(area, table, area.schema.tables[table].rows - 1);
    }),
    ("bound: tables that no key clears left out", |rules| {
        rules.bound.rows = |area, table| {
            let mut rows = bound::live(area, table);
            rows.retain(|_| !cleared(area.schema, table).is_empty());
            rows
        };
    }),
];

/// Other columns are counted, or in other states.
pub const COLUMNS: &[Mistake] = &[
    (
        "bound: a column counted for each key that clears it",
        |rules| {
            rules.bound.columns = |schema, table, state| {
                let keys = schema.keys.iter().filter(|key| clears(key));
                let own = keys.filter(|key| key.child == table);
                let columns = own.flat_map(|key| key.child_columns.clone());
                filled(state, columns.collect())
            };
        },
    ),
    ("bound: NULL columns counted", |rules| {
        rules.bound.columns = |schema, table, _| cleared(schema, table);
    }),
    ("bound: NULL columns counted in place of others", |rules| {
        rules.bound.columns = |schema, table, state| filled(!state, cleared(schema, table));
    }),
    ("bound: no column counted", |rules| {
        rules.bound.columns = |_, _, _| Vec::new();
    }),
    ("bound: one column counted at most", |rules| {
        rules.bound.columns = |schema, table, state| {
            let columns = filled(state, cleared(schema, table)).into_iter();
            columns.take(1).collect()
        };
    }),
    ("bound: column 0 left out", |rules| {
        rules.bound.columns = |schema, table, state| without_column(schema, table, state, 0);
    }),
    ("bound: column 7 left out", |rules| {
        rules.bound.columns = |schema, table, state| without_column(schema, table, state, 7);
    }),
    ("bound: every column that is not NULL counted", |rules| {
        rules.bound.columns = |schema, table, state| {
            let columns = 0..schema.tables[table].columns;
            filled(state, columns.collect())
        };
    }),
    (
        "bound: columns of any table's keys counted, also past the columns",
        |rules| {
            rules.bound.columns = |schema, _, state| filled(state, child_columns(schema, clears));
        },
    ),
    (
        "bound: parent columns of keys that clear counted",
        |rules| {
            rules.bound.columns = |schema, table, state| {
                let whole = schema.keys.iter().filter(|key| clears(key) && !key.broken);
                let keys = whole.filter(|key| key.parent == table);
                let columns = keys.flat_map(|key| key.parent_columns.clone());
                filled(state, columns.collect())
            };
        },
    ),
    ("bound: the first column of a key counted alone", |rules| {
        rules.bound.columns = |schema, table, state| {
            let keys = schema.keys.iter().filter(|key| clears(key));
            let own = keys.filter(|key| key.child == table);
            let columns: BTreeSet<usize> = own.map(|key| key.child_columns[0]).collect();
            filled(state, columns.into_iter().collect())
        };
    }),
    ("bound: columns of half-filled keys left out", |rules| {
        rules.bound.columns = |schema, table, state| {
            counted(schema, table, state, |key| {
                let columns = key.child_columns.clone();
                clears(key) && filled(state, columns) == key.child_columns
            })
        };
    }),
];

/// The columns of other keys are counted.
pub const KEYS: &[Mistake] = &[
    (
        "bound: SET NULL upon an update counted in place of a delete",
        |rules| {
            rules.bound.columns =
                |schema, table, state| counted(schema, table, state, clears_upon_update);
        },
    ),
    ("bound: SET NULL upon an update counted too", |rules| {
        rules.bound.columns = |schema, table, state| {
            counted(schema, table, state, |key| {
                clears(key) || clears_upon_update(key)
            })
        };
    }),
    ("bound: SET NULL counted only upon both", |rules| {
        rules.bound.columns = |schema, table, state| {
            counted(schema, table, state, |key| {
                clears(key) && clears_upon_update(key)
            })
        };
    }),
    ("bound: columns of CASCADE counted", |rules| {
        rules.bound.columns = |schema, table, state| {
            counted(schema, table, state, |key| {
                clears(key) || key.on_delete == Action::Cascade
            })
        };
    }),
    ("bound: columns of SET DEFAULT counted", |rules| {
        rules.bound.columns = |schema, table, state| {
            counted(schema, table, state, |key| {
                clears(key) || key.on_delete == Action::SetDefault
            })
        };
    }),
    ("bound: columns of broken keys left out", |rules| {
        rules.bound.columns =
            |schema, table, state| counted(schema, table, state, |key| clears(key) && !key.broken);
    }),
    ("bound: columns of deferred keys left out", |rules| {
        rules.bound.columns = |schema, table, state| {
            counted(schema, table, state, |key| clears(key) && !key.deferred)
        };
    }),
    ("bound: columns of self-referring keys left out", |rules| {
        rules.bound.columns = |schema, table, state| {
            counted(schema, table, state, |key| {
                clears(key) && key.child != key.parent
            })
        };
    }),
    ("bound: columns of the first key left out", |rules| {
        rules.bound.columns = |schema, table, state| {
            counted(schema, table, state, |key| {
                clears(key) && !std::ptr::eq(key, &schema.keys[0])
            })
        };
    }),
    ("bound: columns of the last key left out", |rules| {
        rules.bound.columns = |schema, table, state| {
            counted(schema, table, state, |key| {
                clears(key) && !std::ptr::eq(key, &schema.keys[schema.keys.len() - 1])
            })
        };
    }),
];

/// The rows of a table whose states are so.
fn of_states(area: &Area, table: usize, such: fn(i64) -> bool) -> Vec<usize> {
    let rows = 0..area.schema.tables[table].rows;
    rows.filter(|&row| such(area.stored(table, row).0))
        .collect()
}

/// The live rows of a table without the one of this number.
fn without_row(area: &Area, table: usize, number: usize) -> Vec<usize> {
    let mut rows = bound::live(area, table);
    rows.retain(|&row| row != number);
    rows
}

/// The columns that are counted without this one.
fn without_column(schema: &Schema, table: usize, state: i64, left_out: usize) -> Vec<usize> {
    let mut columns = filled(state, cleared(schema, table));
    columns.retain(|&column| column != left_out);
    columns
}

/// The columns of a row that are not NULL and are child columns of such a key of its table.
fn counted(schema: &Schema, table: usize, state: i64, such: impl Fn(&Key) -> bool) -> Vec<usize> {
    let columns = child_columns(schema, |key| key.child == table && such(key));
    filled(state, columns)
}

fn clears_upon_update(key: &Key) -> bool {
    key.on_update == Action::SetNull
}
