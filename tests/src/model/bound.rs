//! How much one delete can touch: a sum over all live rows, and the schemas whose deletes it bounds.

use super::area::Area;
use super::schema::{Action, Key, Schema};
use std::collections::BTreeSet;

/// How the sum is counted.
#[derive(Clone, Copy)]
pub struct Reading {
    /// The rows of a table that are counted, each as 1.
    pub rows: fn(&Area, usize) -> Vec<usize>,
    /// The columns that are counted in a row of this table and of this state, each as 1.
    pub columns: fn(&Schema, usize, i64) -> Vec<usize>,
}

/// The paper's.
pub const PAPER: Reading = Reading {
    rows: live,
    columns: |schema, table, state| filled(state, cleared(schema, table)),
};

/// The sum over all rows that are counted.
pub fn sum(reading: Reading, area: &Area) -> i64 {
    let of_row = |table: usize, row: usize| {
        let (state, _) = area.stored(table, row);
        1 + (reading.columns)(area.schema, table, state).len() as i64
    };
    let of_table = |table: usize| -> i64 {
        let rows = (reading.rows)(area, table).into_iter();
        rows.map(|row| of_row(table, row)).sum()
    };
    (0..area.schema.tables.len()).map(of_table).sum()
}

/// The numbers of the live rows of a table.
pub fn live(area: &Area, table: usize) -> Vec<usize> {
    let rows = area.live_rows(table).into_iter();
    rows.map(|(number, _)| number).collect()
}

/// Those of the columns that are not NULL in a row of this state.
pub fn filled(state: i64, mut columns: Vec<usize>) -> Vec<usize> {
    columns.retain(|&column| state >> column & 1 == 0);
    columns
}

/// The columns of a table that are child columns of a key with SET NULL on delete.
pub fn cleared(schema: &Schema, table: usize) -> Vec<usize> {
    child_columns(schema, |key| key.child == table && clears(key))
}

/// Whether a deletion of a parent row clears the child keys: a key that is broken counts too.
pub fn clears(key: &Key) -> bool {
    key.on_delete == Action::SetNull
}

/// The child columns of such keys, each once.
pub fn child_columns(schema: &Schema, such: impl Fn(&Key) -> bool) -> Vec<usize> {
    let keys = schema.keys.iter().filter(|key| such(key));
    let columns: BTreeSet<usize> = keys.flat_map(|key| key.child_columns.clone()).collect();
    columns.into_iter().collect()
}

/// Whether the sum bounds what a delete changes: every on-delete action is NO ACTION, RESTRICT, SET
/// NULL or CASCADE, and no child column of SET NULL belongs to a parent key or a window.
pub fn is_bounded(schema: &Schema) -> bool {
    schema.keys.iter().all(|key| match key.on_delete {
        Action::SetDefault => false,
        Action::SetNull => !touches_parent_key(schema, key),
        Action::NoAction | Action::Restrict | Action::Cascade => true,
    })
}

/// Whether a child column of the key belongs to a parent key or a window of its table.
pub fn touches_parent_key(schema: &Schema, key: &Key) -> bool {
    let parent_columns = columns_referred_to(schema, key.child);
    let mut child_columns = key.child_columns.iter();
    child_columns.any(|column| parent_columns.contains(column))
}

/// The columns of a table that belong to a parent key or a window. A broken key has no parent key.
fn columns_referred_to(schema: &Schema, table: usize) -> BTreeSet<usize> {
    let whole = schema.keys.iter().filter(|key| !key.broken);
    let keys = whole.filter(|key| key.parent == table);
    keys.flat_map(Key::columns_in_parent).collect()
}
