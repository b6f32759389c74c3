//! A row change with its actions.

use super::area::Area;
use super::folding::{compared, Mark};
use super::keys::equal;
use super::rules::Rules;
use super::schema::{Key, Row, Table};
use super::walk::{self, Walk};
use super::windows;

/// A row to be written: none is a deletion.
pub struct Change {
    pub depth: usize,
    pub table: usize,
    pub row: usize,
    pub new: Option<Row>,
}

impl Change {
    /// The change of a statement's own row.
    pub fn own(table: usize, row: usize, new: Option<Row>) -> Change {
        Change {
            depth: 1,
            table,
            row,
            new,
        }
    }
}

/// What a change does to its row.
#[derive(Clone, Copy, PartialEq)]
pub enum Kind {
    Insert,
    Update,
    Delete,
}

/// An insert finds a vacant row, the others a live one.
pub fn kind(area: &Area, change: &Change) -> Kind {
    match (&change.new, area.row(change.table, change.row)) {
        (None, _) => Kind::Delete,
        (Some(_), Some(_)) => Kind::Update,
        (Some(_), None) => Kind::Insert,
    }
}

/// A check of a row change, and the refusal where it does not hold.
pub type Check = (i64, fn(&Rules, &Area, &Change) -> bool);

pub const CHECKS: &[Check] = &[
    (14, |_, _, change| change.depth <= 16),
    (15, |_, area, _| area.used() < area.schema.room),
    (23, |rules, area, change| {
        uses_no_broken_key(area, change, rules.uses)
    }),
    (16, |_, area, change| not_null(area, change)),
    (17, |_, area, change| unique(area, change, own_mark, equal)),
    (24, |rules, area, change| {
        windows::pass(area, change, rules.windows)
    }),
];

/// Whether a change of this kind of a row of the table uses a foreign key: an insert or an update of
/// a child row, an update or a deletion of a parent row.
pub fn uses(key: &Key, table: usize, kind: Kind) -> bool {
    key.child == table && kind != Kind::Delete || key.parent == table && kind != Kind::Insert
}

pub fn uses_no_broken_key(
    area: &Area,
    change: &Change,
    uses: fn(&Key, usize, Kind) -> bool,
) -> bool {
    let kind = kind(area, change);
    let mut broken = area.schema.keys.iter().filter(|key| key.broken);
    !broken.any(|key| uses(key, change.table, kind))
}

fn not_null(area: &Area, change: &Change) -> bool {
    let columns = &area.schema.tables[change.table].not_null;
    let holds = |new: &Row| columns.iter().all(|&c| new[c].is_some());
    change.new.as_ref().map_or(true, holds)
}

/// The mark by which the values of a column are compared in unique keys.
pub fn own_mark(table: &Table, column: usize) -> Mark {
    table.marks[column]
}

/// Whether no other live row has an equal unique key.
pub fn unique(
    area: &Area,
    change: &Change,
    mark: fn(&Table, usize) -> Mark,
    equal: fn(&Row, &Row) -> bool,
) -> bool {
    let table = &area.schema.tables[change.table];
    let mut others = area.live_rows(change.table);
    others.retain(|(number, _)| *number != change.row);
    let passes = |new: &Row, key: &Vec<usize>| {
        let value = |row: &Row, c: usize| compared(mark(table, c), row[c]);
        let of = |row: &Row| -> Row { key.iter().map(|&c| value(row, c)).collect() };
        !others.iter().any(|(_, row)| equal(&of(row), &of(new)))
    };
    let mut keys = table.unique.iter();
    let new = change.new.as_ref();
    new.map_or(true, |new| keys.all(|key| passes(new, key)))
}

/// Makes the change and what follows from it, or gives the refusal that was met.
pub fn make(rules: &Rules, area: &mut Area, change: &Change) -> Result<(), i64> {
    for walk in written(rules, area, change)? {
        for row in (rules.turns)(area, walk.key, &walk.old_key) {
            if let Some(next) = walk.turn(rules, area, row)? {
                make(rules, area, &next)?;
            }
        }
    }
    Ok(())
}

/// Checks the change and writes the row. Gives the walks over child rows that follow.
pub fn written<'a, 's: 'a>(
    rules: &Rules,
    area: &mut Area<'s>,
    change: &'a Change,
) -> Result<Vec<Walk<'a>>, i64> {
    for (code, holds) in &rules.checks {
        if !holds(rules, area, change) {
            return Err(*code);
        }
    }
    let old = area.row(change.table, change.row);
    (rules.write)(area, change.table, change.row, change.new.as_ref());
    let schema = area.schema;
    let walks = old.map(|old| walk::following(rules, schema, change, &old));
    Ok(walks.unwrap_or_default())
}

/// The old words go to the journal and the row is written.
pub fn write(area: &mut Area, table: usize, row: usize, new: Option<&Row>) {
    area.journal(table, row);
    area.put_row(table, row, new);
}
