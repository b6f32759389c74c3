//! One statement for many rows: calls of kinds 10 and 11.

use super::area::Area;
use super::change::{self, Change};
use super::folding::{compared, Mark};
use super::form::{zero, Form};
use super::rules::Rules;
use super::schema::{Row, Schema, Value};

/// Every row of the table whose column equals the sought value is deleted or updated.
pub struct Search {
    pub table: usize,
    pub column: usize,
    /// None where NULL is sought.
    pub sought: Value,
    /// The column to set and its new value: none is a deletion.
    pub set: Option<(usize, Value)>,
}

/// Bits of word 3.
const SEEKS_NULL: i64 = 1;
const SETS_NULL: i64 = 2;

/// What must hold of the words.
pub const FORMS: &[Form] = &[
    ("table", &[10, 11], |schema, call| {
        (0..schema.tables.len() as i64).contains(&call[1])
    }),
    ("column sought", &[10, 11], |schema, call| {
        is_column(schema, call, call[2])
    }),
    ("bits of word 3", &[10], |_, call| {
        (0..=SEEKS_NULL).contains(&call[3])
    }),
    ("bits of word 3", &[11], |_, call| {
        (0..=SEEKS_NULL | SETS_NULL).contains(&call[3])
    }),
    ("value beside NULL sought", &[10, 11], |_, call| {
        call[3] & SEEKS_NULL == 0 || call[4] == 0
    }),
    ("column to set", &[11], |schema, call| {
        is_column(schema, call, call[5])
    }),
    ("value beside NULL set", &[11], |_, call| {
        call[3] & SETS_NULL == 0 || call[6] == 0
    }),
    ("unused words of a search", &[10], |_, call| {
        zero(&call[5..])
    }),
    ("unused words of a search", &[11], |_, call| {
        zero(&call[7..])
    }),
];

/// Whether the table that the call names has such a column.
fn is_column(schema: &Schema, call: &[i64], column: i64) -> bool {
    (0..schema.tables[call[1] as usize].columns as i64).contains(&column)
}

impl Search {
    /// The search of words that have the form of one.
    pub fn read(call: &[i64]) -> Search {
        let unless = |bit: i64, word: i64| (call[3] & bit == 0).then_some(word);
        Search {
            table: call[1] as usize,
            column: call[2] as usize,
            sought: unless(SEEKS_NULL, call[4]),
            set: (call[0] == 11).then(|| (call[5] as usize, unless(SETS_NULL, call[6]))),
        }
    }

    /// The words of the call.
    pub fn words(&self) -> Vec<i64> {
        let seeks = i64::from(self.sought.is_none()) * SEEKS_NULL;
        let mut words = vec![10, self.table as i64, self.column as i64, seeks];
        words.push(self.sought.unwrap_or(0));
        if let Some((column, value)) = self.set {
            words[0] = 11;
            words[3] |= i64::from(value.is_none()) * SETS_NULL;
            words.extend([column as i64, value.unwrap_or(0)]);
        }
        words.resize(12, 0);
        words
    }

    /// What becomes of a row that is met: none where it is deleted.
    fn image(&self, mut row: Row) -> Option<Row> {
        let (column, value) = self.set?;
        row[column] = value;
        Some(row)
    }
}

/// The numbers of all rows, rising.
pub fn rows(area: &Area, search: &Search) -> Vec<usize> {
    (0..area.schema.tables[search.table].rows).collect()
}

/// The row of this number, if it is met: it is live, and its column is NULL where NULL is sought,
/// else equal to the sought value by the column's mark.
pub fn met(area: &Area, search: &Search, row: usize) -> Option<Row> {
    let mark = area.schema.tables[search.table].marks[search.column];
    met_by(mark, area, search, row)
}

/// The row of this number, if it is met by this mark.
pub fn met_by(mark: Mark, area: &Area, search: &Search, row: usize) -> Option<Row> {
    let live = area.row(search.table, row);
    live.filter(|row| compared(mark, row[search.column]) == compared(mark, search.sought))
}

/// The row of this number as it is, if it is live and was met when the statement began: another
/// reading than the paper's.
pub fn listed(entry: &Area, area: &Area, search: &Search, row: usize) -> Option<Row> {
    met(entry, search, row).and_then(|_| area.row(search.table, row))
}

/// Changes every row that is met at its turn.
pub fn change_rows(rules: &Rules, area: &mut Area, search: &Search) -> Result<(), i64> {
    let entry = area.clone();
    for row in (rules.rows_sought)(area, search) {
        turn(rules, &entry, area, search, row)?;
    }
    Ok(())
}

/// The turn of one row, given the area when the statement began: it is changed, if it is met.
pub fn turn(
    rules: &Rules,
    entry: &Area,
    area: &mut Area,
    search: &Search,
    row: usize,
) -> Result<(), i64> {
    match own_change(rules, entry, area, search, row) {
        Some(own) => {
            change::make(rules, area, &own)?;
            (rules.between_rows)(rules, entry, area)
        }
        None => Ok(()),
    }
}

/// What becomes of the row of this number, if it is met.
pub fn own_change(
    rules: &Rules,
    entry: &Area,
    area: &Area,
    search: &Search,
    row: usize,
) -> Option<Change> {
    (rules.met)(entry, area, search, row).map(|old| Change {
        depth: rules.depth_of_met,
        table: search.table,
        row,
        new: search.image(old),
    })
}
