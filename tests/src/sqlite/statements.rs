//! SQL text of a schema.

use super::binding::Parameter;
use super::names;
use crate::model::schema::{Key, Schema, Table, Value};
use crate::model::search::Search;

/// What the values of every column are to SQLite.
#[derive(Clone, Copy)]
pub enum Form {
    Numbers,
    /// Texts, which are compared without regard to capitals in folded columns.
    Names,
}

impl Form {
    fn literal(self, word: i64) -> String {
        match self {
            Form::Numbers => word.to_string(),
            Form::Names => names::literal(word),
        }
    }

    /// The value as a parameter.
    pub fn parameter(self, value: Value) -> Parameter {
        match (self, value) {
            (_, None) => Parameter::Null,
            (Form::Numbers, Some(word)) => Parameter::Number(word),
            (Form::Names, Some(word)) => Parameter::Name(names::name(word)),
        }
    }

    fn column_type(self, folded: bool) -> &'static str {
        match (self, folded) {
            (Form::Numbers, _) => "INTEGER",
            (Form::Names, false) => "TEXT",
            (Form::Names, true) => "TEXT COLLATE NOCASE",
        }
    }
}

/// A table with the row number `r` and columns `c0` onwards. SQLite numbers and runs the foreign
/// keys declared last first, so they are declared from the last to the first.
pub fn create_table(form: Form, schema: &Schema, number: usize) -> String {
    let table = &schema.tables[number];
    let mut parts = vec!["r INTEGER PRIMARY KEY".to_string()];
    parts.extend((0..table.columns).map(|c| column(form, table, c)));
    parts.extend(
        table
            .unique
            .iter()
            .map(|key| format!("UNIQUE({})", names(key))),
    );
    let keys = schema.keys.iter().rev();
    parts.extend(keys.filter(|key| key.child == number).map(foreign_key));
    format!("CREATE TABLE t{}({})", number, parts.join(", "))
}

fn column(form: Form, table: &Table, column: usize) -> String {
    let not_null = table.not_null.contains(&column);
    let default = table.defaults[column].map(|word| format!("({})", form.literal(word)));
    let default = default.unwrap_or("NULL".into());
    let constraint = if not_null { " NOT NULL" } else { "" };
    let kind = form.column_type(table.marks[column].is_some());
    format!("c{} {}{} DEFAULT {}", column, kind, constraint, default)
}

fn foreign_key(key: &Key) -> String {
    format!(
        "FOREIGN KEY({}) REFERENCES t{}({}) {} ON DELETE {} ON UPDATE {}{}",
        names(&key.child_columns),
        key.parent,
        names(&key.parent_columns),
        key.matching.sql(),
        key.on_delete.sql(),
        key.on_update.sql(),
        if key.deferred {
            " DEFERRABLE INITIALLY DEFERRED"
        } else {
            ""
        }
    )
}

fn names(columns: &[usize]) -> String {
    let names: Vec<String> = columns.iter().map(|c| format!("c{}", c)).collect();
    names.join(",")
}

/// An insert of the row number and the columns. INSERT .. VALUES of one row that an immediate key
/// refuses can leave SQLite's count of deferred violations raised; INSERT .. SELECT does not. But a
/// broken immediate key prevents INSERT .. SELECT into its parent table.
pub fn insert(schema: &Schema, number: usize) -> String {
    let columns = schema.tables[number].columns;
    let values: Vec<String> = (1..=columns + 1).map(|n| format!("?{}", n)).collect();
    let values = values.join(",");
    if enters_by_values(schema, number) {
        format!("INSERT INTO t{} VALUES({})", number, values)
    } else {
        format!("INSERT INTO t{} SELECT {}", number, values)
    }
}

/// Whether a table is the parent of broken keys and the child of none: so no key refuses its rows.
pub fn enters_by_values(schema: &Schema, number: usize) -> bool {
    let mut keys = schema.keys.iter();
    let is_child = schema.keys.iter().any(|key| key.child == number);
    !is_child && keys.any(|key| key.broken && key.parent == number)
}

/// An update of every column; the row number is the first parameter.
pub fn update(number: usize, columns: usize) -> String {
    let set: Vec<String> = (0..columns).map(|c| format!("c{}=?{}", c, c + 2)).collect();
    format!("UPDATE t{} SET {} WHERE r=?1", number, set.join(","))
}

pub fn delete(number: usize) -> String {
    format!("DELETE FROM t{} WHERE r=?1", number)
}

/// A deletion or an update of every row found. Without an index SQLite finds rows by their number.
/// Columns that are not to be set are set to what they hold: an update of the parent column alone
/// by which an orphan becomes its own parent can lower SQLite's count of violations by two.
pub fn search(search: &Search, columns: usize) -> String {
    let column = search.column;
    let found = match search.sought {
        Some(_) => format!("c{}=?1", column),
        None => format!("c{} IS NULL", column),
    };
    let table = format!("t{} NOT INDEXED", search.table);
    let (set, _) = match search.set {
        Some(set) => set,
        None => return format!("DELETE FROM {} WHERE {}", table, found),
    };
    let mut sets: Vec<String> = (0..columns).map(|c| format!("c{}=c{}", c, c)).collect();
    sets[set] = format!("c{}=?2", set);
    format!("UPDATE {} SET {} WHERE {}", table, sets.join(","), found)
}

/// The parameters of that statement.
pub fn search_values(search: &Search) -> Vec<Value> {
    let new = search.set.map(|(_, value)| value);
    [Some(search.sought), new].into_iter().flatten().collect()
}

/// All rows, by number.
pub fn select(number: usize) -> String {
    format!("SELECT * FROM t{} ORDER BY r", number)
}

/// The orphans among the rows: the table, the row number, the parent table, and the number of the
/// foreign key among those of the table.
pub fn orphans(number: usize) -> String {
    format!("PRAGMA foreign_key_check(t{})", number)
}
