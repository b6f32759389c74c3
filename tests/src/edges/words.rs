//! Schemas, calls and rows in words.

use crate::model::area::Area;
use crate::model::form;
use crate::model::rules::Rules;
use crate::model::schema::{Key, Match, Schema, Table, Value};
use crate::model::search::Search;
use crate::sqlite::names;

pub fn schema_lines(schema: &Schema) -> Vec<String> {
    let tables = schema.tables.iter().enumerate();
    let mut lines: Vec<String> = tables
        .map(|(number, table)| format!("  table {}: {}", number, table_words(schema, table)))
        .collect();
    let keys = schema.keys.iter().enumerate();
    lines.extend(keys.map(|(number, key)| format!("  key {}: {}", number, key_words(key))));
    lines.push(format!("  journal: {}", count(schema.room, "record")));
    lines
}

fn table_words(schema: &Schema, table: &Table) -> String {
    let size = format!(
        "{} of {}",
        count(table.rows, "row"),
        count(table.columns, "column")
    );
    let not_null = table.not_null.iter().map(|c| format!(", NOT NULL c{}", c));
    let unique = table
        .unique
        .iter()
        .map(|key| format!(", unique {}", columns(key)));
    let marks = table.marks.iter().enumerate();
    let folded = marks.filter(|(_, mark)| mark.is_some());
    let folded = folded.map(|(column, _)| format!(", folded c{}", column));
    let defaults = table.defaults.iter().enumerate();
    let defaults = defaults.filter_map(|(column, default)| match default {
        Some(0) => None,
        _ => Some(format!(
            ", default of c{} {}",
            column,
            value(schema, default)
        )),
    });
    let rest: Vec<String> = not_null
        .chain(unique)
        .chain(folded)
        .chain(defaults)
        .collect();
    size + &rest.concat()
}

fn key_words(key: &Key) -> String {
    format!(
        "table {} {} refers to table {} {}, {}, on delete {}, on update {}{}{}{}",
        key.child,
        columns(&key.child_columns),
        key.parent,
        columns(&key.parent_columns),
        if key.deferred {
            "deferred"
        } else {
            "immediate"
        },
        key.on_delete.sql(),
        key.on_update.sql(),
        match key.matching {
            Match::Simple => "",
            Match::Full => ", MATCH FULL",
        },
        match key.window {
            None => "".into(),
            Some(window) => format!(", windowed until c{}", window.end),
        },
        if key.broken { ", broken" } else { "" }
    )
}

fn count(number: usize, what: &str) -> String {
    format!("{} {}{}", number, what, if number == 1 { "" } else { "s" })
}

fn columns(list: &[usize]) -> String {
    let names: Vec<String> = list.iter().map(|c| format!("c{}", c)).collect();
    format!("({})", names.join(", "))
}

/// A value. Where columns are folded, a number that is not small is shown as its bytes.
fn value(schema: &Schema, value: &Value) -> String {
    match value {
        None => "NULL".into(),
        Some(number) if schema.any_folded() && !(0..64).contains(number) => bytes(*number),
        Some(number) => number.to_string(),
    }
}

/// The bytes of a word, the lowest first: as text without zeros at the end where they are printable,
/// else in hexadecimal.
fn bytes(word: i64) -> String {
    let name = names::name(word);
    if name.iter().all(u8::is_ascii_graphic) {
        return format!("\"{}\"", String::from_utf8_lossy(&name));
    }
    let bytes = word.to_le_bytes();
    let shown: Vec<String> = bytes.iter().map(|byte| format!("{:02X}", byte)).collect();
    shown.join(" ")
}

fn values(schema: &Schema, row: &[Value]) -> String {
    let shown: Vec<String> = row.iter().map(|v| value(schema, v)).collect();
    format!("({})", shown.join(", "))
}

/// The call in words; its numbers, without zeros at the end, where it has not the form of a call.
pub fn call_words(schema: &Schema, call: &[i64]) -> String {
    if form::read(&Rules::of_the_paper(), schema, call).is_none() {
        return numbers(call);
    }
    let place = || format!("table {} row {}", call[1], call[2]);
    let given = |column: usize| (call[3] >> column & 1 == 0).then_some(call[4 + column]);
    let row = || {
        let columns = 0..schema.tables[call[1] as usize].columns;
        values(schema, &columns.map(given).collect::<Vec<Value>>())
    };
    match call[0] {
        1 => format!("insert {} {}", place(), row()),
        2 => format!("update {} to {}", place(), row()),
        3 => format!("delete {}", place()),
        4 => "begin".into(),
        5 => "savepoint".into(),
        6 => format!("release level {}", call[1]),
        7 => format!("rollback to level {}", call[1]),
        8 => "rollback".into(),
        9 => "commit".into(),
        _ => search_words(schema, &Search::read(call)),
    }
}

fn search_words(schema: &Schema, search: &Search) -> String {
    let found = match search.sought {
        None => format!("where c{} is NULL", search.column),
        sought => format!("where c{} = {}", search.column, value(schema, &sought)),
    };
    match search.set {
        Some((set, new)) => {
            let new = value(schema, &new);
            format!(
                "update table {} set c{} = {} {}",
                search.table, set, new, found
            )
        }
        None => format!("delete in table {} {}", search.table, found),
    }
}

fn numbers(call: &[i64]) -> String {
    let used = call
        .iter()
        .rposition(|&word| word != 0)
        .map_or(0, |last| last + 1);
    let shown: Vec<String> = call[..used].iter().map(i64::to_string).collect();
    match call.len() {
        12 => format!("words {}", shown.join(" ")),
        length => format!("{} words {}", length, shown.join(" ")),
    }
}

/// A line for each live row.
pub fn row_lines(schema: &Schema, area: &[i64]) -> Vec<String> {
    let area = Area {
        schema,
        words: area.to_vec(),
    };
    let tables = 0..schema.tables.len();
    let rows = tables.flat_map(|t| area.live_rows(t).into_iter().map(move |row| (t, row)));
    let mut lines: Vec<String> = rows
        .map(|(table, (number, row))| {
            let values = values(schema, &row);
            format!("  holds table {} row {} {}", table, number, values)
        })
        .collect();
    if lines.is_empty() {
        lines.push("  holds no row".into());
    }
    lines
}
