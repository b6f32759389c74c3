//! The built engine beside stock SQLite on names in a folded column, call by call: where both are
//! alike, and where SQLite compares names as typed.

use crate::engine::{Built, Engine};
use crate::inputs::calls::row_call;
use crate::inputs::grounds::Ground;
use crate::model::form;
use crate::model::rules::Rules;
use crate::model::schema::{Row, Value};
use crate::model::search::Search;
use crate::report::Report;
use crate::schema_bytes::build::{folded, key, table, CASCADE, NO_ACTION};
use crate::schema_bytes::records::Schema as Records;
use crate::sqlite::database::Database;
use crate::sqlite::names;
use crate::sqlite::statements::Form;

/// A call with its name, the engine's code and how many rows it changes, and how many rows SQLite
/// changes if it accepts the call.
struct Case {
    name: &'static str,
    call: fn() -> Vec<i64>,
    answer: (i64, i64),
    by_sqlite: Option<i64>,
}

fn word(name: &str) -> Value {
    Some(names::word(name.as_bytes()))
}

/// Horses in table 0 by their names in c0, which is folded. Table 1 refers to them by c0, and table 2
/// to itself: c1 to c0, which is folded.
fn rows() -> Vec<(usize, usize, Row)> {
    vec![
        (0, 0, vec![word("Lf2")]),
        (0, 1, vec![word("[f2")]),
        (1, 0, vec![word("lF2")]),
        (2, 0, vec![word("Lf2"), word("Lf2")]),
    ]
}

/// Calls that both judge alike, but for the last three.
const CASES: &[Case] = &[
    Case {
        name: "a parent of another spelling found",
        call: || row_call(1, 1, 1, &[word("LF2")]),
        answer: (0, 1),
        by_sqlite: Some(1),
    },
    Case {
        name: "no parent for a byte that is no letter",
        call: || row_call(1, 1, 1, &[word("{f2")]),
        answer: (20, 0),
        by_sqlite: None,
    },
    Case {
        name: "a unique key in another spelling",
        call: || row_call(1, 0, 2, &[word("lf2")]),
        answer: (17, 0),
        by_sqlite: None,
    },
    Case {
        name: "a unique key but for a byte that is no letter",
        call: || row_call(1, 0, 2, &[word("{f2")]),
        answer: (0, 1),
        by_sqlite: Some(1),
    },
    Case {
        name: "a parent deleted with a child row of another spelling",
        call: || row_call(3, 0, 0, &[]),
        answer: (0, 2),
        by_sqlite: Some(2),
    },
    Case {
        name: "rows found by another spelling",
        call: || seek("LF2").words(),
        answer: (0, 2),
        by_sqlite: Some(2),
    },
    Case {
        name: "a row entered that refers to itself in another spelling",
        call: || row_call(1, 2, 1, &[word("Rf2"), word("rf2")]),
        answer: (0, 1),
        by_sqlite: None,
    },
    Case {
        name: "a row updated that refers to itself in another spelling",
        call: || row_call(2, 2, 0, &[word("Lf2"), word("lf2")]),
        answer: (0, 1),
        by_sqlite: None,
    },
    Case {
        name: "a row respelled that refers to itself",
        call: || row_call(2, 2, 0, &[word("LF2"), word("Lf2")]),
        answer: (0, 1),
        by_sqlite: None,
    },
];

/// The deletion of the horses of a name.
fn seek(name: &str) -> Search {
    Search {
        table: 0,
        column: 0,
        sought: word(name),
        set: None,
    }
}

/// The actions upon an update, by number.
const ACTIONS: [&str; 5] = [
    "NO ACTION",
    "RESTRICT",
    "SET NULL",
    "SET DEFAULT",
    "CASCADE",
];

pub fn run(report: &mut Report) {
    for case in CASES {
        let name = format!("SQLite on names: {}", case.name);
        let expected = (case.answer, case.by_sqlite);
        report.test(&name, compare(NO_ACTION, &(case.call)(), expected));
    }
    let respelling = row_call(2, 0, 0, &[word("LF2")]);
    for (action, sql) in ACTIONS.iter().enumerate() {
        let name = format!("SQLite on names: a parent respelled, ON UPDATE {}", sql);
        let expected = ((0, 1), Some(1));
        report.test(&name, compare(action as u8, &respelling, expected));
    }
    println!(
        "{} calls on names compared with SQLite one by one",
        CASES.len() + ACTIONS.len()
    );
}

/// Sends a call to both, under a key with this action upon an update. Accepted by both, it leaves the
/// same rows.
fn compare(on_update: u8, call: &[i64], expected: ((i64, i64), Option<i64>)) -> Result<(), String> {
    let ground = ground(on_update);
    let mut area = ground.area(&ground.fresh());
    for (table, row, values) in rows() {
        area.put_row(table, row, Some(&values));
    }
    let answer = Built.call(&ground.bytes, &mut area.words, call);
    let form = form::read(&Rules::of_the_paper(), &ground.schema, call);
    let mut database = Database::with_rows(Form::Names, &ground.schema, &rows());
    let changed = database.call(&form.ok_or("the call is malformed")?);
    if ((answer.code, answer.changed), changed) != expected {
        return Err(format!("answer {}, by SQLite {:?}", answer, changed));
    }
    let differs = |&table: &usize| area.live_rows(table) != database.rows(table);
    match (0..3).find(differs) {
        Some(table) if changed.is_some() => Err(format!("other rows in table {}", table)),
        _ => Ok(()),
    }
}

fn ground(on_update: u8) -> Ground {
    let tables = vec![
        folded(table(4, 1, &[1]), 1),
        table(4, 1, &[]),
        folded(table(4, 2, &[1]), 1),
    ];
    let keys = vec![
        key((1, &[0]), (0, &[0]), CASCADE, on_update),
        key((2, &[1]), (2, &[0]), NO_ACTION, NO_ACTION),
    ];
    Ground::new(Records::new(8, tables, keys), Vec::new())
}
