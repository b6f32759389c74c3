//! The built engine beside stock SQLite on a broken foreign key, call by call: where both are alike,
//! and where SQLite judges the statement and not the row change.

use crate::engine::{Built, Engine};
use crate::inputs::calls::row_call;
use crate::inputs::grounds::Ground;
use crate::model::form;
use crate::model::rules::Rules;
use crate::model::schema::{Row, Value};
use crate::model::search::Search;
use crate::report::Report;
use crate::schema_bytes::build::{deferred, key, table, NO_ACTION};
use crate::schema_bytes::records::{Key, Schema as Records, Table};
use crate::sqlite::database::Database;
use crate::sqlite::statements::Form;

/// What breaks the key of table 1, c1, to table 0: its parent columns and table, and the unique keys
/// of table 0.
const BREAKS: [(&str, (u8, u8), &[u8]); 3] = [
    ("no unique key", (0, 0), &[]),
    ("a parent column missing", (0, 7), &[1]),
    ("a parent table missing", (9, 0), &[1]),
];

/// A call with its name, the engine's code for each break, and whether SQLite accepts it: for each
/// break under an immediate key, then under a deferred one.
struct Case {
    name: &'static str,
    call: fn() -> Vec<i64>,
    codes: [i64; 3],
    accepts: [[bool; 3]; 2],
}

const NEVER: [[bool; 3]; 2] = [[false; 3]; 2];
const ALWAYS: [[bool; 3]; 2] = [[true; 3]; 2];
/// Only where the parent table is missing, so that it is another table that is changed.
const OF_ANOTHER: [[bool; 3]; 2] = [[false, false, true]; 2];
/// Also where no parent column is there to be set.
const NONE_TO_SET: [[bool; 3]; 2] = [[false, true, true]; 2];

const CASES: &[Case] = &[
    Case {
        name: "a child row entered",
        call: || row_call(1, 1, 3, &[Some(1), Some(1)]),
        codes: [23; 3],
        accepts: NEVER,
    },
    Case {
        name: "a child row entered with NULL in its key",
        call: || row_call(1, 1, 3, &[Some(1), None]),
        codes: [23; 3],
        accepts: NEVER,
    },
    Case {
        name: "a child row updated",
        call: || row_call(2, 1, 1, &[Some(2), Some(2)]),
        codes: [23; 3],
        accepts: NEVER,
    },
    Case {
        name: "a child row updated, nothing altered",
        call: || row_call(2, 1, 0, &[Some(1), None]),
        codes: [23; 3],
        accepts: NEVER,
    },
    Case {
        name: "a parent row updated",
        call: || row_call(2, 0, 0, &[Some(2), Some(2)]),
        codes: [23, 23, 0],
        accepts: NONE_TO_SET,
    },
    Case {
        name: "a parent row deleted",
        call: || row_call(3, 0, 0, &[]),
        codes: [23, 23, 0],
        accepts: OF_ANOTHER,
    },
    Case {
        name: "a parent row entered",
        call: || row_call(1, 0, 3, &[Some(3), Some(3)]),
        codes: [0; 3],
        accepts: [[true; 3], [false, false, true]],
    },
    Case {
        name: "a child row deleted",
        call: || row_call(3, 1, 1, &[]),
        codes: [0; 3],
        accepts: NEVER,
    },
    Case {
        name: "no child row found to delete",
        call: || search(1, None),
        codes: [0; 3],
        accepts: NEVER,
    },
    Case {
        name: "no child row found to update",
        call: || search(1, Some((1, Some(1)))),
        codes: [0; 3],
        accepts: NEVER,
    },
    Case {
        name: "no parent row found to delete",
        call: || search(0, None),
        codes: [0; 3],
        accepts: OF_ANOTHER,
    },
    Case {
        name: "no parent row found to update",
        call: || search(0, Some((1, Some(1)))),
        codes: [0; 3],
        accepts: NONE_TO_SET,
    },
    Case {
        name: "a row of another table entered",
        call: || row_call(1, 2, 3, &[Some(3)]),
        codes: [0; 3],
        accepts: ALWAYS,
    },
    Case {
        name: "a row of another table updated",
        call: || row_call(2, 2, 0, &[Some(3)]),
        codes: [0; 3],
        accepts: ALWAYS,
    },
    Case {
        name: "a row of another table deleted",
        call: || row_call(3, 2, 0, &[]),
        codes: [0; 3],
        accepts: ALWAYS,
    },
];

/// A search in the table for a value that no row has.
fn search(table: usize, set: Option<(usize, Value)>) -> Vec<i64> {
    let search = Search {
        table,
        column: 0,
        sought: Some(77),
        set,
    };
    search.words()
}

/// The rows that are there before each call, with their tables and numbers.
fn rows() -> Vec<(usize, usize, Row)> {
    vec![
        (0, 0, vec![Some(1), Some(1)]),
        (1, 0, vec![Some(1), None]),
        (1, 1, vec![Some(1), Some(1)]),
        (2, 0, vec![Some(1)]),
    ]
}

pub fn run(report: &mut Report) {
    for case in CASES {
        for (number, (broken, _, _)) in BREAKS.iter().enumerate() {
            for waits in [false, true] {
                let key = if waits { "deferred" } else { "immediate" };
                let name = format!(
                    "SQLite beside a broken key: {}, {}, {}",
                    case.name, broken, key
                );
                report.test(&name, compare(case, number, waits));
            }
        }
    }
    println!(
        "{} calls on a broken key compared with SQLite one by one",
        CASES.len() * BREAKS.len() * 2
    );
}

fn compare(case: &Case, number: usize, waits: bool) -> Result<(), String> {
    let ground = ground(number, waits);
    let mut area = ground.area(&ground.fresh());
    for (table, row, values) in rows() {
        area.put_row(table, row, Some(&values));
    }
    let call = (case.call)();
    let answer = Built.call(&ground.bytes, &mut area.words, &call);
    let form = form::read(&Rules::of_the_paper(), &ground.schema, &call);
    let form = form.ok_or("the call is malformed")?;
    let mut database = Database::with_rows(Form::Numbers, &ground.schema, &rows());
    let prevented = database.prevents(&form);
    let changed = database.call(&form);
    let expected = (case.codes[number], case.accepts[usize::from(waits)][number]);
    if (answer.code, changed.is_some()) == expected && prevented != changed.is_some() {
        return Ok(());
    }
    Err(format!(
        "answer {}, prevented by SQLite: {}, rows changed {:?}",
        answer, prevented, changed
    ))
}

/// Tables 0 and 1 of two columns with a broken key from 1 to 0, and table 2 of one column.
fn ground(number: usize, waits: bool) -> Ground {
    let (_, (parent, column), unique) = BREAKS[number];
    let tables: Vec<Table> = vec![table(4, 2, unique), table(4, 2, &[]), table(4, 1, &[])];
    let own: Key = key((1, &[1]), (parent, &[column]), NO_ACTION, NO_ACTION);
    let own = if waits { deferred(own) } else { own };
    Ground::new(Records::new(8, tables, vec![own]), Vec::new())
}
