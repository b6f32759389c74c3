//! The edge cases of the paper as a text: each case with its schema and its calls in words, and the
//! answers of an engine.

mod bounds;
mod broken_keys;
mod families;
mod folded;
mod limits;
mod lists;
mod match_full;
mod old_keys;
mod paper;
mod searches;
mod students;
mod windows;
mod words;

use crate::engine::{Engine, Orphan};
use crate::inputs::calls::{plain_call, row_call};
use crate::model::schema::{Schema, Value};
use crate::model::search::Search;
use crate::schema_bytes::records::Schema as Records;
use std::fmt::Display;
use words::{call_words, row_lines, schema_lines};

/// What is done in a case.
pub enum Step {
    Call(Vec<i64>),
    /// Damages the area: the word at this place is set.
    SetWord(usize, i64),
    /// Prints the live rows.
    ShowRows,
    /// Prints the orphan list as the engine gives it.
    ShowOrphans,
    /// Prints how much one delete can touch, as the engine tells it.
    ShowBound,
}

pub struct Case {
    title: &'static str,
    schema: Records,
    steps: Vec<Step>,
}

const HEADING: &str = "\
Each case starts from a fresh area. After a call stands its answer: code,changed,net.
Code 0 is accepted, any other the number of the refusal; changed is the rows changed;
net is the change in all kept orphans. c0 is a table's first column. Where columns are folded,
words are shown as their bytes, the lowest first: as text, or in hexadecimal. A windowed key has
its first days in its last parent column, and its ends in the column that is named after it.
After a delete bound, how many rows one delete can touch, stands its answer: code,number.
";

pub fn all() -> Vec<Case> {
    [
        paper::cases(),
        limits::cases(),
        students::cases(),
        lists::cases(),
        searches::cases(),
        old_keys::cases(),
        match_full::cases(),
        broken_keys::cases(),
        folded::cases(),
        windows::cases(),
        bounds::cases(),
        families::cases(),
    ]
    .into_iter()
    .flatten()
    .collect()
}

/// The text of all cases, run by an engine.
pub fn text(engine: &dyn Engine) -> String {
    let lines: Vec<String> = all().iter().flat_map(|case| run(engine, case)).collect();
    format!("{}\n{}\n", HEADING, lines.join("\n").trim_end())
}

/// The lines of one case, with an empty one after them.
fn run(engine: &dyn Engine, case: &Case) -> Vec<String> {
    let bytes = case.schema.bytes();
    let schema = Schema::read(&bytes).expect("the schema of a case is valid");
    let mut area = vec![0; schema.area_words()];
    let mut lines = vec![case.title.to_string()];
    lines.extend(schema_lines(&schema));
    for step in &case.steps {
        match step {
            Step::Call(call) => {
                let answer = engine.call(&bytes, &mut area, call);
                lines.push(answered(&call_words(&schema, call), answer));
            }
            Step::SetWord(at, word) => {
                area[*at] = *word;
                lines.push(format!("  word {} of the area is set to {}", at, word));
            }
            Step::ShowRows => lines.extend(row_lines(&schema, &area)),
            Step::ShowOrphans => lines.push(orphan_line(engine, &bytes, &area)),
            Step::ShowBound => {
                let bound = engine.delete_bound(&bytes, &mut area);
                lines.push(answered("delete bound", bound));
            }
        }
    }
    lines.push(String::new());
    lines
}

/// What an engine was asked, and its answer.
fn answered(asked: &str, answer: impl Display) -> String {
    format!("  {:<40} {}", asked, answer)
}

fn orphan_line(engine: &dyn Engine, schema: &[u8], area: &[i64]) -> String {
    let mut list = vec![Orphan::new(0, 0); 100];
    let listed = engine.list_orphans(schema, area, &mut list);
    list.truncate(listed.count as usize);
    let shown: Vec<String> = list.iter().map(Orphan::to_string).collect();
    format!("  orphans: {} [{}]", listed.count, shown.join(", "))
}

fn insert(table: usize, row: usize, values: &[Value]) -> Step {
    Step::Call(row_call(1, table, row, values))
}

fn update(table: usize, row: usize, values: &[Value]) -> Step {
    Step::Call(row_call(2, table, row, values))
}

fn delete(table: usize, row: usize) -> Step {
    Step::Call(row_call(3, table, row, &[]))
}

/// Inserts rows of which each refers to the one before it, the first to none.
fn chain_rows(count: usize) -> Vec<Step> {
    let above = |row: usize| row.checked_sub(1).map(|above| above as i64);
    let row = |row: usize| insert(0, row, &[Some(row as i64), above(row)]);
    (0..count).map(row).collect()
}

fn begin() -> Step {
    Step::Call(plain_call(4, 0))
}

fn savepoint() -> Step {
    Step::Call(plain_call(5, 0))
}

fn release(level: i64) -> Step {
    Step::Call(plain_call(6, level))
}

fn rollback_to(level: i64) -> Step {
    Step::Call(plain_call(7, level))
}

fn rollback() -> Step {
    Step::Call(plain_call(8, 0))
}

fn commit() -> Step {
    Step::Call(plain_call(9, 0))
}
