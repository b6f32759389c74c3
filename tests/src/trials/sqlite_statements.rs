//! Calls in which SQLite judges broken foreign keys otherwise than the paper: it judges a statement
//! when it is prepared, by the columns that the statement and its actions set, whether rows are found
//! or not.

use super::trace::{Step, Trace};
use crate::engine::Answer;
use crate::model::area::Area;
use crate::model::change::{uses, Kind};
use crate::model::form::Call;
use crate::model::rules::Rules;
use crate::model::schema::{Action, Key, Schema};
use crate::sqlite::statements::enters_by_values;

/// Whether SQLite can answer the call otherwise because of a broken key, given the area before it and
/// the paper's answer.
pub fn differs(rules: &Rules, before: &Area, call: &Call, answer: Answer) -> bool {
    let schema = before.schema;
    match (answer.code, call) {
        (0, Call::Insert(table, ..)) => !enters(schema, *table),
        (0, Call::Update(table, ..) | Call::Delete(table, _)) => leads_to_broken(schema, *table),
        (0, Call::Search(search)) => leads_to_broken(schema, search.table),
        (23, _) => {
            let trace = Trace::new(rules, &mut before.clone(), call);
            !trace
                .steps
                .last()
                .map_or(false, |step| noticed(schema, step))
        }
        _ => false,
    }
}

/// Whether SQLite lets rows be entered into a table that is the child of no broken key: it is the
/// parent of none, or of immediate ones alone and entered by VALUES.
fn enters(schema: &Schema, table: usize) -> bool {
    let mut of_parent = schema.keys.iter().filter(|key| key.parent == table);
    let deferred = |key: &Key| key.broken && key.deferred;
    match enters_by_values(schema, table) {
        true => !of_parent.any(deferred),
        false => !of_parent.any(|key| key.broken),
    }
}

/// Whether a broken key touches the table, or one to which actions can lead from it.
fn leads_to_broken(schema: &Schema, table: usize) -> bool {
    let mut reached = vec![table];
    let mut next = 0;
    while next < reached.len() {
        let table = reached[next];
        for key in schema.keys.iter().filter(|key| key.parent == table) {
            if changes_children(key) && !reached.contains(&key.child) {
                reached.push(key.child);
            }
        }
        next += 1;
    }
    let mut broken = schema.keys.iter().filter(|key| key.broken);
    broken.any(|key| reached.contains(&key.child) || reached.contains(&key.parent))
}

fn changes_children(key: &Key) -> bool {
    let changes = |action| !matches!(action, Action::NoAction | Action::Restrict);
    changes(key.on_delete) || changes(key.on_update)
}

/// Whether SQLite surely refuses the row change for a broken key too. An update by an action can set
/// columns beside those of the key alone, and where no parent column is there an update of a parent
/// row sets none: SQLite accepts such.
fn noticed(schema: &Schema, step: &Step) -> bool {
    let used = |key: &&Key| key.broken && uses(key, step.table, step.kind);
    let mut used = schema.keys.iter().filter(used);
    let columns = schema.tables[step.table].columns;
    match step.kind {
        Kind::Update if step.depth > 1 => false,
        Kind::Update => used.any(|key| {
            key.child == step.table || key.parent_columns.iter().any(|&column| column < columns)
        }),
        _ => true,
    }
}
