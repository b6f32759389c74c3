//! Calls in which SQLite compares names otherwise than the paper: whether a row that is entered or
//! updated is its own parent it judges by the names as typed, whatever the column's collation.

use super::folded_seen::otherwise;
use super::trace::Trace;
use crate::model::area::Area;
use crate::model::form::Call;
use crate::model::rules::Rules;
use crate::model::schema::{Key, Row};

/// Whether a row comes to refer to itself in another spelling, given the area before the call.
pub fn differs(rules: &Rules, before: &Area, call: &Call) -> bool {
    let schema = before.schema;
    let own_parent = |key: &Key, row: &Row| {
        let (child_key, parent_key) = (key.child_key(row), key.parent_key(row));
        !key.broken && otherwise(key, &child_key, &parent_key)
    };
    let trace = Trace::new(rules, &mut before.clone(), call);
    trace.steps.iter().any(|step| {
        let to_itself = |key: &&Key| key.child == step.table && key.parent == step.table;
        let mut keys = schema.keys.iter().filter(to_itself);
        let new = step.new.as_ref();
        new.map_or(false, |new| keys.any(|key| own_parent(key, new)))
    })
}
