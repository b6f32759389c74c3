//! The walk of an action over the child rows.

use super::area::Area;
use super::change::Change;
use super::keys::{full, row_maps};
use super::rules::Rules;
use super::schema::{Action, Key, Row, Schema};

/// The child rows of one foreign key are gone through after a change of a parent row.
pub struct Walk<'a> {
    pub key: &'a Key,
    pub change: &'a Change,
    pub action: Action,
    /// The parent's key before the change, with the end of a windowed key, as typed.
    pub old_key: Row,
}

/// The walks that follow a change, given the row before it.
pub fn following<'a>(
    rules: &Rules,
    schema: &'a Schema,
    change: &'a Change,
    old: &Row,
) -> Vec<Walk<'a>> {
    let keys = (0..schema.keys.len()).filter(|&k| schema.keys[k].parent == change.table);
    let walk = |k: usize| {
        let key = &schema.keys[k];
        let old_key = key.parent_key(old);
        let new_key = change.new.as_ref().map(|row| key.parent_key(row));
        (rules.fires)(key, &old_key, new_key.as_ref()).then(|| Walk {
            key,
            change,
            action: (rules.action)(key, change.new.is_none()),
            old_key,
        })
    };
    let sequence = (rules.key_sequence)(schema, keys.collect());
    sequence.into_iter().filter_map(walk).collect()
}

/// Actions follow a deletion, or an update whose new key, with the end of a windowed key, is not equal
/// to the old one, if the old key has no NULL.
pub fn fires(key: &Key, old: &Row, new: Option<&Row>) -> bool {
    full(old) && new.map_or(true, |new| key.compared(new) != key.compared(old))
}

pub fn action(key: &Key, deletion: bool) -> Action {
    if deletion {
        key.on_delete
    } else {
        key.on_update
    }
}

impl Walk<'_> {
    /// The turn of a row: what becomes of the row that is taken, if one is.
    pub fn turn(&self, rules: &Rules, area: &Area, row: usize) -> Result<Option<Change>, i64> {
        let (row, child) = match (rules.found)(rules, area, self, row) {
            Some(found) => found,
            None => return Ok(None),
        };
        match self.action {
            Action::NoAction => return Ok(None),
            Action::Restrict if (rules.restricts)(area, self, &child) => return Err(18),
            Action::Restrict => return Ok(None),
            _ => {}
        }
        let parent = self.change.new.as_ref();
        Ok(Some(Change {
            depth: self.change.depth + 1,
            table: self.key.child,
            row,
            new: (rules.image)(area.schema, self.key, self.action, &child, parent),
        }))
    }
}

/// RESTRICT refuses a deletion, and an update where the child row does not map to the row that the
/// change wrote.
pub fn restricts(_: &Area, walk: &Walk, child: &Row) -> bool {
    let new = walk.change.new.as_ref();
    !new.map_or(false, |new| row_maps(walk.key, child, new))
}

/// The child row of this number, if it is live and maps to the old key.
pub fn found(rules: &Rules, area: &Area, walk: &Walk, row: usize) -> Option<(usize, Row)> {
    let live = area.row(walk.key.child, row);
    let old_key = walk.key.compared(&walk.old_key);
    let child_key = |child: &Row| walk.key.compared(&walk.key.child_key(child));
    live.filter(|child| (rules.maps)(walk.key, &child_key(child), &old_key))
        .map(|child| (row, child))
}

/// What SET NULL, SET DEFAULT or CASCADE makes of a child row: none where it is deleted.
pub fn image(
    schema: &Schema,
    key: &Key,
    action: Action,
    child: &Row,
    parent: Option<&Row>,
) -> Option<Row> {
    let defaults = &schema.tables[key.child].defaults;
    let mut new = child.clone();
    for (&column, &parent_column) in key.child_columns.iter().zip(&key.parent_columns) {
        new[column] = match action {
            Action::SetNull => None,
            Action::SetDefault => defaults[column],
            _ => parent?[parent_column],
        };
    }
    Some(new)
}
