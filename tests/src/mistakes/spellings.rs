//! Mistakes in what follows from keys that are equal and not spelled alike, and in what is stored.

use super::Mistake;
use crate::model::area::Area;
use crate::model::change;
use crate::model::folding::{compared, compared_key, folded, Mark};
use crate::model::keys::{full, maps};
use crate::model::rules::Rules;
use crate::model::schema::{parent_mark, Action, Row, Schema};
use crate::model::walk::{self, Walk};
use crate::model::{list, statement};

pub const ALL: &[Mistake] = &[
    ("a respelled parent runs actions", |rules| {
        rules.fires = |_, old, new| full(old) && new != Some(old);
    }),
    ("child rows taken by the old key as typed", |rules| {
        rules.found = |_, area, walk, row| found_as_typed(area, walk, row);
    }),
    ("child rows taken as typed from depth 5 on", |rules| {
        rules.found = |rules, area, walk, row| match walk.change.depth {
            0..=4 => walk::found(rules, area, walk, row),
            _ => found_as_typed(area, walk, row),
        };
    }),
    ("child rows taken as typed from row 8 on", |rules| {
        rules.found = |rules, area, walk, row| match row {
            0..=7 => walk::found(rules, area, walk, row),
            _ => found_as_typed(area, walk, row),
        };
    }),
    ("orphans counted as typed", |rules| {
        rules.moves = |rules, before, after| {
            let plain = unfolded(before.schema);
            statement::moves(rules, &under(&plain, before), &under(&plain, after))
        };
    }),
    ("orphans listed as typed", |rules| {
        rules.listed = |area, _| {
            let plain = unfolded(area.schema);
            list::orphans(&Rules::of_the_paper(), &under(&plain, area))
        };
    }),
    ("CASCADE gives folded values", |rules| {
        rules.image = |schema, key, action, child, parent| {
            let new = walk::image(schema, key, action, child, parent)?;
            Some(with_folded(
                new,
                &key.child_columns,
                action == Action::Cascade,
            ))
        };
    }),
    ("SET DEFAULT gives folded values", |rules| {
        rules.image = |schema, key, action, child, parent| {
            let new = walk::image(schema, key, action, child, parent)?;
            Some(with_folded(
                new,
                &key.child_columns,
                action == Action::SetDefault,
            ))
        };
    }),
    (
        "CASCADE leaves a child's spelling where keys are alike",
        |rules| {
            rules.image = |schema, key, action, child, parent| {
                let mut new = walk::image(schema, key, action, child, parent)?;
                for (column, value) in new.iter_mut().enumerate() {
                    if compared(Some(folded), *value) == compared(Some(folded), child[column]) {
                        *value = child[column];
                    }
                }
                Some(new)
            };
        },
    ),
    ("folded columns stored folded", |rules| {
        rules.write = |area, table, row, new| {
            let marks = area.schema.tables[table].marks.clone();
            let new = new.map(|new| compared_key(&marks, new));
            change::write(area, table, row, new.as_ref());
        };
    }),
    ("a row that is respelled keeps its spelling", |rules| {
        rules.write = |area, table, row, new| {
            let marks = area.schema.tables[table].marks.clone();
            let old = area.row(table, row);
            let new = match (old, new) {
                (Some(old), Some(new)) => Some(kept_spelling(&marks, &old, new)),
                (_, new) => new.cloned(),
            };
            change::write(area, table, row, new.as_ref());
        };
    }),
];

/// The child row of this number, if it is live and has the old key as typed.
fn found_as_typed(area: &Area, walk: &Walk, row: usize) -> Option<(usize, Row)> {
    let live = area.row(walk.key.child, row);
    live.filter(|child| maps(walk.key, &walk.key.child_key(child), &walk.old_key))
        .map(|child| (row, child))
}

/// The row with these columns folded, if so.
fn with_folded(mut row: Row, columns: &[usize], so: bool) -> Row {
    for &column in columns.iter().filter(|_| so) {
        row[column] = compared(Some(folded), row[column]);
    }
    row
}

/// The new row, with the old values where they are equal to the new ones.
fn kept_spelling(marks: &[Mark], old: &Row, new: &Row) -> Row {
    let pairs = compared_key(marks, old)
        .into_iter()
        .zip(compared_key(marks, new));
    let values = pairs.zip(old.iter().zip(new));
    let kept = values.map(|((one, other), (old, new))| if one == other { *old } else { *new });
    kept.collect()
}

/// The schema with no column folded.
fn unfolded(schema: &Schema) -> Schema {
    let mut schema = schema.clone();
    let tables = schema.tables.iter_mut();
    tables.for_each(|table| table.marks.fill(None));
    schema.with_marks(parent_mark)
}

/// The area taken with another schema.
fn under<'s>(schema: &'s Schema, area: &Area) -> Area<'s> {
    Area {
        schema,
        words: area.words.clone(),
    }
}
