//! Mistakes in the old key of a walk: where it is fetched from, and which child rows have it.

use super::Mistake;
use crate::model::area::Area;
use crate::model::keys::{full, maps};
use crate::model::rules::Rules;
use crate::model::schema::Row;
use crate::model::walk::{self, Walk};

pub const ALL: &[Mistake] = &[
    ("the old key fetched from the new row", |rules| {
        rules.found = |rules, area, walk, row| {
            let new = walk.change.new.as_ref();
            let new_key = new.map(|new| walk.key.parent_key(new));
            seek(rules, area, walk, row, new_key)
        };
    }),
    (
        "the old key fetched from the parent's row at each turn",
        |rules| {
            rules.found = |rules, area, walk, row| {
                let (_, values) = area.stored(walk.change.table, walk.change.row);
                seek(rules, area, walk, row, Some(in_columns(values, walk)))
            };
        },
    ),
    (
        "the old key fetched again once the parent's row is changed again",
        |rules| {
            rules.found = |rules, area, walk, row| {
                let parent = area.row(walk.change.table, walk.change.row);
                let changed = parent.filter(|now| walk.change.new.as_ref() != Some(now));
                let key = changed.map(|now| walk.key.parent_key(&now));
                seek(rules, area, walk, row, key)
            };
        },
    ),
    (
        "the old key fetched from the newest journal record",
        |rules| {
            rules.found = |rules, area, walk, row| {
                let newest = &area.record(area.used() - 1)[2..];
                seek(rules, area, walk, row, Some(in_columns(newest, walk)))
            };
        },
    ),
    (
        "the old key fetched from the newest record of the parent's row",
        |rules| {
            rules.found = |rules, area, walk, row| {
                let parent = Some((walk.change.table, walk.change.row));
                let mut records = (0..area.used()).rev();
                let newest = records.find(|&record| area.journal_place(record) == parent);
                let key = newest.map(|record| in_columns(&area.record(record)[2..], walk));
                seek(rules, area, walk, row, key)
            };
        },
    ),
    (
        "the old key in the order of the parent's columns",
        |rules| {
            rules.found = |rules, area, walk, row| {
                let columns = walk.key.columns_in_parent();
                let mut pairs: Vec<_> = columns.zip(walk.old_key.clone()).collect();
                pairs.sort();
                let key = pairs.into_iter().map(|(_, value)| value).collect();
                seek(rules, area, walk, row, Some(key))
            };
        },
    ),
    (
        "the last column of a key of three or four not compared",
        |rules| {
            rules.maps = |key, one, other| match one.len() {
                n @ 3.. => full(one) && one[..n - 1] == other[..n - 1],
                _ => maps(key, one, other),
            };
        },
    ),
    ("NULL in a child key compared by its word", |rules| {
        rules.found = |_, area, walk, row| {
            let live = area.row(walk.key.child, row);
            live.filter(|_| has_words(area, walk, row))
                .map(|child| (row, child))
        };
    }),
    ("a vacant row taken by its words", |rules| {
        rules.found = |rules, area, walk, row| {
            let child = walk.key.child;
            if area.row(child, row).is_none() && has_words(area, walk, row) {
                let (_, values) = area.stored(child, row);
                return Some((row, values.iter().map(|&word| Some(word)).collect()));
            }
            walk::found(rules, area, walk, row)
        };
    }),
    ("the row after the one found taken for it", |rules| {
        rules.found = |rules, area, walk, row| {
            let found = walk::found(rules, area, walk, row)?;
            let (child, after) = (walk.key.child, row + 1);
            let is_row = after < area.schema.tables[child].rows;
            let next = is_row.then(|| area.row(child, after)).flatten();
            Some(next.map_or(found, |row| (after, row)))
        };
    }),
    ("a row that keeps the old key taken again", |rules| {
        rules.turns = |area, key, _| {
            let rows = 0..area.schema.tables[key.child].rows;
            rows.flat_map(|row| [row, row]).collect()
        };
    }),
    (
        "eight rows before gone through again at each turn",
        |rules| {
            rules.turns = |area, key, _| {
                let rows = 0..area.schema.tables[key.child].rows;
                rows.flat_map(|row| row.saturating_sub(8)..=row).collect()
            };
        },
    ),
];

/// The child row of this number, if it is live and has this key; without one, the old key.
fn seek(
    rules: &Rules,
    area: &Area,
    walk: &Walk,
    row: usize,
    key: Option<Row>,
) -> Option<(usize, Row)> {
    let old_key = key.unwrap_or_else(|| walk.old_key.clone());
    walk::found(rules, area, &Walk { old_key, ..*walk }, row)
}

/// The words of a row in the columns of the parent's key.
fn in_columns(values: &[i64], walk: &Walk) -> Row {
    let columns = walk.key.columns_in_parent();
    columns.map(|column| Some(values[column])).collect()
}

/// Whether the words of a child row, live or vacant, map to the old key.
fn has_words(area: &Area, walk: &Walk, row: usize) -> bool {
    let (_, values) = area.stored(walk.key.child, row);
    let columns = walk.key.child_columns.iter();
    let words: Row = columns.map(|&column| Some(values[column])).collect();
    maps(walk.key, &words, &walk.old_key)
}
