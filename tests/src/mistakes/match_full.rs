//! Mistakes in MATCH FULL: which child keys are half-filled, where they are counted, and what
//! parents and actions have to do with them.

use super::other_bytes::OtherBytes;
use super::Mistake;
use crate::engine::Orphan;
use crate::model::area::Area;
use crate::model::change::Change;
use crate::model::keys::{empty, equal_where_filled, full, half_filled, orphan, served};
use crate::model::list;
use crate::model::rules::Rules;
use crate::model::schema::{Action, Key, Match, Row};
use crate::model::statement;
use crate::model::walk::{self, Walk};
use crate::schema_bytes::view::View;
use std::collections::BTreeSet;

pub const ALL: &[Mistake] = &[
    ("MATCH FULL read as MATCH SIMPLE", |rules| {
        rules.orphan = simple;
    }),
    ("an empty key counted under MATCH FULL", |rules| {
        rules.orphan = |key, child_key, parent_keys| {
            is_match_full(key) && empty(child_key) || orphan(key, child_key, parent_keys)
        };
    }),
    (
        "NULL in a key of one column counted under MATCH FULL",
        |rules| {
            rules.orphan = |key, child_key, parent_keys| {
                let one = is_match_full(key) && child_key.len() == 1;
                one && empty(child_key) || orphan(key, child_key, parent_keys)
            };
        },
    ),
    (
        "a key whose first column is NULL taken for empty",
        |rules| {
            rules.orphan = |key, child_key, parent_keys| {
                child_key[0].is_some() && orphan(key, child_key, parent_keys)
            };
        },
    ),
    ("only two columns of a key looked at for NULL", |rules| {
        rules.orphan = |key, child_key, parent_keys| match &child_key[..] {
            [first, second, _, ..] if half_filled(child_key) => {
                is_match_full(key) && first.is_some() != second.is_some()
            }
            _ => orphan(key, child_key, parent_keys),
        };
    }),
    ("half-filled rows not in the orphan list", |rules| {
        rules.listed = |area, mut orphans| {
            orphans.retain(|orphan| !is_half_filled(area, orphan));
            orphans
        };
    }),
    ("half-filled rows not in the kept numbers", |rules| {
        rules.moves = |rules, before, after| {
            let mut rules = rules.clone();
            rules.orphan = simple;
            statement::moves(&rules, before, after)
        };
    }),
    (
        "half-filled rows refused while the statement runs",
        |rules| {
            rules.checks.push((20, no_half_filled));
        },
    ),
    ("a commit passes over half-filled rows", |rules| {
        rules.commits = |area| {
            let mut orphans = list::orphans(&Rules::of_the_paper(), area);
            orphans.retain(|orphan| is_half_filled(area, orphan));
            area.kept_sum() == orphans.len() as i64
        };
    }),
    (
        "a parent equal where it is filled serves a half-filled row",
        |rules| {
            rules.orphan = |key, child_key, parent_keys| {
                let serves = |parent_key: &Row| equal_where_filled(child_key, parent_key);
                orphan(key, child_key, parent_keys) && !parent_keys.iter().any(serves)
            };
        },
    ),
    (
        "a parent with NULL in the same columns serves a half-filled row",
        |rules| {
            rules.orphan = |key, child_key, parent_keys| {
                orphan(key, child_key, parent_keys) && !parent_keys.contains(child_key)
            };
        },
    ),
    ("CASCADE takes half-filled rows", |rules| {
        rules.found = |rules, area, walk, row| found_half(rules, area, walk, row, Action::Cascade);
    }),
    ("SET NULL takes half-filled rows", |rules| {
        rules.found = |rules, area, walk, row| found_half(rules, area, walk, row, Action::SetNull);
    }),
    ("SET NULL of MATCH FULL clears one column", |rules| {
        rules.image = |schema, key, action, child, parent| {
            let mut new = walk::image(schema, key, action, child, parent)?;
            if action == Action::SetNull && is_match_full(key) {
                let rest = &key.child_columns[1..];
                rest.iter().for_each(|&column| new[column] = child[column]);
            }
            Some(new)
        };
    }),
];

/// Engines that read the bytes of the matches as others.
pub const READINGS: &[OtherBytes] = &[
    ("the match of the first key taken for every key", |bytes| {
        let first = View(bytes).key_byte(0, 14) as u8;
        set_matches(bytes, |_| first);
    }),
    ("a match of 2 taken as MATCH FULL", |bytes| {
        set_matches(bytes, |matching| if matching == 2 { 1 } else { matching });
    }),
];

fn is_match_full(key: &Key) -> bool {
    key.matching == Match::Full
}

/// An orphan by MATCH SIMPLE.
fn simple(key: &Key, child_key: &Row, parent_keys: &BTreeSet<Row>) -> bool {
    full(child_key) && !served(key, child_key, parent_keys)
}

/// Whether the new row of a change is half-filled under no key of MATCH FULL.
fn no_half_filled(_: &Rules, area: &Area, change: &Change) -> bool {
    let mut keys = area.schema.keys.iter();
    let is_half = |key: &Key, new: &Row| {
        key.child == change.table && is_match_full(key) && half_filled(&key.child_key(new))
    };
    let new = change.new.as_ref();
    new.map_or(true, |new| !keys.any(|key| is_half(key, new)))
}

/// Whether the child key of an orphan is half-filled.
fn is_half_filled(area: &Area, orphan: &Orphan) -> bool {
    let key = &area.schema.keys[orphan.foreign_key as usize];
    let row = area.row(key.child, orphan.row as usize);
    row.map_or(false, |row| half_filled(&key.child_key(&row)))
}

/// The child row of this number: also one of MATCH FULL that has the old key where it is filled, if
/// the action is this one.
fn found_half(
    rules: &Rules,
    area: &Area,
    walk: &Walk,
    row: usize,
    action: Action,
) -> Option<(usize, Row)> {
    let takes_half = |child_key: &Row| {
        walk.action == action
            && is_match_full(walk.key)
            && half_filled(child_key)
            && equal_where_filled(child_key, &walk.key.compared(&walk.old_key))
    };
    let live = area.row(walk.key.child, row);
    let child_key = |child: &Row| walk.key.compared(&walk.key.child_key(child));
    let half = live.filter(|child| takes_half(&child_key(child)));
    let half = half.map(|child| (row, child));
    half.or_else(|| walk::found(rules, area, walk, row))
}

/// Sets the match in each record of a foreign key that lies in the bytes.
fn set_matches(bytes: &mut [u8], other: impl Fn(u8) -> u8) {
    let view = View(bytes);
    let places: Vec<usize> = (0..view.keys().min(32))
        .map(|k| view.key_at(k) + 14)
        .collect();
    for place in places {
        if let Some(byte) = bytes.get_mut(place) {
            *byte = other(*byte);
        }
    }
}
