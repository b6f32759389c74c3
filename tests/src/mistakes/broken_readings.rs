//! Mistakes in which foreign keys are broken, and engines that judge statements in place of row
//! changes.

use super::worthless::with_calls;
use super::{Mistake, Named};
use crate::engine::{Answer, Engine};
use crate::model::change::{uses, Kind};
use crate::model::schema::{has_end, has_unique, same, Key, Schema, Table};
use crate::model::Model;

pub const ALL: &[Mistake] = &[
    ("a schema with a broken key refused by 2", |rules| {
        rules.read = |bytes| refusing(bytes, 2);
    }),
    ("a schema with a broken key refused by 1", |rules| {
        rules.read = |bytes| refusing(bytes, 1);
    }),
    ("a part of a unique key taken for it", |rules| {
        rules.read = |bytes| {
            reading(bytes, |parent, columns| {
                any_unique(parent, |unique| within(columns, unique))
            })
        };
    }),
    ("more than a unique key taken for it", |rules| {
        rules.read = |bytes| {
            reading(bytes, |parent, columns| {
                any_unique(parent, |unique| within(unique, columns))
            })
        };
    }),
    ("as many other columns taken for a unique key", |rules| {
        rules.read = |bytes| {
            reading(bytes, |parent, columns| {
                any_unique(parent, |unique| unique.len() == columns.len())
            })
        };
    }),
    ("an unused slot taken for a unique key", |rules| {
        rules.read = |bytes| {
            reading(bytes, |parent, columns| {
                parent.unique.len() < 4 || any_unique(parent, |unique| same(unique, columns))
            })
        };
    }),
    ("parent columns in another order break a key", |rules| {
        rules.read = |bytes| {
            reading(bytes, |parent, columns| {
                any_unique(parent, |unique| unique == columns)
            })
        };
    }),
    ("only the first unique key looked at", |rules| {
        rules.read = |bytes| {
            reading(bytes, |parent, columns| {
                let first = parent.unique.first();
                first.map_or(false, |unique| same(unique, columns))
            })
        };
    }),
    ("a parent column taken by its low three bits", |rules| {
        rules.read = |bytes| {
            reading(bytes, |parent, columns| {
                let low: Vec<usize> = columns.iter().map(|column| column % 8).collect();
                any_unique(parent, |unique| same(unique, &low))
            })
        };
    }),
    ("a missing parent column passed over", |rules| {
        rules.read = |bytes| {
            reading(bytes, |parent, columns| {
                let mut there = columns.to_vec();
                there.retain(|&column| column < parent.columns);
                any_unique(parent, |unique| same(unique, &there))
            })
        };
    }),
    ("a missing parent column taken for a match", |rules| {
        rules.read = |bytes| {
            reading(bytes, |parent, columns| {
                let missing = columns.iter().any(|&column| column >= parent.columns);
                missing || any_unique(parent, |unique| same(unique, columns))
            })
        };
    }),
    (
        "a key broken only where its parent has no unique key",
        |rules| {
            rules.read = |bytes| reading(bytes, |parent, _| !parent.unique.is_empty());
        },
    ),
    (
        "a key broken only where its parent table is missing",
        |rules| {
            rules.read = |bytes| reading(bytes, |_, _| true);
        },
    ),
    ("a missing parent table breaks no key", |rules| {
        rules.read = |bytes| {
            let mut schema = Schema::read(bytes)?;
            let tables = schema.tables.len();
            let keys = schema.keys.iter_mut();
            keys.for_each(|key| key.broken &= key.parent < tables);
            Ok(schema)
        };
    }),
    ("a parent table taken by its low four bits", |rules| {
        rules.read = |bytes| {
            let mut schema = Schema::read(bytes)?;
            schema.keys.iter_mut().for_each(|key| key.parent %= 16);
            Ok(schema.with_broken(has_unique, has_end))
        };
    }),
];

/// Engines that refuse a statement by 23 whether rows are found or not.
pub fn by_statement() -> Vec<Named> {
    vec![with_calls("23 although no row is found", found_or_not)]
}

fn found_or_not(model: &Model, schema: &[u8], area: &mut [i64], call: &[i64]) -> Answer {
    let mut after = area.to_vec();
    let answer = model.call(schema, &mut after, call);
    if answer == Answer::done(0, 0) && searches_used(schema, call) {
        return Answer::refused(23);
    }
    area.copy_from_slice(&after);
    answer
}

/// Whether the rows that a search is for would use a broken key.
fn searches_used(schema: &[u8], call: &[i64]) -> bool {
    let kind = match call[0] {
        10 => Kind::Delete,
        11 => Kind::Update,
        _ => return false,
    };
    let used = |key: &Key| key.broken && uses(key, call[1] as usize, kind);
    Schema::read(schema).map_or(false, |schema| schema.keys.iter().any(used))
}

/// The schema, or a refusal where a key is broken.
fn refusing(bytes: &[u8], code: i64) -> Result<Schema, i64> {
    let schema = Schema::read(bytes)?;
    if schema.any_broken() {
        Err(code)
    } else {
        Ok(schema)
    }
}

/// The schema with another reading of whether a parent serves a key.
fn reading(bytes: &[u8], serves: fn(&Table, &[usize]) -> bool) -> Result<Schema, i64> {
    Schema::read(bytes).map(|schema| schema.with_broken(serves, has_end))
}

fn any_unique(parent: &Table, is: impl Fn(&[usize]) -> bool) -> bool {
    parent.unique.iter().any(|unique| is(unique))
}

fn within(some: &[usize], all: &[usize]) -> bool {
    some.iter().all(|column| all.contains(column))
}
