//! Mistakes by which a call on one family depends on what was done to another before it.

use super::refusals::set_check;
use super::worthless::with_calls;
use super::{Mistake, Named};
use crate::engine::{Answer, Engine};
use crate::model::area::Area;
use crate::model::families::of_tables;
use crate::model::schema::Schema;
use crate::model::{change, search, statement, transaction, Model};
use std::ops::Range;

pub const ALL: &[Mistake] = &[
    (
        "families: orphans kept for the family written before told in the net",
        |rules| {
            rules.settle = |rules, entry, area| {
                let before = written_before(entry, area);
                let (changed, net) = statement::settle(rules, entry, area)?;
                let kept = before.map_or(0, |family| kept_for(entry, family));
                Ok((changed, net + kept))
            };
        },
    ),
    (
        "families: records of the family written before counted as rows changed",
        |rules| {
            rules.settle = |rules, entry, area| {
                let before = written_before(entry, area);
                let (changed, net) = statement::settle(rules, entry, area)?;
                let records = before.map_or(0, |family| newest_records(entry, family).len());
                Ok((changed + records as i64, net))
            };
        },
    ),
    (
        "families: after another family the next key's number moves",
        |rules| {
            rules.moves = |rules, before, after| {
                let mut moves = statement::moves(rules, before, after);
                if written_before(before, after).is_some() {
                    moves.rotate_right(1);
                }
                moves
            };
        },
    ),
    (
        "families: a row of the family written before journaled again",
        |rules| {
            rules.write = |area, table, row, new| {
                let other = other_than_newest(area, table);
                let newest = area.used().checked_sub(1).filter(|_| other);
                let place = newest.and_then(|record| area.journal_place(record));
                let room = area.used() + 1 < area.schema.room;
                if let Some((table, row)) = place.filter(|_| room) {
                    area.journal(table, row);
                }
                change::write(area, table, row, new);
            };
        },
    ),
    (
        "families: a search goes on from the row written before",
        |rules| {
            rules.rows_sought = |area, search| {
                let newest = area.used().checked_sub(1);
                let place = newest.and_then(|record| area.journal_place(record));
                let first = place.map_or(0, |(_, row)| row);
                let mut rows = search::rows(area, search);
                rows.retain(|&row| row >= first || !other_than_newest(area, search.table));
                rows
            };
        },
    ),
    (
        "families: records of other families take twice their room",
        |rules| {
            set_check(rules, 15, |_, area, change| {
                let families = of_tables(area.schema);
                let own = |record: &usize| family_of(area, *record) == Some(families[change.table]);
                let others = (0..area.used()).filter(|record| !own(record));
                area.used() + others.count() < area.schema.room
            });
        },
    ),
    (
        "families: deferred keys of other families do not wait",
        |rules| {
            rules.ends[1].1 = |area, key| {
                let families = of_tables(area.schema);
                let key_of = &area.schema.keys[key];
                let own =
                    newest_family(area).map_or(true, |family| family == families[key_of.child]);
                area.kept()[key] == 0 || area.in_transaction() && key_of.deferred && own
            };
        },
    ),
    (
        "families: a commit looks at the family written last only",
        |rules| {
            rules.commits =
                |area| newest_family(area).map_or(true, |family| kept_for(area, family) == 0);
        },
    ),
    (
        "families: a level saves the numbers of the family written last only",
        |rules| {
            rules.open = |area, opened_by| {
                transaction::open(area, opened_by);
                let (newest, families) = (newest_family(area), of_tables(area.schema));
                let schema = area.schema;
                let saved = &mut area.level_mut(area.open())[1..];
                for (number, key) in saved.iter_mut().zip(&schema.keys) {
                    if newest.map_or(false, |family| family != families[key.child]) {
                        *number = 0;
                    }
                }
            };
        },
    ),
];

/// Engines whose rollbacks to a level undo the families unequally.
pub fn of_rollbacks() -> Vec<Named> {
    vec![
        with_calls(
            "families: a rollback leaves the rows of the family written first",
            |model, schema, area, call| rolled_back(model, (schema, area, call), leave_rows),
        ),
        with_calls(
            "families: a rollback keeps the numbers of the family written first",
            |model, schema, area, call| rolled_back(model, (schema, area, call), keep_numbers),
        ),
    ]
}

/// Spoils the area after a rollback, given the area before it, the family of the first record undone and
/// the records undone.
type Spoil = fn(&Area, usize, Range<usize>, &mut Area);

/// The call by the model. A rollback to a level that undoes more than one family is then spoiled.
fn rolled_back(
    model: &Model,
    (schema, area, call): (&[u8], &mut [i64], &[i64]),
    spoil: Spoil,
) -> Answer {
    let words = area.to_vec();
    let answer = model.call(schema, area, call);
    if answer.code == 0 && call[0] == 7 {
        let schema = Schema::read(schema).expect("the call was accepted");
        let [before, mut after] = [&words[..], area].map(|words| Area {
            schema: &schema,
            words: words.to_vec(),
        });
        let undone = after.used()..before.used();
        let mut families = undone.clone().map(|record| family_of(&before, record));
        let first = families.next().flatten();
        if let Some(family) = first.filter(|_| families.any(|family| family != first)) {
            spoil(&before, family, undone, &mut after);
            area.copy_from_slice(&after.words);
        }
    }
    answer
}

/// The rows of the family are left as they were before the rollback.
fn leave_rows(before: &Area, family: usize, undone: Range<usize>, after: &mut Area) {
    let families = of_tables(before.schema);
    let places = undone.filter_map(|record| before.journal_place(record));
    for (table, row) in places.filter(|&(table, _)| families[table] == family) {
        after.put_row(table, row, before.row(table, row).as_ref());
    }
}

/// The kept numbers of the family are left as they were before the rollback.
fn keep_numbers(before: &Area, family: usize, _: Range<usize>, after: &mut Area) {
    let families = of_tables(before.schema);
    for (number, key) in before.schema.keys.iter().enumerate() {
        if families[key.child] == family {
            after.kept_mut()[number] = before.kept()[number];
        }
    }
}

/// The family of the row that a journal record names.
fn family_of(area: &Area, record: usize) -> Option<usize> {
    let (table, _) = area.journal_place(record)?;
    Some(of_tables(area.schema)[table])
}

/// The family of the row that the newest journal record names.
fn newest_family(area: &Area) -> Option<usize> {
    family_of(area, area.used().checked_sub(1)?)
}

/// Whether the newest journal record is of another family than the table.
fn other_than_newest(area: &Area, table: usize) -> bool {
    let family = of_tables(area.schema)[table];
    newest_family(area).map_or(false, |newest| newest != family)
}

/// The family of the newest record when a statement began, if the statement writes another.
fn written_before(entry: &Area, area: &Area) -> Option<usize> {
    let own = newest_family(area)?;
    newest_family(entry).filter(|&family| family != own)
}

/// The newest records, as far as they are of this family.
fn newest_records(area: &Area, family: usize) -> Range<usize> {
    let of_family = |record: &usize| family_of(area, *record) == Some(family);
    let records = (0..area.used()).rev().take_while(of_family);
    area.used() - records.count()..area.used()
}

/// The kept numbers of the keys of a family.
fn kept_for(area: &Area, family: usize) -> i64 {
    let families = of_tables(area.schema);
    let keys = area.schema.keys.iter().zip(area.kept());
    let own = keys.filter(|(key, _)| families[key.child] == family);
    own.map(|(_, kept)| kept).sum()
}
