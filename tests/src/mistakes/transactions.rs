//! Mistakes in transactions, savepoints, the journal and the kept numbers.

use super::Mistake;
use crate::model::transaction;

pub const ALL: &[Mistake] = &[
    ("journal restored oldest first", |rules| {
        rules.undo_sequence = |records| records;
    }),
    ("the newest record not undone", |rules| {
        rules.undo_sequence = |records| records.into_iter().rev().skip(1).collect();
    }),
    ("undone records keep their words", |rules| {
        rules.undone = |_, _, _| {}
    }),
    ("a rollback keeps the kept numbers", |rules| {
        rules.restore = |_, _| {}
    }),
    ("kept numbers of the newest level restored", |rules| {
        rules.restore = |area, _| transaction::restore(area, area.open());
    }),
    ("kept numbers never move", |rules| {
        rules.moves = |_, before, _| vec![0; before.schema.keys.len()];
    }),
    ("rows changed invented", |rules| {
        rules.changed = |before, after| (after - before).max(1) as i64;
    }),
    (
        "rows changed counts the statement's own row only",
        |rules| {
            rules.changed = |before, after| (after - before).min(1) as i64;
        },
    ),
    ("a ninth level refused", |rules| rules.most_levels = 8),
    ("savepoint opens a transaction as begin does", |rules| {
        rules.open = |area, _| transaction::open(area, 1);
    }),
    ("a level saves no kept numbers", |rules| {
        rules.open = |area, opened_by| {
            transaction::open(area, opened_by);
            area.level_mut(area.open())[1..].fill(0);
        };
    }),
    ("level 1 opened by begin can be released", |rules| {
        rules.reachable = |area, level| level <= area.open();
    }),
    ("a commit with orphans passes", |rules| {
        rules.commits = |_| true
    }),
    ("a commit looks at foreign key 0 only", |rules| {
        rules.commits = |area| area.kept()[0] == 0;
    }),
    ("closed levels keep their words", |rules| {
        rules.close_above = |area, level| area.words[0] = level as i64;
    }),
    ("rollback to a level zeroes its words", |rules| {
        rules.close_above = |area, level| {
            transaction::close_above(area, level);
            if level > 0 {
                area.level_mut(level).fill(0);
            }
        };
    }),
    ("a commit leaves the journal's words", |rules| {
        rules.end = |area| area.words[1..3].fill(0);
    }),
];
