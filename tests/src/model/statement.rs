//! A statement: row changes, then the kept numbers.

use super::area::Area;
use super::keys::orphan_counts;
use super::rules::Rules;

/// Rows changed and net, or a refusal.
pub type Outcome = Result<(i64, i64), i64>;

/// A check of one foreign key at the end of a statement, and the refusal where it does not hold.
pub type End = (i64, fn(&Area, usize) -> bool);

pub const ENDS: &[End] = &[(19, in_range), (20, settled)];

fn in_range(area: &Area, key: usize) -> bool {
    let rows = area.schema.tables[area.schema.keys[key].child].rows;
    (0..=rows as i64).contains(&area.kept()[key])
}

/// A deferred key can wait inside a transaction.
fn settled(area: &Area, key: usize) -> bool {
    area.kept()[key] == 0 || area.in_transaction() && area.schema.keys[key].deferred
}

/// The orphans counted after less those before.
pub fn moves(rules: &Rules, before: &Area, after: &Area) -> Vec<i64> {
    let before = orphan_counts(rules, before).into_iter();
    let pairs = before.zip(orphan_counts(rules, after));
    pairs.map(|(before, after)| after - before).collect()
}

/// Runs the statement that makes these row changes. Refused, all is put back.
pub fn run(
    rules: &Rules,
    area: &mut Area,
    changes: impl FnOnce(&mut Area) -> Result<(), i64>,
) -> Outcome {
    let entry = area.clone();
    let outcome = changes(area).and_then(|()| (rules.settle)(rules, &entry, area));
    if outcome.is_err() {
        (rules.refused)(area, &entry);
    }
    outcome
}

/// All is as when the statement began, but for the journal's words past the records in use: zero.
pub fn put_back(area: &mut Area, entry: &Area) {
    area.words.copy_from_slice(&entry.words);
    area.zero_journal_from(area.used());
}

/// The end of a statement, given the area when it began: the kept numbers move and are judged;
/// outside a transaction the journal is then emptied.
pub fn settle(rules: &Rules, entry: &Area, area: &mut Area) -> Outcome {
    let moves = (rules.moves)(rules, entry, area);
    for (kept, by) in area.kept_mut().iter_mut().zip(&moves) {
        *kept += by;
    }
    for (code, holds) in &rules.ends {
        if !(0..moves.len()).all(|key| holds(area, key)) {
            return Err(*code);
        }
    }
    let changed = (rules.changed)(entry.used(), area.used());
    if !area.in_transaction() {
        (rules.end)(area);
    }
    Ok((changed, moves.iter().sum()))
}
