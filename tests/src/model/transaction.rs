//! Transactions and savepoints: calls of kinds 4 to 9.

use super::area::Area;
use super::rules::Rules;
use super::statement::Outcome;

const BY_BEGIN: i64 = 1;
const BY_SAVEPOINT: i64 = 2;

pub fn begin(rules: &Rules, area: &mut Area) -> Outcome {
    if area.in_transaction() {
        return Err(12);
    }
    (rules.open)(area, BY_BEGIN);
    Ok((0, 0))
}

pub fn savepoint(rules: &Rules, area: &mut Area) -> Outcome {
    if area.open() >= rules.most_levels {
        return Err(13);
    }
    (rules.open)(area, BY_SAVEPOINT);
    Ok((0, 0))
}

/// Opens the next level. What opened the transaction is noted where none was open.
pub fn open(area: &mut Area, opened_by: i64) {
    if !area.in_transaction() {
        area.words[1] = opened_by;
    }
    area.words[0] += 1;
    let (used, kept) = (area.words[2], area.kept().to_vec());
    let level = area.level_mut(area.open());
    level[0] = used;
    level[1..].copy_from_slice(&kept);
}

pub fn release(rules: &Rules, area: &mut Area, level: usize) -> Outcome {
    if !(rules.reachable)(area, level) {
        return Err(12);
    }
    if level == 1 {
        return commit(rules, area);
    }
    (rules.close_above)(area, level - 1);
    Ok((0, 0))
}

/// The level is open, and it is not level 1 opened by begin.
pub fn reachable(area: &Area, level: usize) -> bool {
    level <= area.open() && !(level == 1 && area.words[1] == BY_BEGIN)
}

pub fn rollback_to(rules: &Rules, area: &mut Area, level: usize) -> Outcome {
    if !(rules.reachable)(area, level) {
        return Err(12);
    }
    let done = undo(rules, area, level);
    (rules.close_above)(area, level);
    Ok(done)
}

pub fn rollback(rules: &Rules, area: &mut Area) -> Outcome {
    if !area.in_transaction() {
        return Err(12);
    }
    let done = undo(rules, area, 1);
    (rules.close_above)(area, 0);
    (rules.end)(area);
    Ok(done)
}

pub fn commit(rules: &Rules, area: &mut Area) -> Outcome {
    if !area.in_transaction() {
        return Err(12);
    }
    if !(rules.commits)(area) {
        return Err(21);
    }
    (rules.close_above)(area, 0);
    (rules.end)(area);
    Ok((0, 0))
}

/// Undoes what was done since the level opened. Gives the records undone and the net.
fn undo(rules: &Rules, area: &mut Area, level: usize) -> (i64, i64) {
    let (from, used) = (area.level(level)[0] as usize, area.used());
    for record in (rules.undo_sequence)((from..used).collect()) {
        area.put_back(record);
    }
    (rules.undone)(area, from, used);
    area.words[2] = from as i64;
    let before = area.kept_sum();
    (rules.restore)(area, level);
    ((rules.changed)(from, used), area.kept_sum() - before)
}

pub fn restore(area: &mut Area, level: usize) {
    let saved = area.level(level)[1..].to_vec();
    area.kept_mut().copy_from_slice(&saved);
}

pub fn close_above(area: &mut Area, level: usize) {
    for closed in level + 1..=area.open() {
        area.level_mut(closed).fill(0);
    }
    area.words[0] = level as i64;
}

/// No transaction is open any more, and the journal is empty.
pub fn end(area: &mut Area) {
    area.words[1] = 0;
    area.words[2] = 0;
    area.zero_journal_from(0);
}
