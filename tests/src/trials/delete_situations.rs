//! What there is to see in a delete beside its bound, by name, so that it can be counted.

use super::origins::Origin::{self, Damaged, Reached};
use super::origins::{ANY, NOT_REACHED};
use super::seen::{Seen, Situation};
use super::trace::Step;
use crate::model::bound::{self, cleared, clears};
use crate::model::schema::{Action, Row};

/// Areas in which deletes go far.
const FAR: &[Origin] = &[Reached, Damaged];

/// Deletes that change as many rows as their bound allows, and more than one.
const WHOLE: &[Situation] = &[
    ("the whole bound", ANY, |_| true),
    ("the whole bound in ten rows or more", FAR, |s| {
        s.steps.len() >= 10
    }),
    ("the whole bound by kind 10", ANY, |s| {
        s.search(10).is_some()
    }),
    ("the whole bound outside a transaction", ANY, |s| {
        !s.before.in_transaction()
    }),
    ("the whole bound inside a transaction", ANY, |s| {
        s.before.in_transaction()
    }),
    ("the whole bound with no record more free", ANY, |s| {
        free(s) == s.steps.len()
    }),
    (
        "the whole bound, a row cleared and then deleted",
        FAR,
        |s| s.any_step(|step| step.new.is_none() && times(s, step) > 1),
    ),
    ("the whole bound, a row changed three times", FAR, |s| {
        s.any_step(|step| times(s, step) >= 3)
    }),
];

/// Accepted deletes.
const ACCEPTED: &[Situation] = &[
    ("a column cleared that two keys clear", ANY, |s| {
        s.any_step(|step| {
            let keys = s.schema.keys.iter().filter(|key| clears(key));
            let own = keys.filter(|key| key.child == step.table);
            let named = own.flat_map(|key| key.child_columns.iter());
            let mut columns = cleared_by(step).into_iter();
            columns.any(|column| named.clone().filter(|&&other| other == column).count() > 1)
        })
    }),
    ("a key of several columns cleared", ANY, |s| {
        s.any_step(|step| cleared_by(step).len() > 1)
    }),
    ("a row of its own table cleared", ANY, |s| {
        s.any_fired(|key, fired| key.child == key.parent && clears(key) && !fired.found.is_empty())
    }),
    ("a child row in another spelling cleared", FAR, |s| {
        s.any_fired(|key, fired| {
            let mut found = fired.found.iter();
            clears(key) && found.any(|(child_key, _)| *child_key != fired.old_key)
        })
    }),
    (
        "a row cleared with NULL in another column of SET NULL",
        ANY,
        |s| {
            s.any_step(|step| {
                let columns = cleared(s.schema, step.table);
                let null = |row: &Row| columns.iter().any(|&column| row[column].is_none());
                !cleared_by(step).is_empty() && step.old.as_ref().map_or(false, null)
            })
        },
    ),
    ("rows deleted and cleared at depth 3", FAR, |s| {
        let deep = |step: &Step| step.depth >= 3;
        s.any_step(|step| deep(step) && step.new.is_none())
            && s.any_step(|step| deep(step) && step.new.is_some())
    }),
    ("a broken key's column in the bound", NOT_REACHED, |s| {
        let mut broken = s.schema.keys.iter().filter(|key| key.broken && clears(key));
        broken.any(|key| {
            let rows = s.before.live_rows(key.child).into_iter();
            let mut keys = rows.map(|(_, row)| key.child_key(&row));
            keys.any(|child_key| child_key.iter().any(|value| value.is_some()))
        })
    }),
    ("a parent of a windowed key deleted", ANY, |s| {
        s.any_fired(|key, _| key.window.is_some())
    }),
    ("orphans left", ANY, |s| {
        s.after.kept_sum() > s.before.kept_sum()
    }),
];

/// Deletes refused by 15.
const FULL: &[Situation] = &[
    ("15 with one record less than the bound", ANY, |s| {
        free(s) + 1 == bound_of(s)
    }),
    ("15 with several records less than the bound", ANY, |s| {
        free(s) + 1 < bound_of(s)
    }),
    ("15 at a row cleared", ANY, |s| {
        let last = s.steps.last();
        last.map_or(false, |step| step.action == Some(Action::SetNull))
    }),
    ("15 by kind 10", ANY, |s| s.search(10).is_some()),
];

/// All situations.
pub const SITUATIONS: [&[Situation]; 3] = [WHOLE, ACCEPTED, FULL];

/// The names of the situations that a delete shows.
pub fn shown(seen: &Seen) -> Vec<&'static str> {
    let whole = seen.steps.len() > 1 && seen.steps.len() == bound_of(seen);
    let lists: &[&'static [Situation]] = match seen.code {
        0 if whole => &[WHOLE, ACCEPTED],
        0 => &[ACCEPTED],
        15 => &[FULL],
        _ => &[],
    };
    seen.shown(lists.iter().copied().flatten())
}

fn bound_of(s: &Seen) -> usize {
    bound::sum(s.rules.bound, s.before) as usize
}

/// How many journal records are free.
fn free(s: &Seen) -> usize {
    s.schema.room - s.before.used()
}

/// How often the row of a row change is changed.
fn times(s: &Seen, step: &Step) -> usize {
    let place = |step: &Step| (step.table, step.row);
    let same = s.steps.iter().filter(|other| place(other) == place(step));
    same.count()
}

/// The columns that become NULL by a row change, where the row stays.
fn cleared_by(step: &Step) -> Vec<usize> {
    let (old, new) = match (&step.old, &step.new) {
        (Some(old), Some(new)) => (old, new),
        _ => return Vec::new(),
    };
    let columns = 0..old.len();
    let cleared = columns.filter(|&column| old[column].is_some() && new[column].is_none());
    cleared.collect()
}
