//! Mistakes in refusal 24: when it is judged, of which rows, and which windows share a day.

use super::refusals::{check_of, move_check, set_check};
use super::Mistake;
use crate::model::change::{kind, Change, Kind};
use crate::model::folding::{compared_key, folded};
use crate::model::keys::full;
use crate::model::schema::{Action, Row, Value};
use crate::model::windows::{looks, pass, share_a_day, PAPER};

/// When 24 is judged, and for which row changes.
pub const ORDER: &[Mistake] = &[
    ("24 not judged", |rules| {
        rules.checks.retain(|check| check.0 != 24)
    }),
    ("24 judged before unique", |rules| move_check(rules, 24, 4)),
    ("24 judged before NOT NULL", |rules| {
        move_check(rules, 24, 3)
    }),
    ("24 judged before a broken key", |rules| {
        move_check(rules, 24, 2)
    }),
    ("24 judged before journal room", |rules| {
        move_check(rules, 24, 1)
    }),
    ("24 given as 17", |rules| check_of(rules, 24).0 = 17),
    ("24 only where the key is changed", |rules| {
        rules.windows.looks = |area, change, key| {
            let of = |row: &Row| key.compared(&key.parent_key(row));
            let old = area.row(change.table, change.row);
            let old = old.map(|row| of(&row));
            looks(change, key) && old != change.new.as_ref().map(of)
        };
    }),
    ("24 upon an insert alone", |rules| {
        rules.windows.looks =
            |area, change, key| kind(area, change) == Kind::Insert && looks(change, key);
    }),
    ("24 upon an update alone", |rules| {
        rules.windows.looks =
            |area, change, key| kind(area, change) == Kind::Update && looks(change, key);
    }),
    ("24 not judged of an action's row", |rules| {
        rules.windows.looks = |_, change, key| change.depth == 1 && looks(change, key);
    }),
    ("24 upon a deletion", |rules| {
        set_check(rules, 24, |_, area, change| {
            let old = area.row(change.table, change.row);
            let judged = Change {
                new: change.new.clone().or(old),
                ..*change
            };
            pass(area, &judged, PAPER)
        });
    }),
    ("24 for the first windowed key alone", |rules| {
        rules.windows.looks = |area, change, key| {
            let mut keys = area.schema.keys.iter();
            let first = keys.find(|key| looks(change, key));
            first.map_or(false, |first| std::ptr::eq(first, key))
        };
    }),
    ("24 for broken keys too", |rules| {
        rules.windows.looks = |_, change, key| key.parent == change.table && key.window.is_some();
    }),
    ("24 for RESTRICT alone", |rules| {
        rules.windows.looks =
            |_, change, key| looks(change, key) && key.on_update == Action::Restrict;
    }),
];

/// Which windows share a day, and with whose they are compared.
pub const SHARED: &[Mistake] = &[
    ("the written row compared with itself", |rules| {
        rules.windows.others = |area, change| {
            let rows = area.live_rows(change.table).into_iter();
            rows.map(|(_, row)| row).collect()
        };
    }),
    ("touching windows refused", |rules| {
        rules.windows.share = |one, other| one.0.max(other.0) <= one.1.min(other.1);
    }),
    ("one day shared let pass", |rules| {
        rules.windows.share = |one, other| {
            let first = one.0.max(other.0).map(|day| day.saturating_add(1));
            first < one.1.min(other.1)
        };
    }),
    ("an end on the first day let pass", |rules| {
        rules.windows.lasts = |first, end| first <= end;
    }),
    ("an end before the first day let pass", |rules| {
        rules.windows.lasts = |first, end| first != end;
    }),
    ("a window of one day refused", |rules| {
        rules.windows.lasts = |first, end| first.and_then(|day| day.checked_add(1)) < end;
    }),
    (
        "an empty window of another taken to share its day",
        |rules| {
            rules.windows.share = |one, other| one.0 < other.1 && other.0 < one.1;
        },
    ),
    ("a window inside another let pass", |rules| {
        rules.windows.share = |one, other| {
            let inside = other.0 <= one.0 && one.1 <= other.1;
            share_a_day(one, other) && !inside
        };
    }),
    ("a window around another let pass", |rules| {
        rules.windows.share = |one, other| {
            let around = one.0 <= other.0 && other.1 <= one.1;
            share_a_day(one, other) && !around
        };
    }),
    ("windows compared without sign", |rules| {
        rules.windows.lasts = |first, end| without_sign(first) < without_sign(end);
        rules.windows.share = |one, other| {
            let first = without_sign(one.0).max(without_sign(other.0));
            first < without_sign(one.1).min(without_sign(other.1))
        };
    }),
    ("days of windows folded", |rules| {
        rules.windows.share = |one, other| {
            let all = |days: (Value, Value)| (days.0.map(folded), days.1.map(folded));
            share_a_day(all(one), all(other))
        };
    }),
    ("windows of every name compared", |rules| {
        rules.windows.beside = |_, _| true;
    }),
    ("windows compared by the first name alone", |rules| {
        rules.windows.beside = |one, other| one[0] == other[0];
    }),
    ("names folded in every window", |rules| {
        rules.windows.beside = |one, other| {
            let marks = vec![Some(folded as fn(i64) -> i64); one.len()];
            let all = |names: &[Value]| compared_key(&marks, &names.to_vec());
            all(one) == all(other)
        };
    }),
    ("NULL in an end taken for no end by 24", |rules| {
        rules.windows.counts = |key| full(&key[..key.len() - 1].to_vec());
        rules.windows.lasts = |first, end| end.is_none() || first < end;
        rules.windows.share = |one, other| {
            let open = |end: Value| end.or(Some(i64::MAX));
            share_a_day((one.0, open(one.1)), (other.0, open(other.1)))
        };
    }),
    ("NULL in a name taken for a name by 24", |rules| {
        rules.windows.counts = |key| full(&key[key.len() - 2..].to_vec());
    }),
];

fn without_sign(day: Value) -> Option<u64> {
    day.map(|day| day as u64)
}
