//! What there is to see in calls on rows with half-filled child keys, by name, so that it can be
//! counted.

use super::by_outcome::ByOutcome;
use super::half_filled_seen::{Child, OfKey, State::*};
use super::origins::Origin::{self, Damaged, Filled};
use super::origins::ANY;
use crate::model::form::Call;
use crate::model::keys::{equal_where_filled, full};
use crate::model::schema::{Action, Match, Row};

/// A call that was observed. A statement that 19 or 20 refuses is observed as it would have ended.
pub struct Seen<'a> {
    pub call: &'a Call,
    pub code: i64,
    pub in_transaction: bool,
    pub keys: Vec<OfKey<'a>>,
}

/// A name, the areas on which it is to be seen, and whether it is to be seen in a call.
pub type Situation = (&'static str, &'static [Origin], fn(&Seen) -> bool);

/// Rows come to have a half-filled or an empty key, or have one no more.
const ENTERED: &[Situation] = &[
    ("half-filled and accepted under MATCH SIMPLE", ANY, |s| {
        s.any_key(|k| !k.is_match_full() && !k.waits && k.any(Child::is_half_filled_now))
    }),
    ("empty and accepted under MATCH FULL", ANY, |s| {
        let new_key = |c: &Child| c.is == Empty && c.was != Empty;
        s.any_match_full(|k| !k.waits && k.key.child_columns.len() > 1 && k.any(new_key))
    }),
    ("half-filled by an insert", ANY, |s| {
        s.any_match_full(|k| k.any(|c| c.goes(Vacant, HalfFilled)))
    }),
    ("half-filled, with a parent before", ANY, |s| {
        s.any_match_full(|k| k.any(|c| c.goes(Served, HalfFilled)))
    }),
    ("half-filled, empty before", ANY, |s| {
        s.any_match_full(|k| k.any(|c| c.goes(Empty, HalfFilled)))
    }),
    ("half-filled, an orphan before", ANY, |s| {
        s.any_match_full(|k| k.any(|c| c.goes(Parentless, HalfFilled)))
    }),
    ("half-filled in other columns", ANY, |s| {
        s.any_match_full(|k| k.any(|c| c.goes(HalfFilled, HalfFilled) && c.old != c.new))
    }),
    ("mended by filling", ANY, |s| {
        s.any_match_full(|k| k.any(|c| c.goes(HalfFilled, Served)))
    }),
    ("filled without a parent", ANY, |s| {
        s.any_match_full(|k| k.any(|c| c.goes(HalfFilled, Parentless)))
    }),
    ("mended by emptying", ANY, |s| {
        s.any_match_full(|k| k.any(|c| c.goes(HalfFilled, Empty)))
    }),
    ("mended by deletion", ANY, |s| {
        s.any_match_full(|k| k.any(|c| c.goes(HalfFilled, Vacant)))
    }),
    ("half-filled by kind 11", ANY, |s| {
        s.is_kind_11() && s.any_match_full(|k| k.any(Child::is_half_filled_now))
    }),
    ("mended by kind 11", ANY, |s| {
        let mended = |c: &Child| c.goes(HalfFilled, Empty) || c.goes(HalfFilled, Served);
        s.is_kind_11() && s.any_match_full(|k| k.any(mended))
    }),
];

/// Which columns of the key are NULL, and which other keys the row has.
const FORMS: &[Situation] = &[
    ("a half-filled key of 2 columns", ANY, |s| {
        s.counted(|key| key.len() == 2)
    }),
    ("a half-filled key of 3 columns", ANY, |s| {
        s.counted(|key| key.len() == 3)
    }),
    ("a half-filled key of 4 columns", ANY, |s| {
        s.counted(|key| key.len() == 4)
    }),
    ("NULL in the first column alone", ANY, |s| {
        s.counted(|key| key[0].is_none() && nulls(key) == 1)
    }),
    ("NULL in the last column alone", ANY, |s| {
        s.counted(|key| key[key.len() - 1].is_none() && nulls(key) == 1)
    }),
    ("one value among three or four columns", ANY, |s| {
        s.counted(|key| key.len() > 2 && nulls(key) == key.len() - 1)
    }),
    ("the same columns under both matches", ANY, |s| {
        s.half_filled_beside(|full, other, _| {
            other.key.matching == Match::Simple && same_columns(full, other)
        })
    }),
    ("with a parent by a key that shares a column", ANY, |s| {
        s.half_filled_beside(|full, other, child| child.is == Served && share_column(full, other))
    }),
    ("half-filled under a self-referring key", ANY, |s| {
        s.any_match_full(|k| k.key.child == k.key.parent && k.any(Child::is_half_filled_now))
    }),
];

/// Parents beside a half-filled row that stays as it is.
const PARENTS: &[Situation] = &[
    ("a parent equal where it is filled, inserted", ANY, |s| {
        s.beside_half(|half, old, new| old.is_none() && like(half, new))
    }),
    ("a parent equal where it is filled, deleted", ANY, |s| {
        s.beside_half(|half, old, new| like(half, old) && new.is_none())
    }),
    ("a parent equal where it is filled, changed", ANY, |s| {
        s.beside_half(|half, old, new| like(half, old) && new.is_some() && !like(half, new))
    }),
    ("a parent with NULL in the same columns", ANY, |s| {
        s.beside_half(|half, _, new| new.as_ref() == Some(half))
    }),
    ("RESTRICT passes over it", ANY, |s| {
        s.passed_over(Action::Restrict)
    }),
    ("SET NULL passes over it", ANY, |s| {
        s.passed_over(Action::SetNull)
    }),
    ("SET DEFAULT passes over it", ANY, |s| {
        s.passed_over(Action::SetDefault)
    }),
    ("CASCADE passes over it", ANY, |s| {
        s.passed_over(Action::Cascade)
    }),
];

/// What actions leave of a key of MATCH FULL.
const ACTIONS: &[Situation] = &[
    ("SET NULL leaves an empty key", ANY, |s| {
        s.any_match_full(|k| k.key.child_columns.len() > 1 && k.leaves(Action::SetNull, Empty))
    }),
    ("SET DEFAULT leaves a half-filled key", ANY, |s| {
        s.any_match_full(|k| k.leaves(Action::SetDefault, HalfFilled))
    }),
    ("SET DEFAULT leaves an empty key", ANY, |s| {
        s.any_match_full(|k| k.leaves(Action::SetDefault, Empty))
    }),
    ("CASCADE leaves a half-filled key", ANY, |s| {
        s.any_match_full(|k| k.leaves(Action::Cascade, HalfFilled))
    }),
];

/// What rollbacks make of rows that are half-filled, or were.
const ROLLBACKS: &[Situation] = &[
    ("half-filled rows put back", ANY, |s| {
        s.any_match_full(|k| k.any(Child::is_half_filled_now))
    }),
    ("half-filled rows undone", ANY, |s| {
        s.any_match_full(|k| k.any(|c| c.was == HalfFilled && c.is != HalfFilled))
    }),
];

/// Refusals for half-filled rows.
const REFUSED: &[Situation] = &[
    (
        "20 for half-filled rows alone, an immediate key",
        ANY,
        |s| s.code == 20 && s.in_transaction && s.unsettled_by_halves(),
    ),
    (
        "20 for half-filled rows alone, a deferred key outside",
        ANY,
        |s| {
            let deferred = |k: &OfKey| k.key.deferred && k.kept_after() != 0;
            s.code == 20 && !s.in_transaction && s.unsettled_by_halves() && s.any_key(deferred)
        },
    ),
    ("20 for SET DEFAULT that half-fills a key", ANY, |s| {
        s.code == 20 && s.any_unsettled(|k| k.leaves(Action::SetDefault, HalfFilled))
    }),
    ("20 for CASCADE that half-fills a key", ANY, |s| {
        s.code == 20 && s.any_unsettled(|k| k.leaves(Action::Cascade, HalfFilled))
    }),
    ("21 for half-filled rows alone", ANY, |s| {
        let others = |k: &OfKey| k.kept_after() != 0 && !k.has_halves_alone();
        s.code == 21 && !s.any_key(others)
    }),
    ("19 for half-filled rows alone", &[Filled, Damaged], |s| {
        s.code == 19 && s.any_key(|k| k.is_out_of_range() && k.moves_by_halves())
    }),
];

pub const SITUATIONS: ByOutcome<Situation> = ByOutcome {
    statements: &[ENTERED, FORMS, PARENTS, ACTIONS],
    rollbacks: &[ROLLBACKS],
    refused: &[REFUSED],
};

impl Seen<'_> {
    /// The names of the situations that the call shows.
    pub fn shown(&self) -> impl Iterator<Item = &'static str> + '_ {
        let shown = SITUATIONS.of(self.code, self.call);
        shown
            .filter(|situation| (situation.2)(self))
            .map(|situation| situation.0)
    }

    fn any_key(&self, is: impl Fn(&OfKey) -> bool) -> bool {
        self.keys.iter().any(is)
    }

    /// Whether a key of MATCH FULL is so.
    fn any_match_full(&self, is: impl Fn(&OfKey) -> bool) -> bool {
        self.any_key(|k| k.is_match_full() && is(k))
    }

    /// Whether a key of MATCH FULL that cannot wait is so.
    fn any_unsettled(&self, is: impl Fn(&OfKey) -> bool) -> bool {
        self.any_match_full(|k| !k.waits && is(k))
    }

    fn is_kind_11(&self) -> bool {
        matches!(self.call, Call::Search(search) if search.set.is_some())
    }

    /// Whether a row comes to have such a half-filled key of MATCH FULL.
    fn counted(&self, such: impl Fn(&Row) -> bool) -> bool {
        let such = |c: &Child| c.is_half_filled_now() && c.new.iter().any(&such);
        self.any_match_full(|k| k.any(such))
    }

    /// Whether a row that comes to be half-filled under MATCH FULL is so under another key.
    fn half_filled_beside(&self, such: fn(&OfKey, &OfKey, &Child) -> bool) -> bool {
        let beside = |full: &OfKey, number: usize| {
            let mut others = self.keys.iter().filter(|k| k.key.child == full.key.child);
            others.any(|other| such(full, other, &other.children[number]))
        };
        self.any_match_full(|full| {
            let mut rows = full.children.iter().enumerate();
            rows.any(|(number, c)| c.is_half_filled_now() && beside(full, number))
        })
    }

    /// Whether there is such a parent: the half-filled child key, its own key before and after.
    fn beside_half(&self, such: fn(&Row, &Option<Row>, &Option<Row>) -> bool) -> bool {
        self.any_match_full(|k| {
            let mut halves = k.children.iter().filter_map(Child::kept_half);
            halves.any(|half| k.parents.iter().any(|(old, new)| such(half, old, new)))
        })
    }

    /// Whether the action passes over a half-filled row that has the old values where it is filled.
    fn passed_over(&self, action: Action) -> bool {
        self.any_match_full(|k| match &k.fired {
            Some((old, fired)) if *fired == action => {
                let mut halves = k.children.iter().filter_map(Child::kept_half);
                halves.any(|half| equal_where_filled(half, old))
            }
            _ => false,
        })
    }

    /// Whether the keys that must have no orphan and have some have half-filled ones alone.
    fn unsettled_by_halves(&self) -> bool {
        let mut unsettled = self.keys.iter().filter(|k| !k.waits && k.kept_after() != 0);
        unsettled.all(OfKey::has_halves_alone)
    }
}

/// How many values of a key are NULL.
fn nulls(key: &Row) -> usize {
    key.iter().filter(|value| value.is_none()).count()
}

/// Whether a parent key has no NULL and is equal to a half-filled key where that is filled.
fn like(half: &Row, parent_key: &Option<Row>) -> bool {
    let mut key = parent_key.iter().filter(|key| full(key));
    key.any(|key| equal_where_filled(half, key))
}

fn same_columns(one: &OfKey, other: &OfKey) -> bool {
    let mut columns = one.key.child_columns.iter();
    one.key.child_columns.len() == other.key.child_columns.len()
        && columns.all(|column| other.key.child_columns.contains(column))
}

fn share_column(one: &OfKey, other: &OfKey) -> bool {
    let mut columns = one.key.child_columns.iter();
    columns.any(|column| other.key.child_columns.contains(column))
}
