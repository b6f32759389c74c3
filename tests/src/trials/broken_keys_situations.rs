//! What there is to see in calls and orphan lists on schemas with broken foreign keys, by name, so
//! that it can be counted. Child rows of a broken key are not there in reached areas.

use super::broken_by;
use super::by_outcome::ByOutcome;
use super::origins::Origin::{self, Damaged, Filled, Reached};
use super::origins::ANY;
use super::seen::{Seen, Situation};
use super::trace::Step;
use super::watched::OfList;
use crate::model::area::Area;
use crate::model::change::Kind;
use crate::model::form::Call;
use crate::model::keys::{empty, half_filled, unserved};
use crate::model::schema::{Action, Key, Match, Row};
use std::collections::BTreeSet;

/// Where rows of the child table of a broken key can be.
const WITH_CHILDREN: &[Origin] = &[Filled, Damaged];

/// Statements that are accepted.
const ACCEPTED: &[Situation] = &[
    (
        "a row that no broken key touches, entered",
        ANY,
        |s| matches!(s.call, Call::Insert(table, ..) if !s.touched(*table)),
    ),
    (
        "a row that no broken key touches, updated",
        ANY,
        |s| matches!(s.call, Call::Update(table, ..) if !s.touched(*table)),
    ),
    (
        "a row that no broken key touches, deleted",
        ANY,
        |s| matches!(s.call, Call::Delete(table, _) if !s.touched(*table)),
    ),
    (
        "a parent row entered",
        ANY,
        |s| matches!(s.call, Call::Insert(table, ..) if s.is_parent(*table)),
    ),
    (
        "a child row deleted",
        WITH_CHILDREN,
        |s| matches!(s.call, Call::Delete(table, _) if s.is_child(*table)),
    ),
    ("child rows deleted by kind 10", WITH_CHILDREN, |s| {
        s.found_by(10, Seen::is_child) && !s.steps.is_empty()
    }),
    ("a child row deleted by CASCADE", WITH_CHILDREN, |s| {
        s.any_step(|step| step.action.is_some() && s.is_child(step.table))
    }),
    ("kind 10 finds no child row", ANY, |s| {
        s.found_by(10, Seen::is_child) && s.steps.is_empty()
    }),
    ("kind 11 finds no child row", ANY, |s| {
        s.found_by(11, Seen::is_child) && s.steps.is_empty()
    }),
    ("kind 10 finds no parent row", ANY, |s| {
        s.found_by(10, Seen::is_parent) && s.steps.is_empty()
    }),
    ("kind 11 finds no parent row", ANY, |s| {
        s.found_by(11, Seen::is_parent) && s.steps.is_empty()
    }),
    ("orphans of a whole key beside a broken one", ANY, |s| {
        s.before.kept() != s.after.kept()
    }),
    (
        "a deferred broken key's kept number waits",
        WITH_CHILDREN,
        |s| s.any_kept(|key| key.broken),
    ),
];

/// Rollbacks that are accepted.
const ROLLBACKS: &[Situation] = &[
    ("a rollback takes a parent row away", ANY, |s| {
        let tables = s.broken().map(|key| key.parent);
        s.any_row(tables, |before, after| before.is_some() && after.is_none())
    }),
    ("a rollback puts a child row back", WITH_CHILDREN, |s| {
        let tables = s.broken().map(|key| key.child);
        s.any_row(tables, |before, after| before.is_none() && after.is_some())
    }),
];

/// What breaks a key by which a row change is refused.
const BREAKS: &[Situation] = &[
    (broken_by::CAUSES[0], ANY, |s| s.refused_by_cause(0)),
    (broken_by::CAUSES[1], ANY, |s| s.refused_by_cause(1)),
    (broken_by::CAUSES[2], ANY, |s| s.refused_by_cause(2)),
    (broken_by::CAUSES[3], ANY, |s| s.refused_by_cause(3)),
    (broken_by::CAUSES[4], ANY, |s| s.refused_by_cause(4)),
    (broken_by::CAUSES[5], ANY, |s| s.refused_by_cause(5)),
    ("23 by parent table 255", ANY, |s| {
        s.refused_by(|key| key.parent == 255)
    }),
    ("23 by parent column 255", ANY, |s| {
        s.refused_by(|key| key.parent_columns.contains(&255))
    }),
    ("23 by a deferred key in a transaction", ANY, |s| {
        s.before.in_transaction() && s.refused_by(|key| key.deferred)
    }),
    ("23 by a deferred key outside", ANY, |s| {
        !s.before.in_transaction() && s.refused_by(|key| key.deferred)
    }),
    ("23 by an immediate key", ANY, |s| {
        s.refused_by(|key| !key.deferred)
    }),
    ("23 by a key of MATCH FULL", ANY, |s| {
        s.refused_by(|key| key.matching == Match::Full)
    }),
    ("23 by a key of two or more columns", ANY, |s| {
        s.refused_by(|key| key.child_columns.len() > 1)
    }),
];

/// The statement's own row change is refused by 23.
const OWN: &[Situation] = &[
    ("23 for a child row entered", ANY, |s| {
        s.own(Kind::Insert, |_, used| !empty(&used.child_key))
    }),
    ("23 for a child row entered with an empty key", ANY, |s| {
        s.own(Kind::Insert, |_, used| empty(&used.child_key))
    }),
    ("23 for a child row updated", WITH_CHILDREN, |s| {
        s.own(Kind::Update, |_, used| {
            used.by_child && !empty(&used.child_key)
        })
    }),
    (
        "23 for a child row updated with an empty key",
        WITH_CHILDREN,
        |s| {
            s.own(Kind::Update, |_, used| {
                used.by_child && empty(&used.child_key)
            })
        },
    ),
    ("23 for a child row, nothing altered", WITH_CHILDREN, |s| {
        s.own(Kind::Update, |step, used| {
            used.by_child && step.old == step.new
        })
    }),
    ("23 for a parent row updated", ANY, |s| {
        s.own(Kind::Update, |step, used| {
            !used.by_child && step.old != step.new
        })
    }),
    ("23 for a parent row, nothing altered", ANY, |s| {
        s.own(Kind::Update, |step, used| {
            !used.by_child && step.old == step.new
        })
    }),
    ("23 for a parent row deleted", ANY, |s| {
        s.own(Kind::Delete, |_, _| true)
    }),
    (
        "23 for a row entered under a self-referring key",
        ANY,
        |s| s.own(Kind::Insert, |_, used| used.is_self_referring()),
    ),
    (
        "23 for a row updated under a self-referring key",
        WITH_CHILDREN,
        |s| s.own(Kind::Update, |_, used| used.is_self_referring()),
    ),
    (
        "23 for a row deleted under a self-referring key",
        WITH_CHILDREN,
        |s| s.own(Kind::Delete, |_, used| used.is_self_referring()),
    ),
    (
        "23 for a row of one key's child, another's parent",
        ANY,
        |s| {
            let between = |step: &Step| s.is_child(step.table) && s.is_parent(step.table);
            s.refused(23).map_or(false, between)
        },
    ),
    ("23 by kind 10 for a parent row", ANY, |s| {
        s.search(10).is_some() && s.own(Kind::Delete, |_, _| true)
    }),
    ("23 by kind 11 for a parent row", ANY, |s| {
        s.search(11).is_some() && s.own(Kind::Update, |_, used| !used.by_child)
    }),
    ("23 by kind 11 for a child row", WITH_CHILDREN, |s| {
        s.search(11).is_some() && s.own(Kind::Update, |_, used| used.by_child)
    }),
];

/// An action's row change is refused by 23.
const ACTIONS: &[Situation] = &[
    ("23 for CASCADE that deletes a parent row", ANY, |s| {
        s.by_action(Action::Cascade, Kind::Delete, Seen::is_parent)
    }),
    ("23 for CASCADE that updates a parent row", ANY, |s| {
        s.by_action(Action::Cascade, Kind::Update, Seen::is_parent)
    }),
    ("23 for SET NULL that updates a parent row", ANY, |s| {
        s.by_action(Action::SetNull, Kind::Update, Seen::is_parent)
    }),
    ("23 for SET DEFAULT that updates a parent row", ANY, |s| {
        s.by_action(Action::SetDefault, Kind::Update, Seen::is_parent)
    }),
    (
        "23 for CASCADE that updates a child row",
        WITH_CHILDREN,
        |s| s.by_action(Action::Cascade, Kind::Update, Seen::is_child),
    ),
    (
        "23 for SET NULL that updates a child row",
        WITH_CHILDREN,
        |s| s.by_action(Action::SetNull, Kind::Update, Seen::is_child),
    ),
    (
        "23 for SET DEFAULT that updates a child row",
        WITH_CHILDREN,
        |s| s.by_action(Action::SetDefault, Kind::Update, Seen::is_child),
    ),
    ("23 at depth 3 or more", ANY, |s| {
        s.refused(23).map_or(false, |step| step.depth > 2)
    }),
    ("23 after three or more rows, all put back", ANY, |s| {
        s.refused(23).is_some() && s.steps.len() > 3
    }),
    ("23 at a later row of kind 10 or 11", ANY, |s| {
        let own = s.steps.iter().filter(|step| step.depth == 1);
        s.refused(23).is_some() && own.count() > 1
    }),
];

/// Which refusal comes first.
const ORDER: &[Situation] = &[
    ("11 where 23 would be due", ANY, |s| {
        let wants_row = |table: &usize| s.is_child(*table) || s.is_parent(*table);
        s.code == 11
            && matches!(s.call, Call::Update(table, ..) | Call::Delete(table, _) if wants_row(table))
    }),
    ("14 where 23 is due", &[Reached, Damaged], |s| {
        s.both_due(14, 23)
    }),
    ("15 where 23 is due", ANY, |s| s.both_due(15, 23)),
    ("23 where 16 is due", ANY, |s| s.both_due(23, 16)),
    ("23 where 17 is due", ANY, |s| s.both_due(23, 17)),
    ("23 where 16 and 17 are due", WITH_CHILDREN, |s| {
        s.both_due(23, 16) && s.both_due(23, 17)
    }),
    ("18 before an action's 23", ANY, |s| {
        s.code == 18 && s.code_without_restrict() == 23
    }),
    ("an action's 23 before 18", ANY, |s| {
        s.refused(23).map_or(false, |step| step.depth > 1) && s.code_without_broken() == 18
    }),
];

/// Kept numbers of broken keys, which only damage makes other than 0.
const KEPT: &[Situation] = &[
    ("10 for a broken key's kept number", &[Damaged], |s| {
        let out_of_range = |(key, kept): (&Key, &i64)| {
            key.broken && !(0..=s.schema.tables[key.child].rows as i64).contains(kept)
        };
        let mut kept = s.schema.keys.iter().zip(s.before.kept());
        s.code == 10 && kept.any(out_of_range)
    }),
    (
        "20 for a broken key's kept number alone",
        WITH_CHILDREN,
        |s| s.code == 20 && s.unsettled(|key| key.broken) && !s.unsettled(|key| !key.broken),
    ),
    (
        "20 for a broken key's kept number, no row found",
        WITH_CHILDREN,
        |s| s.code == 20 && s.steps.is_empty() && s.unsettled(|key| key.broken),
    ),
    (
        "23 where a broken key's kept number is not 0",
        WITH_CHILDREN,
        |s| s.code == 23 && s.any_kept(|key| key.broken),
    ),
    (
        "21 for a broken key's kept number alone",
        WITH_CHILDREN,
        |s| s.code == 21 && s.any_kept(|key| key.broken) && !s.any_kept(|key| !key.broken),
    ),
];

/// Orphan lists. A row would be listed if its broken key was whole.
pub const OF_LISTS: &[OfList] = &[
    ("rows of a broken key not listed", WITH_CHILDREN, |area| {
        any_unserved(area, |_, _| true)
    }),
    (
        "rows of a missing parent table not listed",
        WITH_CHILDREN,
        |area| any_unserved(area, |key, _| key.parent >= area.schema.tables.len()),
    ),
    (
        "half-filled rows of a broken key of MATCH FULL not listed",
        WITH_CHILDREN,
        |area| any_unserved(area, |_, row| half_filled(row)),
    ),
    ("a list on a schema with a broken key", ANY, |area| {
        area.schema.any_broken()
    }),
];

pub const SITUATIONS: ByOutcome<Situation> = ByOutcome {
    statements: &[ACCEPTED],
    rollbacks: &[ROLLBACKS],
    refused: &[BREAKS, OWN, ACTIONS, ORDER, KEPT],
};

/// The names of the situations that a call shows: none where no key is broken.
pub fn shown(seen: &Seen) -> Vec<&'static str> {
    let situations = SITUATIONS.of(seen.code, seen.call);
    seen.shown(situations.filter(|_| seen.schema.any_broken()))
}

/// Whether a live row that no parent serves, with such a child key, belongs to a broken key.
fn any_unserved(area: &Area, such: impl Fn(&Key, &Row) -> bool) -> bool {
    let any_of = |key: &Key| {
        let parents = area.live_rows(key.parent).into_iter();
        let parent_keys = parents.map(|(_, row)| key.compared(&key.parent_key(&row)));
        let parent_keys: BTreeSet<Row> = parent_keys.collect();
        let rows = area.live_rows(key.child).into_iter();
        let mut child_keys = rows.map(|(_, row)| key.compared(&key.child_key(&row)));
        child_keys.any(|child| unserved(key, &child, &parent_keys) && such(key, &child))
    };
    let mut broken = area.schema.keys.iter().filter(|key| key.broken);
    broken.any(any_of)
}

/// A broken key that a row change uses.
struct Used<'a> {
    key: &'a Key,
    /// Whether an insert or an update of a child row uses it.
    by_child: bool,
    /// The new child key of that row.
    child_key: Row,
}

impl<'a> Used<'a> {
    fn new(key: &'a Key, step: &Step) -> Used<'a> {
        let new = step.new.as_ref().filter(|_| key.child == step.table);
        Used {
            key,
            by_child: new.is_some(),
            child_key: new.map_or(Vec::new(), |row| key.child_key(row)),
        }
    }

    fn is_self_referring(&self) -> bool {
        self.key.child == self.key.parent
    }
}

impl Seen<'_> {
    fn touched(&self, table: usize) -> bool {
        self.is_child(table) || self.is_parent(table)
    }

    /// Whether it is a search of this kind in such a table.
    fn found_by(&self, kind: i64, such: fn(&Self, usize) -> bool) -> bool {
        let search = self.search(kind);
        search.map_or(false, |search| such(self, search.table))
    }

    /// Whether a row of these tables is so before the call and after it.
    fn any_row(
        &self,
        tables: impl Iterator<Item = usize>,
        such: fn(&Option<Row>, &Option<Row>) -> bool,
    ) -> bool {
        let mut tables = tables.filter(|&table| table < self.schema.tables.len());
        tables.any(|table| {
            let mut rows = 0..self.schema.tables[table].rows;
            rows.any(|row| such(&self.before.row(table, row), &self.after.row(table, row)))
        })
    }

    /// Whether 23 is given where such a broken key is used.
    fn refused_by(&self, such: impl Fn(&Key) -> bool) -> bool {
        let step = self.refused(23);
        step.map_or(false, |step| self.used(step).any(such))
    }

    /// Whether 23 is given where each broken key that is used is broken so.
    fn refused_by_cause(&self, number: usize) -> bool {
        let name = broken_by::CAUSES[number];
        let otherwise = |key: &Key| broken_by::of(self.schema, key) != [name];
        self.refused(23).is_some() && !self.refused_by(otherwise)
    }

    /// Whether 23 is given for the statement's own row by a change of this kind that so uses a broken
    /// key.
    fn own(&self, kind: Kind, so: fn(&Step, &Used) -> bool) -> bool {
        let step = match self.refused(23) {
            Some(step) if step.depth == 1 && step.kind == kind => step,
            _ => return false,
        };
        self.used(step).any(|key| so(step, &Used::new(key, step)))
    }

    /// Whether 23 is given for a row change by this action on such a table.
    fn by_action(&self, action: Action, kind: Kind, such: fn(&Self, usize) -> bool) -> bool {
        let so = |step: &Step| {
            (step.action, step.kind) == (Some(action), kind) && such(self, step.table)
        };
        self.refused(23).map_or(false, so)
    }

    /// Whether such a key has a kept number that is not 0 before the call.
    fn any_kept(&self, such: fn(&Key) -> bool) -> bool {
        let mut kept = self.schema.keys.iter().zip(self.before.kept());
        kept.any(|(key, &number)| number != 0 && such(key))
    }

    /// Whether such a key that cannot wait comes to have a kept number that is not 0.
    fn unsettled(&self, such: fn(&Key) -> bool) -> bool {
        let waits = |key: &Key| key.deferred && self.before.in_transaction();
        let mut kept = self.schema.keys.iter().zip(self.kept_after());
        kept.any(|(key, number)| number != 0 && !waits(key) && such(key))
    }
}
