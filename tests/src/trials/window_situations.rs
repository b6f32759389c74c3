//! What there is to see in calls on schemas with windowed keys, by name, so that it can be counted.

use super::origins::Origin::{self, Damaged, Filled};
use super::origins::ANY;
use super::seen::{Seen, Situation};
use super::window_seen::{days, is_served, names, next, parent_keys, Pair};
use crate::model::change::Kind;
use crate::model::folding::folded;
use crate::model::keys::{empty, full, maps, row_maps};
use crate::model::schema::{mark_of, Action, Key, Match, Row, Value};
use crate::model::windows::share_a_day;

/// Areas in which windows can share days, or hold none.
const MADE: &[Origin] = &[Filled, Damaged];

/// Child rows that are written, and the windows in which their days lie.
const CHILDREN: &[Situation] = &[
    ("the first day served", ANY, |s| {
        s.any_pair(true, |pair| pair.day() == pair.first())
    }),
    ("the last day served", ANY, |s| {
        s.any_pair(true, |pair| next(pair.day()) == pair.end())
    }),
    ("a day between served", ANY, |s| {
        s.any_pair(true, |pair| {
            pair.day() > pair.first() && next(pair.day()) < pair.end()
        })
    }),
    ("the end's day not served", ANY, |s| {
        s.any_pair(false, |pair| pair.day() == pair.end() && full(pair.parent))
    }),
    ("the day before the first not served", ANY, |s| {
        s.any_pair(false, |pair| {
            pair.day().is_some() && next(pair.day()) == pair.first()
        })
    }),
    ("served by a key of 2 columns", ANY, |s| s.served_by(2)),
    ("served by a key of 3 columns", ANY, |s| s.served_by(3)),
    ("served by a key of 4 columns", ANY, |s| s.served_by(4)),
    ("a window from before 0 until after it", ANY, |s| {
        s.any_pair(true, |pair| pair.first() < Some(0) && pair.end() > Some(0))
    }),
    ("the lowest day served", ANY, |s| {
        s.any_pair(true, |pair| pair.day() == Some(i64::MIN))
    }),
    ("the last day before the highest served", ANY, |s| {
        s.any_pair(true, |pair| pair.day() == Some(i64::MAX - 1))
    }),
    ("the highest day not served", ANY, |s| {
        s.any_pair(false, |pair| pair.day() == Some(i64::MAX))
    }),
    ("a name in another spelling served", ANY, |s| {
        s.served_in_another_spelling()
    }),
    ("a day served that is not if folded", ANY, |s| {
        s.any_pair(true, |pair| !holds_folded(pair))
    }),
    ("a day not served that is if folded", ANY, |s| {
        s.any_pair(false, holds_folded)
    }),
    ("not served by a parent whose end is NULL", ANY, |s| {
        s.any_pair(false, |pair| {
            pair.end().is_none() && pair.first().is_some() && pair.first() <= pair.day()
        })
    }),
    ("not served by a parent whose first day is NULL", ANY, |s| {
        s.any_pair(false, |pair| {
            pair.first().is_none() && pair.day().is_some() && pair.end() > pair.day()
        })
    }),
    ("NULL day under MATCH FULL", ANY, |s| {
        s.null_day(Match::Full)
    }),
    ("NULL day under MATCH SIMPLE", ANY, |s| {
        s.null_day(Match::Simple)
    }),
    ("NULL name beside a day under MATCH FULL", ANY, |s| {
        s.any_child(|key, child, _| {
            let day = child[child.len() - 1];
            key.matching == Match::Full && day.is_some() && !full(child)
        })
    }),
    ("every column NULL under MATCH FULL", ANY, |s| {
        s.any_child(|key, child, _| key.matching == Match::Full && empty(child))
    }),
    ("a row in its own window", ANY, |s| s.serves_itself()),
    ("served by two parents", MADE, |s| {
        s.any_child(|key, child, parents| {
            let serves = |parent: &&(usize, Row)| maps(key, child, &parent.1);
            parents.iter().filter(serves).count() > 1
        })
    }),
    ("not served by an empty window on its day", MADE, |s| {
        s.any_pair(false, |pair| {
            pair.day() == pair.first() && pair.first() == pair.end() && pair.day().is_some()
        })
    }),
    (
        "not served by a window that ends before it begins",
        MADE,
        |s| {
            s.any_pair(false, |pair| {
                pair.end() <= pair.day() && pair.day() < pair.first() && full(pair.parent)
            })
        },
    ),
];

/// Parent rows that are refused by 24, or by what comes before it.
const REFUSED: &[Situation] = &[
    ("24 for an end on the first day", ANY, |s| {
        s.refused_for(|first, end| first == end)
    }),
    ("24 for an end before the first day", ANY, |s| {
        s.refused_for(|first, end| end < first)
    }),
    ("24 for a window that begins before", ANY, |s| {
        s.refused_beside(|own, other| share_a_day(own, other) && other.0 < own.0)
    }),
    ("24 for a window that ends after", ANY, |s| {
        s.refused_beside(|own, other| share_a_day(own, other) && other.1 > own.1)
    }),
    ("24 for a window inside", ANY, |s| {
        s.refused_beside(|own, other| own.0 < other.0 && other.0 < other.1 && other.1 < own.1)
    }),
    ("24 for a window around", ANY, |s| {
        s.refused_beside(|own, other| other.0 < own.0 && own.0 < own.1 && own.1 < other.1)
    }),
    ("24 for one day shared", ANY, |s| {
        s.refused_beside(|own, other| {
            share_a_day(own, other) && next(own.0.max(other.0)) == own.1.min(other.1)
        })
    }),
    ("24 for a name in another spelling", ANY, |s| {
        s.code == 24 && s.shares_in_another_spelling()
    }),
    ("24 under another key than the first", ANY, |s| {
        s.code == 24 && s.passes_first_window()
    }),
    ("24 upon an insert", ANY, |s| s.refused_at(Kind::Insert)),
    ("24 upon an update", ANY, |s| s.refused_at(Kind::Update)),
    ("24 at an action's row", ANY, |s| {
        s.refused(24).map_or(false, |step| step.action.is_some())
    }),
    ("24 at a row of kind 11", ANY, |s| {
        s.code == 24 && s.search(11).is_some()
    }),
    ("24 at a later row of kind 11", ANY, |s| {
        s.code == 24 && s.search(11).is_some() && s.steps.len() > 1
    }),
    ("17 where 24 is due", ANY, |s| s.both_due(17, 24)),
    ("16 where 24 is due", ANY, |s| s.both_due(16, 24)),
    ("23 where 24 is due", ANY, |s| s.both_due(23, 24)),
    ("15 where 24 is due", ANY, |s| s.both_due(15, 24)),
    ("24 where no value is altered", MADE, |s| {
        s.refused(24)
            .map_or(false, |step| step.old == step.new && step.due == [24])
    }),
    ("24 beside the columns of the window", MADE, |s| {
        s.code == 24
            && s.any_window(|key, own, _, step| {
                let old = step
                    .old
                    .as_ref()
                    .map(|old| key.compared(&key.parent_key(old)));
                step.old != step.new && old.as_ref() == Some(own) && step.due == [24]
            })
    }),
];

/// Parent rows that pass 24.
const PASSED: &[Situation] = &[
    ("a window that touches the one before", ANY, |s| {
        s.passed_touching(|own, other| own.0 == other.1)
    }),
    ("a window that touches the one after", ANY, |s| {
        s.passed_touching(|own, other| own.1 == other.0)
    }),
    ("days shared under another name", ANY, |s| {
        s.passed_beside(|own, other| {
            full(own)
                && full(other)
                && names(own) != names(other)
                && share_a_day(days(own), days(other))
        })
    }),
    ("NULL in its end beside another's window", ANY, |s| {
        s.passed_beside(|own, other| {
            names(own) == names(other)
                && own[own.len() - 1].is_none()
                && full(&names(own).to_vec())
                && days(own).0.is_some()
                && days(own).0 < days(other).1
        })
    }),
    ("NULL in another's end", ANY, |s| {
        s.passed_beside(|own, other| {
            let (first, end) = days(other);
            full(own) && names(own) == names(other) && end.is_none() && first < days(own).1
        })
    }),
    ("NULL in its name beside another's", ANY, |s| {
        s.passed_beside(|own, other| {
            !full(&names(own).to_vec())
                && names(own) == names(other)
                && share_a_day(days(own), days(other))
        })
    }),
    ("an empty window of another inside it", MADE, |s| {
        s.passed_beside(|own, other| {
            let (own_days, (first, end)) = (days(own), days(other));
            names(own) == names(other)
                && full(own)
                && full(other)
                && end <= first
                && own_days.0 < end
                && first < own_days.1
        })
    }),
    ("a row that shares days deleted", MADE, |s| {
        s.code == 0
            && s.any_window(|_, own, others, step| {
                let shares =
                    |other: &Row| names(own) == names(other) && share_a_day(days(own), days(other));
                step.kind == Kind::Delete && full(own) && others.iter().any(shares)
            })
    }),
    ("no window for a broken key", ANY, |s| {
        let mut broken = s
            .schema
            .keys
            .iter()
            .filter(|k| k.broken && k.window.is_some());
        let step = match s.steps.first() {
            Some(step) if s.code != 24 && step.kind == Kind::Insert => step,
            _ => return false,
        };
        broken.any(|key| {
            let new = step.new.as_ref().filter(|_| step.table == key.parent);
            let own = new.map(|new| key.parent_key(new));
            own.map_or(false, |own| full(&own) && days(&own).1 <= days(&own).0)
        })
    }),
];

/// Child rows of windowed keys that are taken.
const TAKEN: &[Situation] = &[
    ("RESTRICT keeps a row that stays, the end moved", ANY, |s| {
        s.kept_by_restrict(|old, new| old.0 == new.0 && old.1 != new.1)
    }),
    (
        "RESTRICT keeps a row that stays, the first day moved",
        ANY,
        |s| s.kept_by_restrict(|old, new| old.0 != new.0 && old.1 == new.1),
    ),
    ("RESTRICT refuses a shorter window", ANY, |s| {
        s.refused_by_restrict(|old, new| old.0 == new.0 && new.1 < old.1 && new.1.is_some())
    }),
    ("RESTRICT refuses a later first day", ANY, |s| {
        s.refused_by_restrict(|old, new| old.0 < new.0 && new.1 == old.1)
    }),
    ("RESTRICT refuses NULL in the end", ANY, |s| {
        s.refused_by_restrict(|old, new| old.0 == new.0 && new.1.is_none())
    }),
    ("RESTRICT refuses another name", ANY, |s| {
        s.refused_by_restrict(|old, new| old == new)
    }),
    ("RESTRICT refuses a deletion", ANY, |s| {
        s.code == 18
            && s.any_fired_of_window(|_, fired| {
                fired.action == Action::Restrict
                    && fired.new_key.is_none()
                    && !fired.found.is_empty()
            })
    }),
    ("RESTRICT refuses after a row that stays", ANY, |s| {
        s.code == 18
            && s.updates(|key, (_, new), found| {
                let stays = |child: &Row| maps(key, child, new);
                found.iter().any(stays) && !found.iter().all(stays)
            })
    }),
    ("RESTRICT refuses although another serves", MADE, |s| {
        s.code == 18
            && s.updates(|key, (_, new), found| {
                let parents = parent_keys(&s.after, key);
                let on = |child: &Row| !maps(key, child, new) && is_served(key, child, &parents);
                found.iter().any(on)
            })
    }),
    ("RESTRICT after the row is changed again", ANY, |s| {
        s.changes_again() && s.any_fired_of_window(|_, fired| fired.action == Action::Restrict)
    }),
    ("NO ACTION leaves orphans by a shorter window", ANY, |s| {
        s.left_by_no_action(|old, new| old.0 == new.0 && new.1 < old.1)
    }),
    ("NO ACTION leaves orphans by a later first day", ANY, |s| {
        s.left_by_no_action(|old, new| old.0 < new.0)
    }),
    ("NO ACTION refused by 20", ANY, |s| {
        s.code == 20 && s.updates(|key, (_, new), found| found.iter().any(|c| !maps(key, c, new)))
    }),
    ("the first day in another spelling is a change", ANY, |s| {
        s.updates(|key, (old, new), _| {
            let (old_first, first) = (days(old).0, days(new).0);
            let mark = mark_of(
                &s.schema.tables,
                key.parent,
                key.parent_columns[names(new).len()],
            );
            mark.is_some() && old_first != first && old_first.map(folded) == first.map(folded)
        })
    }),
    ("served on by another after a deletion", MADE, |s| {
        s.code == 0 && s.served_on(true)
    }),
    ("served on by another after an update", MADE, |s| {
        s.code == 0 && s.served_on(false)
    }),
    ("mended by a longer window", ANY, |s| {
        s.mended_by_window(|old, _| old.is_some())
    }),
    ("mended by a new row", ANY, |s| {
        s.mended_by_window(|old, _| old.is_none())
    }),
];

/// Kinds 10 and 11.
const SEARCHES: &[Situation] = &[
    ("kind 10 deletes parents", ANY, |s| {
        s.search(10).is_some()
            && s.any_step_of_window(|key, step| {
                step.table == key.parent && step.kind == Kind::Delete
            })
    }),
    ("kind 11 sets a first day", ANY, |s| {
        s.sets(|key| (key.parent, key.parent_columns[key.parent_columns.len() - 1]))
    }),
    ("kind 11 sets an end", ANY, |s| {
        s.sets(|key| (key.parent, key.columns_in_parent().last().unwrap_or(0)))
    }),
    ("kind 11 sets a day", ANY, |s| {
        s.sets(|key| (key.child, key.child_columns[key.child_columns.len() - 1]))
    }),
];

/// All situations.
pub const SITUATIONS: [&[Situation]; 5] = [CHILDREN, REFUSED, PASSED, TAKEN, SEARCHES];

/// Whether the day lies in the window once all are folded.
fn holds_folded(pair: &Pair) -> bool {
    let [day, first, end] = [pair.day(), pair.first(), pair.end()].map(|day| day.map(folded));
    full(pair.parent) && day.is_some() && first <= day && day < end
}

type Days = (Value, Value);

impl Seen<'_> {
    fn served_by(&self, columns: usize) -> bool {
        self.any_pair(true, |pair| pair.child.len() == columns)
    }

    /// Whether a row that was written lies in its own window.
    fn serves_itself(&self) -> bool {
        let mut own = self.windowed().filter(|key| key.child == key.parent);
        own.any(|key| {
            let mut rows = self.written(key.child);
            rows.any(|row| row_maps(key, &row, &row))
        })
    }

    /// Whether the first row change passes 24 by the first windowed key of its table.
    fn passes_first_window(&self) -> bool {
        let step = match self.steps.first() {
            Some(step) if step.due == [24] => step,
            _ => return false,
        };
        let mut of_table = self.windowed().filter(|key| key.parent == step.table);
        let first = of_table.next();
        self.any_window(|key, own, others, _| {
            let shares = |other: &Row| {
                full(other) && names(own) == names(other) && share_a_day(days(own), days(other))
            };
            let is_first = first.map_or(false, |first| std::ptr::eq(first, key));
            let passes = !full(own) || days(own).0 < days(own).1 && !others.iter().any(shares);
            is_first && passes
        })
    }

    fn null_day(&self, matching: Match) -> bool {
        self.any_child(|key, child, _| {
            let (day, others) = (child[child.len() - 1], child[..child.len() - 1].to_vec());
            key.matching == matching && day.is_none() && full(&others)
        })
    }

    /// Whether a child row that was written is served by a parent whose name is spelled otherwise.
    fn served_in_another_spelling(&self) -> bool {
        self.windowed().any(|key| {
            let parents = self.after.live_rows(key.parent);
            self.written(key.child).any(|row| {
                let child = key.child_key(&row);
                let otherwise = |parent: &Row| names(parent) != &child[..child.len() - 1];
                parents.iter().any(|(_, parent)| {
                    let parent = key.parent_key(parent);
                    otherwise(&parent) && maps(key, &key.compared(&child), &key.compared(&parent))
                })
            })
        })
    }

    /// Whether the first row change writes a window that shares a day with one under a name that is
    /// equal and not spelled alike.
    fn shares_in_another_spelling(&self) -> bool {
        let step = match self.steps.first() {
            Some(step) => step,
            None => return false,
        };
        self.any_window(|key, own, _, _| {
            let rows = self.before.live_rows(key.parent).into_iter();
            let mut others = rows.filter(|(number, _)| *number != step.row);
            let typed = step.new.as_ref().map(|new| key.parent_key(new));
            others.any(|(_, other)| {
                let other = key.parent_key(&other);
                let compared = key.compared(&other);
                full(own)
                    && names(own) == names(&compared)
                    && typed
                        .as_ref()
                        .map_or(false, |own| names(own) != names(&other))
                    && share_a_day(days(own), days(&compared))
            })
        })
    }

    /// Whether the first row change is refused by 24 for its own window.
    fn refused_for(&self, such: fn(Value, Value) -> bool) -> bool {
        self.code == 24
            && self.any_window(|_, own, _, step| {
                let (first, end) = days(own);
                full(own) && step.due.contains(&24) && such(first, end)
            })
    }

    fn refused_at(&self, kind: Kind) -> bool {
        self.refused(24).map_or(false, |step| step.kind == kind)
    }

    fn passed_touching(&self, such: fn(Days, Days) -> bool) -> bool {
        self.passed_beside(|own, other| {
            full(own) && full(other) && names(own) == names(other) && such(days(own), days(other))
        })
    }

    /// Whether a window is moved so under a key of this action, and a child row taken is so: the key,
    /// the child key and the new parent key.
    fn moves(
        &self,
        action: Action,
        such: fn(Days, Days) -> bool,
        taken: impl Fn(&Key, &Row, &Row) -> bool,
    ) -> bool {
        self.updates(|key, (old, new), found| {
            key.on_update == action
                && such(days(old), days(new))
                && found.iter().any(|child| taken(key, child, new))
        })
    }

    /// Whether a child row that is taken under RESTRICT stays in a window moved so.
    fn kept_by_restrict(&self, such: fn(Days, Days) -> bool) -> bool {
        self.code == 0
            && self.any_fired_of_window(|_, fired| fired.action == Action::Restrict)
            && self.moves(Action::Restrict, such, maps)
    }

    /// Whether RESTRICT refuses at a child row that does not stay in a window moved so.
    fn refused_by_restrict(&self, such: fn(Days, Days) -> bool) -> bool {
        let strays = |key: &Key, child: &Row, new: &Row| !maps(key, child, new);
        self.code == 18 && self.moves(Action::Restrict, such, strays)
    }

    /// Whether NO ACTION leaves a child row that is an orphan after a window was moved so.
    fn left_by_no_action(&self, such: fn(Days, Days) -> bool) -> bool {
        let orphan = |key: &Key, child: &Row, _: &Row| {
            !is_served(key, child, &parent_keys(&self.after, key))
        };
        self.code == 0 && self.moves(Action::NoAction, such, orphan)
    }
}
