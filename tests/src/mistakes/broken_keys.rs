//! Mistakes in broken foreign keys: which row changes use them, when that is judged, and what becomes
//! of their orphans and kept numbers.

use super::refusals::{check_of, move_check, set_check, set_form};
use super::Mistake;
use crate::model::area::Area;
use crate::model::change::{kind, uses, uses_no_broken_key, Change, Kind};
use crate::model::damage::most_kept;
use crate::model::keys::{full, half_filled, having, orphan, unserved};
use crate::model::list;
use crate::model::rules::Rules;
use crate::model::schema::{Key, Match, Row};
use crate::model::statement;

/// Orphans and kept numbers of broken keys.
pub const NUMBERS: &[Mistake] = &[
    ("a broken key's orphans counted", |rules| {
        rules.orphan = unserved;
    }),
    (
        "half-filled rows of a broken key of MATCH FULL counted",
        |rules| {
            rules.orphan = |key, child_key, parent_keys| {
                let half = key.matching == Match::Full && half_filled(child_key);
                key.broken && half || orphan(key, child_key, parent_keys)
            };
        },
    ),
    ("a broken key's orphans in the list alone", |rules| {
        rules.listed = |area, _| {
            let mut rules = Rules::of_the_paper();
            rules.orphan = unserved;
            list::orphans(&rules, area)
        };
    }),
    ("20 passes over a broken key's kept number", |rules| {
        rules.ends[1].1 = |area, key| {
            let waits = area.in_transaction() && area.schema.keys[key].deferred;
            area.kept()[key] == 0 || waits || is_broken(area, key)
        };
    }),
    ("21 passes over a broken key's kept number", |rules| {
        rules.commits = |area| {
            let mut kept = area.kept().iter().enumerate();
            kept.all(|(key, &number)| number == 0 || is_broken(area, key))
        };
    }),
    ("10 passes over a broken key's kept number", |rules| {
        set_form(rules, "kept numbers", |area| {
            let within = |key| 0..=most_kept(area, key);
            let mut kept = area.kept().iter().enumerate();
            kept.all(|(key, number)| is_broken(area, key) || within(key).contains(number))
        });
    }),
    ("10 for a broken key's kept number that is not 0", |rules| {
        set_form(rules, "kept numbers", |area| {
            let most = |key| match is_broken(area, key) {
                true => 0,
                false => most_kept(area, key),
            };
            let mut kept = area.kept().iter().enumerate();
            kept.all(|(key, number)| (0..=most(key)).contains(number))
        });
    }),
    ("a broken key's kept number set to 0", |rules| {
        rules.moves = |rules, before, after| {
            let moves = statement::moves(rules, before, after).into_iter();
            let moved = |(key, by)| match is_broken(before, key) {
                true => -before.kept()[key],
                false => by,
            };
            moves.enumerate().map(moved).collect()
        };
    }),
];

/// When 23 is judged, and for which row changes.
pub const ORDER: &[Mistake] = &[
    ("23 not judged", |rules| {
        rules.checks.retain(|check| check.0 != 23)
    }),
    ("23 judged before depth", |rules| move_check(rules, 23, 0)),
    ("23 judged before journal room", |rules| {
        move_check(rules, 23, 1)
    }),
    ("23 judged after NOT NULL", |rules| move_check(rules, 23, 3)),
    ("23 judged after unique", |rules| move_check(rules, 23, 4)),
    ("an action's row change not judged by 23", |rules| {
        set_check(rules, 23, |_, area, change| {
            change.depth > 1 || uses_no_broken_key(area, change, uses)
        });
    }),
    (
        "a row change at depth 3 or more not judged by 23",
        |rules| {
            set_check(rules, 23, |_, area, change| {
                change.depth > 2 || uses_no_broken_key(area, change, uses)
            });
        },
    ),
    ("23 given as 18", |rules| check_of(rules, 23).0 = 18),
    ("23 given as 20", |rules| check_of(rules, 23).0 = 20),
];

/// Which kinds of row changes use a broken key.
pub const KINDS: &[Mistake] = &[
    ("the deletion of a child row refused by 23", |rules| {
        rules.uses = |key, table, kind| key.child == table || uses(key, table, kind);
    }),
    ("the insert of a parent row refused by 23", |rules| {
        rules.uses = |key, table, kind| key.parent == table || uses(key, table, kind);
    }),
    ("the deletion of a parent row let pass", |rules| {
        rules.uses = |key, table, kind| kind != Kind::Delete && uses(key, table, kind);
    }),
    ("the update of a parent row let pass", |rules| {
        rules.uses = |key, table, kind| {
            let update = kind == Kind::Update && key.child != table;
            !update && uses(key, table, kind)
        };
    }),
    ("the insert of a child row let pass", |rules| {
        rules.uses = |key, table, kind| kind != Kind::Insert && uses(key, table, kind);
    }),
    ("the update of a child row let pass", |rules| {
        rules.uses = |key, table, kind| {
            let update = kind == Kind::Update && key.parent != table;
            !update && uses(key, table, kind)
        };
    }),
    (
        "a self-referring broken key used by child rows alone",
        |rules| {
            rules.uses = |key, table, kind| {
                let deletion = kind == Kind::Delete && key.child == table;
                !deletion && uses(key, table, kind)
            };
        },
    ),
    ("a deferred broken key used by nothing", |rules| {
        rules.uses = |key, table, kind| !key.deferred && uses(key, table, kind);
    }),
];

/// Which values a row change that uses a broken key must have.
pub const VALUES: &[Mistake] = &[
    ("an update that alters nothing let pass", |rules| {
        set_check(rules, 23, |_, area, change| {
            let old = area.row(change.table, change.row);
            old == change.new || uses_no_broken_key(area, change, uses)
        });
    }),
    (
        "an update beside a broken key's columns let pass",
        |rules| {
            set_check(rules, 23, |_, area, change| {
                !used_by(area, change, |key, old| match (old, &change.new) {
                    (Some(old), Some(new)) => alters(key, change.table, old, new),
                    _ => true,
                })
            });
        },
    ),
    ("a child row with NULL in a broken key let pass", |rules| {
        set_check(rules, 23, |_, area, change| {
            !used_by(area, change, |key, old| match &change.new {
                Some(new) if key.child == change.table && !full(&key.child_key(new)) => {
                    key.parent == change.table && old.is_some()
                }
                _ => true,
            })
        });
    }),
    ("a parent row that no row refers to let pass", |rules| {
        set_check(rules, 23, |_, area, change| {
            !used_by(area, change, |key, old| {
                let as_child = key.child == change.table && change.new.is_some();
                let refer = |old: &Row| !having(area, key, &key.parent_key(old)).is_empty();
                as_child || old.map_or(true, refer)
            })
        });
    }),
    ("only the first foreign key judged by 23", |rules| {
        set_check(rules, 23, |_, area, change| {
            let first = area.schema.keys.first().filter(|key| key.broken);
            first.map_or(true, |key| !uses(key, change.table, kind(area, change)))
        });
    }),
];

/// Whether there is a foreign key of this number and it is broken.
fn is_broken(area: &Area, key: usize) -> bool {
    let key = area.schema.keys.get(key);
    key.map_or(false, |key| key.broken)
}

/// Whether the change uses a broken key by the paper and by another reading too, which is given the
/// row before it.
fn used_by(area: &Area, change: &Change, so: impl Fn(&Key, Option<&Row>) -> bool) -> bool {
    let old = area.row(change.table, change.row);
    let kind = kind(area, change);
    let mut broken = area.schema.keys.iter().filter(|key| key.broken);
    broken.any(|key| uses(key, change.table, kind) && so(key, old.as_ref()))
}

/// Whether an update of a row of the table alters the child key or the parent key.
fn alters(key: &Key, table: usize, old: &Row, new: &Row) -> bool {
    key.child == table && key.child_key(old) != key.child_key(new)
        || key.parent == table && key.parent_key(old) != key.parent_key(new)
}
