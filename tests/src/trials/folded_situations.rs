//! What there is to see in calls on schemas with folded columns, by name, so that it can be counted.

use super::by_outcome::ByOutcome;
use super::folded_seen::{differ_in, otherwise, respelled, same_letters};
use super::origins::Origin::{Damaged, Reached};
use super::origins::ANY;
use super::seen::{Seen, Situation};
use super::trace::{Fired, Step};
use crate::model::change::Kind;
use crate::model::folding::{folded, Mark};
use crate::model::schema::{mark_of, Action, Key, Row, Table, Value};

/// Child rows that are written, and their parents.
const CHILDREN: &[Situation] = &[
    (
        "parent in another spelling, both columns folded",
        ANY,
        |s| s.served_in_folded_pair(|own| own.is_some()),
    ),
    (
        "parent in another spelling, its column alone folded",
        ANY,
        |s| s.served_in_folded_pair(|own| own.is_none()),
    ),
    (
        "orphan for its spelling, its column alone folded",
        ANY,
        |s| s.orphan_for_spelling(|own| own.is_some()),
    ),
    ("orphan for its spelling, no column folded", ANY, |s| {
        s.orphan_for_spelling(|own| own.is_none())
    }),
    ("two keys of one column, a parent by one", ANY, |s| {
        s.served_by_one_alone()
    }),
    ("first of several pairs in another spelling", ANY, |s| {
        s.served_in_pair(0)
    }),
    ("second pair in another spelling", ANY, |s| {
        s.served_in_pair(1)
    }),
    ("third pair in another spelling", ANY, |s| {
        s.served_in_pair(2)
    }),
    ("fourth pair in another spelling", ANY, |s| {
        s.served_in_pair(3)
    }),
    (
        "orphan for an unfolded pair beside a folded one",
        ANY,
        |s| {
            s.unserved(|key, child, parent| {
                let of = |is: fn(Mark) -> bool| spelled_in(key, child, parent, is);
                same_letters(child, parent)
                    && of(|mark| mark.is_some())
                    && of(|mark| mark.is_none())
            })
        },
    ),
    ("a negative word in another spelling", ANY, |s| {
        s.served(|_, child, parent| any_respelled(child, parent, |word| word < 0))
    }),
    ("the highest byte in another spelling", ANY, |s| {
        s.served(|_, child, parent| {
            let mut pairs = child.iter().zip(parent);
            pairs.any(|(&child, &parent)| differ_in_highest(child, parent))
        })
    }),
    ("orphan for 40 and 60", ANY, |s| s.orphan_for(0x40)),
    ("orphan for 5B and 7B", ANY, |s| s.orphan_for(0x5B)),
    ("orphan for C1 and E1", ANY, |s| s.orphan_for(0xC1)),
    ("orphan for DA and FA", ANY, |s| s.orphan_for(0xDA)),
    ("mended by a parent in another spelling", ANY, |s| {
        s.mended_by_spelling()
    }),
];

/// Unique keys of rows that are written.
const UNIQUE: &[Situation] = &[
    (
        "unique but for the spelling of an unfolded column",
        ANY,
        |s| s.unique_but_for(|folded, new, other| !folded && respelled(new, other)),
    ),
    ("unique for 40 and 60", ANY, |s| s.unique_for(0x40)),
    ("unique for 5B and 7B", ANY, |s| s.unique_for(0x5B)),
    ("unique for C1 and E1", ANY, |s| s.unique_for(0xC1)),
    ("unique for DA and FA", ANY, |s| s.unique_for(0xDA)),
    ("a row in another spelling of its own", ANY, |s| {
        s.any_step(|step| match (&step.old, &step.new) {
            (Some(old), Some(new)) => old != new && same_letters(old, new),
            _ => false,
        })
    }),
];

/// Kinds 10 and 11.
const SEARCHES: &[Situation] = &[
    ("kind 10 finds another spelling", ANY, |s| {
        s.search(10).is_some() && s.searches(true, |_, value, sought| respelled(value, sought))
    }),
    ("kind 11 finds another spelling", ANY, |s| {
        s.search(11).is_some() && s.searches(true, |_, value, sought| respelled(value, sought))
    }),
    (
        "kind 10 passes over another spelling, not folded",
        ANY,
        |s| {
            s.search(10).is_some() && s.searches(false, |_, value, sought| respelled(value, sought))
        },
    ),
    (
        "kind 11 passes over another spelling, not folded",
        ANY,
        |s| {
            s.search(11).is_some() && s.searches(false, |_, value, sought| respelled(value, sought))
        },
    ),
    ("a negative word found in another spelling", ANY, |s| {
        s.searches(true, |_, value, sought| {
            respelled(value, sought) && sought < Some(0)
        })
    }),
    ("not found for 40 and 60", ANY, |s| s.not_found_for(0x40)),
    ("not found for 5B and 7B", ANY, |s| s.not_found_for(0x5B)),
    ("not found for C1 and E1", ANY, |s| s.not_found_for(0xC1)),
    ("not found for DA and FA", ANY, |s| s.not_found_for(0xDA)),
];

/// Changes of parents that run no action.
const RESPELLED: &[Situation] = &[
    ("a parent respelled, on update NO ACTION", ANY, |s| {
        s.respelled_under(Action::NoAction)
    }),
    ("a parent respelled, on update RESTRICT", ANY, |s| {
        s.respelled_under(Action::Restrict)
    }),
    ("a parent respelled, on update SET NULL", ANY, |s| {
        s.respelled_under(Action::SetNull)
    }),
    ("a parent respelled, on update SET DEFAULT", ANY, |s| {
        s.respelled_under(Action::SetDefault)
    }),
    ("a parent respelled, on update CASCADE", ANY, |s| {
        s.respelled_under(Action::Cascade)
    }),
    ("a parent respelled by kind 11", ANY, |s| {
        s.search(11).is_some() && s.parent_respelled(|_, step| step.depth == 1)
    }),
    ("a parent respelled by an action", ANY, |s| {
        s.parent_respelled(|_, step| step.depth > 1)
    }),
    ("a parent of two or more pairs respelled", ANY, |s| {
        s.parent_respelled(|key, _| key.marks.len() > 1)
    }),
];

/// Actions that follow.
const ACTIONS: &[Situation] = &[
    ("NO ACTION on delete, another spelling", ANY, |s| {
        s.strands(true)
    }),
    ("NO ACTION on update, another spelling", ANY, |s| {
        s.strands(false)
    }),
    ("SET NULL on delete, another spelling", ANY, |s| {
        s.takes(Action::SetNull, true)
    }),
    ("SET NULL on update, another spelling", ANY, |s| {
        s.takes(Action::SetNull, false)
    }),
    ("SET DEFAULT on delete, another spelling", ANY, |s| {
        s.takes(Action::SetDefault, true)
    }),
    ("SET DEFAULT on update, another spelling", ANY, |s| {
        s.takes(Action::SetDefault, false)
    }),
    ("CASCADE on delete, another spelling", ANY, |s| {
        s.takes(Action::Cascade, true)
    }),
    ("CASCADE on update, another spelling", ANY, |s| {
        s.takes(Action::Cascade, false)
    }),
    ("CASCADE gives capitals as typed", ANY, |s| {
        s.gives(Action::Cascade, |_, _, given| {
            given.iter().flatten().any(|&word| folded(word) != word)
        })
    }),
    ("SET DEFAULT gives capitals as typed", ANY, |s| {
        s.gives(Action::SetDefault, |_, _, given| {
            given.iter().flatten().any(|&word| folded(word) != word)
        })
    }),
    (
        "SET DEFAULT gives the old key in another spelling",
        ANY,
        |s| {
            s.gives(Action::SetDefault, |key, fired, given| {
                otherwise(key, &fired.old_key, given)
            })
        },
    ),
    ("actions for 40 and 60", ANY, |s| s.fires_for(0x40)),
    ("actions for 5B and 7B", ANY, |s| s.fires_for(0x5B)),
    ("actions for C1 and E1", ANY, |s| s.fires_for(0xC1)),
    ("actions for DA and FA", ANY, |s| s.fires_for(0xDA)),
    ("actions for the spelling of an unfolded column", ANY, |s| {
        s.renames(|fired, new| same_letters(&fired.old_key, new))
    }),
];

const ROLLBACKS: &[Situation] = &[("a rollback puts another spelling back", ANY, |s| {
    let tables = 0..s.schema.tables.len();
    let mut rows = tables.flat_map(|table| {
        let live = s.before.live_rows(table).into_iter();
        live.map(move |(number, row)| (table, number, row))
    });
    rows.any(|(table, number, row)| match s.after.row(table, number) {
        Some(back) => row != back && same_letters(&row, &back),
        None => false,
    })
})];

/// Refusals.
const REFUSED: &[Situation] = &[
    (
        "14 after CASCADE, another spelling",
        &[Reached, Damaged],
        |s| s.code == 14 && s.takes(Action::Cascade, true),
    ),
    ("17 by another spelling, a row entered", ANY, |s| {
        s.refused_17(|step| step.kind == Kind::Insert)
    }),
    ("17 by another spelling, a row updated", ANY, |s| {
        s.refused_17(|step| step.kind == Kind::Update && step.depth == 1)
    }),
    ("17 by another spelling, kind 11", ANY, |s| {
        s.search(11).is_some() && s.refused_17(|step| step.depth == 1)
    }),
    ("17 by another spelling, an action", ANY, |s| {
        s.refused_17(|step| step.depth > 1)
    }),
    ("17 by one folded column of two or more", ANY, |s| {
        s.unique_otherwise(|table, unique, _| {
            let folded = unique
                .iter()
                .filter(|&&column| table.marks[column].is_some());
            unique.len() > 1 && folded.count() == 1
        })
    }),
    ("17 for a negative word in another spelling", ANY, |s| {
        s.unique_otherwise(|_, unique, (new, other)| {
            let such =
                |&column: &usize| respelled(new[column], other[column]) && new[column] < Some(0);
            unique.iter().any(such)
        })
    }),
    ("18 on delete by another spelling", ANY, |s| {
        s.code == 18 && s.takes(Action::Restrict, true)
    }),
    ("18 on update by another spelling", ANY, |s| {
        s.code == 18 && s.takes(Action::Restrict, false)
    }),
    ("20 for NO ACTION on delete, another spelling", ANY, |s| {
        s.code == 20 && s.strands(true)
    }),
    ("20 for NO ACTION on update, another spelling", ANY, |s| {
        s.code == 20 && s.strands(false)
    }),
    (
        "20 for another spelling than an unfolded parent's",
        ANY,
        |s| s.code == 20 && s.orphan_for_spelling(|_| true),
    ),
    ("23 by a key whose parent column is folded", ANY, |s| {
        let mut broken = s.schema.keys.iter().filter(|key| key.broken);
        s.code == 23 && broken.any(|key| key.marks.iter().any(|mark| mark.is_some()))
    }),
];

pub const SITUATIONS: ByOutcome<Situation> = ByOutcome {
    statements: &[CHILDREN, UNIQUE, SEARCHES, RESPELLED, ACTIONS],
    rollbacks: &[ROLLBACKS],
    refused: &[REFUSED],
};

/// The names of the situations that a call shows.
pub fn shown(seen: &Seen) -> Vec<&'static str> {
    seen.shown(SITUATIONS.of(seen.code, seen.call))
}

/// Whether two keys differ in the spelling of a pair of such a mark.
fn spelled_in(key: &Key, child: &Row, parent: &Row, is: fn(Mark) -> bool) -> bool {
    let mut pairs = child.iter().zip(parent).zip(&key.marks);
    pairs.any(|((&child, &parent), &mark)| respelled(child, parent) && is(mark))
}

/// Whether two keys differ in the spelling of such a word.
fn any_respelled(one: &Row, other: &Row, such: fn(i64) -> bool) -> bool {
    let mut pairs = one.iter().zip(other);
    pairs.any(|(&one, &other)| respelled(one, other) && one.map_or(false, such))
}

fn differ_in_highest(one: Value, other: Value) -> bool {
    let highest = |value: Value| value.map(|word| word.to_le_bytes()[7]);
    respelled(one, other) && highest(one) != highest(other)
}

impl Seen<'_> {
    /// Whether a row that was written has a parent in another spelling of a folded pair, the child
    /// column of which has such a mark.
    fn served_in_folded_pair(&self, own: fn(Mark) -> bool) -> bool {
        self.served(|key, child, parent| {
            let mut pairs = (0..child.len()).filter(|&pair| key.marks[pair].is_some());
            pairs.any(|pair| {
                let mark = mark_of(&self.schema.tables, key.child, key.child_columns[pair]);
                respelled(child[pair], parent[pair]) && own(mark)
            })
        })
    }

    /// Whether a row that was written is an orphan, and equal to a parent but for the spelling of
    /// pairs that are not folded, the child columns of which have such marks.
    fn orphan_for_spelling(&self, own: fn(Mark) -> bool) -> bool {
        self.unserved(|key, child, parent| {
            let mut differing = (0..child.len()).filter(|&pair| child[pair] != parent[pair]);
            same_letters(child, parent)
                && differing.all(|pair| {
                    let column = key.child_columns[pair];
                    let mark = mark_of(&self.schema.tables, key.child, column);
                    key.marks[pair].is_some() || own(mark)
                })
        })
    }

    /// Whether a row that was written has a parent in another spelling of this pair, and another pair
    /// is not folded.
    fn served_in_pair(&self, pair: usize) -> bool {
        self.served(|key, child, parent| {
            let some_unfolded = key.marks.iter().any(|mark| mark.is_none());
            pair < child.len() && respelled(child[pair], parent[pair]) && some_unfolded
        })
    }

    /// Whether a row that was written is an orphan by a folded pair whose words differ in such bytes.
    fn orphan_for(&self, byte: u8) -> bool {
        self.unserved(|key, child, parent| {
            let mut pairs = child.iter().zip(parent).zip(&key.marks);
            pairs.all(|((&child, &parent), mark)| {
                child == parent || mark.is_some() && differ_in(byte, child, parent)
            })
        })
    }

    fn unique_for(&self, byte: u8) -> bool {
        self.unique_but_for(|folded, new, other| folded && differ_in(byte, new, other))
    }

    fn not_found_for(&self, byte: u8) -> bool {
        self.searches(false, |folded, value, sought| {
            folded && differ_in(byte, value, sought)
        })
    }

    fn respelled_under(&self, action: Action) -> bool {
        self.parent_respelled(|key, _| key.on_update == action)
    }

    /// Whether NO ACTION leaves a child row of another spelling than the old key.
    fn strands(&self, deletion: bool) -> bool {
        self.takes(Action::NoAction, deletion)
    }

    /// Whether the action gives such a child key to a row in a folded pair's columns.
    fn gives(&self, action: Action, such: fn(&Key, &Fired, &Row) -> bool) -> bool {
        self.any_fired(|key, fired| {
            let mut given = fired.found.iter().filter_map(|found| found.1.as_ref());
            fired.action == action
                && key.marks.iter().any(|mark| mark.is_some())
                && given.any(|given| such(key, fired, given))
        })
    }

    /// Whether actions that find rows follow an update to such a new key.
    fn renames(&self, such: impl Fn(&Fired, &Row) -> bool) -> bool {
        self.any_fired(|_, fired| {
            let new = fired.new_key.as_ref();
            !fired.found.is_empty() && new.map_or(false, |new| such(fired, new))
        })
    }

    /// Whether actions that find rows follow an update by which words differ in such bytes.
    fn fires_for(&self, byte: u8) -> bool {
        self.renames(|fired, new| {
            let mut pairs = fired.old_key.iter().zip(new);
            pairs.all(|(&old, &new)| old == new || differ_in(byte, old, new))
        })
    }

    /// Whether such a row change is refused by 17 for a unique key in another spelling.
    fn refused_17(&self, such: fn(&Step) -> bool) -> bool {
        self.refused(17).map_or(false, such) && self.unique_otherwise(|_: &Table, _, _| true)
    }
}
