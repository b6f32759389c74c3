//! Calls on two families in either order, and on one family, where the order matters.

use super::searches::{delete_where, update_where};
use super::*;
use crate::schema_bytes::build::*;
use crate::schema_bytes::records::Key;

pub fn cases() -> Vec<Case> {
    vec![
        cascades(),
        orphans_made_and_mended(),
        searches(),
        journal(
            "Two families in a journal that just holds both: accepted in either order",
            6,
        ),
        journal(
            "The same and one record less: the call sent last finds it full",
            5,
        ),
        broken_key_between(),
        parent_and_its_child(),
        parent_deleted_and_child_moved(),
        outside_a_transaction(),
    ]
}

/// Two yards, horses in tables 0 and 1: c1 of table 2 refers to c0 of table 0 by key 1, c1 of table 3 to
/// c0 of table 1 by key 0.
fn two_yards(room: u16, altered: fn(Key) -> Key) -> Records {
    let keys = [(3, 1), (2, 0)].map(|(child, parent)| refers(child, parent));
    let tables = vec![table(3, 2, &[1]); 4];
    Records::new(room, tables, keys.map(altered).to_vec())
}

/// A key from c1 of a table to c0 of another, CASCADE twice.
fn refers(child: u8, parent: u8) -> Key {
    key((child, &[1]), (parent, &[0]), CASCADE, CASCADE)
}

/// Rows that are entered, then begin.
fn begun(mut rows: Vec<Step>) -> Vec<Step> {
    rows.push(begin());
    rows
}

/// In each yard a horse, 5 and 7, and two readings of it.
fn horses() -> Vec<Step> {
    vec![
        insert(0, 1, &[Some(5), None]),
        insert(1, 2, &[Some(7), None]),
        insert(2, 0, &[Some(1), Some(5)]),
        insert(2, 2, &[Some(2), Some(5)]),
        insert(3, 0, &[Some(1), Some(7)]),
        insert(3, 1, &[Some(2), Some(7)]),
    ]
}

/// The steps before, of which one is begin, then two calls in either order, each time with what is shown
/// after them and with a rollback to a level opened before both.
fn in_either_order(before: Vec<Step>, calls: fn() -> [Step; 2], show: fn() -> Step) -> Vec<Step> {
    let [one, other] = calls();
    let [one_again, other_again] = calls();
    let mut steps = before;
    steps.extend([savepoint(), one, other, show(), rollback_to(2)]);
    steps.extend([other_again, one_again, show(), rollback_to(2)]);
    steps.push(Step::ShowRows);
    steps
}

fn cascades() -> Case {
    Case {
        title: "Two families, cascades in both: the same in either order, also after a rollback",
        schema: two_yards(16, |key| key),
        steps: in_either_order(
            begun(horses()),
            || [update(0, 1, &[Some(6), None]), delete(1, 2)],
            || Step::ShowRows,
        ),
    }
}

/// Row 0 of table 2 is an orphan before.
fn orphans_made_and_mended() -> Case {
    let no_action = |key| {
        deferred(Key {
            on_delete: NO_ACTION,
            ..key
        })
    };
    let before = vec![
        begin(),
        insert(1, 0, &[Some(7), None]),
        insert(3, 0, &[Some(1), Some(7)]),
        insert(2, 0, &[Some(1), Some(5)]),
    ];
    let calls = || [insert(0, 0, &[Some(5), None]), delete(1, 0)];
    let mut steps = in_either_order(before, calls, || Step::ShowOrphans);
    steps.extend([Step::ShowOrphans, commit(), rollback(), Step::ShowRows]);
    Case {
        title: "Two families, an orphan mended in one and made in the other",
        schema: two_yards(16, no_action),
        steps,
    }
}

fn searches() -> Case {
    Case {
        title: "Two families, many rows of each by one statement",
        schema: two_yards(16, |key| key),
        steps: in_either_order(
            begun(horses()),
            || {
                [
                    update_where(2, 1, Some(5), (1, None)),
                    delete_where(3, 1, Some(7)),
                ]
            },
            || Step::ShowRows,
        ),
    }
}

/// Each call changes three rows.
fn journal(title: &'static str, room: u16) -> Case {
    Case {
        title,
        schema: two_yards(room, |key| key),
        steps: in_either_order(
            begun(horses()),
            || [delete(0, 1), delete(1, 2)],
            || Step::ShowRows,
        ),
    }
}

/// Key 2 of table 2 to table 1 joins nothing: rows are entered into table 1, and table 2 stays empty.
fn broken_key_between() -> Case {
    let mut schema = two_yards(16, |key| key);
    schema
        .keys
        .push(key((2, &[0]), (1, &[1]), CASCADE, CASCADE));
    schema.recount();
    let before = begun(vec![insert(0, 0, &[Some(5), None])]);
    let mut steps = in_either_order(
        before,
        || [delete(0, 0), insert(1, 0, &[Some(7), None])],
        || Step::ShowRows,
    );
    steps.extend([
        insert(1, 0, &[Some(7), None]),
        insert(2, 0, &[Some(1), None]),
        delete(1, 0),
    ]);
    Case {
        title: "A broken key between two families joins nothing",
        schema,
        steps,
    }
}

fn parent_and_its_child() -> Case {
    let calls = || {
        [
            insert(0, 0, &[Some(5), None]),
            insert(1, 0, &[Some(1), Some(5)]),
        ]
    };
    Case {
        title: "One family: a parent and then its child, and the child first",
        schema: parent_and_child(vec![child_to_parent(CASCADE, CASCADE)]),
        steps: in_either_order(begun(vec![]), calls, || Step::ShowRows),
    }
}

fn parent_deleted_and_child_moved() -> Case {
    let before = vec![
        insert(0, 0, &[Some(5), None]),
        insert(0, 1, &[Some(6), None]),
        insert(1, 0, &[Some(1), Some(5)]),
        begin(),
    ];
    let calls = || [update(1, 0, &[Some(1), Some(6)]), delete(0, 0)];
    Case {
        title: "One family: a child moved before its parent is deleted, and after it is gone",
        schema: parent_and_child(vec![child_to_parent(CASCADE, CASCADE)]),
        steps: in_either_order(before, calls, || Step::ShowRows),
    }
}

/// The rows are entered again between the two orders.
fn outside_a_transaction() -> Case {
    let mut steps = horses();
    steps.extend([delete(0, 1), delete(1, 2), Step::ShowRows]);
    steps.extend(horses());
    steps.extend([delete(1, 2), delete(0, 1), Step::ShowRows]);
    Case {
        title: "Two families outside a transaction, in either order",
        schema: two_yards(3, |key| key),
        steps,
    }
}
