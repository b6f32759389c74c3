//! Refusals from the state, and transactions.

use super::*;
use crate::schema_bytes::build::*;

pub fn cases() -> Vec<Case> {
    vec![
        row_states(),
        level_states(),
        not_null_and_unique(),
        deferred_outside(),
        restrict_at_16(),
    ]
}

/// A table without foreign keys.
fn alone(rows: u16, columns: u8, unique: &[u8]) -> Records {
    Records::new(8, vec![table(rows, columns, unique)], vec![])
}

fn row_states() -> Case {
    Case {
        title: "Insert on a live row, update and delete on a vacant one",
        schema: alone(2, 1, &[]),
        steps: vec![
            update(0, 0, &[Some(1)]),
            delete(0, 0),
            insert(0, 0, &[Some(1)]),
            insert(0, 0, &[Some(1)]),
            Step::ShowRows,
        ],
    }
}

fn level_states() -> Case {
    Case {
        title:
            "Begin inside a transaction; commit, rollback and levels without one; level 1 of begin",
        schema: alone(2, 1, &[]),
        steps: vec![
            commit(),
            rollback(),
            release(1),
            rollback_to(1),
            begin(),
            begin(),
            release(1),
            rollback_to(1),
            savepoint(),
            release(3),
            release(2),
            commit(),
            savepoint(),
            rollback_to(1),
            release(1),
            rollback(),
        ],
    }
}

fn not_null_and_unique() -> Case {
    let mut schema = alone(3, 2, &[3, 1]);
    schema.tables[0].not_null = 2;
    Case {
        title: "NOT NULL before unique; a unique key with NULL equals none",
        schema,
        steps: vec![
            insert(0, 0, &[Some(1), Some(2)]),
            insert(0, 1, &[Some(1), None]),
            insert(0, 1, &[Some(1), Some(2)]),
            insert(0, 1, &[None, Some(2)]),
            insert(0, 2, &[None, Some(2)]),
            update(0, 2, &[Some(1), Some(3)]),
            Step::ShowRows,
        ],
    }
}

fn deferred_outside() -> Case {
    Case {
        title: "Outside a transaction a deferred key is checked like an immediate one",
        schema: parent_and_child(vec![deferred(child_to_parent(NO_ACTION, NO_ACTION))]),
        steps: vec![
            insert(1, 0, &[Some(1), Some(5)]),
            begin(),
            insert(1, 0, &[Some(1), Some(5)]),
            rollback(),
            Step::ShowRows,
        ],
    }
}

/// A chain of 16 rows under CASCADE; the last is the parent of a row under RESTRICT.
fn restrict_at_16() -> Case {
    let keys = vec![
        key((0, &[1]), (0, &[0]), CASCADE, NO_ACTION),
        key((1, &[0]), (0, &[0]), RESTRICT, NO_ACTION),
    ];
    let mut steps = chain_rows(16);
    steps.extend([insert(1, 0, &[Some(15)]), delete(0, 0)]);
    Case {
        title: "RESTRICT met at depth 16 is RESTRICT, not too deep",
        schema: Records::new(32, vec![table(16, 2, &[1]), table(1, 1, &[])], keys),
        steps,
    }
}
