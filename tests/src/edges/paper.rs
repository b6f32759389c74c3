//! The cases that the paper lists under "Trims of the edge".

use super::*;
use crate::schema_bytes::build::*;
use crate::schema_bytes::harmless;

pub fn cases() -> Vec<Case> {
    vec![
        eight_calls(),
        chain("A chain of 16 rows: deleting its root changes 16", 16, 32),
        chain("A chain of 17 rows: too deep", 17, 32),
        chain(
            "A chain of 17 rows and a journal of 16: too deep, not full",
            17,
            16,
        ),
        journal_full(),
        refers_to_itself(),
        two_keys(
            "CASCADE as key 0 and RESTRICT as key 1 on one child",
            CASCADE,
            RESTRICT,
        ),
        two_keys(
            "RESTRICT as key 0 and CASCADE as key 1 on one child",
            RESTRICT,
            CASCADE,
        ),
        nine_levels("Nine levels opened by begin; the tenth refused", begin()),
        nine_levels(
            "Nine levels opened by savepoint; the tenth refused",
            savepoint(),
        ),
    ]
}

fn eight_calls() -> Case {
    Case {
        title: "The eight calls of the paper",
        schema: harmless::paper(),
        steps: vec![
            begin(),
            insert(1, 0, &[Some(11), Some(5)]),
            commit(),
            insert(0, 0, &[Some(5)]),
            commit(),
            update(0, 0, &[Some(6)]),
            delete(0, 1),
            delete(0, 0),
        ],
    }
}

/// Each row refers to the one before it; then the first is deleted.
fn chain(title: &'static str, rows: u16, room: u16) -> Case {
    let mut steps = chain_rows(rows.into());
    steps.push(delete(0, 0));
    Case {
        title,
        schema: to_itself(rows, room, CASCADE),
        steps,
    }
}

fn journal_full() -> Case {
    let mut steps = vec![savepoint()];
    steps.extend((0..9).map(|row| insert(0, row, &[Some(row as i64)])));
    steps.extend([rollback_to(1), insert(0, 8, &[Some(8)])]);
    Case {
        title: "Eight inserts fill a journal of 8; after a rollback there is room",
        schema: Records::new(8, vec![table(9, 1, &[1])], vec![]),
        steps,
    }
}

fn refers_to_itself() -> Case {
    Case {
        title: "A row that refers to itself under RESTRICT is deleted",
        schema: to_itself(2, 8, RESTRICT),
        steps: vec![
            insert(0, 0, &[Some(1), Some(1)]),
            delete(0, 0),
            Step::ShowRows,
        ],
    }
}

fn two_keys(title: &'static str, first: u8, second: u8) -> Case {
    let keys = vec![
        child_to_parent(first, NO_ACTION),
        child_to_parent(second, NO_ACTION),
    ];
    Case {
        title,
        schema: parent_and_child(keys),
        steps: vec![
            insert(0, 0, &[Some(5), None]),
            insert(1, 0, &[Some(1), Some(5)]),
            delete(0, 0),
            Step::ShowRows,
        ],
    }
}

fn nine_levels(title: &'static str, first: Step) -> Case {
    let mut steps = vec![first];
    steps.extend((0..9).map(|_| savepoint()));
    steps.extend([insert(0, 0, &[Some(1)]), release(9), savepoint(), commit()]);
    Case {
        title,
        schema: Records::new(8, vec![table(2, 1, &[1])], vec![]),
        steps,
    }
}
