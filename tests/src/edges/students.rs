//! What students write, and worthless engines: cases in which those would show.

use super::*;
use crate::schema_bytes::build::*;

pub fn cases() -> Vec<Case> {
    vec![
        key_left_equal("An update that leaves the key equal: no RESTRICT", RESTRICT),
        key_left_equal("An update that leaves the key equal: no CASCADE", CASCADE),
        composite_with_null(),
        newest_first(),
        restrict_at_once(
            "RESTRICT strikes while the statement runs, not at commit",
            RESTRICT,
        ),
        restrict_at_once(
            "A deferred key with NO ACTION waits until commit",
            NO_ACTION,
        ),
        three_children(),
        gains_the_key(
            "A row that comes to have the old key before its turn is taken",
            [&[Some(7), Some(5)], &[Some(8), Some(7)]],
        ),
        gains_the_key(
            "A row that comes to have the old key after its turn is not taken",
            [&[Some(8), Some(7)], &[Some(7), Some(5)]],
        ),
        set_default_without_parent(),
        set_null(),
        mended(),
        ends_of_64_bits(),
    ]
}

fn key_left_equal(title: &'static str, on_update: u8) -> Case {
    Case {
        title,
        schema: parent_and_child(vec![child_to_parent(NO_ACTION, on_update)]),
        steps: vec![
            insert(0, 0, &[Some(5), Some(70)]),
            insert(1, 0, &[Some(1), Some(5)]),
            update(0, 0, &[Some(5), Some(71)]),
            update(0, 0, &[Some(6), Some(71)]),
            Step::ShowRows,
        ],
    }
}

fn composite_with_null() -> Case {
    let own = key((1, &[0, 1]), (0, &[0, 1]), NO_ACTION, NO_ACTION);
    Case {
        title: "A composite key with one NULL is no orphan; a full one without a parent is",
        schema: Records::new(
            8,
            vec![table(2, 2, &[3]), table(4, 2, &[])],
            vec![deferred(own)],
        ),
        steps: vec![
            begin(),
            insert(1, 0, &[Some(3), None]),
            insert(1, 1, &[None, None]),
            insert(1, 2, &[Some(3), Some(4)]),
            Step::ShowOrphans,
            commit(),
            insert(0, 0, &[Some(3), Some(4)]),
            Step::ShowOrphans,
            commit(),
        ],
    }
}

fn newest_first() -> Case {
    Case {
        title: "The journal is undone newest first: a row changed twice has its first value again",
        schema: Records::new(8, vec![table(2, 1, &[1])], vec![]),
        steps: vec![
            insert(0, 0, &[Some(1)]),
            begin(),
            update(0, 0, &[Some(2)]),
            update(0, 0, &[Some(3)]),
            delete(0, 0),
            insert(0, 0, &[Some(4)]),
            rollback(),
            Step::ShowRows,
        ],
    }
}

fn restrict_at_once(title: &'static str, on_delete: u8) -> Case {
    Case {
        title,
        schema: parent_and_child(vec![deferred(child_to_parent(on_delete, NO_ACTION))]),
        steps: vec![
            insert(0, 0, &[Some(5), None]),
            insert(1, 0, &[Some(1), Some(5)]),
            begin(),
            delete(0, 0),
            Step::ShowOrphans,
            commit(),
            rollback(),
            Step::ShowRows,
        ],
    }
}

fn three_children() -> Case {
    Case {
        title: "CASCADE takes each child row in turn, not the first only",
        schema: parent_and_child(vec![child_to_parent(CASCADE, CASCADE)]),
        steps: vec![
            insert(0, 0, &[Some(5), None]),
            insert(1, 0, &[Some(1), Some(5)]),
            insert(1, 1, &[Some(2), Some(5)]),
            insert(1, 3, &[Some(3), Some(5)]),
            update(0, 0, &[Some(6), None]),
            Step::ShowRows,
            delete(0, 0),
            Step::ShowRows,
        ],
    }
}

/// The child row (7, 5) goes with its parent 5. Then the row (8, 7), whose parent it is, gets the
/// default 5: the key that the deletion of 5 is still gone through for.
fn gains_the_key(title: &'static str, children: [&[Value]; 2]) -> Case {
    let keys = vec![
        deferred(child_to_parent(CASCADE, NO_ACTION)),
        deferred(key((1, &[1]), (1, &[0]), SET_DEFAULT, NO_ACTION)),
    ];
    let mut schema = parent_and_child(keys);
    schema.tables[1].defaults[1] = 5;
    Case {
        title,
        schema,
        steps: vec![
            begin(),
            insert(0, 0, &[Some(5), None]),
            insert(1, 0, children[0]),
            insert(1, 1, children[1]),
            delete(0, 0),
            Step::ShowRows,
            Step::ShowOrphans,
        ],
    }
}

fn set_default_without_parent() -> Case {
    let mut schema = parent_and_child(vec![child_to_parent(SET_DEFAULT, NO_ACTION)]);
    schema.tables[1].defaults[1] = 9;
    Case {
        title: "SET DEFAULT: refused while no parent has the default, accepted with one",
        schema,
        steps: vec![
            insert(0, 0, &[Some(5), None]),
            insert(1, 0, &[Some(1), Some(5)]),
            delete(0, 0),
            insert(0, 1, &[Some(9), None]),
            delete(0, 0),
            Step::ShowRows,
        ],
    }
}

fn set_null() -> Case {
    let mut schema = parent_and_child(vec![child_to_parent(SET_NULL, SET_NULL)]);
    schema.tables[1].not_null = 1;
    Case {
        title: "SET NULL upon an update and upon a deletion",
        schema,
        steps: vec![
            insert(0, 0, &[Some(5), None]),
            insert(1, 0, &[Some(1), Some(5)]),
            update(0, 0, &[Some(6), None]),
            Step::ShowRows,
            update(1, 0, &[Some(1), Some(6)]),
            delete(0, 0),
            insert(1, 1, &[None, None]),
            Step::ShowRows,
        ],
    }
}

fn mended() -> Case {
    Case {
        title: "Orphans are kept, mended and given back by a rollback",
        schema: parent_and_child(vec![deferred(child_to_parent(NO_ACTION, NO_ACTION))]),
        steps: vec![
            insert(1, 0, &[Some(1), Some(5)]),
            savepoint(),
            insert(1, 0, &[Some(1), Some(5)]),
            insert(1, 1, &[Some(2), Some(5)]),
            Step::ShowOrphans,
            savepoint(),
            insert(0, 0, &[Some(5), None]),
            rollback_to(2),
            Step::ShowOrphans,
            release(1),
            rollback_to(1),
            release(1),
            Step::ShowRows,
        ],
    }
}

fn ends_of_64_bits() -> Case {
    let (low, high) = (Some(i64::MIN), Some(i64::MAX));
    Case {
        title: "Keys at both ends of 64 bits",
        schema: parent_and_child(vec![child_to_parent(CASCADE, CASCADE)]),
        steps: vec![
            insert(0, 0, &[low, None]),
            insert(1, 0, &[high, low]),
            insert(1, 1, &[low, high]),
            update(0, 0, &[high, None]),
            Step::ShowRows,
            delete(0, 0),
            Step::ShowRows,
        ],
    }
}
