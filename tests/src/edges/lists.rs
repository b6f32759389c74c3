//! The orphan list: by foreign key number, then by rising child row.

use super::*;
use crate::schema_bytes::build::*;
use crate::schema_bytes::records::Key;

pub fn cases() -> Vec<Case> {
    vec![
        last_entered_first(),
        keys_against_tables(),
        row_under_two_keys(),
        orphans_of_their_own_table(),
    ]
}

/// A deferred foreign key of one column to c0 of its parent, without actions.
fn waiting(child: (u8, u8), parent: u8) -> Key {
    deferred(key(
        (child.0, &[child.1]),
        (parent, &[0]),
        NO_ACTION,
        NO_ACTION,
    ))
}

/// Table 1 refers to table 0 by c1 as key 0 and by c0 as key 1. The list turns the entries round.
fn last_entered_first() -> Case {
    Case {
        title: "Orphans entered from the last key and row to the first are listed from the first",
        schema: parent_and_child(vec![waiting((1, 1), 0), waiting((1, 0), 0)]),
        steps: vec![
            begin(),
            insert(1, 3, &[Some(5), None]),
            insert(1, 0, &[Some(6), None]),
            Step::ShowOrphans,
            insert(1, 2, &[None, Some(7)]),
            insert(1, 1, &[None, Some(8)]),
            Step::ShowOrphans,
            insert(0, 0, &[Some(7), None]),
            Step::ShowOrphans,
            insert(0, 1, &[Some(6), None]),
            Step::ShowOrphans,
        ],
    }
}

/// Key 0 has a later child table than key 1.
fn keys_against_tables() -> Case {
    let tables = vec![table(2, 1, &[1]), table(2, 1, &[]), table(3, 1, &[])];
    let keys = vec![waiting((2, 0), 0), waiting((1, 0), 0)];
    Case {
        title: "The list goes by key number, not by child table",
        schema: Records::new(8, tables, keys),
        steps: vec![
            begin(),
            insert(1, 0, &[Some(5)]),
            insert(1, 1, &[Some(5)]),
            insert(2, 0, &[Some(5)]),
            insert(2, 2, &[Some(5)]),
            Step::ShowOrphans,
        ],
    }
}

/// Keys 0 and 2 are equal; key 1, of the same column, seeks parents in its own table.
fn row_under_two_keys() -> Case {
    let keys = vec![waiting((1, 1), 0), waiting((1, 1), 1), waiting((1, 1), 0)];
    Case {
        title: "A row is listed under each key that it is an orphan of",
        schema: parent_and_child(keys),
        steps: vec![
            begin(),
            insert(1, 2, &[Some(1), Some(5)]),
            insert(1, 0, &[Some(5), Some(1)]),
            Step::ShowOrphans,
            delete(1, 2),
            Step::ShowOrphans,
        ],
    }
}

/// Row 2 mends row 3, and row 0, its own parent, mends row 1.
fn orphans_of_their_own_table() -> Case {
    let mut schema = to_itself(4, 8, NO_ACTION);
    schema.keys[0].deferred = 1;
    Case {
        title: "A self-referring key: a row entered is a parent, and an orphan or not",
        schema,
        steps: vec![
            begin(),
            insert(0, 3, &[Some(3), Some(2)]),
            insert(0, 1, &[Some(1), Some(0)]),
            Step::ShowOrphans,
            insert(0, 2, &[Some(2), Some(4)]),
            Step::ShowOrphans,
            insert(0, 0, &[Some(0), Some(0)]),
            Step::ShowOrphans,
            delete(0, 0),
            Step::ShowOrphans,
        ],
    }
}
