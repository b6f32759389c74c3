//! How much one delete can touch: what is counted, and schemas under which a delete changes more.

use super::searches::delete_where;
use super::*;
use crate::schema_bytes::build::*;
use crate::schema_bytes::records::Key;

pub fn cases() -> Vec<Case> {
    vec![
        cleared_and_deleted(
            "A delete that changes as many rows as its bound, and a journal of as many",
            4,
        ),
        cleared_and_deleted("The same and a journal of one less: full", 3),
        rows_found(),
        column_of_two_keys(),
        other_actions(),
        inside_a_transaction(),
        broken_key(),
        states_by_damage(),
        damaged_area(),
        set_default(),
        parent_key_cleared(),
        window_cleared(),
    ]
}

/// A key from a column of table 1 to c0 of table 0.
fn from_column(column: u8, on_delete: u8) -> Key {
    key((1, &[column]), (0, &[0]), on_delete, NO_ACTION)
}

/// Table 0 with a key in c0, and table 1 of so many columns.
fn of_columns(columns: u8, room: u16, keys: Vec<Key>) -> Records {
    let tables = vec![table(2, 1, &[1]), table(2, columns, &[])];
    Records::new(room, tables, keys)
}

/// Table 1 is cleared in c0 and c1 and then deleted by c2.
fn clearing(room: u16) -> Records {
    let keys = vec![
        from_column(0, SET_NULL),
        from_column(1, SET_NULL),
        from_column(2, CASCADE),
    ];
    of_columns(3, room, keys)
}

/// The child row is changed three times.
fn cleared_and_deleted(title: &'static str, room: u16) -> Case {
    Case {
        title,
        schema: clearing(room),
        steps: vec![
            Step::ShowBound,
            insert(0, 1, &[Some(5)]),
            Step::ShowBound,
            insert(1, 1, &[Some(5), Some(5), Some(5)]),
            Step::ShowBound,
            delete(0, 1),
            Step::ShowRows,
            Step::ShowBound,
        ],
    }
}

fn rows_found() -> Case {
    let own = key((0, &[1]), (0, &[0]), SET_NULL, NO_ACTION);
    Case {
        title: "Rows that refer to each other are cleared and found: as many as the bound",
        schema: Records::new(5, vec![table(4, 3, &[1])], vec![own]),
        steps: vec![
            insert(0, 0, &[Some(1), None, Some(7)]),
            insert(0, 1, &[Some(2), Some(1), Some(7)]),
            insert(0, 3, &[Some(3), Some(2), Some(7)]),
            Step::ShowBound,
            delete_where(0, 2, Some(7)),
            Step::ShowRows,
        ],
    }
}

fn column_of_two_keys() -> Case {
    let keys = vec![
        from_column(0, SET_NULL),
        from_column(0, SET_NULL),
        key((1, &[0, 1]), (0, &[0, 1]), SET_NULL, NO_ACTION),
    ];
    Case {
        title: "A column counts once under several keys, and not where it is NULL",
        schema: Records::new(8, vec![table(2, 2, &[1, 3]), table(3, 2, &[])], keys),
        steps: vec![
            insert(0, 0, &[Some(5), Some(6)]),
            Step::ShowBound,
            insert(1, 0, &[Some(5), Some(6)]),
            Step::ShowBound,
            insert(1, 1, &[Some(5), None]),
            Step::ShowBound,
            insert(1, 2, &[None, None]),
            Step::ShowBound,
            delete(0, 0),
            Step::ShowRows,
        ],
    }
}

fn other_actions() -> Case {
    let keys = vec![
        from_column(0, NO_ACTION),
        from_column(1, RESTRICT),
        from_column(2, SET_NULL),
        from_column(3, SET_DEFAULT),
        from_column(4, CASCADE),
        key((1, &[5]), (0, &[0]), NO_ACTION, SET_NULL),
    ];
    Case {
        title: "Only columns of SET NULL upon a delete count: one of six, and the two rows",
        schema: of_columns(7, 8, keys),
        steps: vec![
            insert(0, 0, &[Some(5)]),
            insert(1, 0, &[Some(5); 7]),
            Step::ShowBound,
        ],
    }
}

/// Four records are wanted, and two are free.
fn inside_a_transaction() -> Case {
    Case {
        title: "The bound counts rows as they are; the journal's records in use are not free",
        schema: clearing(4),
        steps: vec![
            begin(),
            insert(0, 0, &[Some(5)]),
            insert(1, 0, &[Some(5), Some(5), Some(5)]),
            Step::ShowBound,
            delete(0, 0),
            savepoint(),
            delete(1, 0),
            Step::ShowBound,
            rollback_to(2),
            Step::ShowBound,
            commit(),
            Step::ShowBound,
            delete(0, 0),
        ],
    }
}

/// Table 0 takes the words before 337.
fn broken_key() -> Case {
    let mut schema = of_columns(2, 8, vec![from_column(1, SET_NULL)]);
    schema.keys[0].parent_columns[0] = 3;
    Case {
        title: "The column of a broken key counts",
        schema,
        steps: vec![
            insert(0, 0, &[Some(5)]),
            Step::ShowBound,
            Step::SetWord(337, 256),
            Step::ShowBound,
            Step::SetWord(337, 258),
            Step::ShowBound,
            delete(0, 0),
            delete(1, 0),
        ],
    }
}

/// Table 1 has three columns: bits from 3 on are ignored.
fn states_by_damage() -> Case {
    let states = [255, 256, 257, 259, 263, 264, 511, 512, -1];
    let shown = |state: &i64| [Step::SetWord(337, *state), Step::ShowBound];
    Case {
        title: "States 256 to 511 are live rows; bits past the columns do not count",
        schema: clearing(8),
        steps: states.iter().flat_map(shown).collect(),
    }
}

fn damaged_area() -> Case {
    Case {
        title: "No bound of a damaged area",
        schema: clearing(8),
        steps: vec![
            insert(0, 0, &[Some(5)]),
            Step::SetWord(3, 1),
            Step::ShowBound,
            Step::SetWord(3, 0),
            Step::SetWord(4, 3),
            Step::ShowBound,
            Step::SetWord(4, 2),
            Step::ShowBound,
        ],
    }
}

/// Three rows, none of them with a column that SET NULL clears.
fn set_default() -> Case {
    let keys = (0..3).map(|column| from_column(column, SET_DEFAULT));
    let mut schema = of_columns(3, 8, keys.collect());
    schema.tables[1].defaults[..3].fill(6);
    Case {
        title: "Not bounded: SET DEFAULT by three keys changes 4 rows, and the sum is 3",
        schema,
        steps: vec![
            insert(0, 0, &[Some(5)]),
            insert(0, 1, &[Some(6)]),
            insert(1, 0, &[Some(5); 3]),
            Step::ShowBound,
            delete(0, 0),
            Step::ShowRows,
        ],
    }
}

/// c0 of table 1 is cleared, and by that the three columns of table 2 that refer to it.
fn parent_key_cleared() -> Case {
    let tables = vec![table(2, 1, &[1]), table(2, 1, &[1]), table(2, 3, &[])];
    let mut keys = vec![from_column(0, SET_NULL)];
    keys.extend((0..3).map(|column| key((2, &[column]), (1, &[0]), NO_ACTION, SET_NULL)));
    Case {
        title: "Not bounded: SET NULL in a parent key changes 5 rows, and the sum is 4",
        schema: Records::new(8, tables, keys),
        steps: vec![
            insert(0, 0, &[Some(5)]),
            insert(1, 0, &[Some(5)]),
            insert(2, 0, &[Some(5); 3]),
            Step::ShowBound,
            delete(0, 0),
            Step::ShowRows,
        ],
    }
}

/// Calibrations in table 1 end on a day of table 0, and readings in table 2 belong to them. No delete
/// changes more than the sum where only a window is cleared: the on-update action of a windowed key is
/// NO ACTION or RESTRICT, and neither writes a row.
fn window_cleared() -> Case {
    let tables = vec![table(2, 1, &[1]), table(2, 3, &[3]), table(2, 2, &[])];
    let keys = vec![
        key((1, &[2]), (0, &[0]), SET_NULL, NO_ACTION),
        deferred(windowed(key((2, &[0, 1]), (1, &[0, 1]), 0, NO_ACTION))),
    ];
    Case {
        title: "SET NULL in a window: readings are left as they are, and the sum is enough",
        schema: Records::new(8, tables, keys),
        steps: vec![
            insert(0, 0, &[Some(9)]),
            insert(1, 0, &[Some(7), Some(3), Some(9)]),
            insert(2, 0, &[Some(7), Some(5)]),
            Step::ShowBound,
            delete(0, 0),
            begin(),
            delete(0, 0),
            Step::ShowRows,
            Step::ShowOrphans,
            Step::ShowBound,
        ],
    }
}
