//! Broken foreign keys: schemas that open half-drawn.

use super::searches::{delete_where, update_where};
use super::*;
use crate::schema_bytes::build::*;
use crate::schema_bytes::records::{Key, Table};

pub fn cases() -> Vec<Case> {
    vec![
        horses_meanwhile(),
        child_rows_by_damage(),
        cascade_to_parents(),
        cascade_to_children(),
        updates_by_actions(),
        full_journal_first(),
        before_not_null_and_unique(),
        depth_first(),
        restrict_and_broken(
            "RESTRICT as key 0 refuses before key 1 leads to a broken key",
            0,
        ),
        restrict_and_broken(
            "Key 0 leads to a broken key before RESTRICT as key 1 refuses",
            1,
        ),
        table_200_and_column_255(),
        near_misses(),
        own_table(),
        child_of_one_parent_of_another(),
        half_filled_rows(),
        put_back(),
        kept_number_outside(),
        kept_number_inside(),
    ]
}

/// The key of readings, table 1 c1, to c1 of horses, table 0, which is no unique key.
fn readings_key() -> Key {
    key((1, &[1]), (0, &[1]), NO_ACTION, NO_ACTION)
}

/// Horses with a key in c0, readings without one, and riders, which no key touches. J = 8.
fn half_drawn(readings: Key) -> Records {
    let tables = vec![table(3, 2, &[1]), table(3, 2, &[]), table(3, 1, &[1])];
    Records::new(8, tables, vec![readings])
}

/// A row of table 1 of two columns, put there by damage: table 0 takes the words before 342.
fn reading(row: usize, nulls: i64, values: [i64; 2]) -> [Step; 3] {
    let at = 342 + 3 * row;
    [
        Step::SetWord(at, 256 + nulls),
        Step::SetWord(at + 1, values[0]),
        Step::SetWord(at + 2, values[1]),
    ]
}

fn horses_meanwhile() -> Case {
    Case {
        title: "Horses are entered while the key of the readings is broken, and stay as they are",
        schema: half_drawn(readings_key()),
        steps: vec![
            insert(0, 0, &[Some(1), Some(7)]),
            insert(2, 0, &[Some(1)]),
            insert(1, 0, &[Some(1), Some(7)]),
            insert(1, 0, &[Some(1), None]),
            insert(0, 1, &[Some(2), Some(7)]),
            update(0, 0, &[Some(1), Some(8)]),
            update(0, 0, &[Some(1), Some(7)]),
            update(0, 2, &[Some(1), Some(7)]),
            delete(0, 1),
            delete(1, 0),
            delete_where(0, 0, Some(2)),
            delete_where(0, 0, Some(9)),
            update_where(0, 1, Some(7), (0, Some(5))),
            update_where(1, 1, Some(7), (0, Some(5))),
            update(2, 0, &[Some(2)]),
            delete(2, 0),
            Step::ShowRows,
            Step::ShowOrphans,
        ],
    }
}

fn child_rows_by_damage() -> Case {
    let mut steps: Vec<Step> = Vec::new();
    steps.extend(reading(0, 0, [1, 9]));
    steps.extend(reading(1, 2, [2, 0]));
    steps.extend(reading(2, 0, [1, 9]));
    steps.extend([
        Step::ShowRows,
        Step::ShowOrphans,
        update(1, 0, &[Some(1), Some(9)]),
        update(1, 1, &[Some(3), None]),
        update_where(1, 0, Some(1), (0, Some(2))),
        delete(1, 1),
        delete_where(1, 1, Some(9)),
        Step::ShowRows,
    ]);
    Case {
        title: "Readings that damage put there are no orphans; they are deleted, and not updated",
        schema: half_drawn(readings_key()),
        steps,
    }
}

/// Hooves, table 1 c1, refer to horses, table 0 c0, by key 0. Readings, table 2, refer to hooves by
/// key 1, which is broken.
fn hooves_and_readings(on_delete: u8, on_update: u8) -> Records {
    let tables = vec![table(3, 2, &[1]), table(3, 2, &[1]), table(3, 1, &[])];
    let hooves = child_to_parent(on_delete, on_update);
    let readings = key((2, &[0]), (1, &[1]), CASCADE, CASCADE);
    Records::new(8, tables, vec![hooves, readings])
}

fn cascade_to_parents() -> Case {
    Case {
        title: "A cascade that reaches the parent table of a broken key: refused, all put back",
        schema: hooves_and_readings(CASCADE, CASCADE),
        steps: vec![
            insert(0, 0, &[Some(5), None]),
            insert(0, 1, &[Some(6), None]),
            insert(1, 0, &[Some(1), Some(6)]),
            insert(1, 1, &[Some(2), Some(6)]),
            begin(),
            delete(0, 1),
            update(0, 1, &[Some(7), None]),
            delete_where(0, 1, None),
            Step::ShowRows,
            update(0, 1, &[Some(6), Some(1)]),
            delete_where(0, 1, None),
            commit(),
            Step::ShowRows,
        ],
    }
}

/// The key of table 1, c0, to table 2 is broken. Table 1 refers to table 0 by c1.
fn broken_children(on_delete: u8, on_update: u8) -> Records {
    let tables = vec![table(3, 2, &[1]), table(3, 2, &[]), table(2, 1, &[])];
    let broken = key((1, &[0]), (2, &[0]), RESTRICT, RESTRICT);
    Records::new(
        8,
        tables,
        vec![broken, child_to_parent(on_delete, on_update)],
    )
}

fn cascade_to_children() -> Case {
    let mut steps = vec![insert(0, 0, &[Some(5), None])];
    steps.extend(reading(0, 0, [1, 5]));
    steps.extend(reading(2, 0, [2, 5]));
    steps.extend([update(0, 0, &[Some(6), None]), Step::ShowRows]);
    steps.extend([delete(0, 0), Step::ShowRows]);
    Case {
        title: "A cascade deletes child rows of a broken key, and updates none",
        schema: broken_children(CASCADE, CASCADE),
        steps,
    }
}

fn updates_by_actions() -> Case {
    let mut steps = vec![insert(0, 0, &[Some(5), None])];
    steps.extend(reading(1, 0, [1, 5]));
    steps.extend([
        delete(0, 0),
        update(0, 0, &[Some(6), None]),
        update(0, 0, &[Some(5), Some(1)]),
        Step::ShowRows,
    ]);
    Case {
        title: "SET NULL and SET DEFAULT of child rows of a broken key are refused",
        schema: broken_children(SET_NULL, SET_DEFAULT),
        steps,
    }
}

fn full_journal_first() -> Case {
    let mut schema = half_drawn(readings_key());
    schema.header.room = 2;
    Case {
        title: "A full journal comes before a broken key",
        schema,
        steps: vec![
            savepoint(),
            insert(0, 0, &[Some(1), None]),
            insert(1, 0, &[Some(1), None]),
            insert(0, 1, &[Some(2), None]),
            insert(1, 0, &[Some(1), None]),
            delete(0, 0),
            rollback_to(1),
            insert(1, 0, &[Some(1), None]),
        ],
    }
}

fn before_not_null_and_unique() -> Case {
    let mut schema = half_drawn(readings_key());
    schema.tables[1].not_null = 1;
    Case {
        title: "A broken key comes before NOT NULL and unique",
        schema,
        steps: vec![
            insert(1, 0, &[None, Some(1)]),
            insert(0, 0, &[Some(1), None]),
            insert(0, 1, &[Some(1), None]),
            insert(0, 1, &[Some(2), None]),
            update(0, 1, &[Some(1), None]),
            delete(1, 0),
            Step::ShowRows,
        ],
    }
}

/// Rows of table 0 are a chain of 16. Table 1 refers to the chain, and is the parent of a broken key.
fn depth_first() -> Case {
    let tables = vec![table(16, 2, &[1]), table(2, 2, &[]), table(1, 1, &[])];
    let keys = vec![
        key((0, &[1]), (0, &[0]), CASCADE, NO_ACTION),
        key((1, &[1]), (0, &[0]), CASCADE, NO_ACTION),
        key((2, &[0]), (1, &[0]), NO_ACTION, NO_ACTION),
    ];
    let mut steps = chain_rows(16);
    steps.extend([
        insert(1, 0, &[Some(1), Some(15)]),
        delete(0, 0),
        delete(0, 1),
        insert(1, 1, &[Some(2), Some(0)]),
        delete(0, 0),
    ]);
    Case {
        title: "Depth 17 comes before a broken key; at depth 16 the broken key refuses",
        schema: Records::new(32, tables, keys),
        steps,
    }
}

/// Table 1 holds its parent by RESTRICT. Table 2 goes with its parent, and a broken key refers to it.
fn restrict_and_broken(title: &'static str, restrict: usize) -> Case {
    let tables = vec![table(2, 1, &[1]), table(2, 1, &[]), table(2, 1, &[])];
    let mut keys = vec![
        key((2, &[0]), (0, &[0]), CASCADE, NO_ACTION),
        key((3, &[0]), (2, &[0]), NO_ACTION, NO_ACTION),
    ];
    keys.insert(restrict, key((1, &[0]), (0, &[0]), RESTRICT, NO_ACTION));
    Case {
        title,
        schema: Records::new(8, [tables, vec![table(1, 1, &[])]].concat(), keys),
        steps: vec![
            insert(0, 0, &[Some(1)]),
            insert(1, 0, &[Some(1)]),
            insert(2, 0, &[Some(1)]),
            delete(0, 0),
            delete(1, 0),
            delete(0, 0),
            Step::ShowRows,
        ],
    }
}

/// Key 1 has one column, so that all its parent columns are 255.
fn table_200_and_column_255() -> Case {
    let tables = vec![table(2, 1, &[1]), table(2, 2, &[1])];
    let keys = vec![
        deferred(key((1, &[0, 1]), (200, &[255, 0]), CASCADE, CASCADE)),
        key((1, &[1]), (0, &[255]), SET_NULL, SET_NULL),
    ];
    Case {
        title: "Keys to table 200 and to column 255 are broken",
        schema: Records::new(8, tables, keys),
        steps: vec![
            begin(),
            insert(0, 0, &[Some(1)]),
            insert(1, 0, &[Some(1), Some(1)]),
            insert(1, 0, &[None, None]),
            update(0, 0, &[Some(1)]),
            delete(0, 0),
            insert(0, 1, &[Some(2)]),
            commit(),
            Step::ShowRows,
        ],
    }
}

/// Table 0 has the unique keys (c0, c1) and c2. Tables 1 to 5 refer to it, each by one key.
fn near_misses() -> Case {
    let mut tables: Vec<Table> = vec![table(2, 4, &[3, 4])];
    tables.resize(6, table(1, 3, &[]));
    let to = |child: u8, columns: &[u8]| {
        let from: Vec<u8> = (0..columns.len() as u8).collect();
        key((child, &from), (0, columns), NO_ACTION, NO_ACTION)
    };
    let keys = vec![
        to(1, &[0]),
        to(2, &[1, 0, 2]),
        to(3, &[1, 2]),
        to(4, &[3]),
        to(5, &[1, 0]),
    ];
    let row = [None, None, None];
    Case {
        title: "A part of a unique key, more than one, and other columns break a key; another order does not",
        schema: Records::new(8, tables, keys),
        steps: vec![
            insert(0, 0, &[Some(1), Some(2), Some(3), Some(4)]),
            insert(1, 0, &row),
            insert(2, 0, &row),
            insert(3, 0, &row),
            insert(4, 0, &row),
            insert(5, 0, &row),
            update(5, 0, &[Some(2), Some(1), None]),
            update(5, 0, &[Some(1), Some(2), None]),
            delete(0, 0),
            Step::ShowRows,
        ],
    }
}

/// Row 0 of the table has its state in word 333.
fn own_table() -> Case {
    let own = key((0, &[1]), (0, &[0]), CASCADE, CASCADE);
    Case {
        title: "A broken key to its own table: no row is entered, updated or deleted",
        schema: Records::new(8, vec![table(2, 2, &[])], vec![own]),
        steps: vec![
            insert(0, 0, &[Some(1), Some(1)]),
            insert(0, 0, &[Some(1), None]),
            delete_where(0, 0, Some(1)),
            Step::SetWord(333, 256),
            Step::ShowRows,
            update(0, 0, &[Some(0), Some(0)]),
            delete(0, 0),
            delete_where(0, 0, Some(0)),
            Step::ShowOrphans,
        ],
    }
}

/// Key 0 of table 1 to table 0 and key 1 of table 2 to table 1 are broken.
fn child_of_one_parent_of_another() -> Case {
    let tables = vec![table(1, 1, &[]), table(1, 1, &[]), table(1, 1, &[])];
    let keys = vec![
        key((1, &[0]), (0, &[0]), CASCADE, CASCADE),
        key((2, &[0]), (1, &[0]), CASCADE, CASCADE),
    ];
    Case {
        title: "Child of one broken key and parent of another: neither entered nor deleted",
        schema: Records::new(8, tables, keys),
        steps: vec![
            insert(0, 0, &[Some(1)]),
            insert(1, 0, &[Some(1)]),
            Step::SetWord(335, 256),
            update(1, 0, &[Some(0)]),
            delete(1, 0),
            Step::SetWord(337, 256),
            delete(2, 0),
            Step::ShowRows,
        ],
    }
}

/// Row 0 of table 1 has its state in word 342.
fn half_filled_rows() -> Case {
    let pair = key((1, &[0, 1]), (0, &[0, 1]), NO_ACTION, NO_ACTION);
    let mut steps: Vec<Step> = reading(0, 2, [1, 0]).into();
    steps.extend(reading(1, 0, [1, 1]));
    steps.extend([
        Step::ShowRows,
        Step::ShowOrphans,
        insert(2, 0, &[Some(1)]),
        delete(1, 0),
        delete(1, 1),
    ]);
    Case {
        title: "A half-filled row is no orphan of a broken key of MATCH FULL",
        schema: half_drawn(match_full(pair)),
        steps,
    }
}

fn put_back() -> Case {
    Case {
        title: "A rollback takes rows of the broken key's parent away, though no deletion does",
        schema: half_drawn(deferred(readings_key())),
        steps: vec![
            savepoint(),
            insert(0, 0, &[Some(1), Some(7)]),
            savepoint(),
            insert(0, 1, &[Some(2), Some(7)]),
            insert(1, 0, &[Some(1), Some(7)]),
            delete(0, 1),
            rollback_to(2),
            Step::ShowRows,
            release(1),
            begin(),
            insert(0, 1, &[Some(2), Some(7)]),
            rollback(),
            Step::ShowRows,
        ],
    }
}

/// The kept number of key 0 is in word 4.
fn kept_number_outside() -> Case {
    Case {
        title: "A damaged kept number of a broken key, outside a transaction",
        schema: half_drawn(deferred(readings_key())),
        steps: vec![
            Step::SetWord(4, 1),
            insert(2, 0, &[Some(1)]),
            insert(0, 0, &[Some(1), None]),
            insert(1, 0, &[Some(1), None]),
            delete_where(1, 0, Some(9)),
            Step::ShowOrphans,
            Step::SetWord(4, 4),
            insert(1, 0, &[Some(1), None]),
            Step::SetWord(4, 0),
            insert(2, 0, &[Some(1)]),
        ],
    }
}

fn kept_number_inside() -> Case {
    Case {
        title: "A damaged kept number of a broken key, inside a transaction",
        schema: half_drawn(deferred(readings_key())),
        steps: vec![
            begin(),
            insert(2, 0, &[Some(1)]),
            Step::SetWord(4, 3),
            insert(2, 1, &[Some(2)]),
            commit(),
            savepoint(),
            insert(0, 0, &[Some(1), None]),
            Step::SetWord(4, 0),
            rollback_to(2),
            commit(),
            rollback(),
            Step::ShowRows,
        ],
    }
}
