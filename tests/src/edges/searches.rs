//! One statement for many rows: deletions and updates of every row that a column's value finds.

use super::*;
use crate::schema_bytes::build::*;

pub fn cases() -> Vec<Case> {
    vec![
        found_by_value(),
        found_by_null(),
        column_sought_is_set(),
        no_row(),
        no_row_with_a_kept_number(),
        unique_at_second_row(),
        restrict_at_second_row(),
        orphans_between(),
        deleted_before_its_turn(),
        comes_to_be_met(
            "A row that comes to have the value sought before its turn is met",
            [&[Some(1), None], &[Some(2), Some(1)]],
        ),
        comes_to_be_met(
            "A row that comes to have the value sought after its turn is not met",
            [&[Some(2), Some(1)], &[Some(1), None]],
        ),
        no_longer_met(),
        chain("A chain of 16 rows from a row met", 16),
        chain("A chain of 17 rows from a row met: too deep", 17),
        journal_room("Three rows met fill a journal of 3", 3),
        journal_room("Four rows met and a journal of 3: full", 4),
        undone(),
        words_out_of_range(),
        words_without_use(),
    ]
}

/// Deletes every row whose column has the value.
pub fn delete_where(table: usize, column: usize, sought: Value) -> Step {
    search(table, column, sought, None)
}

/// Sets a column of every row whose column, the second number, has the value.
pub fn update_where(table: usize, column: usize, sought: Value, set: (usize, Value)) -> Step {
    search(table, column, sought, Some(set))
}

fn search(table: usize, column: usize, sought: Value, set: Option<(usize, Value)>) -> Step {
    let search = Search {
        table,
        column,
        sought,
        set,
    };
    Step::Call(search.words())
}

/// A call of these words and zeros.
fn words_call(words: &[i64]) -> Step {
    let mut call = words.to_vec();
    call.resize(12, 0);
    Step::Call(call)
}

/// One table: a key in c0, and c1 that rows have in common.
fn keyed(rows: u16, room: u16) -> Records {
    Records::new(room, vec![table(rows, 2, &[1])], vec![])
}

/// One table whose c1 refers to its own c0; c2 is what rows have in common.
fn referring(on_delete: u8) -> Records {
    let own = key((0, &[1]), (0, &[0]), on_delete, NO_ACTION);
    Records::new(16, vec![table(4, 3, &[1])], vec![own])
}

fn found_by_value() -> Case {
    Case {
        title: "All readings of a sensor moved to another, then deleted",
        schema: keyed(4, 8),
        steps: vec![
            insert(0, 0, &[Some(1), Some(7)]),
            insert(0, 1, &[Some(2), Some(8)]),
            insert(0, 3, &[Some(3), Some(7)]),
            update_where(0, 1, Some(7), (1, Some(9))),
            Step::ShowRows,
            delete_where(0, 1, Some(9)),
            Step::ShowRows,
        ],
    }
}

fn found_by_null() -> Case {
    Case {
        title: "NULL and 0 are sought apart, and no vacant row is met",
        schema: keyed(4, 8),
        steps: vec![
            insert(0, 0, &[Some(0), None]),
            insert(0, 1, &[Some(1), Some(0)]),
            insert(0, 2, &[None, None]),
            update_where(0, 1, None, (1, Some(5))),
            Step::ShowRows,
            update_where(0, 1, Some(0), (0, None)),
            Step::ShowRows,
            delete_where(0, 0, Some(0)),
            delete_where(0, 0, None),
            Step::ShowRows,
        ],
    }
}

fn column_sought_is_set() -> Case {
    Case {
        title: "The column sought is set; a write that alters no value counts",
        schema: keyed(3, 8),
        steps: vec![
            insert(0, 0, &[Some(1), Some(7)]),
            insert(0, 1, &[Some(2), Some(8)]),
            insert(0, 2, &[Some(3), Some(7)]),
            update_where(0, 1, Some(7), (1, Some(8))),
            update_where(0, 1, Some(7), (1, Some(8))),
            update_where(0, 1, Some(8), (1, Some(8))),
            update_where(0, 1, Some(8), (1, None)),
            Step::ShowRows,
        ],
    }
}

fn no_row() -> Case {
    Case {
        title: "Finding no row is no cause to refuse",
        schema: keyed(2, 8),
        steps: vec![
            delete_where(0, 1, Some(7)),
            insert(0, 0, &[Some(1), Some(8)]),
            update_where(0, 1, Some(7), (0, Some(2))),
            delete_where(0, 1, None),
            begin(),
            delete_where(0, 1, Some(7)),
            commit(),
            Step::ShowRows,
        ],
    }
}

/// The area's word 4 is the kept number of key 0.
fn no_row_with_a_kept_number() -> Case {
    Case {
        title: "Without a row met, a kept number that is not zero is judged as for any statement",
        schema: parent_and_child(vec![deferred(child_to_parent(NO_ACTION, NO_ACTION))]),
        steps: vec![
            Step::SetWord(4, 1),
            delete_where(0, 0, Some(5)),
            update_where(1, 0, Some(5), (0, Some(6))),
            begin(),
            delete_where(0, 0, Some(5)),
            commit(),
        ],
    }
}

fn unique_at_second_row() -> Case {
    Case {
        title: "A unique key broken at the second row: all is put back",
        schema: keyed(3, 8),
        steps: vec![
            insert(0, 0, &[Some(1), Some(7)]),
            insert(0, 1, &[Some(2), Some(8)]),
            insert(0, 2, &[Some(3), Some(7)]),
            update_where(0, 1, Some(7), (0, Some(5))),
            Step::ShowRows,
            update_where(0, 1, Some(8), (0, Some(5))),
            update_where(0, 1, Some(7), (0, None)),
            Step::ShowRows,
        ],
    }
}

fn restrict_at_second_row() -> Case {
    Case {
        title: "RESTRICT at one of the rows: all is put back",
        schema: parent_and_child(vec![child_to_parent(RESTRICT, RESTRICT)]),
        steps: vec![
            insert(0, 0, &[Some(5), Some(1)]),
            insert(0, 1, &[Some(6), Some(1)]),
            insert(0, 2, &[Some(8), Some(2)]),
            insert(1, 0, &[Some(1), Some(6)]),
            delete_where(0, 1, Some(1)),
            update_where(0, 1, Some(1), (0, None)),
            delete_where(0, 1, Some(2)),
            Step::ShowRows,
        ],
    }
}

fn orphans_between() -> Case {
    Case {
        title: "An immediate key is judged after the last row: orphans in between are let pass",
        schema: referring(NO_ACTION),
        steps: vec![
            insert(0, 0, &[Some(1), None, Some(7)]),
            insert(0, 1, &[Some(2), Some(1), Some(7)]),
            insert(0, 2, &[Some(3), Some(2), Some(8)]),
            delete(0, 0),
            delete_where(0, 2, Some(7)),
            update_where(0, 2, Some(8), (1, None)),
            delete_where(0, 2, Some(7)),
            Step::ShowRows,
        ],
    }
}

fn deleted_before_its_turn() -> Case {
    Case {
        title: "A row that an earlier row's CASCADE deleted is not met at its turn",
        schema: referring(CASCADE),
        steps: vec![
            insert(0, 0, &[Some(1), None, Some(7)]),
            insert(0, 1, &[Some(2), Some(1), Some(7)]),
            insert(0, 3, &[Some(3), None, Some(7)]),
            delete_where(0, 2, Some(7)),
            Step::ShowRows,
        ],
    }
}

/// Deleting the row (1, NULL) sets NULL in c1 of the row (2, 1).
fn comes_to_be_met(title: &'static str, rows: [&[Value]; 2]) -> Case {
    let mut schema = to_itself(2, 8, SET_NULL);
    schema.keys[0].deferred = 1;
    Case {
        title,
        schema,
        steps: vec![
            begin(),
            insert(0, 0, rows[0]),
            insert(0, 1, rows[1]),
            delete_where(0, 1, None),
            Step::ShowRows,
            commit(),
        ],
    }
}

/// Row 0 is the parent of rows 0 and 1; its deletion sets their c1 to 9.
fn no_longer_met() -> Case {
    let mut schema = to_itself(4, 8, SET_DEFAULT);
    schema.tables[0].defaults[1] = 9;
    Case {
        title: "A row that an earlier row's action changed is judged as it then is",
        schema,
        steps: vec![
            insert(0, 3, &[Some(9), None]),
            insert(0, 0, &[Some(1), Some(1)]),
            insert(0, 1, &[Some(2), Some(1)]),
            delete_where(0, 1, Some(1)),
            Step::ShowRows,
        ],
    }
}

/// The row without a parent is met: the others follow by CASCADE.
fn chain(title: &'static str, rows: u16) -> Case {
    let mut steps = chain_rows(rows.into());
    steps.push(delete_where(0, 1, None));
    Case {
        title,
        schema: to_itself(rows, 32, CASCADE),
        steps,
    }
}

fn journal_room(title: &'static str, rows: usize) -> Case {
    let mut steps: Vec<Step> = (0..rows)
        .map(|row| insert(0, row, &[Some(row as i64), Some(7)]))
        .collect();
    steps.extend([update_where(0, 1, Some(7), (1, Some(8))), Step::ShowRows]);
    Case {
        title,
        schema: keyed(4, 3),
        steps,
    }
}

fn undone() -> Case {
    Case {
        title: "A statement for many rows is undone by a rollback",
        schema: referring(CASCADE),
        steps: vec![
            insert(0, 0, &[Some(1), None, Some(7)]),
            insert(0, 1, &[Some(2), Some(1), Some(8)]),
            insert(0, 2, &[Some(3), None, Some(7)]),
            savepoint(),
            update_where(0, 2, Some(7), (2, Some(8))),
            savepoint(),
            delete_where(0, 2, Some(8)),
            rollback_to(2),
            Step::ShowRows,
            rollback(),
            Step::ShowRows,
        ],
    }
}

fn words_out_of_range() -> Case {
    Case {
        title: "Words 1, 2, 3 and 5 of kinds 10 and 11 out of their ranges",
        schema: keyed(2, 8),
        steps: vec![
            words_call(&[10, 1]),
            words_call(&[10, -1]),
            words_call(&[10, 0, 2]),
            words_call(&[10, 0, -1]),
            words_call(&[10, 0, 0, 2]),
            words_call(&[10, 0, 0, -1]),
            words_call(&[11, 1]),
            words_call(&[11, 0, 2]),
            words_call(&[11, 0, 0, 4]),
            words_call(&[11, 0, 0, 0, 0, 2]),
            words_call(&[11, 0, 0, 0, 0, -1]),
            words_call(&[12]),
        ],
    }
}

fn words_without_use() -> Case {
    Case {
        title: "A value beside NULL, and unused words, of kinds 10 and 11",
        schema: keyed(2, 8),
        steps: vec![
            words_call(&[10, 0, 0, 1, 5]),
            words_call(&[10, 0, 0, 0, 5, 1]),
            words_call(&[10, 0, 0, 0, 5, 0, 1]),
            words_call(&[10, 0, 0, 0, 5, 0, 0, 0, 0, 0, 0, 1]),
            words_call(&[11, 0, 0, 1, 5]),
            words_call(&[11, 0, 0, 2, 5, 1, 6]),
            words_call(&[11, 0, 0, 0, 5, 1, 6, 1]),
            words_call(&[11, 0, 0, 0, 5, 1, 6, 0, 0, 0, 0, 1]),
            Step::Call(vec![10, 0, 0, 0, 5, 0, 0, 0, 0, 0, 0]),
        ],
    }
}
