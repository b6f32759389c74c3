//! MATCH FULL: a key with NULL in some but not all columns.

use super::searches::update_where;
use super::*;
use crate::schema_bytes::build::*;
use crate::schema_bytes::records::Key;

pub fn cases() -> Vec<Case> {
    vec![
        either_match(),
        mended(),
        no_parent_serves(),
        passed_over(),
        set_default(),
        cascade(
            "CASCADE of a key with NULL: half-filled rows are refused under MATCH FULL",
            match_full(pair(NO_ACTION, CASCADE)),
        ),
        cascade(
            "CASCADE of a key with NULL: half-filled rows pass under MATCH SIMPLE",
            pair(NO_ACTION, CASCADE),
        ),
        both_in_the_list(),
        four_columns(),
        put_back(),
        one_column(),
        own_parent(),
        half_filled_by_damage(),
    ]
}

/// The key of table 1, c1 and c2, to c0 and c1 of table 0: of a horse and a hoof.
fn pair(on_delete: u8, on_update: u8) -> Key {
    key((1, &[1, 2]), (0, &[0, 1]), on_delete, on_update)
}

/// Table 0 with a key of two columns, and tables of three columns after it. J = 16.
fn horses_and_hooves(tables: usize, keys: Vec<Key>) -> Records {
    let mut all = vec![table(4, 2, &[3])];
    all.resize(1 + tables, table(4, 3, &[]));
    Records::new(16, all, keys)
}

/// The key of table 1 is of MATCH FULL, that of table 2 of MATCH SIMPLE.
fn either_match() -> Case {
    let simple = key((2, &[1, 2]), (0, &[0, 1]), NO_ACTION, NO_ACTION);
    let full = match_full(pair(NO_ACTION, NO_ACTION));
    Case {
        title: "A half-filled key is refused under MATCH FULL and passes under MATCH SIMPLE",
        schema: horses_and_hooves(2, vec![full, simple]),
        steps: vec![
            insert(0, 0, &[Some(3), Some(1)]),
            insert(1, 0, &[Some(1), Some(3), None]),
            insert(1, 0, &[Some(1), None, Some(1)]),
            insert(1, 0, &[Some(1), None, None]),
            insert(1, 1, &[None, Some(3), Some(1)]),
            update(1, 1, &[None, Some(3), None]),
            insert(2, 0, &[Some(1), Some(3), None]),
            insert(2, 1, &[Some(2), None, Some(9)]),
            Step::ShowOrphans,
            Step::ShowRows,
        ],
    }
}

fn mended() -> Case {
    Case {
        title:
            "Half-filled keys wait under a deferred key: filled, emptied or deleted, all is well",
        schema: horses_and_hooves(1, vec![deferred(match_full(pair(NO_ACTION, NO_ACTION)))]),
        steps: vec![
            insert(0, 0, &[Some(3), Some(1)]),
            insert(1, 0, &[Some(1), Some(3), None]),
            begin(),
            insert(1, 0, &[Some(1), Some(3), None]),
            insert(1, 1, &[Some(2), None, Some(1)]),
            insert(1, 3, &[Some(3), Some(3), None]),
            Step::ShowOrphans,
            commit(),
            update(1, 0, &[Some(1), Some(3), Some(2)]),
            update(1, 0, &[Some(1), Some(3), Some(1)]),
            update(1, 1, &[Some(2), None, None]),
            commit(),
            delete(1, 3),
            commit(),
        ],
    }
}

fn no_parent_serves() -> Case {
    Case {
        title: "No parent serves a half-filled row, be it equal where that is filled or have the same NULL",
        schema: horses_and_hooves(1, vec![deferred(match_full(pair(CASCADE, CASCADE)))]),
        steps: vec![
            begin(),
            insert(1, 0, &[Some(1), Some(3), None]),
            insert(0, 0, &[Some(3), Some(0)]),
            insert(0, 1, &[Some(3), Some(1)]),
            insert(0, 2, &[Some(3), None]),
            Step::ShowOrphans,
            update(0, 1, &[Some(4), Some(1)]),
            update(0, 2, &[Some(4), None]),
            delete(0, 0),
            delete(0, 1),
            Step::ShowOrphans,
            commit(),
            Step::ShowRows,
        ],
    }
}

/// Key 1 would refuse the changes, if it took row 0 of table 2.
fn passed_over() -> Case {
    let restrict = key((2, &[1, 2]), (0, &[0, 1]), RESTRICT, RESTRICT);
    let keys = [pair(CASCADE, SET_NULL), restrict];
    let keys = keys.map(|key| deferred(match_full(key))).to_vec();
    Case {
        title: "Actions pass over half-filled rows; SET NULL empties the whole key",
        schema: horses_and_hooves(2, keys),
        steps: vec![
            insert(0, 0, &[Some(3), Some(1)]),
            insert(1, 0, &[Some(1), Some(3), Some(1)]),
            begin(),
            insert(1, 1, &[Some(2), Some(3), None]),
            insert(2, 0, &[Some(3), None, Some(1)]),
            update(0, 0, &[Some(4), Some(1)]),
            Step::ShowRows,
            update(1, 0, &[Some(1), Some(4), Some(1)]),
            delete(0, 0),
            Step::ShowRows,
            Step::ShowOrphans,
        ],
    }
}

/// The default of c1 is 3, that of c2 NULL.
fn set_default() -> Case {
    let own = deferred(match_full(pair(SET_DEFAULT, NO_ACTION)));
    let mut schema = horses_and_hooves(1, vec![own]);
    schema.tables[1].defaults[1] = 3;
    schema.tables[1].default_null = 4;
    Case {
        title: "SET DEFAULT with one NULL among the defaults leaves a half-filled key",
        schema,
        steps: vec![
            insert(0, 0, &[Some(5), Some(1)]),
            insert(1, 0, &[Some(1), Some(5), Some(1)]),
            insert(1, 1, &[Some(2), Some(5), Some(1)]),
            delete(0, 0),
            begin(),
            delete(0, 0),
            Step::ShowRows,
            Step::ShowOrphans,
            commit(),
            rollback(),
            Step::ShowOrphans,
        ],
    }
}

fn cascade(title: &'static str, own: Key) -> Case {
    Case {
        title,
        schema: horses_and_hooves(1, vec![own]),
        steps: vec![
            insert(0, 0, &[Some(3), Some(1)]),
            insert(1, 0, &[Some(1), Some(3), Some(1)]),
            update(0, 0, &[Some(3), None]),
            update(0, 0, &[None, None]),
            Step::ShowRows,
        ],
    }
}

/// Keys 0 and 1 have the same columns.
fn both_in_the_list() -> Case {
    let own = deferred(pair(NO_ACTION, NO_ACTION));
    Case {
        title: "The same columns under both matches: the list has half-filled rows under one",
        schema: horses_and_hooves(1, vec![own.clone(), match_full(own)]),
        steps: vec![
            begin(),
            insert(1, 3, &[Some(1), None, Some(2)]),
            insert(1, 2, &[Some(2), Some(3), Some(1)]),
            insert(1, 1, &[Some(3), None, None]),
            insert(1, 0, &[Some(4), Some(3), None]),
            Step::ShowOrphans,
            insert(0, 0, &[Some(3), Some(1)]),
            Step::ShowOrphans,
            commit(),
        ],
    }
}

/// Columns are emptied one by one in all rows.
fn four_columns() -> Case {
    let own = key((1, &[0, 1, 2, 3]), (0, &[0, 1, 2, 3]), CASCADE, CASCADE);
    let own = deferred(match_full(own));
    let tables = vec![table(1, 4, &[15]), table(4, 4, &[])];
    Case {
        title: "A key of four columns, emptied column by column",
        schema: Records::new(32, tables, vec![own]),
        steps: vec![
            insert(0, 0, &[Some(1), Some(2), Some(3), Some(4)]),
            insert(1, 0, &[Some(1), Some(2), Some(3), Some(4)]),
            begin(),
            insert(1, 1, &[Some(1), Some(2), Some(3), None]),
            insert(1, 2, &[None, None, Some(3), None]),
            insert(1, 3, &[None; 4]),
            Step::ShowOrphans,
            update_where(1, 0, Some(1), (0, None)),
            update_where(1, 2, Some(3), (2, None)),
            Step::ShowOrphans,
            update_where(1, 1, Some(2), (1, None)),
            update_where(1, 3, Some(4), (3, None)),
            Step::ShowRows,
            commit(),
        ],
    }
}

fn put_back() -> Case {
    Case {
        title: "A rollback puts half-filled rows back, and their count",
        schema: horses_and_hooves(1, vec![deferred(match_full(pair(NO_ACTION, NO_ACTION)))]),
        steps: vec![
            begin(),
            insert(1, 0, &[Some(1), Some(3), None]),
            insert(1, 1, &[Some(2), None, Some(1)]),
            savepoint(),
            update(1, 0, &[Some(1), None, None]),
            delete(1, 1),
            Step::ShowOrphans,
            rollback_to(2),
            Step::ShowOrphans,
            commit(),
            rollback(),
            Step::ShowOrphans,
        ],
    }
}

fn one_column() -> Case {
    let own = match_full(child_to_parent(SET_NULL, NO_ACTION));
    Case {
        title: "A key of one column is never half-filled: MATCH FULL alters nothing",
        schema: parent_and_child(vec![own]),
        steps: vec![
            insert(1, 0, &[Some(1), None]),
            insert(1, 1, &[Some(2), Some(5)]),
            insert(0, 0, &[Some(5), None]),
            insert(1, 1, &[Some(2), Some(5)]),
            delete(0, 0),
            Step::ShowRows,
            Step::ShowOrphans,
        ],
    }
}

/// c2 and c3 refer to c0 and c1 of the same table; c1 and c2 do so too, by key 1.
fn own_parent() -> Case {
    let keys = vec![
        match_full(key((0, &[2, 3]), (0, &[0, 1]), CASCADE, CASCADE)),
        key((0, &[1, 2]), (0, &[0, 1]), NO_ACTION, NO_ACTION),
    ];
    Case {
        title:
            "A row that is its own parent, half-filled under one of two keys that share a column",
        schema: Records::new(8, vec![table(3, 4, &[3])], keys),
        steps: vec![
            insert(0, 0, &[Some(1), Some(1), Some(1), Some(1)]),
            insert(0, 1, &[Some(2), Some(1), Some(1), None]),
            insert(0, 1, &[Some(2), None, Some(1), Some(1)]),
            update(0, 0, &[Some(1), Some(1), Some(1), None]),
            update(0, 0, &[Some(1), None, Some(1), Some(1)]),
            update(0, 0, &[Some(1), Some(1), None, None]),
            Step::ShowRows,
        ],
    }
}

/// Row 0 of table 1 has its state in word 345.
fn half_filled_by_damage() -> Case {
    Case {
        title: "A key half-filled by damage is listed, and the kept number cannot fall below 0",
        schema: horses_and_hooves(1, vec![match_full(pair(NO_ACTION, NO_ACTION))]),
        steps: vec![
            insert(0, 0, &[Some(3), Some(1)]),
            insert(1, 0, &[Some(1), Some(3), Some(1)]),
            Step::SetWord(345, 256 + 4),
            Step::ShowRows,
            Step::ShowOrphans,
            delete(1, 0),
            update(1, 0, &[Some(1), None, None]),
            update(1, 0, &[Some(1), Some(3), Some(1)]),
            update(1, 0, &[Some(1), None, Some(1)]),
            Step::SetWord(4, 1),
            update(1, 0, &[Some(1), None, None]),
            Step::ShowOrphans,
        ],
    }
}
