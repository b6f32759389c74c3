//! The old key of a parent row that is changed or deleted: which child rows have it at their turn.

use super::*;
use crate::schema_bytes::build::*;
use crate::schema_bytes::records::Key;

pub fn cases() -> Vec<Case> {
    vec![
        own_parent(),
        changed_again(),
        default_deferred(),
        default_immediate(),
        four_columns(),
        crosswise(),
        words_without_value(),
    ]
}

/// Rows 0 and 2 refer to row 1, as it does itself; row 3 refers to row 0.
fn own_parent() -> Case {
    let own = key((0, &[1]), (0, &[0]), CASCADE, CASCADE);
    Case {
        title: "A horse that is its own parent is renumbered: rows before and after it follow too",
        schema: Records::new(16, vec![table(4, 2, &[1])], vec![own]),
        steps: vec![
            insert(0, 1, &[Some(5), Some(5)]),
            insert(0, 0, &[Some(2), Some(5)]),
            insert(0, 2, &[Some(3), Some(5)]),
            insert(0, 3, &[Some(4), Some(2)]),
            update(0, 1, &[Some(6), Some(5)]),
            Step::ShowRows,
            update(0, 1, &[Some(7), Some(7)]),
            Step::ShowRows,
            delete(0, 1),
            Step::ShowRows,
        ],
    }
}

/// Row 0 comes to refer to row 1 by the update that is gone through: NULL in the key of row 1 is
/// followed by NULL in that of row 0.
fn changed_again() -> Case {
    let own = key((0, &[1, 2]), (0, &[0, 1]), NO_ACTION, SET_NULL);
    Case {
        title:
            "The first child row leads to another change of the parent's key: the second is taken",
        schema: Records::new(8, vec![table(3, 3, &[3])], vec![own]),
        steps: vec![
            insert(0, 0, &[Some(1), Some(0), None]),
            insert(0, 1, &[Some(2), Some(1), Some(0)]),
            insert(0, 2, &[Some(3), Some(1), Some(0)]),
            update(0, 0, &[Some(9), Some(2), Some(1)]),
            Step::ShowRows,
        ],
    }
}

/// The parent of the default is deleted.
fn default_parent(title: &'static str, keys: Vec<Key>, steps: Vec<Step>) -> Case {
    let mut schema = parent_and_child(keys);
    schema.tables[1].defaults[1] = 5;
    let mut all = vec![
        insert(0, 0, &[Some(5), None]),
        insert(1, 0, &[Some(1), Some(5)]),
        insert(1, 2, &[Some(2), Some(5)]),
        delete(0, 0),
        begin(),
        delete(0, 0),
        Step::ShowRows,
        Step::ShowOrphans,
    ];
    all.extend(steps);
    Case {
        title,
        schema,
        steps: all,
    }
}

fn default_deferred() -> Case {
    default_parent(
        "SET DEFAULT, the default's parent deleted: rows keep the value and are taken once",
        vec![deferred(child_to_parent(SET_DEFAULT, NO_ACTION))],
        vec![commit(), insert(0, 3, &[Some(5), None]), commit()],
    )
}

fn default_immediate() -> Case {
    default_parent(
        "SET DEFAULT, the default's parent deleted under an immediate key",
        vec![child_to_parent(SET_DEFAULT, NO_ACTION)],
        vec![commit()],
    )
}

fn four_columns() -> Case {
    let own = key((1, &[0, 1, 2, 3]), (0, &[0, 1, 2, 3]), CASCADE, CASCADE);
    let row = |last: Value| [Some(1), Some(2), Some(3), last];
    Case {
        title: "A key of four columns: rows with another last value, or one NULL, are passed over",
        schema: Records::new(16, vec![table(2, 4, &[15]), table(6, 4, &[])], vec![own]),
        steps: vec![
            insert(0, 0, &row(Some(4))),
            insert(0, 1, &row(Some(5))),
            insert(1, 0, &row(Some(4))),
            insert(1, 1, &row(Some(5))),
            insert(1, 2, &[Some(1), Some(2), None, Some(4)]),
            insert(1, 3, &row(None)),
            insert(1, 4, &[None, Some(2), Some(3), Some(4)]),
            insert(1, 5, &row(Some(4))),
            update(0, 0, &row(Some(6))),
            Step::ShowRows,
            delete(0, 0),
            Step::ShowRows,
            update(0, 1, &row(None)),
            delete(0, 1),
            Step::ShowRows,
        ],
    }
}

fn crosswise() -> Case {
    let own = key((1, &[0, 1]), (0, &[1, 0]), CASCADE, SET_NULL);
    Case {
        title: "A key whose columns are paired crosswise",
        schema: Records::new(8, vec![table(2, 2, &[3]), table(2, 2, &[])], vec![own]),
        steps: vec![
            insert(0, 0, &[Some(1), Some(2)]),
            insert(0, 1, &[Some(2), Some(1)]),
            insert(1, 0, &[Some(1), Some(2)]),
            insert(1, 1, &[Some(2), Some(1)]),
            delete(0, 0),
            Step::ShowRows,
            update(0, 1, &[Some(1), Some(2)]),
            Step::ShowRows,
        ],
    }
}

/// Row r of table 1 has its state in word 345 + 3r, then c0 and c1.
fn words_without_value() -> Case {
    Case {
        title: "A NULL column and a vacant row with the old key's word are passed over",
        schema: parent_and_child(vec![child_to_parent(CASCADE, SET_NULL)]),
        steps: vec![
            insert(0, 0, &[Some(5), None]),
            insert(1, 0, &[Some(1), Some(5)]),
            insert(1, 1, &[Some(2), None]),
            insert(1, 3, &[Some(3), Some(5)]),
            Step::SetWord(350, 5),
            Step::SetWord(353, 5),
            delete(0, 0),
            Step::ShowRows,
        ],
    }
}
