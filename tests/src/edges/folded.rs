//! Folded columns: names that differ in capitals.

use super::searches::{delete_where, update_where};
use super::*;
use crate::schema_bytes::build::*;
use crate::schema_bytes::records::{Key, Table};
use crate::sqlite::names;

pub fn cases() -> Vec<Case> {
    vec![
        any_capitals(),
        respelled_parent(),
        parents_mark(),
        two_parents(),
        one_column_of_two(),
        crossed_pairs(),
        four_pairs(),
        nearly_letters(),
        highest_byte(),
        restrict(),
        set_default(),
        renamed_nearly(),
        set_by_search(),
        handed_on(),
        own_parent(),
        null_equals_nothing(),
        put_back(),
        broken(),
    ]
}

/// A name of up to eight bytes as a value.
fn name(text: &str) -> Value {
    Some(names::word(text.as_bytes()))
}

/// A word of eight bytes, the lowest first, as a value.
fn word(bytes: [u8; 8]) -> Value {
    Some(i64::from_le_bytes(bytes))
}

/// Sensors by their names in c0, which is folded.
fn sensors() -> Table {
    folded(table(4, 1, &[1]), 1)
}

/// Sensors in table 0. Readings in table 1 refer to them by c1, which is not folded. J = 16.
fn readings(key: Key) -> Records {
    Records::new(16, vec![sensors(), table(4, 2, &[1])], vec![key])
}

/// Enters a sensor.
fn enter(row: usize, text: &str) -> Step {
    insert(0, row, &[name(text)])
}

/// Gives a sensor another name.
fn rename(row: usize, text: &str) -> Step {
    update(0, row, &[name(text)])
}

/// Enters a reading of a sensor. Readings are counted from 1.
fn read(row: usize, text: &str) -> Step {
    insert(1, row, &[Some(row as i64 + 1), name(text)])
}

fn any_capitals() -> Case {
    Case {
        title: "A sensor is the same in any capitals, and every spelling stays as it is typed",
        schema: readings(child_to_parent(CASCADE, CASCADE)),
        steps: vec![
            enter(0, "Lf2"),
            enter(1, "LF2"),
            enter(1, "Lf3"),
            read(0, "lf2"),
            read(1, "LF2"),
            read(2, "Lf4"),
            rename(0, "lF2"),
            Step::ShowRows,
            rename(1, "LF2"),
            rename(0, "Rf9"),
            Step::ShowRows,
            delete_where(1, 1, name("RF9")),
            delete_where(0, 0, name("rF9")),
            Step::ShowRows,
        ],
    }
}

/// Table 1 refers to the sensors by c0 to c4, each with another action upon an update.
fn respelled_parent() -> Case {
    let actions = [NO_ACTION, RESTRICT, SET_NULL, SET_DEFAULT, CASCADE];
    let keys = (0..).zip(actions);
    let keys = keys.map(|(column, action)| key((1, &[column]), (0, &[0]), NO_ACTION, action));
    let mut children = table(2, 5, &[]);
    children.defaults[3] = names::word(b"RF2");
    let child = |first, second| [first, second, name("lF2"), name("LF2"), name("Lf2")];
    Case {
        title: "Respelling a parent runs no action; another name runs every one",
        schema: Records::new(16, vec![sensors(), children], keys.collect()),
        steps: vec![
            enter(0, "Lf2"),
            insert(1, 0, &child(name("Lf2"), name("lf2"))),
            rename(0, "LF2"),
            Step::ShowRows,
            rename(0, "Rf2"),
            update(1, 0, &child(name("lf2"), None)),
            rename(0, "Rf2"),
            update(1, 0, &child(None, None)),
            rename(0, "Rf2"),
            Step::ShowRows,
        ],
    }
}

/// Table 0 is folded in its key, table 1 is not. Table 2 refers to table 1 by c0, which is folded, and
/// to table 0 by c1, which is not.
fn parents_mark() -> Case {
    let tables = vec![sensors(), table(4, 1, &[1]), folded(table(4, 2, &[]), 1)];
    let keys = vec![
        deferred(key((2, &[0]), (1, &[0]), CASCADE, CASCADE)),
        key((2, &[1]), (0, &[0]), CASCADE, CASCADE),
    ];
    Case {
        title: "A foreign key goes by the parent column's mark, not by the child column's",
        schema: Records::new(16, tables, keys),
        steps: vec![
            begin(),
            enter(0, "Lf2"),
            insert(1, 0, &[name("Lf2")]),
            insert(2, 0, &[name("lf2"), name("lf2")]),
            Step::ShowOrphans,
            commit(),
            delete(1, 0),
            insert(1, 0, &[name("LF2")]),
            update(1, 0, &[name("lf2")]),
            commit(),
            delete_where(2, 1, name("LF2")),
            delete_where(2, 0, name("LF2")),
            Step::ShowRows,
        ],
    }
}

/// Table 2 refers by c0 to table 0, which is folded, and to table 1, which is not.
fn two_parents() -> Case {
    let tables = vec![sensors(), table(4, 1, &[1]), table(4, 1, &[])];
    let keys = vec![
        deferred(key((2, &[0]), (0, &[0]), SET_NULL, NO_ACTION)),
        deferred(key((2, &[0]), (1, &[0]), NO_ACTION, CASCADE)),
    ];
    Case {
        title: "One child column under a folded parent and one that is not",
        schema: Records::new(16, tables, keys),
        steps: vec![
            begin(),
            enter(0, "Lf2"),
            insert(1, 0, &[name("Lf2")]),
            insert(2, 0, &[name("lf2")]),
            insert(2, 1, &[name("Lf2")]),
            Step::ShowOrphans,
            update(1, 0, &[name("LF2")]),
            Step::ShowRows,
            Step::ShowOrphans,
            delete(0, 0),
            Step::ShowRows,
            commit(),
        ],
    }
}

fn one_column_of_two() -> Case {
    Case {
        title: "A unique key of two columns of which one is folded",
        schema: Records::new(8, vec![folded(table(6, 2, &[3]), 1)], vec![]),
        steps: vec![
            insert(0, 0, &[name("Lf"), name("a")]),
            insert(0, 1, &[name("LF"), name("a")]),
            insert(0, 1, &[name("LF"), name("A")]),
            insert(0, 2, &[name("lf"), name("A")]),
            insert(0, 2, &[name("lf"), None]),
            insert(0, 3, &[name("LF"), None]),
            update(0, 1, &[name("lF"), name("A")]),
            update(0, 1, &[name("lF"), name("a")]),
            update_where(0, 1, None, (1, name("b"))),
            Step::ShowRows,
        ],
    }
}

/// Table 1 refers by c0 to c1 of table 0, which is folded, and by c1 to c0, which is not.
fn crossed_pairs() -> Case {
    let tables = vec![folded(table(4, 2, &[3]), 2), table(4, 2, &[])];
    let pairs = key((1, &[0, 1]), (0, &[1, 0]), RESTRICT, CASCADE);
    Case {
        title: "Each pair of a foreign key goes by the mark of its own parent column",
        schema: Records::new(8, tables, vec![pairs]),
        steps: vec![
            insert(0, 0, &[name("Ab"), name("Cd")]),
            insert(1, 0, &[name("cD"), name("Ab")]),
            insert(1, 1, &[name("Cd"), name("aB")]),
            insert(1, 1, &[name("Ab"), name("Cd")]),
            delete(0, 0),
            update(0, 0, &[name("Ab"), name("CD")]),
            Step::ShowRows,
            update(0, 0, &[name("AB"), name("Cd")]),
            Step::ShowRows,
        ],
    }
}

/// All pairs but the third are folded.
fn four_pairs() -> Case {
    let tables = vec![folded(table(2, 4, &[15]), 11), table(3, 4, &[])];
    let pairs = key((1, &[0, 1, 2, 3]), (0, &[0, 1, 2, 3]), SET_NULL, SET_NULL);
    let row = |text: &str| -> Vec<Value> {
        let letters = text.chars();
        letters.map(|letter| name(&letter.to_string())).collect()
    };
    Case {
        title: "Four pairs, of which the third is not folded",
        schema: Records::new(8, tables, vec![pairs]),
        steps: vec![
            insert(0, 0, &row("aBcD")),
            insert(1, 0, &row("AbcD")),
            insert(1, 1, &row("aBcd")),
            insert(1, 2, &row("aBCD")),
            update(0, 0, &row("Abcd")),
            Step::ShowRows,
            update(0, 0, &row("aBCD")),
            Step::ShowRows,
        ],
    }
}

/// The bytes before and after the letters, and letters with the highest bit.
fn nearly_letters() -> Case {
    let bytes = [
        0x40, 0x60, 0x5B, 0x7B, 0xC1, 0xE1, 0xDA, 0xFA, 0x80, 0xA0, 0x41, 0x5A,
    ];
    let one = |byte: u8| word([byte, 0, 0, 0, 0, 0, 0, 0]);
    let mut steps: Vec<Step> = Vec::new();
    for (row, byte) in bytes.into_iter().enumerate() {
        steps.push(insert(0, row, &[one(byte)]));
    }
    steps.extend([
        insert(0, 12, &[one(0x61)]),
        insert(0, 12, &[one(0x7A)]),
        delete_where(0, 0, one(0x60)),
        delete_where(0, 0, one(0x7B)),
        delete_where(0, 0, one(0xE1)),
        delete_where(0, 0, one(0xFA)),
        delete_where(0, 0, one(0xA0)),
        delete_where(0, 0, one(0x61)),
        delete_where(0, 0, one(0x7A)),
        Step::ShowRows,
    ]);
    Case {
        title: "41 to 5A are folded, and neither the bytes beside them nor those from 80 on",
        schema: Records::new(8, vec![folded(table(13, 1, &[1]), 1)], vec![]),
        steps,
    }
}

fn highest_byte() -> Case {
    let negative = |lowest| word([lowest, 0x4C, 0, 0, 0, 0, 0, 0x80]);
    let highest = |byte| word([0x31, 0, 0, 0, 0, 0, 0, byte]);
    Case {
        title: "Every byte is folded, also of a negative word, and the highest",
        schema: readings(child_to_parent(RESTRICT, CASCADE)),
        steps: vec![
            insert(0, 0, &[negative(0x41)]),
            insert(0, 1, &[negative(0x61)]),
            insert(1, 0, &[Some(1), negative(0x61)]),
            delete(0, 0),
            insert(0, 1, &[highest(0x5A)]),
            insert(0, 2, &[highest(0x7A)]),
            insert(0, 2, &[highest(0xDA)]),
            insert(0, 3, &[highest(0xFA)]),
            insert(1, 1, &[Some(2), highest(0x7A)]),
            update_where(0, 0, highest(0x7A), (0, highest(0x7A))),
            update(0, 0, &[negative(0x42)]),
            Step::ShowRows,
        ],
    }
}

fn restrict() -> Case {
    Case {
        title: "RESTRICT is held by a child row of another spelling",
        schema: readings(child_to_parent(RESTRICT, RESTRICT)),
        steps: vec![
            enter(0, "Lf2"),
            read(0, "lF2"),
            delete(0, 0),
            rename(0, "Lf3"),
            rename(0, "LF2"),
            delete_where(0, 0, name("lf2")),
            delete(1, 0),
            delete(0, 0),
            Step::ShowRows,
        ],
    }
}

fn set_default() -> Case {
    let mut schema = readings(deferred(child_to_parent(SET_DEFAULT, SET_DEFAULT)));
    schema.tables[1].defaults[1] = names::word(b"LF2");
    Case {
        title: "SET DEFAULT gives the old name in another spelling: it is written, and an orphan",
        schema,
        steps: vec![
            enter(0, "Lf2"),
            read(0, "lf2"),
            delete(0, 0),
            begin(),
            delete(0, 0),
            Step::ShowRows,
            enter(1, "lF2"),
            commit(),
            begin(),
            rename(1, "Rf1"),
            rename(1, "lf2"),
            commit(),
            Step::ShowRows,
        ],
    }
}

fn renamed_nearly() -> Case {
    Case {
        title: "A new name that differs in a byte that is no letter runs the action",
        schema: readings(child_to_parent(CASCADE, CASCADE)),
        steps: vec![
            enter(0, "L["),
            read(0, "l["),
            rename(0, "l["),
            Step::ShowRows,
            rename(0, "L{"),
            Step::ShowRows,
        ],
    }
}

/// Of table 0 c0 is folded and c1 is not; readings refer to c0.
fn set_by_search() -> Case {
    let tables = vec![folded(table(4, 2, &[1]), 1), table(4, 2, &[1])];
    let keys = vec![child_to_parent(NO_ACTION, SET_NULL)];
    Case {
        title: "Kinds 10 and 11 find by the mark of the column sought, and set what is typed",
        schema: Records::new(16, tables, keys),
        steps: vec![
            insert(0, 0, &[name("Lf2"), name("Left")]),
            insert(0, 1, &[name("Rf2"), name("left")]),
            read(0, "LF2"),
            update_where(0, 0, name("lf2"), (0, name("lF2"))),
            update_where(0, 1, name("LEFT"), (1, name("Right"))),
            update_where(0, 1, name("left"), (1, name("Left"))),
            update_where(0, 1, name("Left"), (0, name("LF2"))),
            Step::ShowRows,
            delete_where(0, 0, name("RF2")),
            update_where(0, 0, name("LF2"), (0, name("Rf2"))),
            Step::ShowRows,
        ],
    }
}

/// Table 1 refers by c1 to table 0, which is not folded; table 2 refers to c1 of table 1, which is.
fn handed_on() -> Case {
    let tables = vec![
        table(2, 1, &[1]),
        folded(table(2, 2, &[2]), 2),
        table(2, 1, &[]),
    ];
    let keys = vec![
        key((1, &[1]), (0, &[0]), CASCADE, CASCADE),
        key((2, &[0]), (1, &[1]), CASCADE, CASCADE),
    ];
    Case {
        title: "A respelling is handed on under a parent that is not folded, and ends under one that is",
        schema: Records::new(8, tables, keys),
        steps: vec![
            enter(0, "Lf2"),
            read(0, "Lf2"),
            insert(2, 0, &[name("lf2")]),
            rename(0, "LF2"),
            Step::ShowRows,
            rename(0, "Rf2"),
            Step::ShowRows,
            delete(0, 0),
            Step::ShowRows,
        ],
    }
}

/// c1 refers to c0, which is folded.
fn own_parent() -> Case {
    let own = key((0, &[1]), (0, &[0]), RESTRICT, CASCADE);
    Case {
        title: "A row that refers to itself in another spelling",
        schema: Records::new(8, vec![folded(table(3, 2, &[1]), 1)], vec![own]),
        steps: vec![
            insert(0, 0, &[name("Lf2"), name("lf2")]),
            insert(0, 1, &[name("Rf2"), name("lF2")]),
            update(0, 0, &[name("LF2"), name("lf2")]),
            delete(0, 0),
            update(0, 0, &[name("Lf3"), name("lf2")]),
            Step::ShowRows,
            delete(0, 1),
            delete(0, 0),
            Step::ShowRows,
        ],
    }
}

/// A row of table 1 is damaged: table 0 takes the words before 341.
fn null_equals_nothing() -> Case {
    Case {
        title: "NULL equals nothing in a folded column, whatever word stands beside it",
        schema: readings(child_to_parent(CASCADE, CASCADE)),
        steps: vec![
            insert(0, 0, &[None]),
            insert(0, 1, &[None]),
            enter(2, "Lf2"),
            insert(1, 0, &[Some(1), None]),
            Step::SetWord(343, names::word(b"lf2")),
            Step::SetWord(334, names::word(b"LF2")),
            enter(3, "LF2"),
            delete_where(0, 0, name("LF2")),
            Step::ShowRows,
            delete_where(0, 0, None),
            Step::ShowRows,
        ],
    }
}

fn put_back() -> Case {
    Case {
        title: "A rollback gives every spelling back",
        schema: readings(child_to_parent(CASCADE, CASCADE)),
        steps: vec![
            enter(0, "Lf2"),
            read(0, "lF2"),
            savepoint(),
            rename(0, "lf2"),
            savepoint(),
            rename(0, "RF2"),
            Step::ShowRows,
            rollback_to(2),
            Step::ShowRows,
            rollback(),
            Step::ShowRows,
        ],
    }
}

/// The sensors have no unique key.
fn broken() -> Case {
    let sensors = folded(table(4, 1, &[]), 1);
    let keys = vec![child_to_parent(CASCADE, CASCADE)];
    Case {
        title: "A broken key is broken in every spelling",
        schema: Records::new(16, vec![sensors, table(4, 2, &[1])], keys),
        steps: vec![
            enter(0, "Lf2"),
            enter(1, "LF2"),
            read(0, "lf2"),
            rename(0, "LF2"),
            delete(0, 0),
            Step::ShowRows,
            Step::ShowOrphans,
        ],
    }
}
