//! Calibrations that are moved, handed on or deleted, and what becomes of their readings.

use super::*;

pub fn restrict_keeps_its_readings() -> Case {
    Case {
        title: "RESTRICT lets a calibration be moved as long as it keeps its readings",
        schema: under_immediate(RESTRICT, RESTRICT),
        steps: vec![
            calibrate(0, 10, 20),
            read(0, 12),
            read(1, 15),
            recalibrate(0, 12, 20),
            recalibrate(0, 13, 20),
            recalibrate(0, 12, 16),
            recalibrate(0, 12, 15),
            update(0, 0, &without_end(12)),
            update(0, 0, &calibration(8, 12, 16)),
            recalibrate(0, 0, 90),
            update(0, 0, &[Some(7), Some(0), Some(90), None]),
            Step::ShowRows,
        ],
    }
}

pub fn restrict_upon_a_deletion() -> Case {
    Case {
        title: "RESTRICT refuses the deletion of a calibration in force on a reading's day",
        schema: under_deferred(RESTRICT, NO_ACTION),
        steps: vec![
            begin(),
            calibrate(0, 10, 20),
            calibrate(1, 20, 30),
            read(0, 25),
            delete(0, 1),
            delete(0, 0),
            recalibrate(1, 20, 25),
            delete(0, 1),
            commit(),
            delete(1, 0),
            commit(),
        ],
    }
}

pub fn shortened_under_no_action() -> Case {
    Case {
        title: "A calibration shortened past a reading under NO ACTION: 20 at the end",
        schema: under_immediate(NO_ACTION, NO_ACTION),
        steps: vec![
            calibrate(0, 10, 20),
            read(0, 15),
            recalibrate(0, 10, 15),
            recalibrate(0, 16, 20),
            update(0, 0, &without_end(10)),
            recalibrate(0, 15, 16),
            delete(0, 0),
            Step::ShowRows,
        ],
    }
}

pub fn shortened_under_a_deferred_key() -> Case {
    Case {
        title:
            "A calibration shortened past a reading under a deferred key: an orphan until mended",
        schema: under_deferred(NO_ACTION, NO_ACTION),
        steps: vec![
            calibrate(0, 10, 20),
            read(0, 15),
            recalibrate(0, 10, 15),
            begin(),
            recalibrate(0, 10, 15),
            Step::ShowOrphans,
            commit(),
            calibrate(1, 15, 20),
            commit(),
            Step::ShowRows,
        ],
    }
}

pub fn day_given_to_the_next() -> Case {
    Case {
        title: "A day is given to the next calibration: the one before is shortened first",
        schema: under_immediate(NO_ACTION, NO_ACTION),
        steps: vec![
            insert(0, 0, &[Some(7), Some(10), Some(20), Some(1)]),
            insert(0, 1, &[Some(7), Some(20), Some(30), Some(2)]),
            read(0, 19),
            update_where(0, 3, Some(1), (2, Some(19))),
            update_where(0, 3, Some(2), (1, Some(19))),
            delete(1, 0),
            update_where(0, 3, Some(1), (2, Some(19))),
            update_where(0, 3, Some(2), (1, Some(19))),
            read(0, 19),
            Step::ShowRows,
        ],
    }
}

pub fn lengthened_over_an_orphan() -> Case {
    Case {
        title: "A calibration lengthened over orphans mends them",
        schema: under_deferred(RESTRICT, RESTRICT),
        steps: vec![
            begin(),
            calibrate(0, 10, 20),
            read(0, 20),
            read(1, 9),
            read(2, 15),
            Step::ShowOrphans,
            recalibrate(0, 10, 21),
            recalibrate(0, 9, 21),
            commit(),
            Step::ShowOrphans,
        ],
    }
}

pub fn moved_under_another_sensor() -> Case {
    Case {
        title: "A calibration given to another sensor strands its readings and mends others",
        schema: under_deferred(NO_ACTION, NO_ACTION),
        steps: vec![
            begin(),
            calibrate(0, 10, 20),
            read(0, 15),
            insert(1, 1, &reading(8, 15)),
            insert(1, 2, &reading(8, 16)),
            update(0, 0, &calibration(8, 10, 20)),
            Step::ShowOrphans,
            commit(),
            delete_where(1, 0, Some(7)),
            commit(),
        ],
    }
}

pub fn first_day_respelled() -> Case {
    Case {
        title: "A first day in another spelling is another day: RESTRICT looks at the readings",
        schema: with_folded(under_deferred(RESTRICT, RESTRICT), 2),
        steps: vec![
            calibrate(0, word("A"), word("z")),
            read(0, word("B")),
            recalibrate(0, word("a"), word("z")),
            update(1, 0, &reading(7, word("c"))),
            recalibrate(0, word("a"), word("z")),
            Step::ShowRows,
        ],
    }
}

/// Row 1 of table 0 has its first day in word 340 and its end in word 341.
pub fn twins_by_damage() -> Case {
    Case {
        title: "Two calibrations in force on one day by damage: a reading is stranded by the second loss",
        schema: under_deferred(NO_ACTION, RESTRICT),
        steps: vec![
            calibrate(0, 10, 20),
            calibrate(1, 20, 30),
            read(0, 15),
            Step::SetWord(340, 12),
            Step::ShowRows,
            Step::ShowOrphans,
            recalibrate(0, 10, 14),
            recalibrate(0, 10, 20),
            recalibrate(1, 12, 30),
            update(0, 0, &[Some(8), Some(1), Some(2), Some(0)]),
            begin(),
            delete(0, 0),
            Step::ShowOrphans,
            delete(0, 1),
            Step::ShowOrphans,
            rollback(),
            delete(0, 1),
            recalibrate(0, 10, 21),
        ],
    }
}

/// The first day of a calibration is the tag, c3, of one of them, and follows it.
pub fn changed_again() -> Case {
    let keys = vec![
        deferred(key((0, &[1]), (0, &[3]), NO_ACTION, CASCADE)),
        in_force(NO_ACTION, RESTRICT),
    ];
    let tables = vec![table(3, 4, &[3, 8]), table(3, 2, &[])];
    Case {
        title: "RESTRICT goes by the row that the change wrote, also where that is changed again",
        schema: Records::new(16, tables, keys),
        steps: vec![
            insert(0, 1, &[2, 10, 20, 10].map(Some)),
            insert(0, 0, &[1, 10, 20, 16].map(Some)),
            insert(1, 0, &reading(1, 15)),
            update(0, 0, &[1, 16, 20, 5].map(Some)),
            delete(1, 0),
            insert(1, 0, &reading(1, 17)),
            update(0, 0, &[1, 16, 20, 5].map(Some)),
            Step::ShowRows,
        ],
    }
}

/// Calibrations and readings, and their sensors in table 2.
fn with_sensors(keys: Vec<Key>) -> Records {
    let tables = vec![table(4, 4, &[3]), table(4, 2, &[]), table(3, 1, &[1])];
    Records::new(16, tables, keys)
}

/// Sensors 7 and 8, and a calibration of each.
fn two_sensors() -> Vec<Step> {
    vec![
        insert(2, 0, &[Some(7)]),
        insert(2, 1, &[Some(8)]),
        calibrate(0, 10, 20),
        insert(0, 1, &calibration(8, 15, 30)),
    ]
}

/// Calibrations and readings refer to their sensors.
pub fn handed_down() -> Case {
    let keys = vec![
        key((1, &[0]), (2, &[0]), CASCADE, CASCADE),
        key((0, &[0]), (2, &[0]), CASCADE, CASCADE),
        deferred(in_force(RESTRICT, NO_ACTION)),
    ];
    let mut steps = two_sensors();
    steps.extend([
        read(0, 15),
        update(2, 0, &[Some(9)]),
        Step::ShowRows,
        delete_where(2, 0, Some(8)),
        delete(2, 0),
        Step::ShowRows,
    ]);
    Case {
        title: "A sensor renamed or deleted by CASCADE, with its calibrations and readings",
        schema: with_sensors(keys),
        steps,
    }
}

/// A sensor that is deleted leaves its calibrations to sensor 8.
pub fn given_by_an_action() -> Case {
    let keys = vec![
        key((0, &[0]), (2, &[0]), SET_DEFAULT, CASCADE),
        deferred(in_force(NO_ACTION, NO_ACTION)),
    ];
    let mut schema = with_sensors(keys);
    schema.tables[0].defaults[0] = 8;
    let mut steps = two_sensors();
    steps.extend([
        delete(2, 0),
        update(0, 1, &calibration(8, 20, 30)),
        delete(2, 0),
        Step::ShowRows,
    ]);
    Case {
        title: "A calibration that an action gives to another sensor is judged by 24",
        schema,
        steps,
    }
}

pub fn found_by_day() -> Case {
    Case {
        title: "One statement for many rows, found and set by days",
        schema: under_immediate(RESTRICT, RESTRICT),
        steps: vec![
            calibrate(0, 10, 20),
            insert(0, 1, &calibration(8, 10, 20)),
            calibrate(2, 25, 30),
            insert(1, 0, &reading(8, 19)),
            update_where(0, 2, Some(20), (2, Some(25))),
            update_where(0, 2, Some(25), (2, Some(26))),
            update_where(0, 1, Some(10), (2, Some(19))),
            update_where(0, 0, Some(7), (2, Some(40))),
            update_where(1, 1, Some(19), (1, Some(24))),
            update_where(1, 1, Some(24), (1, Some(25))),
            delete_where(0, 1, Some(10)),
            delete_where(0, 1, Some(25)),
            Step::ShowRows,
        ],
    }
}

pub fn undone() -> Case {
    Case {
        title: "A rollback gives back windows and the kept numbers",
        schema: under_deferred(NO_ACTION, NO_ACTION),
        steps: vec![
            calibrate(0, 10, 20),
            read(0, 15),
            savepoint(),
            savepoint(),
            recalibrate(0, 10, 15),
            calibrate(1, 14, 16),
            update_where(0, 2, Some(15), (2, Some(16))),
            rollback_to(2),
            calibrate(1, 14, 16),
            calibrate(1, 20, 30),
            release(1),
            Step::ShowRows,
            Step::ShowOrphans,
        ],
    }
}
