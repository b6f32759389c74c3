//! Which days a calibration is in force, and which calibrations refusal 24 lets pass.

use super::*;

pub fn days_of_a_window() -> Case {
    Case {
        title:
            "A reading on the first day, on the last and between; none on the end's day or before",
        schema: under_immediate(NO_ACTION, NO_ACTION),
        steps: vec![
            calibrate(0, 10, 20),
            read(0, 10),
            read(1, 19),
            read(2, 15),
            read(3, 20),
            read(3, 9),
            insert(1, 3, &reading(8, 15)),
            calibrate(1, 20, 21),
            read(3, 20),
            update(1, 2, &reading(7, 21)),
            Step::ShowRows,
        ],
    }
}

pub fn shared_days() -> Case {
    Case {
        title: "Calibrations of a sensor may touch; those that share a day are refused by 24",
        schema: under_immediate(NO_ACTION, NO_ACTION),
        steps: vec![
            calibrate(0, 10, 20),
            calibrate(1, 20, 30),
            calibrate(2, 5, 10),
            calibrate(3, 29, 31),
            calibrate(3, 4, 6),
            calibrate(3, 12, 13),
            calibrate(3, 0, 40),
            insert(0, 3, &calibration(8, 0, 40)),
            recalibrate(1, 19, 30),
            recalibrate(1, 21, 30),
            recalibrate(0, 10, 21),
            recalibrate(0, 10, 22),
            recalibrate(3, 30, 40),
            delete(0, 1),
            recalibrate(0, 10, 30),
            Step::ShowRows,
        ],
    }
}

pub fn empty_windows() -> Case {
    Case {
        title: "An end that is not after the first day: 24",
        schema: under_immediate(RESTRICT, RESTRICT),
        steps: vec![
            calibrate(0, 10, 10),
            calibrate(0, 10, 9),
            calibrate(0, 10, 11),
            recalibrate(0, 11, 11),
            recalibrate(0, i64::MAX, i64::MIN),
            recalibrate(0, i64::MIN, i64::MAX),
            Step::ShowRows,
        ],
    }
}

/// Row 0 of table 0 has its first day in word 335 and its end in word 336.
pub fn empty_by_damage() -> Case {
    Case {
        title: "A window that is empty by damage shares no day and serves nobody",
        schema: under_deferred(RESTRICT, RESTRICT),
        steps: vec![
            calibrate(0, 10, 20),
            Step::SetWord(336, 10),
            calibrate(1, 5, 15),
            read(0, 10),
            delete(0, 1),
            recalibrate(0, 10, 10),
            Step::SetWord(335, 12),
            calibrate(2, 15, 30),
            delete(0, 0),
            Step::ShowRows,
        ],
    }
}

pub fn null_in_a_window() -> Case {
    Case {
        title: "A calibration with NULL in its end serves nobody, and 24 passes over it",
        schema: under_deferred(RESTRICT, RESTRICT),
        steps: vec![
            insert(0, 0, &without_end(10)),
            read(0, 10),
            calibrate(1, 5, 30),
            insert(0, 2, &without_end(15)),
            insert(0, 3, &[Some(7), None, Some(20), Some(0)]),
            read(0, 15),
            recalibrate(0, 10, 20),
            delete(0, 0),
            delete(0, 2),
            delete(0, 3),
            update(0, 1, &without_end(5)),
            begin(),
            delete(1, 0),
            update(0, 1, &without_end(5)),
            read(0, 15),
            Step::ShowOrphans,
            recalibrate(1, 5, 16),
            commit(),
            Step::ShowRows,
        ],
    }
}

pub fn unique_before_24() -> Case {
    let mut schema = under_immediate(NO_ACTION, NO_ACTION);
    schema.tables[0].not_null = 8;
    Case {
        title: "NOT NULL, then the unique key, then 24",
        schema,
        steps: vec![
            calibrate(0, 10, 20),
            insert(0, 1, &[Some(7), Some(10), Some(9), None]),
            calibrate(1, 10, 9),
            calibrate(1, 10, 30),
            calibrate(1, 11, 11),
            calibrate(1, 11, 12),
            insert(0, 1, &without_end(10)),
            Step::ShowRows,
        ],
    }
}

pub fn days_with_sign() -> Case {
    Case {
        title: "Days are signed numbers, up to both ends of their range",
        schema: under_immediate(RESTRICT, RESTRICT),
        steps: vec![
            calibrate(0, -5, 5),
            read(0, -1),
            read(1, 5),
            calibrate(1, i64::MIN, -5),
            calibrate(2, 5, i64::MAX),
            read(1, i64::MIN),
            read(2, i64::MAX - 1),
            read(3, i64::MAX),
            calibrate(3, i64::MIN, i64::MIN),
            calibrate(3, i64::MAX, i64::MIN),
            calibrate(3, -6, -5),
            recalibrate(1, i64::MIN, i64::MIN + 1),
            recalibrate(2, i64::MAX - 1, i64::MAX),
            Step::ShowRows,
        ],
    }
}

/// The days "A" to "z" are 65 to 122. Every column of calibrations is folded.
pub fn days_are_not_folded() -> Case {
    Case {
        title: "Days in folded columns are numbers in windows, and folded in the unique key",
        schema: with_folded(under_deferred(RESTRICT, RESTRICT), 15),
        steps: vec![
            calibrate(0, word("A"), word("Z")),
            read(0, word("B")),
            read(1, word("b")),
            calibrate(1, word("a"), word("z")),
            calibrate(1, word("b"), word("z")),
            read(1, word("b")),
            recalibrate(1, word("B"), word("z")),
            read(2, word("a")),
            delete_where(0, 1, Some(word("B"))),
            Step::ShowRows,
        ],
    }
}

pub fn names_are_folded() -> Case {
    Case {
        title: "The other columns go by the parent column's mark",
        schema: with_folded(under_immediate(RESTRICT, RESTRICT), 1),
        steps: vec![
            insert(0, 0, &calibration(word("Lf2"), 10, 20)),
            insert(1, 0, &reading(word("lf2"), 15)),
            insert(0, 1, &calibration(word("LF2"), 19, 30)),
            insert(0, 1, &calibration(word("LF2"), 20, 30)),
            insert(0, 2, &calibration(word("Lf3"), 19, 30)),
            update(0, 0, &calibration(word("lF2"), 10, 20)),
            update(0, 0, &calibration(word("Lf4"), 10, 20)),
            delete(0, 0),
            Step::ShowRows,
        ],
    }
}
