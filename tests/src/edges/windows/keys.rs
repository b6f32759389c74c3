//! Windowed keys of other forms: of MATCH FULL, of many columns, two for one row, and broken ones.

use super::*;

pub fn match_full_and_the_day() -> Case {
    let two = vec![
        deferred(in_force(NO_ACTION, NO_ACTION)),
        deferred(match_full(in_force(RESTRICT, RESTRICT))),
    ];
    Case {
        title: "Under MATCH FULL the day is one of the columns",
        schema: readings(two),
        steps: vec![
            begin(),
            calibrate(0, 10, 20),
            insert(1, 0, &[Some(7), None]),
            insert(1, 1, &[None, Some(15)]),
            insert(1, 2, &[None, None]),
            read(3, 20),
            Step::ShowOrphans,
            recalibrate(0, 10, 21),
            delete(1, 3),
            update(0, 0, &without_end(10)),
            delete(0, 0),
            Step::ShowOrphans,
            commit(),
        ],
    }
}

/// Table 1 refers by (c3, c2, c1, c0) to (c0, c1, c4, c2) of table 0: c2 is the first day, c3 the end.
pub fn four_columns() -> Case {
    let tables = vec![table(3, 5, &[23]), table(3, 4, &[])];
    let four = windowed(key(
        (1, &[3, 2, 1, 0]),
        (0, &[0, 1, 4, 2]),
        RESTRICT,
        RESTRICT,
    ));
    let of = |names: [i64; 3], first: i64, end: i64| {
        [names[0], names[1], first, end, names[2]].map(Some)
    };
    let on = |names: [i64; 3], day: i64| [day, names[2], names[1], names[0]].map(Some);
    Case {
        title: "Three names and a day, in any columns",
        schema: Records::new(8, tables, vec![four]),
        steps: vec![
            insert(0, 0, &of([1, 2, 3], 10, 20)),
            insert(0, 1, &of([1, 2, 4], 10, 20)),
            insert(0, 2, &of([1, 2, 3], 15, 16)),
            insert(1, 0, &on([1, 2, 3], 19)),
            insert(1, 1, &on([1, 3, 3], 19)),
            insert(1, 1, &on([1, 2, 4], 20)),
            update(0, 0, &of([1, 2, 3], 19, 20)),
            update(0, 0, &of([1, 2, 5], 19, 20)),
            delete(0, 1),
            Step::ShowRows,
        ],
    }
}

/// Horses by yard, from and until a day; c3 and c4 name a yard and a day of the mother.
pub fn row_of_its_own_window() -> Case {
    let own = windowed(key((0, &[3, 4]), (0, &[0, 1]), RESTRICT, RESTRICT));
    Case {
        title: "A row that lies in its own window",
        schema: Records::new(8, vec![table(3, 5, &[3])], vec![own]),
        steps: vec![
            insert(0, 0, &[1, 10, 20, 1, 10].map(Some)),
            insert(0, 1, &[1, 20, 30, 1, 20].map(Some)),
            insert(0, 2, &[1, 30, 40, 1, 19].map(Some)),
            update(0, 1, &[1, 21, 30, 1, 20].map(Some)),
            update(0, 1, &[1, 21, 30, 1, 21].map(Some)),
            update(0, 0, &[1, 10, 19, 1, 10].map(Some)),
            delete(0, 0),
            delete(0, 2),
            delete(0, 0),
            delete(0, 1),
            Step::ShowRows,
        ],
    }
}

/// Rows of table 0 have two windows: c1 and c2 under c0, and c3 and c4 under c0.
pub fn two_windows_of_a_row() -> Case {
    let keys = vec![
        deferred(windowed(key(
            (1, &[0, 1]),
            (0, &[0, 3]),
            NO_ACTION,
            NO_ACTION,
        ))),
        in_force(RESTRICT, RESTRICT),
    ];
    Case {
        title: "Two windows of one row, each judged by 24 and by its own key",
        schema: Records::new(8, vec![table(3, 5, &[3, 9]), table(3, 2, &[])], keys),
        steps: vec![
            insert(0, 0, &[7, 10, 20, 10, 20].map(Some)),
            insert(0, 1, &[7, 20, 30, 19, 30].map(Some)),
            insert(0, 1, &[7, 19, 30, 20, 30].map(Some)),
            insert(0, 1, &[7, 20, 30, 40, 40].map(Some)),
            insert(0, 1, &[7, 20, 30, 40, 50].map(Some)),
            begin(),
            read(0, 25),
            read(1, 45),
            read(1, 15),
            Step::ShowOrphans,
            update(0, 1, &[7, 20, 30, 20, 30].map(Some)),
            update(0, 1, &[7, 20, 25, 20, 30].map(Some)),
            commit(),
        ],
    }
}

/// The first day is the last column of table 0.
pub fn end_missing() -> Case {
    let tables = vec![table(4, 2, &[3]), table(4, 2, &[])];
    Case {
        title: "A windowed key whose end is missing is broken, and 24 is not judged",
        schema: Records::new(8, tables, vec![in_force(RESTRICT, RESTRICT)]),
        steps: vec![
            insert(0, 0, &[Some(7), Some(10)]),
            insert(0, 1, &[Some(7), Some(11)]),
            read(0, 10),
            update(0, 0, &[Some(7), Some(10)]),
            delete(0, 0),
            Step::ShowRows,
            Step::ShowOrphans,
        ],
    }
}

/// The first day is c0 of table 0, and c1, after it, is in the key.
pub fn end_in_the_key() -> Case {
    let own = windowed(key((1, &[0, 1]), (0, &[1, 0]), NO_ACTION, NO_ACTION));
    Case {
        title: "A windowed key whose end is in the key is broken, and 24 is not judged",
        schema: readings(vec![own]),
        steps: vec![
            insert(0, 0, &[10, 7, 0, 0].map(Some)),
            insert(0, 1, &[8, 7, 0, 0].map(Some)),
            read(0, 10),
            delete(0, 1),
            Step::ShowRows,
        ],
    }
}
