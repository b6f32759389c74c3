//! Breaks of the rules of tables.

use crate::random::Random;
use crate::schema_bytes::breaks::Break;
use crate::schema_bytes::records::{Schema, Table};

pub const TABLES: &[Break] = &[
    ("rows 0", 1, |s, r| s.any_table(r).rows = 0),
    ("rows above 1,024", 1, |s, r| {
        s.any_table(r).rows = r.edged(1025, 65535) as u16;
    }),
    ("columns 0", 1, |s, r| s.any_table(r).columns = 0),
    ("columns 0 in a table of nothing", 1, |s, _| {
        s.tables[0] = NOTHING;
        s.keys.clear();
        s.recount();
    }),
    ("columns above 8", 1, |s, r| {
        s.any_table(r).columns = r.edged(9, 255) as u8;
    }),
    ("NOT NULL of no column", 1, |s, r| {
        let t = s.any_table(r);
        t.not_null |= bit_past(t, r);
    }),
    ("a unique mask with no such column", 1, |s, r| {
        let t = s.any_table(r);
        let used = t.unique.iter().filter(|&&m| m != 0).count();
        t.unique[r.between(0, used.min(3))] |= bit_past(t, r);
    }),
    ("a unique mask after an unused one", 1, |s, r| {
        let t = s.any_table(r);
        let unused = r.between(0, 2);
        t.unique[unused] = 0;
        t.unique[r.between(unused + 1, 3)] = 1;
    }),
    ("default NULL of no column", 1, |s, r| {
        let t = s.any_table(r);
        t.default_null |= bit_past(t, r);
    }),
    ("folded of no column", 1, |s, r| {
        let t = s.any_table(r);
        t.folded |= bit_past(t, r);
    }),
    ("column C folded", 1, |s, r| {
        let t = s.any_table(r);
        t.folded |= (1u16 << t.columns) as u8;
    }),
    ("bit 7 folded in the last table only", 1, |s, _| {
        if let [.., last] = &mut s.tables[..] {
            if last.columns < 8 {
                last.folded |= 128;
            }
        }
    }),
    ("a zero byte of a table not 0", 1, |s, r| {
        s.any_table(r).zeros[r.between(0, 5)] = r.edged(1, 255) as u8;
    }),
    ("byte 10 of a table not 0", 1, |s, r| set_zero(s, 0, r)),
    ("byte 11 of a table not 0", 1, |s, r| set_zero(s, 1, r)),
    ("byte 12 of a table not 0", 1, |s, r| set_zero(s, 2, r)),
    ("byte 13 of a table not 0", 1, |s, r| set_zero(s, 3, r)),
    ("byte 14 of a table not 0", 1, |s, r| set_zero(s, 4, r)),
    ("byte 15 of a table not 0", 1, |s, r| set_zero(s, 5, r)),
    ("the folded mask in byte 10", 1, |s, r| {
        let t = s.any_table(r);
        (t.folded, t.zeros[0]) = (0, t.folded);
    }),
    ("a default beside NULL", 1, |s, r| {
        let t = s.any_table(r);
        let column = r.between(0, usize::from(t.columns) - 1);
        t.default_null |= 1 << column;
        t.defaults[column] = one_byte(r);
    }),
    ("a default of no column", 1, |s, r| {
        let t = s.any_table(r);
        if t.columns < 8 {
            t.defaults[r.between(t.columns.into(), 7)] = one_byte(r);
        }
    }),
];

/// A table with no column.
const NOTHING: Table = Table {
    rows: 1,
    columns: 0,
    not_null: 0,
    unique: [0; 4],
    default_null: 0,
    folded: 0,
    zeros: [0; 6],
    defaults: [0; 8],
};

/// Sets one of the zero bytes of some table.
fn set_zero(s: &mut Schema, place: usize, r: &mut Random) {
    s.any_table(r).zeros[place] = r.edged(1, 255) as u8;
}

/// The bit of a column past the table's, or 0 where it has eight.
fn bit_past(t: &Table, r: &mut Random) -> u8 {
    match usize::from(t.columns) {
        8 => 0,
        columns => 1 << r.between(columns, 7),
    }
}

/// A number with one byte that is not 0.
fn one_byte(r: &mut Random) -> i64 {
    (r.between(1, 255) as i64) << (8 * r.between(0, 7))
}
