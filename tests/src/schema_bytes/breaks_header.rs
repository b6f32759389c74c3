//! Breaks of the header's rules.

use crate::schema_bytes::breaks::Break;
use crate::schema_bytes::valid::table;

pub const HEADER: &[Break] = &[
    ("a byte of the mark changed", 1, |s, r| {
        s.header.mark[r.between(0, 3)] ^= r.between(1, 255) as u8;
    }),
    ("no table", 1, |s, _| {
        s.tables.clear();
        s.keys.clear();
        s.recount();
    }),
    ("above 16 tables", 1, |s, r| {
        while s.tables.len() < 17 || r.once_in(2) {
            s.tables.push(table(r));
        }
        s.recount();
    }),
    ("above 32 foreign keys", 1, |s, r| {
        while s.keys.len() < 33 || r.once_in(2) {
            s.keys.push(s.keys[0].clone());
        }
        s.recount();
    }),
    ("another table count", 1, |s, r| {
        s.header.tables = r.other_than(s.tables.len(), 0, 17) as u16;
    }),
    ("another key count", 1, |s, r| {
        s.header.keys = r.other_than(s.keys.len(), 0, 33) as u16;
    }),
    ("another offset of the tables", 1, |s, r| {
        s.header.tables_at = r.other_than(16, 0, 65535) as u16;
    }),
    ("another offset of the keys", 1, |s, r| {
        s.header.keys_at = r.other_than(s.header.keys_at.into(), 0, 65535) as u16;
    }),
    ("journal room 0", 1, |s, _| s.header.room = 0),
    ("journal room above 4,096", 1, |s, r| {
        s.header.room = r.edged(4097, 65535) as u16;
    }),
    ("another whole length", 1, |s, r| {
        s.header.length = r.other_than(s.header.length.into(), 0, 65535) as u16;
    }),
    ("fewer bytes handed over", 1, |s, r| {
        s.handed_over = Some(r.edged(16, s.bytes().len() - 1));
    }),
    ("more bytes handed over", 1, |s, r| {
        let length = s.bytes().len();
        s.handed_over = Some(r.edged(length + 1, length + 200));
    }),
    ("less than a header", 1, |s, r| {
        s.handed_over = Some(r.edged(0, 15));
    }),
];
