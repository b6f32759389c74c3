//! The section "Schema bytes" of the paper, read as lists of rules. A rule is asked of the header or
//! of one record, and holds or is broken whatever the other rules say.

use crate::schema_bytes::view::{bit, table_at, View};

/// A rule's name, and whether it holds for the record of a number (0 for the header).
pub type Rule = (&'static str, fn(View, usize) -> bool);

#[derive(Clone)]
pub struct Rules {
    pub header: Vec<Rule>,
    pub tables: Vec<Rule>,
    pub keys: Vec<Rule>,
}

impl Rules {
    pub fn of_the_paper() -> Rules {
        Rules {
            header: HEADER.to_vec(),
            tables: TABLES.to_vec(),
            keys: KEYS.to_vec(),
        }
    }

    /// The code of the bytes: 1 where a rule is broken, else 0. What is said of a parent is no rule of
    /// the schema bytes: a foreign key that breaks it is a broken one.
    pub fn code(&self, bytes: &[u8]) -> i64 {
        let s = View(bytes);
        i64::from(!self.header_holds(s) || !self.records_hold(s))
    }

    fn header_holds(&self, s: View) -> bool {
        s.0.len() >= 16 && hold(&self.header, s, 1)
    }

    fn records_hold(&self, s: View) -> bool {
        hold(&self.tables, s, s.tables()) && hold(&self.keys, s, s.keys())
    }
}

/// Whether the rules hold for the records 0 to `count` - 1.
fn hold(rules: &[Rule], s: View, count: usize) -> bool {
    (0..count).all(|i| rules.iter().all(|(_, holds)| holds(s, i)))
}

const HEADER: &[Rule] = &[
    ("mark", |s, _| s.part(0, 4) == [0x46, 0x4B, 0x42, 0x31]),
    ("tables", |s, _| (1..=16).contains(&s.tables())),
    ("foreign keys", |s, _| s.keys() <= 32),
    ("offset of the tables", |s, _| s.half(8) == 16),
    ("offset of the keys", |s, _| s.half(10) == s.keys_at()),
    ("journal room", |s, _| (1..=4096).contains(&s.half(12))),
    ("whole length", |s, _| s.half(14) == s.length()),
    ("bytes handed over", |s, _| s.0.len() == s.length()),
];

const TABLES: &[Rule] = &[
    ("rows", |s, t| (1..=1024).contains(&s.half(table_at(t)))),
    ("columns", |s, t| (1..=8).contains(&s.columns(t))),
    ("NOT NULL mask", |s, t| within(s.not_null(t), s.columns(t))),
    ("unique masks", |s, t| {
        let columns = s.columns(t);
        s.unique(t).iter().all(|&m| within(m.into(), columns))
    }),
    ("unique masks in use come first", |s, t| {
        s.unique(t).windows(2).all(|w| w[0] != 0 || w[1] == 0)
    }),
    ("default-is-NULL mask", |s, t| {
        within(s.default_null(t), s.columns(t))
    }),
    ("folded mask", |s, t| within(s.folded(t), s.columns(t))),
    ("zero bytes of a table", |s, t| {
        s.is_zero(table_at(t) + 10, 6)
    }),
    ("defaults of NULL", |s, t| {
        (0..8).all(|i| !bit(s.default_null(t), i) || s.default_is_zero(t, i))
    }),
    ("defaults of no column", |s, t| {
        (s.columns(t)..8).all(|i| s.default_is_zero(t, i))
    }),
];

const KEYS: &[Rule] = &[
    ("child table", |s, k| s.child(k) < s.tables()),
    ("deferred", |s, k| s.key_byte(k, 2) <= 1),
    ("on-delete action", |s, k| s.key_byte(k, 3) <= 4),
    ("on-update action", |s, k| s.key_byte(k, 4) <= 4),
    ("column count", |s, k| (1..=4).contains(&s.count(k))),
    ("child columns", |s, k| {
        s.child(k) >= s.tables() || below(s.child_columns(k).0, s.columns(s.child(k)))
    }),
    ("child columns past n", |s, k| all_255(s.child_columns(k).1)),
    ("parent columns past n", |s, k| {
        all_255(s.parent_columns(k).1)
    }),
    ("distinct child columns", |s, k| {
        distinct(s.child_columns(k).0)
    }),
    ("distinct parent columns", |s, k| {
        distinct(s.parent_columns(k).0)
    }),
    ("match", |s, k| s.key_byte(k, 14) <= 1),
    ("windowed", |s, k| s.key_byte(k, 15) <= 1),
    ("columns of a windowed key", |s, k| {
        s.key_byte(k, 15) != 1 || s.count(k) >= 2
    }),
    ("on-delete action of a windowed key", |s, k| {
        s.key_byte(k, 15) != 1 || s.key_byte(k, 3) < 2
    }),
    ("on-update action of a windowed key", |s, k| {
        s.key_byte(k, 15) != 1 || s.key_byte(k, 4) < 2
    }),
];

/// Whether the bits of a mask at `columns` and above are 0.
pub fn within(mask: usize, columns: usize) -> bool {
    (columns..8).all(|i| !bit(mask, i))
}

pub fn below(list: &[u8], bound: usize) -> bool {
    list.iter().all(|&c| usize::from(c) < bound)
}

pub fn all_255(list: &[u8]) -> bool {
    list.iter().all(|&c| c == 255)
}

pub fn distinct(list: &[u8]) -> bool {
    (1..list.len()).all(|i| !list[..i].contains(&list[i]))
}
