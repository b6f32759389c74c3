//! Rules of the paper, each changed by one mistake.

use crate::schema_bytes::rules::{all_255, below, distinct, within};
use crate::schema_bytes::view::{bit, table_at, View};

/// The mistake's name, the name of the rule in whose place it stands, and the changed rule.
pub type Changed = (&'static str, &'static str, fn(View, usize) -> bool);

pub const CHANGED: &[Changed] = &[
    ("16 tables refused", "tables", |s, _| {
        (1..=15).contains(&s.tables())
    }),
    ("17 tables let pass", "tables", |s, _| {
        (1..=17).contains(&s.tables())
    }),
    ("32 foreign keys refused", "foreign keys", |s, _| {
        s.keys() <= 31
    }),
    ("33 foreign keys let pass", "foreign keys", |s, _| {
        s.keys() <= 33
    }),
    ("a schema without a key refused", "foreign keys", |s, _| {
        (1..=32).contains(&s.keys())
    }),
    ("journal room 4,096 refused", "journal room", |s, _| {
        (1..=4095).contains(&s.half(12))
    }),
    ("journal room 4,097 let pass", "journal room", |s, _| {
        (1..=4097).contains(&s.half(12))
    }),
    ("1,024 rows refused", "rows", |s, t| {
        (1..=1023).contains(&s.half(table_at(t)))
    }),
    ("1,025 rows let pass", "rows", |s, t| {
        (1..=1025).contains(&s.half(table_at(t)))
    }),
    ("eight columns refused", "columns", |s, t| {
        (1..=7).contains(&s.columns(t))
    }),
    ("nine columns let pass", "columns", |s, t| {
        (1..=9).contains(&s.columns(t))
    }),
    ("bit C of a mask let pass", "NOT NULL mask", |s, t| {
        (s.columns(t) + 1..8).all(|i| !bit(s.not_null(t), i))
    }),
    (
        "only the first unique mask looked at",
        "unique masks",
        |s, t| (s.columns(t)..8).all(|i| !bit(s.unique(t)[0].into(), i)),
    ),
    (
        "a mask in two slots refused",
        "unique masks in use come first",
        |s, t| {
            let used = s.unique(t).iter().take_while(|&&m| m != 0).count();
            let (used, rest) = s.unique(t).split_at(used);
            distinct(used) && rest.iter().all(|&m| m == 0)
        },
    ),
    (
        "bit C of the folded mask let pass",
        "folded mask",
        |s, t| (s.columns(t) + 1..8).all(|i| !bit(s.folded(t), i)),
    ),
    (
        "bit 7 of the folded mask let pass",
        "folded mask",
        |s, t| (s.columns(t)..7).all(|i| !bit(s.folded(t), i)),
    ),
    ("every folded column refused", "folded mask", |s, t| {
        s.folded(t) == 0
    }),
    ("column C - 1 folded refused", "folded mask", |s, t| {
        (s.columns(t).max(1) - 1..8).all(|i| !bit(s.folded(t), i))
    }),
    (
        "folded columns that are NULL by default refused",
        "folded mask",
        |s, t| within(s.folded(t), s.columns(t)) && s.folded(t) & s.default_null(t) == 0,
    ),
    (
        "folded columns of no unique key refused",
        "folded mask",
        |s, t| {
            let keys = s.unique(t).iter().fold(0, |all, &m| all | usize::from(m));
            s.folded(t) & !keys == 0
        },
    ),
    (
        "the folded mask of the first table looked at",
        "folded mask",
        |s, _| within(s.folded(0), s.columns(0)),
    ),
    (
        "the folded mask sought in byte 10",
        "folded mask",
        |s, t| within(s.byte(table_at(t) + 10), s.columns(t)),
    ),
    (
        "only the first zero byte looked at",
        "zero bytes of a table",
        |s, t| s.is_zero(table_at(t) + 10, 1),
    ),
    (
        "the last zero byte not looked at",
        "zero bytes of a table",
        |s, t| s.is_zero(table_at(t) + 10, 5),
    ),
    (
        "byte 10 taken for another mask",
        "zero bytes of a table",
        |s, t| {
            let mask = s.byte(table_at(t) + 10);
            within(mask, s.columns(t)) && s.is_zero(table_at(t) + 11, 5)
        },
    ),
    (
        "seven zero bytes as before",
        "zero bytes of a table",
        |s, t| s.is_zero(table_at(t) + 9, 7),
    ),
    (
        "only half of a default looked at",
        "defaults of no column",
        |s, t| (s.columns(t)..8).all(|i| s.is_zero(table_at(t) + 16 + 8 * i, 4)),
    ),
    ("CASCADE on update refused", "on-update action", |s, k| {
        s.key_byte(k, 4) <= 3
    }),
    ("action 5 let pass", "on-delete action", |s, k| {
        s.key_byte(k, 3) <= 5
    }),
    ("four columns refused", "column count", |s, k| {
        (1..=3).contains(&s.count(k))
    }),
    (
        "child columns sought in the parent",
        "child columns",
        |s, k| below(s.child_columns(k).0, s.columns(s.parent(k))),
    ),
    (
        "only two child columns compared",
        "distinct child columns",
        |s, k| distinct(&s.child_columns(k).0[..s.count(k).min(2)]),
    ),
    (
        "doubled columns of no table let pass",
        "distinct parent columns",
        |s, k| s.parent(k) >= s.tables() || distinct(s.parent_columns(k).0),
    ),
    (
        "doubled columns missing let pass",
        "distinct parent columns",
        |s, k| !parent_columns_exist(s, k) || distinct(s.parent_columns(k).0),
    ),
    ("MATCH FULL refused", "match", |s, k| s.key_byte(k, 14) == 0),
    ("MATCH FULL of one column refused", "match", |s, k| {
        s.key_byte(k, 14) <= usize::from(s.count(k) > 1)
    }),
    ("match 2 let pass", "match", |s, k| s.key_byte(k, 14) <= 2),
    ("the match of the first key looked at", "match", |s, _| {
        s.key_byte(0, 14) <= 1
    }),
    ("a windowed key refused", "windowed", |s, k| {
        s.key_byte(k, 15) == 0
    }),
    ("windowed 2 let pass", "windowed", |s, k| {
        s.key_byte(k, 15) <= 2
    }),
    ("windowed 255 let pass", "windowed", |s, k| {
        matches!(s.key_byte(k, 15), 0 | 1 | 255)
    }),
    (
        "the windowed byte of the first key looked at",
        "windowed",
        |s, _| s.key_byte(0, 15) <= 1,
    ),
    (
        "a windowed key of MATCH FULL refused",
        "windowed",
        |s, k| s.key_byte(k, 15) <= 1 - s.key_byte(k, 14).min(1),
    ),
    ("a deferred windowed key refused", "windowed", |s, k| {
        s.key_byte(k, 15) <= 1 - s.key_byte(k, 2).min(1)
    }),
    (
        "a windowed key to its own table refused",
        "windowed",
        |s, k| s.key_byte(k, 15) <= usize::from(s.parent(k) != s.child(k)),
    ),
    (
        "a windowed key without an end refused",
        "windowed",
        |s, k| s.key_byte(k, 15) <= usize::from(window_ends(s, k)),
    ),
    (
        "a windowed key of two columns refused",
        "columns of a windowed key",
        |s, k| s.key_byte(k, 15) != 1 || s.count(k) >= 3,
    ),
    (
        "a windowed key of four columns refused",
        "columns of a windowed key",
        |s, k| s.key_byte(k, 15) != 1 || (2..4).contains(&s.count(k)),
    ),
    (
        "RESTRICT on delete of a windowed key refused",
        "on-delete action of a windowed key",
        |s, k| s.key_byte(k, 15) != 1 || s.key_byte(k, 3) == 0,
    ),
    (
        "RESTRICT on update of a windowed key refused",
        "on-update action of a windowed key",
        |s, k| s.key_byte(k, 15) != 1 || s.key_byte(k, 4) == 0,
    ),
    (
        "SET NULL on delete of a windowed key let pass",
        "on-delete action of a windowed key",
        |s, k| s.key_byte(k, 15) != 1 || s.key_byte(k, 3) <= 2,
    ),
    (
        "SET NULL on update of a windowed key let pass",
        "on-update action of a windowed key",
        |s, k| s.key_byte(k, 15) != 1 || s.key_byte(k, 4) <= 2,
    ),
    (
        "CASCADE on update of a windowed key let pass",
        "on-update action of a windowed key",
        |s, k| s.key_byte(k, 15) != 1 || matches!(s.key_byte(k, 4), 0 | 1 | 4),
    ),
    (
        "the actions of a broken windowed key let pass",
        "on-delete action of a windowed key",
        |s, k| s.key_byte(k, 15) != 1 || s.key_byte(k, 3) < 2 || s.parent(k) >= s.tables(),
    ),
    ("a key to its own table refused", "child table", |s, k| {
        s.child(k) < s.tables() && s.parent(k) != s.child(k)
    }),
    (
        "a missing parent table refused",
        "distinct parent columns",
        |s, k| s.parent(k) < s.tables() && distinct(s.parent_columns(k).0),
    ),
    (
        "a missing parent column refused",
        "distinct parent columns",
        |s, k| {
            let columns = s.parent_columns(k).0;
            let missing = s.parent(k) < s.tables() && !below(columns, s.columns(s.parent(k)));
            distinct(columns) && !missing
        },
    ),
    (
        "a parent column above 7 refused",
        "distinct parent columns",
        |s, k| distinct(s.parent_columns(k).0) && below(s.parent_columns(k).0, 8),
    ),
    (
        "a parent column 255 refused",
        "distinct parent columns",
        |s, k| distinct(s.parent_columns(k).0) && below(s.parent_columns(k).0, 255),
    ),
    (
        "a parent without a unique key refused",
        "distinct parent columns",
        |s, k| {
            let (parent, columns) = (s.parent(k), s.parent_columns(k).0);
            let without = parent < s.tables() && s.unique(parent)[0] == 0;
            distinct(columns) && !without
        },
    ),
    (
        "parent columns past n of a missing table let pass",
        "parent columns past n",
        |s, k| s.parent(k) >= s.tables() || all_255(s.parent_columns(k).1),
    ),
    (
        "child columns of a broken key let pass",
        "child columns",
        |s, k| {
            let columns = s.child_columns(k).0;
            s.parent(k) >= s.tables() || below(columns, s.columns(s.child(k)))
        },
    ),
];

/// Whether the column after the last parent column is there and not in the key.
fn window_ends(s: View, k: usize) -> bool {
    let columns = s.parent_columns(k).0;
    let end = columns.last().map_or(0, |&last| usize::from(last) + 1);
    let in_key = columns.iter().any(|&column| usize::from(column) == end);
    parent_columns_exist(s, k) && end < s.columns(s.parent(k)) && !in_key
}

fn parent_columns_exist(s: View, k: usize) -> bool {
    s.parent(k) < s.tables() && below(s.parent_columns(k).0, s.columns(s.parent(k)))
}
