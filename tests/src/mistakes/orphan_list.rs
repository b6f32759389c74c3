//! Mistakes in the orphan list: which orphans it has, their sequence, and the records lent.

use super::Mistake;
use crate::engine::Orphan;
use crate::model::list;
use std::cmp::Reverse;
use std::collections::BTreeSet;

pub const ALL: &[Mistake] = &[
    ("the list by falling key", |rules| {
        rules.listed = |_, mut orphans| {
            orphans.sort_by_key(|orphan| (Reverse(orphan.foreign_key), orphan.row));
            orphans
        };
    }),
    ("the list by falling row", |rules| {
        rules.listed = |_, mut orphans| {
            orphans.sort_by_key(|orphan| (orphan.foreign_key, Reverse(orphan.row)));
            orphans
        };
    }),
    ("the list by row, then by key", |rules| {
        rules.listed = |_, mut orphans| {
            orphans.sort_by_key(|orphan| (orphan.row, orphan.foreign_key));
            orphans
        };
    }),
    ("the list by child table, then by key", |rules| {
        rules.listed = |area, mut orphans| {
            orphans.sort_by_key(|orphan| area.schema.keys[orphan.foreign_key as usize].child);
            orphans
        };
    }),
    ("orphans sought from row 1 on", |rules| {
        rules.listed = |_, mut orphans| {
            orphans.retain(|orphan| orphan.row > 0);
            orphans
        };
    }),
    ("a row under two keys listed once", |rules| {
        rules.listed = |area, mut orphans| {
            let mut places = BTreeSet::new();
            let child = |orphan: &Orphan| area.schema.keys[orphan.foreign_key as usize].child;
            orphans.retain(|orphan| places.insert((child(orphan), orphan.row)));
            orphans
        };
    }),
    ("the last key's orphans not listed", |rules| {
        rules.listed = |area, mut orphans| {
            orphans.retain(|orphan| orphan.foreign_key as usize + 1 < area.schema.keys.len());
            orphans
        };
    }),
    ("no orphan listed", |rules| {
        rules.listed = |_, _| Vec::new();
    }),
    ("an orphan listed twice in place of another", |rules| {
        rules.listed = |_, mut orphans| {
            if orphans.len() > 1 {
                orphans[1] = orphans[0];
            }
            orphans
        };
    }),
    ("a list exactly as long refused", |rules| {
        rules.fits = |orphans, records| orphans < records;
    }),
    ("a too short list filled as far as it goes", |rules| {
        rules.too_short = |orphans, list| list.copy_from_slice(&orphans[..list.len()]);
    }),
    ("a list cleared when it is refused", |rules| {
        rules.list_refused = |list| list.fill(Orphan::new(0, 0));
    }),
    ("records past the list cleared", |rules| {
        rules.write_list = |orphans, list| {
            list.fill(Orphan::new(0, 0));
            list::write_records(orphans, list);
        };
    }),
    ("the list at the end of the records", |rules| {
        rules.write_list = |orphans, list| {
            let past = list.len() - orphans.len();
            list::write_records(orphans, &mut list[past..]);
        };
    }),
];
