//! What there is to see in an orphan list, by name, so that it can be counted.

use super::lent_list::Compared;
use crate::engine::Orphan;
use crate::model::area::Area;
use crate::model::schema::{Key, Match, Schema};
use std::collections::BTreeSet;

/// A list that was compared.
pub struct Seen<'a> {
    schema: &'a Schema,
    /// How many orphans there are, and how many records were lent.
    orphans: usize,
    room: usize,
    /// The list that was given, empty where there was no room.
    list: &'a [Orphan],
    /// The foreign keys in the list, each once.
    keys: Vec<usize>,
    /// Those among them under which rows with half-filled keys are listed, and others.
    half_filled: Vec<usize>,
    filled: Vec<usize>,
}

/// A name, and whether it is to be seen in a list.
pub type Situation = (&'static str, fn(&Seen) -> bool);

pub const SITUATIONS: &[Situation] = &[
    ("two or more keys", |s| s.keys.len() > 1),
    ("a key without orphans between others", |s| {
        s.keys.windows(2).any(|pair| pair[0] + 1 < pair[1])
    }),
    ("a broken key between keys with orphans", |s| {
        let mut pairs = s.keys.windows(2);
        pairs.any(|pair| (pair[0]..pair[1]).any(|number| s.key(number).broken))
    }),
    ("a row under several keys", row_under_several_keys),
    ("equal keys", |s| s.any_two_keys(refer_alike)),
    ("a self-referring key", |s| {
        s.any_key(|key| key.child == key.parent)
    }),
    ("a child table before its parent", |s| {
        s.any_key(|key| key.child < key.parent)
    }),
    ("a child table after its parent", |s| {
        s.any_key(|key| key.child > key.parent)
    }),
    ("a later child table first", |s| {
        s.any_two_keys(|one, later| one.child > later.child)
    }),
    ("a key of two columns", |s| {
        s.any_key(|key| key.child_columns.len() == 2)
    }),
    ("the first and the last of 32 keys", |s| {
        s.keys.first() == Some(&0) && s.keys.last() == Some(&31)
    }),
    ("a table's first and last row", |s| {
        s.any_first_and_last_row(|rows| rows > 1)
    }),
    ("the first and the last of 1,024 rows", |s| {
        s.any_first_and_last_row(|rows| rows == 1024)
    }),
    ("a half-filled key of 2 columns", |s| s.any_half_filled(2)),
    ("a half-filled key of 3 columns", |s| s.any_half_filled(3)),
    ("a half-filled key of 4 columns", |s| s.any_half_filled(4)),
    ("half-filled and filled keys under one foreign key", |s| {
        s.half_filled.iter().any(|key| s.filled.contains(key))
    }),
    ("half-filled beside MATCH SIMPLE of the same columns", |s| {
        let beside = |full: &Key| {
            let mut alike = s.schema.keys.iter().filter(|key| refer_alike(key, full));
            alike.any(|key| key.matching == Match::Simple)
        };
        s.half_filled.iter().any(|&number| beside(s.key(number)))
    }),
    ("no foreign key", |s| s.schema.keys.is_empty() && s.room > 0),
    ("no orphan of any key", |s| {
        !s.schema.keys.is_empty() && s.orphans == 0 && s.room > 0
    }),
    ("exactly as long", |s| s.orphans > 0 && s.room == s.orphans),
    ("one longer", |s| s.orphans > 0 && s.room == s.orphans + 1),
    ("much longer", |s| s.orphans > 0 && s.room > s.orphans + 1),
    ("one shorter", |s| s.room > 0 && s.room + 1 == s.orphans),
    ("no record for orphans", |s| s.orphans > 0 && s.room == 0),
    ("no record for none", |s| s.orphans == 0 && s.room == 0),
];

/// The names of the situations that a list shows. It was not refused by 1, 3 or 10.
pub fn of(area: &Area, compared: &Compared) -> Vec<&'static str> {
    let orphans = &compared.orphans;
    let list = match compared.code {
        0 => &orphans[..],
        _ => &[],
    };
    let halves = list.iter().filter(|orphan| is_half_filled(area, orphan));
    let others = list.iter().filter(|orphan| !is_half_filled(area, orphan));
    let seen = Seen {
        schema: area.schema,
        orphans: orphans.len(),
        room: compared.room,
        list,
        keys: keys_of(list.iter()),
        half_filled: keys_of(halves),
        filled: keys_of(others),
    };
    let shown = SITUATIONS.iter().filter(|situation| (situation.1)(&seen));
    shown.map(|situation| situation.0).collect()
}

/// The foreign keys of orphans, each once.
fn keys_of<'a>(orphans: impl Iterator<Item = &'a Orphan>) -> Vec<usize> {
    let mut keys: Vec<usize> = orphans.map(|o| o.foreign_key as usize).collect();
    keys.dedup();
    keys
}

/// Whether the child key of an orphan has NULL in some columns.
fn is_half_filled(area: &Area, orphan: &Orphan) -> bool {
    let key = &area.schema.keys[orphan.foreign_key as usize];
    let (state, _) = area.stored(key.child, orphan.row as usize);
    let mut columns = key.child_columns.iter();
    columns.any(|&column| state >> column & 1 == 1)
}

impl Seen<'_> {
    fn key(&self, number: usize) -> &Key {
        &self.schema.keys[number]
    }

    fn any_key(&self, is: fn(&Key) -> bool) -> bool {
        self.keys.iter().any(|&number| is(self.key(number)))
    }

    /// Whether a row with a half-filled key of so many columns is listed.
    fn any_half_filled(&self, columns: usize) -> bool {
        let mut keys = self.half_filled.iter().map(|&number| self.key(number));
        keys.any(|key| key.child_columns.len() == columns)
    }

    /// Whether two keys in the list, the earlier first, stand so to each other.
    fn any_two_keys(&self, stand: fn(&Key, &Key) -> bool) -> bool {
        let later = |place: usize| self.keys[place + 1..].iter();
        let mut keys = self.keys.iter().enumerate();
        keys.any(|(place, &one)| later(place).any(|&two| stand(self.key(one), self.key(two))))
    }

    /// Whether the list has both the first and the last row under a key, of so many rows.
    fn any_first_and_last_row(&self, of: fn(usize) -> bool) -> bool {
        let listed = |key, row| self.list.contains(&Orphan::new(key, row));
        let rows = |key: usize| self.schema.tables[self.key(key).child].rows;
        let mut keys = self.keys.iter();
        keys.any(|&key| of(rows(key)) && listed(key, 0) && listed(key, rows(key) - 1))
    }
}

fn row_under_several_keys(seen: &Seen) -> bool {
    let place = |orphan: &Orphan| (seen.key(orphan.foreign_key as usize).child, orphan.row);
    let places: BTreeSet<(usize, u64)> = seen.list.iter().map(place).collect();
    places.len() < seen.list.len()
}

/// Whether two keys differ at most in their actions, their match and in being deferred.
fn refer_alike(one: &Key, other: &Key) -> bool {
    (one.child, one.parent) == (other.child, other.parent)
        && one.child_columns == other.child_columns
        && one.parent_columns == other.parent_columns
}
