//! What there is to see in two calls on different families that were accepted one after the other, by
//! name, so that it can be counted.

use super::two_orders::Pair;
use crate::engine::Answer;
use crate::inputs::grounds::Ground;
use crate::model::area::Area;
use crate::model::families::{broken_key_between, of_tables};
use crate::model::schema::{Key, Match};

pub struct Seen<'a> {
    before: Area<'a>,
    after: Area<'a>,
    /// The kinds of the calls, and the tables that they name.
    kinds: [i64; 2],
    tables: [usize; 2],
    answers: [Answer; 2],
}

impl<'a> Seen<'a> {
    pub fn new(ground: &'a Ground, pair: &Pair) -> Seen<'a> {
        Seen {
            before: ground.area(pair.before),
            after: ground.area(&pair.after),
            kinds: pair.calls.map(|call| call[0]),
            tables: pair.calls.map(|call| call[1] as usize),
            answers: pair.answers,
        }
    }

    fn both(&self, such: fn(&Answer) -> bool) -> bool {
        self.answers.iter().all(such)
    }

    /// Whether each call changed rows of another table than the one that it names.
    fn both_reach_others(&self) -> bool {
        let table_of = |record: usize| self.after.journal_place(record).map(|place| place.0);
        let mut records = self.before.used()..self.after.used();
        let mut reaches = |call: usize| {
            let own = records.by_ref().take(self.answers[call].changed as usize);
            let others = own.filter(|&record| table_of(record) != Some(self.tables[call]));
            others.count() > 0
        };
        let reached = [reaches(0), reaches(1)];
        reached == [true, true]
    }

    /// Whether the family of each call has such a key, not a broken one.
    fn in_both(&self, such: fn(&Key) -> bool) -> bool {
        let schema = self.before.schema;
        let families = of_tables(schema);
        let has = |table: usize| {
            let whole = schema.keys.iter().filter(|key| !key.broken);
            let mut own = whole.filter(|key| families[key.child] == families[table]);
            own.any(such)
        };
        self.tables.into_iter().all(has)
    }
}

/// A name, and whether it is to be seen in a pair.
pub type Situation = (&'static str, fn(&Seen) -> bool);

pub const SITUATIONS: &[Situation] = &[
    ("several rows changed by both", |s| {
        s.both(|answer| answer.changed > 1)
    }),
    (
        "several rows changed by both, each by one row's actions",
        |s| s.both(|answer| answer.changed > 1) && s.kinds.iter().all(|&kind| kind <= 3),
    ),
    ("rows of other tables changed by both", |s| {
        s.both_reach_others()
    }),
    ("kept numbers moved by both", |s| {
        s.both(|answer| answer.net != 0)
    }),
    ("orphans mended by one and made by the other", |s| {
        s.answers[0].net * s.answers[1].net < 0
    }),
    ("no row found by one", |s| {
        !s.both(|answer| answer.changed > 0)
    }),
    ("the journal full after both", |s| {
        s.after.used() == s.before.schema.room && s.both(|answer| answer.changed > 0)
    }),
    ("a broken key between the families", |s| {
        broken_key_between(s.before.schema, s.tables[0], s.tables[1])
    }),
    ("rows changed beside a broken key between", |s| {
        s.both(|answer| answer.changed > 0)
            && broken_key_between(s.before.schema, s.tables[0], s.tables[1])
    }),
    ("windowed keys in both families", |s| {
        s.in_both(|key| key.window.is_some())
    }),
    ("composite keys of MATCH FULL in both families", |s| {
        s.in_both(|key| key.matching == Match::Full && key.child_columns.len() > 1)
    }),
    ("keys that refer to their own table in both families", |s| {
        s.in_both(|key| key.child == key.parent)
    }),
    ("folded columns in both tables", |s| {
        let tables = s.tables.map(|table| &s.before.schema.tables[table]);
        let mut marks = tables.into_iter().map(|table| table.marks.iter());
        marks.all(|mut marks| marks.any(|mark| mark.is_some()))
    }),
    ("a table between two of another family", |s| {
        let families = of_tables(s.before.schema);
        let [own, others] = s.tables.map(|table| -> Vec<usize> {
            let places = 0..families.len();
            let of_family = |place: &usize| families[*place] == families[table];
            places.filter(of_family).collect()
        });
        let between = others[0]..others[others.len() - 1];
        own.iter().any(|place| between.contains(place))
    }),
    ("orphans kept before", |s| s.before.kept_sum() > 0),
    ("records used before", |s| s.before.used() > 0),
    ("a transaction opened by begin", |s| s.before.words[1] == 1),
    ("a transaction opened by savepoint", |s| {
        s.before.words[1] == 2
    }),
    ("one level open", |s| s.before.open() == 1),
    ("nine levels open", |s| s.before.open() == 9),
];

/// The names of what is to be seen in a pair.
pub fn shown(seen: &Seen) -> Vec<&'static str> {
    let shown = SITUATIONS.iter().filter(|situation| (situation.1)(seen));
    shown.map(|situation| situation.0).collect()
}
