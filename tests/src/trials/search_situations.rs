//! What there is to see in one statement for many rows, by name, so that it can be counted.

use super::origins::Origin::{self, Damaged, Filled, Reached};
use super::origins::ANY;
use crate::model::area::Area;
use crate::model::rules::Rules;
use crate::model::schema::{Row, Value};
use crate::model::search::{self, Search};
use crate::model::statement;

/// A statement that was compared. It was not refused by 1, 3, 4 or 10.
pub struct Seen<'a> {
    search: &'a Search,
    /// The area when it began.
    entry: &'a Area<'a>,
    /// The rows met when it began or at their turn, up to one at which it is refused.
    turns: Vec<Turn>,
    code: i64,
}

/// A row that comes to its turn.
struct Turn {
    number: usize,
    /// The row when the statement began, and at its turn.
    first: Option<Row>,
    now: Option<Row>,
    /// Whether it was met when the statement began, and at its turn.
    was_met: bool,
    is_met: bool,
    /// Whether a statement that ended with it would be refused by 20.
    unsettled: bool,
}

/// A name, the areas on which it is to be seen, and whether it is to be seen in a statement.
pub type Situation = (&'static str, &'static [Origin], fn(&Seen) -> bool);

pub const SITUATIONS: &[Situation] = &[
    ("no row met", ANY, |s| s.met() == 0),
    ("one row met", ANY, |s| s.met() == 1),
    ("several rows met", ANY, |s| s.met() > 1),
    ("a table's first and last row met", ANY, first_and_last_row),
    ("NULL sought and met", ANY, |s| {
        s.search.sought.is_none() && s.met() > 0
    }),
    ("0 sought beside NULL", ANY, |s| {
        s.zero_sought_beside(|row, column| row.map_or(false, |row| row[column].is_none()))
    }),
    ("0 sought beside a vacant row", ANY, |s| {
        s.zero_sought_beside(|row, _| row.is_none())
    }),
    ("NULL set", ANY, |s| s.sets(|_, _, value| value.is_none())),
    ("the column sought is set", ANY, |s| {
        s.sets(|search, column, _| column == search.column)
    }),
    ("a value set that a row has", ANY, |s| {
        s.any_turn(|turn| turn.is_met && turn.has(s.search.set))
    }),
    ("a row changed before its turn, and met", ANY, |s| {
        s.any_turn(|turn| turn.was_met && turn.is_met && turn.first != turn.now)
    }),
    (
        "a row changed before its turn, and no longer met",
        ANY,
        |s| s.any_turn(|turn| turn.was_met && !turn.is_met && turn.now.is_some()),
    ),
    ("a row that comes to be met", &[Reached, Damaged], |s| {
        s.any_turn(|turn| !turn.was_met && turn.is_met)
    }),
    ("a row deleted before its turn", ANY, |s| {
        s.any_turn(|turn| turn.was_met && turn.now.is_none())
    }),
    ("orphans between two rows, none at the end", ANY, |s| {
        s.code == 0 && s.any_turn(|turn| turn.unsettled)
    }),
    ("14 at a later row", &[Reached], |s| s.refused_late(14)),
    ("15 at a later row", ANY, |s| s.refused_late(15)),
    ("16 at a later row", ANY, |s| s.refused_late(16)),
    ("17 at a later row", ANY, |s| s.refused_late(17)),
    ("18 at a later row", ANY, |s| s.refused_late(18)),
    ("19 after several rows", &[Filled, Damaged], |s| {
        s.refused_late(19)
    }),
    ("20 after several rows", ANY, |s| s.refused_late(20)),
    ("20 without a row met", &[Filled, Damaged], |s| {
        s.code == 20 && s.met() == 0
    }),
];

/// The names of the situations that a statement shows, given its code.
pub fn of(rules: &Rules, entry: &Area, search: &Search, code: i64) -> Vec<&'static str> {
    let seen = Seen {
        search,
        entry,
        turns: turns(rules, entry, search),
        code,
    };
    let shown = SITUATIONS.iter().filter(|situation| (situation.2)(&seen));
    shown.map(|situation| situation.0).collect()
}

fn turns(rules: &Rules, entry: &Area, search: &Search) -> Vec<Turn> {
    let mut area = entry.clone();
    let mut turns = Vec::new();
    for number in search::rows(entry, search) {
        let mut turn = Turn {
            number,
            first: entry.row(search.table, number),
            now: area.row(search.table, number),
            was_met: search::met(entry, search, number).is_some(),
            is_met: search::met(&area, search, number).is_some(),
            unsettled: false,
        };
        let outcome = search::turn(rules, entry, &mut area, search, number);
        if turn.is_met && outcome.is_ok() {
            turn.unsettled = statement::settle(rules, entry, &mut area.clone()) == Err(20);
        }
        if turn.was_met || turn.is_met {
            turns.push(turn);
        }
        if outcome.is_err() {
            break;
        }
    }
    turns
}

impl Seen<'_> {
    /// How many rows are met.
    fn met(&self) -> usize {
        self.turns.iter().filter(|turn| turn.is_met).count()
    }

    fn any_turn(&self, is: impl Fn(&Turn) -> bool) -> bool {
        self.turns.iter().any(is)
    }

    /// Whether rows are met of which such a column is set to such a value.
    fn sets(&self, such: fn(&Search, usize, Value) -> bool) -> bool {
        let set = self.search.set;
        self.met() > 0 && set.map_or(false, |(column, value)| such(self.search, column, value))
    }

    /// Whether 0 is sought in a table that has such a row, given the column.
    fn zero_sought_beside(&self, such: fn(Option<Row>, usize) -> bool) -> bool {
        let row = |number| self.entry.row(self.search.table, number);
        let mut numbers = search::rows(self.entry, self.search).into_iter();
        self.search.sought == Some(0) && numbers.any(|n| such(row(n), self.search.column))
    }

    fn refused_late(&self, code: i64) -> bool {
        self.code == code && self.met() > 1
    }
}

impl Turn {
    /// Whether the row at its turn has the value that is set.
    fn has(&self, set: Option<(usize, Value)>) -> bool {
        let row = self.now.as_ref();
        row.zip(set).map_or(false, |(row, set)| row[set.0] == set.1)
    }
}

fn first_and_last_row(seen: &Seen) -> bool {
    let last = seen.entry.schema.tables[seen.search.table].rows - 1;
    let met = |number| seen.any_turn(|turn| turn.is_met && turn.number == number);
    last > 0 && met(0) && met(last)
}
