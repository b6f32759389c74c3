//! What there is to see in the walk of an action over the child rows, by name, so that it can be
//! counted.

use super::origins::Origin::{self, Damaged, Filled, Reached};
use super::origins::ANY;
use crate::model::area::Area;
use crate::model::keys::full;
use crate::model::schema::{Row, Value};
use crate::model::walk::Walk;

/// A walk that was observed.
pub struct Seen<'a> {
    walk: &'a Walk<'a>,
    /// The old key. All keys here are as they are compared.
    old_key: Row,
    /// The child keys of the rows when it began and when it ended: none where a row is vacant.
    first: Vec<Option<Row>>,
    last: Vec<Option<Row>>,
    /// By row number, up to one at which it is refused.
    turns: Vec<Turn>,
    /// The refusal met in it or in what follows from it.
    refused: Option<i64>,
}

/// A child row that comes to its turn.
struct Turn {
    number: usize,
    /// The words in the columns of the key, as if none was NULL.
    words: Row,
    /// The child key at its turn, and once what follows from it is finished.
    now: Option<Row>,
    after: Option<Row>,
    taken: bool,
    /// The parent's row at its turn.
    parent: Option<Row>,
}

/// A name, the areas on which it is to be seen, and whether it is to be seen in a walk.
pub type Situation = (&'static str, &'static [Origin], fn(&Seen) -> bool);

/// Rows are taken.
const TAKEN: &[Situation] = &[
    ("taken by a key of 1 column", ANY, |s| s.takes_by(1)),
    ("taken by a key of 2 columns", ANY, |s| s.takes_by(2)),
    ("taken by a key of 3 columns", ANY, |s| s.takes_by(3)),
    ("taken by a key of 4 columns", ANY, |s| s.takes_by(4)),
    ("taken after the parent's own row", ANY, |s| {
        s.any_taken(|own| s.is_parent(own) && s.any_taken(|later| later.number > own.number))
    }),
    ("taken after the parent's row is changed again", ANY, |s| {
        s.any_taken(|turn| turn.parent != s.walk.change.new)
    }),
    ("taken after the parent's key is changed again", ANY, |s| {
        s.any_taken(|turn| s.parent_key(&turn.parent) != s.parent_key(&s.walk.change.new))
    }),
    ("taken and keeps the old key", ANY, |s| {
        s.any_taken(|turn| s.is_old(&turn.after))
    }),
    ("comes to have the old key and is taken", ANY, |s| {
        s.any_taken(|turn| !s.is_old(&s.first[turn.number]))
    }),
];

/// Rows are passed over.
const PASSED_OVER: &[Situation] = &[
    ("comes to have the old key after its turn", ANY, |s| {
        s.any_turn(|turn| !s.is_old(&turn.after) && s.is_old(&s.last[turn.number]))
    }),
    ("loses the old key before its turn", ANY, |s| {
        s.any_passed_over(|turn| s.is_old(&s.first[turn.number]))
    }),
    ("has the new key from the first", ANY, |s| {
        s.any_passed_over(|turn| s.is_new(&turn.now) && s.is_new(&s.first[turn.number]))
    }),
    ("old values beside NULL", ANY, |s| {
        s.any_passed_over(|turn| {
            s.any_column(turn, |now, old| now == old) && s.null_beside_old(turn)
        })
    }),
    ("old values but for the last", ANY, |s| {
        s.any_passed_over(|turn| s.differs_in_last(turn))
    }),
    ("a vacant row with the old words", ANY, |s| {
        s.any_passed_over(|turn| turn.now.is_none() && s.has_words(turn))
    }),
    (
        "a vacant row with old words not all 0",
        &[Filled, Damaged],
        |s| {
            let zero = s.old_key.iter().all(|&value| value == Some(0));
            s.any_passed_over(|turn| turn.now.is_none() && s.has_words(turn) && !zero)
        },
    ),
    ("NULL with the old word", ANY, |s| {
        s.any_passed_over(|turn| s.null_beside_old(turn) && s.has_words(turn))
    }),
    ("NULL with an old word not 0", &[Filled, Damaged], |s| {
        let null = |now: Value, old: Value| now.is_none() && old != Some(0);
        s.any_passed_over(|turn| s.any_column(turn, null) && s.has_words(turn))
    }),
];

/// The walk is refused after a row was taken and finished.
const REFUSED: &[Situation] = &[
    ("14 at a later row", &[Reached], |s| s.refused_late(14)),
    ("15 at a later row", ANY, |s| s.refused_late(15)),
    ("16 at a later row", ANY, |s| s.refused_late(16)),
    ("17 at a later row", ANY, |s| s.refused_late(17)),
    ("18 at a later row", ANY, |s| s.refused_late(18)),
];

/// All situations, those of refused walks last.
pub const SITUATIONS: [&[Situation]; 3] = [TAKEN, PASSED_OVER, REFUSED];

impl<'a> Seen<'a> {
    /// A walk that begins.
    pub fn new(area: &Area, walk: &'a Walk) -> Seen<'a> {
        Seen {
            walk,
            old_key: walk.key.compared(&walk.old_key),
            first: child_keys(area, walk),
            last: Vec::new(),
            turns: Vec::new(),
            refused: None,
        }
    }

    /// A row comes to its turn.
    pub fn turn(&mut self, area: &Area, number: usize) {
        let (key, change) = (self.walk.key, self.walk.change);
        let (_, values) = area.stored(key.child, number);
        let now = child_key(area, self.walk, number);
        let words = key.child_columns.iter().map(|&c| Some(values[c])).collect();
        self.turns.push(Turn {
            number,
            words: key.compared(&words),
            after: now.clone(),
            now,
            taken: false,
            parent: area.row(change.table, change.row),
        });
    }

    /// The row whose turn it is is taken.
    pub fn taken(&mut self) {
        self.turns.last_mut().expect("it is a row's turn").taken = true;
    }

    /// What follows from the row that was taken is finished.
    pub fn finished(&mut self, area: &Area) {
        let turn = self.turns.last_mut().expect("it is a row's turn");
        turn.after = child_key(area, self.walk, turn.number);
    }

    pub fn end(&mut self, area: &Area, refused: Option<i64>) {
        self.last = child_keys(area, self.walk);
        self.refused = refused;
    }

    /// The names of the situations that it shows.
    pub fn shown(&self) -> impl Iterator<Item = &'static str> + '_ {
        let situations = match self.refused {
            Some(_) => &SITUATIONS[2..],
            None => &SITUATIONS[..2],
        };
        let shown = situations.iter().copied().flatten();
        shown
            .filter(|situation| (situation.2)(self))
            .map(|situation| situation.0)
    }

    fn any_turn(&self, is: impl Fn(&Turn) -> bool) -> bool {
        self.turns.iter().any(is)
    }

    fn any_taken(&self, is: impl Fn(&Turn) -> bool) -> bool {
        self.any_turn(|turn| turn.taken && is(turn))
    }

    fn any_passed_over(&self, is: impl Fn(&Turn) -> bool) -> bool {
        self.any_turn(|turn| !turn.taken && is(turn))
    }

    /// Whether a row is taken by a key of so many columns.
    fn takes_by(&self, columns: usize) -> bool {
        self.old_key.len() == columns && self.any_taken(|_| true)
    }

    fn refused_late(&self, code: i64) -> bool {
        let taken = self.turns.iter().filter(|turn| turn.taken);
        self.refused == Some(code) && taken.count() > 1
    }

    /// Whether the row is the parent's own.
    fn is_parent(&self, turn: &Turn) -> bool {
        self.walk.key.child == self.walk.key.parent && self.walk.change.row == turn.number
    }

    fn parent_key(&self, parent: &Option<Row>) -> Option<Row> {
        let key = self.walk.key;
        parent
            .as_ref()
            .map(|row| key.compared(&key.parent_key(row)))
    }

    fn is_old(&self, child_key: &Option<Row>) -> bool {
        child_key.as_ref() == Some(&self.old_key)
    }

    /// Whether a child key is the parent's new key.
    fn is_new(&self, child_key: &Option<Row>) -> bool {
        child_key.as_ref().map_or(false, full)
            && *child_key == self.parent_key(&self.walk.change.new)
    }

    /// Whether a live row has such a value in a column of the key, given the old one beside it.
    fn any_column(&self, turn: &Turn, such: fn(Value, Value) -> bool) -> bool {
        let mut pairs = turn.now.iter().flatten().zip(&self.old_key);
        pairs.any(|(&now, &old)| such(now, old))
    }

    /// Whether a live row has NULL in the key, and no other value than NULL and the old ones.
    fn null_beside_old(&self, turn: &Turn) -> bool {
        self.any_column(turn, |now, _| now.is_none())
            && !self.any_column(turn, |now, old| now.is_some() && now != old)
    }

    /// Whether a live row has the old values of a composite key and another value in the last.
    fn differs_in_last(&self, turn: &Turn) -> bool {
        let last = self.old_key.len() - 1;
        let differs = |now: &Row| {
            full(now) && now[..last] == self.old_key[..last] && now[last] != self.old_key[last]
        };
        last > 0 && turn.now.as_ref().map_or(false, differs)
    }

    /// Whether the words in the columns of the key are the old values.
    fn has_words(&self, turn: &Turn) -> bool {
        turn.words == self.old_key
    }
}

fn child_key(area: &Area, walk: &Walk, row: usize) -> Option<Row> {
    let live = area.row(walk.key.child, row);
    live.map(|row| walk.key.compared(&walk.key.child_key(&row)))
}

fn child_keys(area: &Area, walk: &Walk) -> Vec<Option<Row>> {
    let rows = 0..area.schema.tables[walk.key.child].rows;
    rows.map(|row| child_key(area, walk, row)).collect()
}
