//! A call as it is observed for half-filled child keys: each foreign key with its rows before the
//! call and after it.

use crate::model::area::Area;
use crate::model::form::Call;
use crate::model::keys::{empty, full};
use crate::model::schema::{Action, Key, Match, Row};
use crate::model::walk;

/// What a child row is to a foreign key.
#[derive(Clone, Copy, PartialEq)]
pub enum State {
    Vacant,
    /// Every column of its key is NULL.
    Empty,
    /// Some but not all columns are NULL.
    HalfFilled,
    /// No column is NULL, and no parent has the key.
    Parentless,
    /// No column is NULL, and a parent has the key.
    Served,
}

/// A child row: its state and its child key as it is compared, none where it is vacant, before the
/// call and after it.
pub struct Child {
    pub was: State,
    pub is: State,
    pub old: Option<Row>,
    pub new: Option<Row>,
}

impl Child {
    pub fn goes(&self, was: State, is: State) -> bool {
        (self.was, self.is) == (was, is)
    }

    /// Whether it comes to be half-filled.
    pub fn is_half_filled_now(&self) -> bool {
        self.was != State::HalfFilled && self.is == State::HalfFilled
    }

    /// The child key of a row that is half-filled and stays as it is.
    pub fn kept_half(&self) -> Option<&Row> {
        let stays = self.is == State::HalfFilled && self.old == self.new;
        self.new.as_ref().filter(|_| stays)
    }
}

/// A parent row's key as it is compared, before the call and after it.
type Parent = (Option<Row>, Option<Row>);

pub struct OfKey<'a> {
    pub key: &'a Key,
    /// Whether its orphans can wait: it is deferred and a transaction is open.
    pub waits: bool,
    /// The kept number before the call.
    kept: i64,
    pub children: Vec<Child>,
    pub parents: Vec<Parent>,
    /// The old key as it is compared and the action, where a parent's change of this call is followed
    /// by actions.
    pub fired: Option<(Row, Action)>,
}

impl<'a> OfKey<'a> {
    /// Given the area before the call and after it.
    pub fn new(number: usize, before: &Area<'a>, after: &Area, call: &Call) -> OfKey<'a> {
        let key = &before.schema.keys[number];
        let parents = parents(key, before, after);
        OfKey {
            key,
            waits: key.deferred && before.in_transaction(),
            kept: before.kept()[number],
            children: children(key, before, after, &parents),
            parents,
            fired: fired(key, before, call),
        }
    }

    /// Whether it is of MATCH FULL and has orphans: it is not broken.
    pub fn is_match_full(&self) -> bool {
        self.key.matching == Match::Full && !self.key.broken
    }

    /// How many child rows are in this state before the call, and after it.
    pub fn count(&self, state: State) -> (i64, i64) {
        let before = self.children.iter().filter(|child| child.was == state);
        let after = self.children.iter().filter(|child| child.is == state);
        (before.count() as i64, after.count() as i64)
    }

    /// The kept number to which the call leads, judged or not.
    pub fn kept_after(&self) -> i64 {
        let halves = self.count(State::HalfFilled);
        let parentless = self.count(State::Parentless);
        if self.key.broken {
            return self.kept;
        }
        let by_halves = if self.is_match_full() {
            halves.1 - halves.0
        } else {
            0
        };
        self.kept + by_halves + parentless.1 - parentless.0
    }

    pub fn any(&self, is: impl Fn(&Child) -> bool) -> bool {
        self.children.iter().any(is)
    }

    /// Whether it has orphans after the call, all of them half-filled.
    pub fn has_halves_alone(&self) -> bool {
        self.is_match_full()
            && self.count(State::HalfFilled).1 > 0
            && self.count(State::Parentless).1 == 0
    }

    /// Whether half-filled rows come or go, and no other orphans.
    pub fn moves_by_halves(&self) -> bool {
        let (halves, parentless) = (self.count(State::HalfFilled), self.count(State::Parentless));
        self.is_match_full() && halves.0 != halves.1 && parentless.0 == parentless.1
    }

    pub fn is_out_of_range(&self) -> bool {
        !(0..=self.children.len() as i64).contains(&self.kept_after())
    }

    /// Whether a child row that had the old key is in this state after such an action.
    pub fn leaves(&self, action: Action, state: State) -> bool {
        let left = |child: &Child, old: &Row| child.old.as_ref() == Some(old) && child.is == state;
        match &self.fired {
            Some((old, fired)) if *fired == action => {
                self.children.iter().any(|child| left(child, old))
            }
            _ => false,
        }
    }
}

fn parents(key: &Key, before: &Area, after: &Area) -> Vec<Parent> {
    let parent = before.schema.tables.get(key.parent);
    let rows = 0..parent.map_or(0, |table| table.rows);
    let parent_key = |row: Row| key.compared(&key.parent_key(&row));
    let of = |area: &Area, number| area.row(key.parent, number).map(parent_key);
    rows.map(|number| (of(before, number), of(after, number)))
        .collect()
}

fn children(key: &Key, before: &Area, after: &Area, parents: &[Parent]) -> Vec<Child> {
    let rows = 0..before.schema.tables[key.child].rows;
    let child_key = |row: Row| key.compared(&key.child_key(&row));
    let of = |area: &Area, number| area.row(key.child, number).map(child_key);
    let child = |number| {
        let (old, new) = (of(before, number), of(after, number));
        Child {
            was: state(&old, |parent| parents.iter().any(|pair| pair.0 == *parent)),
            is: state(&new, |parent| parents.iter().any(|pair| pair.1 == *parent)),
            old,
            new,
        }
    };
    rows.map(child).collect()
}

/// The state of a child row, given its key and whether there is a parent with a key.
fn state(child_key: &Option<Row>, any_parent: impl Fn(&Option<Row>) -> bool) -> State {
    match child_key {
        None => State::Vacant,
        Some(key) if empty(key) => State::Empty,
        Some(key) if !full(key) => State::HalfFilled,
        Some(_) if any_parent(child_key) => State::Served,
        Some(_) => State::Parentless,
    }
}

/// The old key and the action, where actions of the foreign key follow the statement's own row.
fn fired(key: &Key, before: &Area, call: &Call) -> Option<(Row, Action)> {
    let (table, row, new) = match call {
        Call::Update(table, row, new) => (*table, *row, Some(new)),
        Call::Delete(table, row) => (*table, *row, None),
        _ => return None,
    };
    let old = before.row(table, row).filter(|_| key.parent == table)?;
    let (old, new) = (key.parent_key(&old), new.map(|new| key.parent_key(new)));
    let fires = walk::fires(key, &old, new.as_ref());
    fires.then(|| (key.compared(&old), walk::action(key, new.is_none())))
}
