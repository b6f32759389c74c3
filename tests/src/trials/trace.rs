//! A statement made row change by row change as the model makes it, with the refusals that are due
//! for each, and with the actions that follow from it.

use crate::model::area::Area;
use crate::model::change::{self, Change, Kind};
use crate::model::form::Call;
use crate::model::rules::Rules;
use crate::model::schema::{Action, Row};
use crate::model::search;
use crate::model::walk::Walk;

type Outcome = Result<(), i64>;

/// A row change that came to its checks.
pub struct Step {
    pub depth: usize,
    pub table: usize,
    pub row: usize,
    pub kind: Kind,
    pub old: Option<Row>,
    pub new: Option<Row>,
    /// The action that it follows from, if it is not the statement's own.
    pub action: Option<Action>,
    /// The refusals whose checks do not hold.
    pub due: Vec<i64>,
}

/// Actions of a foreign key that follow a row change. Keys are as typed.
pub struct Fired {
    /// The foreign key's number.
    pub key: usize,
    pub action: Action,
    pub old_key: Row,
    /// The parent's new key: none after a deletion.
    pub new_key: Option<Row>,
    /// The child keys of the rows found at their turns, each with the child key that the action gives
    /// the row, if it gives one.
    pub found: Vec<(Row, Option<Row>)>,
}

/// What was made of a statement, up to the row change that is refused.
pub struct Trace<'r> {
    rules: &'r Rules,
    pub steps: Vec<Step>,
    pub fired: Vec<Fired>,
}

impl<'r> Trace<'r> {
    /// A statement made on an area.
    pub fn new(rules: &'r Rules, area: &mut Area, call: &Call) -> Trace<'r> {
        Trace::with_code(rules, area, call).0
    }

    /// The same with the code of its row changes: 0 where all are made.
    pub fn with_code(rules: &'r Rules, area: &mut Area, call: &Call) -> (Trace<'r>, i64) {
        let mut trace = Trace {
            rules,
            steps: Vec::new(),
            fired: Vec::new(),
        };
        let code = trace.statement(area, call).err().unwrap_or(0);
        (trace, code)
    }

    fn statement(&mut self, area: &mut Area, call: &Call) -> Outcome {
        let (table, row, new) = match call {
            Call::Insert(table, row, new) | Call::Update(table, row, new) => {
                (*table, *row, Some(new.clone()))
            }
            Call::Delete(table, row) => (*table, *row, None),
            Call::Search(search) => {
                let entry = area.clone();
                for row in search::rows(&entry, search) {
                    if let Some(own) = search::own_change(self.rules, &entry, area, search, row) {
                        self.change(area, &own, None)?;
                    }
                }
                return Ok(());
            }
            _ => return Ok(()),
        };
        self.change(area, &Change::own(table, row, new), None)
    }

    fn change(&mut self, area: &mut Area, change: &Change, action: Option<Action>) -> Outcome {
        let rules = self.rules;
        let failing = rules.checks.iter().filter(|c| !(c.1)(rules, area, change));
        self.steps.push(Step {
            depth: change.depth,
            table: change.table,
            row: change.row,
            kind: change::kind(area, change),
            old: area.row(change.table, change.row),
            new: change.new.clone(),
            action,
            due: failing.map(|check| check.0).collect(),
        });
        for walk in change::written(self.rules, area, change)? {
            let number = self.fired.len();
            self.fired.push(fired(area, &walk));
            for row in (self.rules.turns)(area, walk.key, &walk.old_key) {
                self.turn(area, &walk, number, row)?;
            }
        }
        Ok(())
    }

    /// The turn of a row in the walk that has this number among those observed.
    fn turn(&mut self, area: &mut Area, walk: &Walk, number: usize, row: usize) -> Outcome {
        let child_key = |row: &Row| walk.key.child_key(row);
        let found = (self.rules.found)(self.rules, area, walk, row);
        let outcome = walk.turn(self.rules, area, row);
        if let Some((_, child)) = found {
            let next = outcome.as_ref().ok().and_then(|next| next.as_ref());
            let given = next.and_then(|next| next.new.as_ref()).map(child_key);
            let found = &mut self.fired[number].found;
            found.push((child_key(&child), given));
        }
        match outcome? {
            Some(next) => self.change(area, &next, Some(walk.action)),
            None => Ok(()),
        }
    }
}

/// A walk that begins.
fn fired(area: &Area, walk: &Walk) -> Fired {
    let key = walk.key;
    let mut keys = area.schema.keys.iter();
    Fired {
        key: keys
            .position(|other| std::ptr::eq(other, key))
            .expect("it is a key of the schema"),
        action: walk.action,
        old_key: walk.old_key.clone(),
        new_key: walk.change.new.as_ref().map(|new| key.parent_key(new)),
        found: Vec::new(),
    }
}
