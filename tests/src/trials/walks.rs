//! The walks of actions over child rows, observed in the model and counted by what is to be seen in
//! them.

use super::compared::Input;
use super::origins::Origin;
use super::walk_situations::Seen;
use crate::counts::Counts;
use crate::engine::Answer;
use crate::model::area::Area;
use crate::model::change::{self, Change};
use crate::model::form::{self, Call};
use crate::model::rules::Rules;
use crate::model::schema::{Action, Schema};
use crate::model::search::{self, Search};
use crate::model::walk::Walk;
use std::collections::BTreeSet;

type Outcome = Result<(), i64>;

/// Walks are not observed in schemas with larger tables: that takes long and shows nothing else.
const MOST_ROWS: usize = 64;

pub struct Walks {
    rules: Rules,
    /// How many calls showed each situation on the areas of each origin.
    pub met: [Counts<&'static str>; 3],
}

impl Walks {
    pub fn new() -> Walks {
        Walks {
            rules: Rules::of_the_paper(),
            met: Default::default(),
        }
    }

    /// Counts what a call shows, given the answer to it: one that is accepted, or that is refused
    /// inside the statement.
    pub fn count(&mut self, (schema, area, call): Input, answer: Answer, origin: Origin) {
        let changes_rows = call.len() == 12 && matches!(call[0], 2 | 3 | 10 | 11);
        if !changes_rows || !matches!(answer.code, 0 | 14..=18 | 23 | 24) {
            return;
        }
        let schema = Schema::read(schema).expect("it was not refused by 1");
        if schema.tables.iter().any(|table| table.rows > MOST_ROWS) {
            return;
        }
        let call = form::read(&self.rules, &schema, call).expect("it was not refused by 4");
        let mut area = Area {
            schema: &schema,
            words: area.to_vec(),
        };
        let mut watch = Watch {
            rules: &self.rules,
            done: BTreeSet::new(),
            refused: BTreeSet::new(),
        };
        let outcome = watch.statement(&mut area, call);
        assert_eq!(outcome.err().unwrap_or(0), answer.code, "it is the model's");
        let shown = match outcome {
            Ok(()) => watch.done,
            Err(_) => watch.refused,
        };
        let met = &mut self.met[origin as usize];
        shown.into_iter().for_each(|situation| met.add(situation));
    }
}

/// A statement made step by step as the model makes it.
struct Watch<'r> {
    rules: &'r Rules,
    /// The situations of walks that were gone through to the end, and of refused ones.
    done: BTreeSet<&'static str>,
    refused: BTreeSet<&'static str>,
}

impl Watch<'_> {
    fn statement(&mut self, area: &mut Area, call: Call) -> Outcome {
        match call {
            Call::Update(table, row, new) => self.change(area, &Change::own(table, row, Some(new))),
            Call::Delete(table, row) => self.change(area, &Change::own(table, row, None)),
            Call::Search(search) => self.search(area, &search),
            _ => Ok(()),
        }
    }

    fn search(&mut self, area: &mut Area, search: &Search) -> Outcome {
        let entry = area.clone();
        for row in search::rows(&entry, search) {
            if let Some(own) = search::own_change(self.rules, &entry, area, search, row) {
                self.change(area, &own)?;
            }
        }
        Ok(())
    }

    fn change(&mut self, area: &mut Area, change: &Change) -> Outcome {
        for walk in change::written(self.rules, area, change)? {
            if walk.action == Action::NoAction {
                continue;
            }
            let mut seen = Seen::new(area, &walk);
            let outcome = self.walk(area, &walk, &mut seen);
            seen.end(area, outcome.err());
            let shown = match outcome {
                Ok(()) => &mut self.done,
                Err(_) => &mut self.refused,
            };
            if walk.key.window.is_none() {
                shown.extend(seen.shown());
            }
            outcome?;
        }
        Ok(())
    }

    fn walk(&mut self, area: &mut Area, walk: &Walk, seen: &mut Seen) -> Outcome {
        for row in (self.rules.turns)(area, walk.key, &walk.old_key) {
            seen.turn(area, row);
            if let Some(next) = walk.turn(self.rules, area, row)? {
                seen.taken();
                self.change(area, &next)?;
                seen.finished(area);
            }
        }
        Ok(())
    }
}
