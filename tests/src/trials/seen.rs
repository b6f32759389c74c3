//! A call as it is observed: its row changes and actions.

use super::origins::Origin;
use super::trace::{Fired, Step, Trace};
use super::watched::Made;
use crate::model::area::Area;
use crate::model::form::Call;
use crate::model::rules::Rules;
use crate::model::schema::{Key, Row, Schema};
use crate::model::search::Search;

/// A name, the areas on which it is to be seen, and whether it is to be seen in a call.
pub type Situation = (&'static str, &'static [Origin], fn(&Seen) -> bool);

/// A call that was observed. Its words have the form of a call, and its area the length of one.
pub struct Seen<'a> {
    pub rules: &'a Rules,
    pub schema: &'a Schema,
    pub call: &'a Call,
    pub code: i64,
    pub before: &'a Area<'a>,
    /// The area after the call; after the row changes that were made, where it is refused inside a
    /// statement.
    pub after: Area<'a>,
    /// The row changes of a statement, up to the one that is refused.
    pub steps: Vec<Step>,
    pub fired: Vec<Fired>,
}

impl<'a> Seen<'a> {
    pub fn new(rules: &'a Rules, made: &'a Made<'a>) -> Seen<'a> {
        let mut after = made.after.clone();
        let (mut steps, mut fired) = (Vec::new(), Vec::new());
        if matches!(made.code, 0 | 14..=20 | 23 | 24) {
            let mut area = made.before.clone();
            let trace = Trace::new(rules, &mut area, &made.call);
            (steps, fired) = (trace.steps, trace.fired);
            if made.code != 0 {
                after = area;
            }
        }
        Seen {
            rules,
            schema: made.before.schema,
            call: &made.call,
            code: made.code,
            before: &made.before,
            after,
            steps,
            fired,
        }
    }

    /// The names of those situations that the call shows.
    pub fn shown(&self, situations: impl Iterator<Item = &'static Situation>) -> Vec<&'static str> {
        let shown = situations.filter(|situation| (situation.2)(self));
        shown.map(|situation| situation.0).collect()
    }

    /// The search, if the call is of this kind.
    pub fn search(&self, kind: i64) -> Option<&'a Search> {
        match self.call {
            Call::Search(search) if search.set.is_some() == (kind == 11) => Some(search),
            _ => None,
        }
    }

    pub fn any_step(&self, such: impl Fn(&Step) -> bool) -> bool {
        self.steps.iter().any(such)
    }

    /// The rows of a table that the statement wrote and that are there after it.
    pub fn written(&self, table: usize) -> impl Iterator<Item = Row> + '_ {
        let steps = self.steps.iter().filter(move |step| step.table == table);
        steps.filter_map(|step| self.after.row(step.table, step.row))
    }

    /// Whether actions of a key followed that are so.
    pub fn any_fired(&self, such: impl Fn(&Key, &Fired) -> bool) -> bool {
        let mut fired = self.fired.iter();
        fired.any(|fired| such(&self.schema.keys[fired.key], fired))
    }

    /// The row change that is refused by this code.
    pub fn refused(&self, code: i64) -> Option<&Step> {
        self.steps.last().filter(|_| self.code == code)
    }

    /// Whether a row change is refused by the first code and the second is due for it too.
    pub fn both_due(&self, given: i64, other: i64) -> bool {
        let step = self.refused(given);
        step.map_or(false, |step| step.due.contains(&other))
    }
}
