//! What is asked of a call on broken foreign keys: which row changes use one, and what would follow
//! if some rules were others.

use super::seen::Seen;
use super::trace::{Step, Trace};
use crate::model::change::uses;
use crate::model::rules::Rules;
use crate::model::schema::{Action, Key};
use crate::model::{statement, walk};

impl<'a> Seen<'a> {
    pub fn broken(&self) -> impl Iterator<Item = &'a Key> {
        self.schema.keys.iter().filter(|key| key.broken)
    }

    /// The broken keys that a row change uses.
    pub fn used<'s>(&'s self, step: &'s Step) -> impl Iterator<Item = &'a Key> + 's {
        self.broken().filter(|key| uses(key, step.table, step.kind))
    }

    /// Whether a broken key has this child table.
    pub fn is_child(&self, table: usize) -> bool {
        self.broken().any(|key| key.child == table)
    }

    /// Whether a broken key has this parent table.
    pub fn is_parent(&self, table: usize) -> bool {
        self.broken().any(|key| key.parent == table)
    }

    /// The kept numbers to which a statement leads that is refused at its end.
    pub fn kept_after(&self) -> impl Iterator<Item = i64> + '_ {
        let moves = statement::moves(self.rules, self.before, &self.after);
        let kept = self.before.kept().iter().zip(moves);
        kept.map(|(kept, by)| kept + by)
    }

    /// The code of the statement's row changes if RESTRICT was NO ACTION: 0 where they are made.
    pub fn code_without_restrict(&self) -> i64 {
        self.code_by(&without_restrict(self.rules))
    }

    /// The same if no key was broken.
    pub fn code_without_broken(&self) -> i64 {
        self.code_by(&without_broken(self.rules))
    }

    fn code_by(&self, rules: &Rules) -> i64 {
        Trace::with_code(rules, &mut self.before.clone(), self.call).1
    }
}

fn without_restrict(rules: &Rules) -> Rules {
    let mut rules = rules.clone();
    rules.action = |key, deletion| match walk::action(key, deletion) {
        Action::Restrict => Action::NoAction,
        action => action,
    };
    rules
}

/// Broken keys are not there.
fn without_broken(rules: &Rules) -> Rules {
    let mut rules = rules.clone();
    rules.checks.retain(|check| check.0 != 23);
    rules.key_sequence = |schema, mut keys| {
        keys.retain(|&key| !schema.keys[key].broken);
        keys
    };
    rules
}
