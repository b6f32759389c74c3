//! Situations by what becomes of a call.

use crate::model::form::Call;

/// The situations of accepted statements, of accepted rollbacks, and of refused calls.
pub struct ByOutcome<S: 'static> {
    pub statements: &'static [&'static [S]],
    pub rollbacks: &'static [&'static [S]],
    pub refused: &'static [&'static [S]],
}

impl<S> ByOutcome<S> {
    pub fn all(&self) -> impl Iterator<Item = &'static S> + Clone {
        let lists = [self.statements, self.rollbacks, self.refused];
        lists.into_iter().flatten().copied().flatten()
    }

    /// Those that are looked for in a call, given its code.
    pub fn of(&self, code: i64, call: &Call) -> impl Iterator<Item = &'static S> {
        let lists = match (code, call) {
            (0, Call::RollbackTo(_) | Call::Rollback) => self.rollbacks,
            (0, Call::Insert(..) | Call::Update(..) | Call::Delete(..) | Call::Search(_)) => {
                self.statements
            }
            (0, _) => &[],
            _ => self.refused,
        };
        lists.iter().copied().flatten()
    }
}
