//! Two calls that were accepted one after the other in a transaction, and the same in the other order:
//! the paper's claim about calls on different families.

use crate::differences::{first_words, hex, words};
use crate::engine::{Answer, Engine};
use crate::inputs::grounds::Ground;

type Outcome = Result<(), String>;

/// An engine and the schema that it is used with.
#[derive(Clone, Copy)]
pub struct On<'a> {
    pub engine: &'a dyn Engine,
    pub ground: &'a Ground,
}

impl On<'_> {
    /// The answer to a call on a copy of the area, and the copy after it.
    pub fn send(&self, area: &[i64], call: &[i64]) -> (Answer, Vec<i64>) {
        let mut after = area.to_vec();
        let answer = self.engine.call(&self.ground.bytes, &mut after, call);
        (answer, after)
    }

    /// The answers to two calls, one after the other, and the area after both.
    pub fn send_both(&self, area: &[i64], [one, other]: Calls) -> ([Answer; 2], Vec<i64>) {
        let (first, between) = self.send(area, one);
        let (second, after) = self.send(&between, other);
        ([first, second], after)
    }

    /// The same, but the second call is sent before the first. The answers are in the order of the
    /// calls.
    pub fn send_reversed(&self, area: &[i64], [one, other]: Calls) -> ([Answer; 2], Vec<i64>) {
        let ([first, second], after) = self.send_both(area, [other, one]);
        ([second, first], after)
    }
}

pub type Calls<'a> = [&'a [i64]; 2];

/// Two accepted calls: the area before them, their answers, and the area after both.
pub struct Pair<'a> {
    pub before: &'a [i64],
    pub calls: Calls<'a>,
    pub answers: [Answer; 2],
    pub after: Vec<i64>,
}

impl<'a> Pair<'a> {
    /// Sends both calls. None where one of them is refused.
    pub fn accepted(on: &On, before: &'a [i64], calls: Calls<'a>) -> Option<Pair<'a>> {
        let (answers, after) = on.send_both(before, calls);
        answers
            .iter()
            .all(|answer| answer.code == 0)
            .then_some(Pair {
                before,
                calls,
                answers,
                after,
            })
    }

    /// Whether a transaction is open before them.
    pub fn in_transaction(&self) -> bool {
        self.before[0] > 0
    }

    /// How many rows both change.
    pub fn changed(&self) -> i64 {
        self.answers[0].changed + self.answers[1].changed
    }

    /// The calls in the other order: the same answers, every word before the journal, and the records
    /// of the journal but for the order of both calls' own. Gives both areas.
    pub fn claim(&self, on: &On) -> Result<Twins, String> {
        let own = self.own_records(on)?;
        let (answers, after) = on.send_reversed(self.before, self.calls);
        if answers != self.answers {
            let why = format!("in the other order {} and {}", answers[0], answers[1]);
            return Err(self.told(on, &why));
        }
        let twins = Twins {
            areas: [self.after.clone(), after],
            own,
            apart: true,
            levels: self.before[0],
        };
        let judged = twins.judge();
        judged.map_err(|why| self.told(on, &why)).map(|()| twins)
    }

    /// The words of both calls' journal records. Every other word of the journal is as it was.
    fn own_records(&self, on: &On) -> Result<OwnRecords, String> {
        let schema = &on.ground.schema;
        let (first, last) = (self.before[2], self.after[2]);
        let between = first + self.answers[0].changed;
        let in_order = first <= between && between <= last && last <= schema.room as i64;
        if last != first + self.changed() || !in_order {
            return Err(self.told(on, &format!("{} records used, then {}", first, last)));
        }
        let journal = schema.area_words() - 10 * schema.room;
        let [start, middle, end] =
            [first, between, last].map(|record| journal + 10 * record as usize);
        let beside = |area: &[i64]| [&area[journal..start], &area[end..]].concat();
        if beside(self.before) != beside(&self.after) {
            return Err(self.told(on, "other records of the journal are altered"));
        }
        Ok(OwnRecords { start, middle, end })
    }

    pub fn told(&self, on: &On, why: &str) -> String {
        format!(
            "{}; accepted calls {:?} {} and {:?} {}; schema {}; area {}",
            why,
            self.calls[0],
            self.answers[0],
            self.calls[1],
            self.answers[1],
            hex(&on.ground.bytes),
            words(self.before)
        )
    }
}

/// Where the records of the call sent first begin, those of the other, and what comes after both.
#[derive(Clone, Copy)]
struct OwnRecords {
    start: usize,
    middle: usize,
    end: usize,
}

/// The area after both calls in one order, and in the other.
#[derive(Clone)]
pub struct Twins {
    pub areas: [Vec<i64>; 2],
    own: OwnRecords,
    /// Whether both calls' records are still in the journal.
    apart: bool,
    /// How many of the levels opened before both are open.
    pub levels: i64,
}

impl Twins {
    /// Sends a call to both: the same answer, and areas that differ in the order of both calls' records
    /// only; not even there once the transaction is over, or after a rollback to a level opened before
    /// both.
    pub fn send(&mut self, on: &On, call: &[i64]) -> Result<Answer, String> {
        let [one, other] = [0, 1].map(|order| on.send(&self.areas[order], call));
        self.areas = [one.1, other.1];
        if one.0 != other.0 {
            return Err(format!("then {:?}: {} and {}", call, one.0, other.0));
        }
        let undone = call[0] == 7 && call[1] <= self.levels && one.0.code == 0;
        self.levels = self.levels.min(self.areas[0][0]);
        self.apart &= !undone && self.levels > 0;
        let judged = self.judge();
        judged.map_err(|why| format!("then {:?} {}: {}", call, one.0, why))?;
        Ok(one.0)
    }

    /// Whether the areas are to be equal in every word.
    pub fn in_every_word(&self) -> bool {
        !self.apart
    }

    fn judge(&self) -> Outcome {
        let [one, other] = &self.areas;
        let mut expected = one.clone();
        if self.apart {
            let OwnRecords { start, middle, end } = self.own;
            expected[start..end].rotate_left(middle - start);
        }
        if *other != expected {
            let words = first_words(other, &expected);
            return Err(format!("other order, with the first as model: {}", words));
        }
        Ok(())
    }
}
