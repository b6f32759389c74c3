//! A reference model of the record engine, written from the paper: plain and slow.

pub mod area;
pub mod bound;
pub mod change;
pub mod damage;
pub mod families;
pub mod folding;
pub mod form;
pub mod keys;
pub mod list;
pub mod program;
pub mod rules;
pub mod schema;
pub mod search;
pub mod statement;
pub mod strike;
pub mod transaction;
pub mod walk;
pub mod windows;

use crate::engine::{Answer, Engine, Listed, Numbered, Orphan};
use area::Area;
use change::Change;
use form::Call;
use rules::Rules;
use schema::Schema;
use statement::Outcome;

pub struct Model {
    pub rules: Rules,
}

impl Model {
    pub fn of_the_paper() -> Model {
        Model {
            rules: Rules::of_the_paper(),
        }
    }

    /// Rows changed and net, or a refusal, in the order 1, 3, 4, 10, then those of the call.
    fn step(&self, schema: &[u8], area: &mut [i64], call: &[i64]) -> Outcome {
        let schema = (self.rules.read)(schema)?;
        let mut book = of_length(&schema, area)?;
        let call = form::read(&self.rules, &schema, call).ok_or(4)?;
        self.judge_damage(&book)?;
        let outcome = self.act(&mut book, call);
        area.copy_from_slice(&book.words);
        outcome
    }

    fn judge_damage(&self, area: &Area) -> Result<(), i64> {
        let whole = self.rules.area_forms.iter().all(|form| (form.1)(area));
        whole.then_some(()).ok_or(10)
    }

    fn act(&self, area: &mut Area, call: Call) -> Outcome {
        let rules = &self.rules;
        match call {
            Call::Insert(table, row, new) => self.change(area, table, row, Some(new), false),
            Call::Update(table, row, new) => self.change(area, table, row, Some(new), true),
            Call::Delete(table, row) => self.change(area, table, row, None, true),
            Call::Begin => transaction::begin(rules, area),
            Call::Savepoint => transaction::savepoint(rules, area),
            Call::Release(level) => transaction::release(rules, area, level),
            Call::RollbackTo(level) => transaction::rollback_to(rules, area, level),
            Call::Rollback => transaction::rollback(rules, area),
            Call::Commit => transaction::commit(rules, area),
            Call::Search(search) => statement::run(rules, area, |area| {
                search::change_rows(rules, area, &search)
            }),
        }
    }

    /// Refusal 11, then the statement. An insert wants a vacant row, the others a live one.
    fn change(
        &self,
        area: &mut Area,
        table: usize,
        row: usize,
        new: Option<schema::Row>,
        live: bool,
    ) -> Outcome {
        if area.row(table, row).is_some() != live {
            return Err(11);
        }
        let own = Change::own(table, row, new);
        statement::run(&self.rules, area, |area| {
            change::make(&self.rules, area, &own)
        })
    }

    /// The orphans of an area in the sequence of the list, or refusal 1, 3 or 10.
    pub fn orphans(&self, schema: &[u8], area: &[i64]) -> Result<Vec<Orphan>, i64> {
        self.asked(schema, area, |book| list::orphans(&self.rules, book))
    }

    /// What is told of an area, or refusal 1, 3 or 10, in this order.
    fn asked<T>(
        &self,
        schema: &[u8],
        area: &[i64],
        told: impl FnOnce(&Area) -> T,
    ) -> Result<T, i64> {
        let schema = (self.rules.read)(schema)?;
        let book = of_length(&schema, area)?;
        self.judge_damage(&book)?;
        Ok(told(&book))
    }
}

/// The area taken with its schema, or refusal 3.
fn of_length<'a>(schema: &'a Schema, area: &[i64]) -> Result<Area<'a>, i64> {
    if area.len() != schema.area_words() {
        return Err(3);
    }
    Ok(Area {
        schema,
        words: area.to_vec(),
    })
}

impl Engine for Model {
    fn check_schema(&self, schema: &[u8]) -> i64 {
        (self.rules.read)(schema).err().unwrap_or(0)
    }

    fn area_words(&self, schema: &[u8]) -> i64 {
        (self.rules.read)(schema).map_or(0, |schema| schema.area_words() as i64)
    }

    fn make_fresh(&self, schema: &[u8], area: &mut [i64]) -> i64 {
        let schema = (self.rules.read)(schema);
        let checked = schema.and_then(|schema| of_length(&schema, area).map(drop));
        match checked {
            Ok(()) => {
                area.fill(0);
                0
            }
            Err(code) => code,
        }
    }

    fn call(&self, schema: &[u8], area: &mut [i64], call: &[i64]) -> Answer {
        match self.step(schema, area, call) {
            Ok((changed, net)) => Answer::done(changed, net),
            Err(code) => Answer::refused(code),
        }
    }

    fn list_orphans(&self, schema: &[u8], area: &[i64], list: &mut [Orphan]) -> Listed {
        let orphans = self.orphans(schema, area);
        match orphans.and_then(|orphans| list::write(&self.rules, &orphans, list)) {
            Ok(count) => Listed { code: 0, count },
            Err(code) => {
                (self.rules.list_refused)(list);
                Listed { code, count: 0 }
            }
        }
    }

    fn delete_bound(&self, schema: &[u8], area: &mut [i64]) -> Numbered {
        let sum = self.asked(schema, area, |book| bound::sum(self.rules.bound, book));
        sum.map_or_else(Numbered::refused, Numbered::told)
    }
}
