//! An engine against stock SQLite on lists of calls: accepted or refused, how many rows are changed,
//! the rows, and after some calls the orphan list.
//!
//! The rule by which calls are left out: a call is sent to neither where the model, in the paper's
//! order or in another order of foreign keys or of rows, refuses it by a limit (13, 14, 15), or
//! where another order gives another outcome. Among statements for many rows that leaves out those
//! in which the change of one row decides about another: SQLite lists the rows first, then changes
//! those that are still there, whatever they hold by then. Calls that SQLite judges otherwise
//! because of a broken foreign key, or because a row refers to itself in another spelling, are left
//! out too.
//! SQLite lists orphans in a sequence of its own: they are sorted, and the engine's are taken as
//! they come.

use super::folded_situations;
use super::origins::Origin;
use super::searches::{how_many, is_search};
use super::seen::Seen;
use super::walks::Walks;
use super::watched;
use super::{sqlite_names, sqlite_statements};
use crate::counts::Counts;
use crate::differences::hex;
use crate::engine::{Answer, Engine, Orphan};
use crate::inputs::grounds::{self, Ground};
use crate::inputs::{broken_key_calls, broken_keys, calls, herds};
use crate::inputs::{folded, folded_calls, spellings};
use crate::model::area::Area;
use crate::model::form::{self, Call};
use crate::model::keys::having;
use crate::model::rules::Rules;
use crate::model::schema::{Key, Row};
use crate::model::search;
use crate::model::Model;
use crate::random::Random;
use crate::sqlite::database::Database;
use std::cmp::Reverse;

type Outcome = Result<(), String>;

/// The answer to a call, and the area after it.
type Made = (Answer, Vec<i64>);

pub struct Alike {
    /// The model, then the model with other orders of foreign keys and of rows.
    orders: Vec<Model>,
    pub calls: usize,
    pub accepted: usize,
    /// How many rows the accepted calls of kinds 10 and 11 changed, and how many were refused.
    pub searches: Counts<&'static str>,
    pub searches_refused: usize,
    /// How many rows were changed by the actions of accepted updates and deletions of one row, and
    /// what there was to see in actions.
    pub by_actions: i64,
    pub walks: Walks,
    pub by_order: usize,
    pub by_limit: usize,
    /// How many calls were left out because of a broken key.
    pub by_statement: usize,
    /// How many calls were left out because a row comes to refer to itself in another spelling.
    pub by_spelling: usize,
    /// How many calls on schemas with broken keys were compared: refused by 23, accepted, and among
    /// these inserts into the parent table of a broken key.
    pub refused_by_23: usize,
    pub beside_broken: usize,
    pub parents_entered: usize,
    /// How many calls on schemas with folded columns were compared, and what they showed.
    pub of_names: usize,
    pub spellings: Counts<&'static str>,
    /// How many calls SQLite accepted by a miscount of its own.
    pub miscounted: usize,
    /// How many orphan lists were compared, and how many of them had orphans.
    pub lists: usize,
    pub with_orphans: usize,
}

impl Alike {
    pub fn new() -> Alike {
        Alike {
            orders: orders(),
            calls: 0,
            accepted: 0,
            searches: Counts::default(),
            searches_refused: 0,
            by_actions: 0,
            walks: Walks::new(),
            by_order: 0,
            by_limit: 0,
            by_statement: 0,
            by_spelling: 0,
            refused_by_23: 0,
            beside_broken: 0,
            parents_entered: 0,
            of_names: 0,
            spellings: Counts::default(),
            miscounted: 0,
            lists: 0,
            with_orphans: 0,
        }
    }

    /// One list of calls on a new database and a fresh area. Some databases are of names, some of
    /// whose columns are folded, the others of numbers. SQLite has no other match than SIMPLE.
    pub fn trial(&mut self, engine: &dyn Engine, r: &mut Random) -> Outcome {
        let ground = match r.between(0, 10) {
            0 => broken_keys::ground(r),
            1 | 2 => herds::ground(r),
            3..=6 => grounds::collisions(r),
            _ => {
                let ground = folded::ground(r, spellings::PRINTABLE);
                let ground = ground.of_match_simple().unwindowed();
                let database = Database::of_names(&ground.schema);
                return self.calls(engine, r, (&ground, database), folded_calls::any);
            }
        };
        let ground = ground.of_match_simple().unfolded().unwindowed();
        let database = Database::new(&ground.schema);
        self.calls(engine, r, (&ground, database), |r, ground, words| {
            if r.once_in(3) {
                calls::leading_to_actions(r, ground, words)
            } else {
                broken_key_calls::now_and_then(r, ground, words)
            }
        })
    }

    /// A list of calls, each made as it suits the area.
    fn calls(
        &mut self,
        engine: &dyn Engine,
        r: &mut Random,
        (ground, mut database): (&Ground, Database),
        make: fn(&mut Random, &Ground, &[i64]) -> Vec<i64>,
    ) -> Outcome {
        let (mut area, mut beside) = (ground.fresh(), ground.fresh());
        let mut sent = Vec::new();
        for _ in 0..r.between(20, 120) {
            let call = make(r, ground, &beside);
            if self.left_out(ground, &mut beside, &call) {
                continue;
            }
            sent.push(call);
            let goes_on = self
                .compare(engine, ground, &mut area, &mut database, &sent)
                .map_err(|why| told(ground, &sent, &why))?;
            if !goes_on {
                return Ok(());
            }
            if r.once_in(4) {
                self.compare_list(engine, ground, &area, &database)
                    .map_err(|why| told(ground, &sent, &why))?;
            }
        }
        Ok(())
    }

    /// Whether the call is left out. If not, the model has made it.
    fn left_out(&mut self, ground: &Ground, beside: &mut Vec<i64>, call: &[i64]) -> bool {
        let mut outcomes: Vec<Made> = Vec::new();
        for model in &self.orders {
            let mut after = beside.clone();
            let answer = model.call(&ground.bytes, &mut after, call);
            if matches!(answer.code, 13..=15) {
                self.by_limit += 1;
                return true;
            }
            outcomes.push((answer, after));
        }
        let own = outcomes.remove(0);
        if outcomes
            .iter()
            .any(|other| !same_outcome(ground, &own, other))
        {
            self.by_order += 1;
            return true;
        }
        if self.differs_by_broken(ground, beside, call, own.0) {
            self.by_statement += 1;
            return true;
        }
        if self.differs_by_names(ground, beside, call, &own) {
            self.by_spelling += 1;
            return true;
        }
        self.walks
            .count((&ground.bytes, beside, call), own.0, Origin::Reached);
        *beside = own.1;
        false
    }

    /// Whether SQLite compares names otherwise. If not, and columns are folded, what the call shows is
    /// counted.
    fn differs_by_names(
        &mut self,
        ground: &Ground,
        before: &[i64],
        call: &[i64],
        own: &Made,
    ) -> bool {
        if !ground.schema.any_folded() {
            return false;
        }
        let rules = &self.orders[0].rules;
        let made = watched::Made {
            call: form::read(rules, &ground.schema, call).expect("the call is well-formed"),
            code: own.0.code,
            before: ground.area(before),
            after: ground.area(&own.1),
        };
        if sqlite_names::differs(rules, &made.before, &made.call) {
            return true;
        }
        self.of_names += 1;
        let shown = folded_situations::shown(&Seen::new(rules, &made));
        shown.into_iter().for_each(|name| self.spellings.add(name));
        false
    }

    /// Whether SQLite judges the call otherwise because of a broken key. If not, and there is one, it
    /// is counted.
    fn differs_by_broken(
        &mut self,
        ground: &Ground,
        words: &[i64],
        call: &[i64],
        answer: Answer,
    ) -> bool {
        let schema = &ground.schema;
        if !schema.any_broken() {
            return false;
        }
        let before = Area {
            schema,
            words: words.to_vec(),
        };
        let rules = &self.orders[0].rules;
        let form = form::read(rules, schema, call).expect("the call is well-formed");
        if sqlite_statements::differs(rules, &before, &form, answer) {
            return true;
        }
        self.refused_by_23 += usize::from(answer.code == 23);
        self.beside_broken += usize::from(answer.code == 0 && answer.changed > 0);
        let is_parent = |table| schema.keys.iter().any(|k| k.broken && k.parent == table);
        let entered = matches!(form, Call::Insert(table, ..) if is_parent(table));
        self.parents_entered += usize::from(answer.code == 0 && entered);
        false
    }

    /// Sends the last call to both. Tells whether the list goes on: it ends with a call by which
    /// SQLite has miscounted.
    fn compare(
        &mut self,
        engine: &dyn Engine,
        ground: &Ground,
        area: &mut [i64],
        database: &mut Database,
        sent: &[Vec<i64>],
    ) -> Result<bool, String> {
        let call = sent.last().expect("a call was sent");
        let answer = engine.call(&ground.bytes, area, call);
        let form = form::read(&self.orders[0].rules, &ground.schema, call);
        let form = form.expect("the call is well-formed");
        if answer.code == 23 && !database.prevents(&form) {
            return Err("23, and SQLite prepares the statement".into());
        }
        let changed = database.call(&form);
        self.count(call, changed);
        if matches!(answer.code, 20 | 21) && changed.is_some() && miscounted(ground, database) {
            self.miscounted += 1;
            return Ok(false);
        }
        let answered = (answer.code == 0).then_some(answer.changed);
        let undone = matches!(call[0], 7 | 8);
        if answered.is_some() != changed.is_some() || answered != changed && !undone {
            return Err(format!(
                "answer {}, rows changed by SQLite: {:?}",
                answer, changed
            ));
        }
        for (table, found) in rows(ground, area).into_iter().enumerate() {
            let kept = database.rows(table);
            if found != kept {
                return Err(format!("table {}: {:?}, SQLite {:?}", table, found, kept));
            }
        }
        Ok(true)
    }

    /// Counts a call, given how many rows SQLite changed if it accepted it.
    fn count(&mut self, call: &[i64], changed: Option<i64>) {
        self.calls += 1;
        self.accepted += usize::from(changed.is_some());
        match changed {
            Some(changed) if matches!(call[0], 2 | 3) => self.by_actions += changed - 1,
            _ if !is_search(call) => {}
            Some(changed) => self.searches.add(how_many(changed)),
            None => self.searches_refused += 1,
        }
    }

    /// Compares the orphan list.
    fn compare_list(
        &mut self,
        engine: &dyn Engine,
        ground: &Ground,
        area: &[i64],
        database: &Database,
    ) -> Outcome {
        let rows = |key: &Key| ground.schema.tables[key.child].rows;
        let most = ground.schema.keys.iter().map(rows).sum();
        let mut list = vec![Orphan::new(0, 0); most];
        let listed = engine.list_orphans(&ground.bytes, area, &mut list);
        list.truncate(listed.count as usize);
        let kept = database.orphans();
        self.lists += 1;
        self.with_orphans += usize::from(!kept.is_empty());
        if listed.code == 0 && list == kept {
            return Ok(());
        }
        Err(format!("orphans {} {:?}, SQLite {:?}", listed, list, kept))
    }
}

/// Whether SQLite accepted a call after which, by its own list, there are orphans of a key that must
/// have none. An action that updates the parent column of a row which refers to itself can lower its
/// count of violations by too much.
fn miscounted(ground: &Ground, database: &Database) -> bool {
    let waits = |key: u64| database.in_transaction() && ground.schema.keys[key as usize].deferred;
    let orphans = database.orphans();
    orphans.iter().any(|orphan| !waits(orphan.foreign_key))
}

/// Every order of foreign keys below with every order of rows below: first the paper's own.
fn orders() -> Vec<Model> {
    let mut models = Vec::new();
    for key_order in KEY_ORDERS {
        for row_order in ROW_ORDERS {
            let mut model = Model::of_the_paper();
            key_order(&mut model.rules);
            row_order(&mut model.rules);
            models.push(model);
        }
    }
    models
}

type Order = fn(&mut Rules);

/// By number; from the last to the first; as SQLite does, child tables from the last to the first.
const KEY_ORDERS: [Order; 3] = [
    |_| {},
    |rules| rules.key_sequence = |_, keys| keys.into_iter().rev().collect(),
    |rules| {
        rules.key_sequence = |schema, mut keys| {
            keys.sort_by_key(|&key| Reverse(schema.keys[key].child));
            keys
        }
    },
];

/// The child rows of an action and the rows of a search. By number; from the last to the first; as
/// SQLite does, listed before the first is changed: those listed that are still live are changed,
/// whatever they hold by then, and no others.
const ROW_ORDERS: [Order; 3] = [
    |_| {},
    |rules| {
        rules.turns = |area, key, _| (0..area.schema.tables[key.child].rows).rev().collect();
        rules.rows_sought = |area, search| search::rows(area, search).into_iter().rev().collect();
    },
    |rules| {
        rules.turns = having;
        rules.maps = |_, _, _| true;
        rules.met = search::listed;
    },
];

/// Whether both accept or both refuse, with as many rows changed, the same rows and kept numbers.
fn same_outcome(ground: &Ground, one: &Made, other: &Made) -> bool {
    (one.0.code == 0, one.0.changed) == (other.0.code == 0, other.0.changed)
        && one.1[4..36] == other.1[4..36]
        && rows(ground, &one.1) == rows(ground, &other.1)
}

/// The live rows of each table.
fn rows(ground: &Ground, words: &[i64]) -> Vec<Vec<(usize, Row)>> {
    let area = ground.area(words);
    let tables = 0..ground.schema.tables.len();
    tables.map(|table| area.live_rows(table)).collect()
}

fn told(ground: &Ground, sent: &[Vec<i64>], why: &str) -> String {
    format!("{}; schema {}; calls {:?}", why, hex(&ground.bytes), sent)
}
