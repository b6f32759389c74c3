//! Readings of the paper with one mistake each. The tests' inputs must tell each from the model.

use crate::model::schema::Schema;
use crate::schema_bytes::changed::{Changed, CHANGED};
use crate::schema_bytes::rules::{Rule, Rules};

type Reading = Box<dyn Fn(&[u8]) -> i64>;

pub struct Mistake {
    pub name: String,
    pub code: Reading,
    /// Whether a slice has told the reading from the model.
    pub caught: bool,
}

pub fn all() -> Vec<Mistake> {
    let refusing = [
        mistake("a broken key refused by 1".into(), refusing(1)),
        mistake("a broken key refused by 2".into(), refusing(2)),
        mistake("broken keys alone refused".into(), refusing_all_broken),
    ];
    let rules = left_out().into_iter().chain(changed());
    rules.chain(refusing).collect()
}

fn mistake(name: String, code: impl Fn(&[u8]) -> i64 + 'static) -> Mistake {
    Mistake {
        name,
        code: Box::new(code),
        caught: false,
    }
}

fn lists(rules: &mut Rules) -> [&mut Vec<Rule>; 3] {
    [&mut rules.header, &mut rules.tables, &mut rules.keys]
}

/// Each rule left out.
fn left_out() -> Vec<Mistake> {
    let mut out = Vec::new();
    for list in 0..3 {
        for i in 0..lists(&mut Rules::of_the_paper())[list].len() {
            let mut rules = Rules::of_the_paper();
            let (name, _) = lists(&mut rules)[list].remove(i);
            let name = format!("rule left out: {}", name);
            out.push(mistake(name, move |bytes| rules.code(bytes)));
        }
    }
    out
}

/// Each changed rule in place of the paper's.
fn changed() -> Vec<Mistake> {
    let change = |&(name, rule, holds): &Changed| {
        let mut rules = Rules::of_the_paper();
        let all = lists(&mut rules).into_iter().flatten();
        for slot in all.filter(|slot| slot.0 == rule) {
            slot.1 = holds;
        }
        mistake(name.into(), move |bytes| rules.code(bytes))
    };
    CHANGED.iter().map(change).collect()
}

/// Schemas with a broken key refused by this code.
fn refusing(code: i64) -> impl Fn(&[u8]) -> i64 {
    move |bytes| match Schema::read(bytes) {
        Ok(schema) if schema.any_broken() => code,
        Ok(_) => 0,
        Err(code) => code,
    }
}

/// Schemas refused in which every foreign key is broken.
fn refusing_all_broken(bytes: &[u8]) -> i64 {
    match Schema::read(bytes) {
        Ok(schema) => i64::from(schema.any_broken() && schema.keys.iter().all(|key| key.broken)),
        Err(code) => code,
    }
}
