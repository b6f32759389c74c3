//! The form of a call: refusal 4.

use super::rules::Rules;
use super::schema::{Row, Schema};
use super::search::Search;

pub enum Call {
    /// Insert, update or delete: table, row, and the new row where there is one.
    Insert(usize, usize, Row),
    Update(usize, usize, Row),
    Delete(usize, usize),
    Begin,
    Savepoint,
    Release(usize),
    RollbackTo(usize),
    Rollback,
    Commit,
    /// One statement for many rows.
    Search(Search),
}

/// A condition's name, the kinds that it is asked for, and what must hold of a call's words.
pub type Form = (&'static str, &'static [i64], fn(&Schema, &[i64]) -> bool);

/// Each is asked only if those before it hold; before all, the number of words and the kind.
pub const FORMS: &[Form] = &[
    ("table and row", &[1, 2, 3], place_exists),
    ("level", &[6, 7], |_, call| (1..=9).contains(&call[1])),
    ("unused words", &[3], |_, call| zero(&call[3..])),
    ("unused words", &[4, 5, 8, 9], |_, call| zero(&call[1..])),
    ("unused words", &[6, 7], |_, call| zero(&call[2..])),
    ("mask", &[1, 2], mask_within),
    ("values of NULL", &[1, 2], values_of_null),
    ("values of no column", &[1, 2], |schema, call| {
        zero(&call[4 + columns(schema, call)..])
    }),
];

pub fn zero(words: &[i64]) -> bool {
    words.iter().all(|&word| word == 0)
}

fn place_exists(schema: &Schema, call: &[i64]) -> bool {
    let table = usize::try_from(call[1]).ok();
    let rows = table.and_then(|t| schema.tables.get(t)).map(|t| t.rows);
    rows.map_or(false, |rows| (0..rows as i64).contains(&call[2]))
}

/// How many columns the table has that the call names.
fn columns(schema: &Schema, call: &[i64]) -> usize {
    schema.tables[call[1] as usize].columns
}

fn mask_within(schema: &Schema, call: &[i64]) -> bool {
    (0..1 << columns(schema, call)).contains(&call[3])
}

fn values_of_null(_: &Schema, call: &[i64]) -> bool {
    (0..8).all(|i| call[3] >> i & 1 == 0 || call[4 + i] == 0)
}

/// The name of the first condition that the words break.
pub fn broken(rules: &Rules, schema: &Schema, call: &[i64]) -> Option<&'static str> {
    if call.len() != 12 {
        return Some("twelve words");
    }
    if !(1..=11).contains(&call[0]) {
        return Some("kind");
    }
    let mut asked = rules
        .call_forms
        .iter()
        .filter(|(_, kinds, _)| kinds.contains(&call[0]));
    asked
        .find(|(_, _, holds)| !holds(schema, call))
        .map(|form| form.0)
}

/// The call, if its words have the form of one.
pub fn read(rules: &Rules, schema: &Schema, call: &[i64]) -> Option<Call> {
    if broken(rules, schema, call).is_some() {
        return None;
    }
    let (a, b) = (call[1] as usize, call[2] as usize);
    let value = |i: usize| (call[3] >> i & 1 == 0).then_some(call[4 + i]);
    let row = || (0..columns(schema, call)).map(value).collect();
    Some(match call[0] {
        1 => Call::Insert(a, b, row()),
        2 => Call::Update(a, b, row()),
        3 => Call::Delete(a, b),
        4 => Call::Begin,
        5 => Call::Savepoint,
        6 => Call::Release(a),
        7 => Call::RollbackTo(a),
        8 => Call::Rollback,
        9 => Call::Commit,
        _ => Call::Search(Search::read(call)),
    })
}
