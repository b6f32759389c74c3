//! Every pair of bytes at every place of a word: whether an engine takes the words for equal in a
//! folded column, and in one that is not.

use crate::engine::Engine;
use crate::inputs::calls::row_call;
use crate::model::area::Area;
use crate::model::schema::{Schema, Value};
use crate::model::search::Search;
use crate::schema_bytes::build::{folded, key, table, NO_ACTION};
use crate::schema_bytes::records::Schema as Records;

type Outcome = Result<(), String>;

/// The other bytes of a word, and of an equal one in a folded column.
const OTHERS: [[u8; 8]; 2] = [*b"Lf2zA[Zm", *b"lF2Za[zM"];

pub struct EveryByte {
    bytes: Vec<u8>,
    schema: Schema,
    /// How many pairs of words were equal, and how many were not.
    pub equal: usize,
    pub unequal: usize,
}

impl EveryByte {
    /// Table 0 has a unique key in c0, which is folded, and a column c1, which is not. Table 1 refers
    /// to c0.
    pub fn new() -> EveryByte {
        let tables = vec![folded(table(2, 2, &[1]), 1), table(1, 1, &[])];
        let own = key((1, &[0]), (0, &[0]), NO_ACTION, NO_ACTION);
        let bytes = Records::new(2, tables, vec![own]).bytes();
        EveryByte {
            schema: Schema::read(&bytes).expect("the schema is valid"),
            bytes,
            equal: 0,
            unequal: 0,
        }
    }

    /// Kind 10 for every pair of bytes; unique keys and foreign keys for each byte and those that are
    /// nearest to it or to its other case.
    pub fn pairs(&mut self, engine: &dyn Engine) -> Outcome {
        for place in 0..8 {
            for held in 0..=255 {
                self.sought(engine, place, held)?;
                for nearest in [held ^ 0x20, held.wrapping_add(0x20), held ^ 1, held] {
                    self.entered(engine, place, [held, nearest])?;
                }
            }
        }
        Ok(())
    }

    /// An area with this word in both columns of row 0.
    fn area(&self, word: Value) -> Vec<i64> {
        let words = vec![0; self.schema.area_words()];
        let schema = &self.schema;
        let mut area = Area { schema, words };
        area.put_row(0, 0, Some(&vec![word, word]));
        area.words
    }

    /// Kind 10 seeks a word with each byte at this place, in the folded column and in the other.
    fn sought(&mut self, engine: &dyn Engine, place: usize, held: u8) -> Outcome {
        let area = self.area(word(0, place, held));
        for byte in 0..=255 {
            let in_folded = (0, word(1, place, byte), same_letter(held, byte));
            let as_typed = (1, word(0, place, byte), held == byte);
            for (column, sought, equal) in [in_folded, as_typed] {
                let call = Search {
                    table: 0,
                    column,
                    sought,
                    set: None,
                };
                let answer = engine.call(&self.bytes, &mut area.clone(), &call.words());
                let found = (answer.code, answer.changed) == (0, i64::from(equal));
                self.judged(found, equal, (place, [held, byte]))?;
            }
        }
        Ok(())
    }

    /// A row with the word of another byte is entered into table 0, and into table 1.
    fn entered(&mut self, engine: &dyn Engine, place: usize, [held, byte]: [u8; 2]) -> Outcome {
        let area = self.area(word(0, place, held));
        let new = word(1, place, byte);
        let equal = same_letter(held, byte);
        let parent = row_call(1, 0, 1, &[new, None]);
        let child = row_call(1, 1, 0, &[new]);
        for (call, code) in [(parent, [0, 17]), (child, [20, 0])] {
            let answer = engine.call(&self.bytes, &mut area.clone(), &call);
            let judged = answer.code == code[usize::from(equal)];
            self.judged(judged, equal, (place, [held, byte]))?;
        }
        Ok(())
    }

    fn judged(&mut self, right: bool, equal: bool, pair: (usize, [u8; 2])) -> Outcome {
        self.equal += usize::from(equal);
        self.unequal += usize::from(!equal);
        let (place, [held, byte]) = pair;
        right.then_some(()).ok_or(format!(
            "bytes {:02X} and {:02X} at place {}: equal expected {}",
            held, byte, place, equal
        ))
    }
}

/// A word with this byte at this place among others.
fn word(others: usize, place: usize, byte: u8) -> Value {
    let mut bytes = OTHERS[others];
    bytes[place] = byte;
    Some(i64::from_le_bytes(bytes))
}

/// Whether two bytes are the same, or one letter in both cases.
fn same_letter(one: u8, other: u8) -> bool {
    one == other || one.is_ascii_alphabetic() && one ^ other == 0x20
}
