//! What the program prints, by the section "The program".

use super::schema::Schema;
use super::Model;
use crate::engine::{Answer, Engine};

/// The largest area of the program.
const MOST_WORDS: usize = 8_192;

/// What the program prints for an input: a schema, then calls of 96 bytes.
pub fn text(model: &Model, input: &[u8]) -> String {
    let (schema, rest) = input.split_at(schema_length(input));
    let answers = match area_words(schema) {
        Ok(words) => run(model, schema, vec![0; words], rest),
        Err(code) => vec![Answer::refused(code)],
    };
    let lines: String = answers
        .iter()
        .map(|answer| format!("{}\n", answer))
        .collect();
    format!("code,changed,net\n{}{}\n", lines, tally(&answers))
}

/// As many bytes as the length field says, or all there are.
pub fn schema_length(input: &[u8]) -> usize {
    match input.get(14..16) {
        Some(field) => input.len().min(field[0] as usize + 256 * field[1] as usize),
        None => input.len(),
    }
}

fn area_words(schema: &[u8]) -> Result<usize, i64> {
    let words = Schema::read(schema)?.area_words();
    if words <= MOST_WORDS {
        Ok(words)
    } else {
        Err(3)
    }
}

/// The answers to the calls. A short last call is refused by 4.
fn run(model: &Model, schema: &[u8], mut area: Vec<i64>, calls: &[u8]) -> Vec<Answer> {
    let word = |bytes: &[u8]| i64::from_le_bytes(bytes.try_into().expect("a word has eight bytes"));
    let answer = |bytes: &[u8]| {
        let call: Vec<i64> = bytes.chunks_exact(8).map(word).collect();
        match bytes.len() {
            96 => model.call(schema, &mut area, &call),
            _ => Answer::refused(4),
        }
    };
    calls.chunks(96).map(answer).collect()
}

fn tally(answers: &[Answer]) -> String {
    let accepted = answers.iter().filter(|answer| answer.code == 0).count();
    let refused = answers.len() - accepted;
    let rows: i64 = answers.iter().map(|answer| answer.changed).sum();
    format!("accepted,{},refused,{},rows,{}", accepted, refused, rows)
}
