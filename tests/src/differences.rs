//! What is printed of an operation on which an engine and the model differ.

use crate::engine::{Answer, Listed, Numbered, Orphan};
use std::fmt::Display;

pub fn hex(bytes: &[u8]) -> String {
    bytes.iter().map(|byte| format!("{:02X}", byte)).collect()
}

/// The words that are not 0, as `place:word`.
pub fn words(area: &[i64]) -> String {
    let used = area.iter().enumerate().filter(|(_, &word)| word != 0);
    let shown: Vec<String> = used.map(|(at, word)| format!("{}:{}", at, word)).collect();
    format!("[{} words; {}]", area.len(), shown.join(" "))
}

/// The first words in which two areas differ.
pub fn first_words(found: &[i64], expected: &[i64]) -> String {
    first_unequal("word", found, expected)
}

/// The first words or records, as they are named, in which two slices differ.
fn first_unequal<T: Display + PartialEq>(name: &str, found: &[T], expected: &[T]) -> String {
    let pairs = found.iter().zip(expected).enumerate();
    let unequal = pairs.filter(|(_, (found, expected))| found != expected);
    let shown: Vec<String> = unequal
        .take(8)
        .map(|(at, (found, expected))| format!("{} {}: {}, model {}", name, at, found, expected))
        .collect();
    if shown.is_empty() {
        format!("every {} equal", name)
    } else {
        shown.join("; ")
    }
}

/// Both results of a call, and what it was made on.
pub fn of_call(
    (schema, area, call): (&[u8], &[i64], &[i64]),
    (found, found_words): (Answer, &[i64]),
    (expected, expected_words): (Answer, &[i64]),
) -> String {
    format!(
        "answer {}, model {}; {}; call {:?}; schema {}; area {}",
        found,
        expected,
        first_words(found_words, expected_words),
        call,
        hex(schema),
        words(area)
    )
}

/// Both results of an orphan list, and what it was made on. Record 0 stands before the lent ones.
pub fn of_list(
    (schema, area, room): (&[u8], &[i64], usize),
    (found, found_list): (Listed, &[Orphan]),
    (expected, expected_list): (Listed, &[Orphan]),
) -> String {
    format!(
        "orphans {}, model {}; {}; {} records lent; schema {}; area {}",
        found,
        expected,
        first_unequal("record", found_list, expected_list),
        room,
        hex(schema),
        words(area)
    )
}

/// Both delete bounds of an area, and the area after the engine's, which is to be as it was.
pub fn of_bound(
    (schema, area): (&[u8], &[i64]),
    (found, found_words): (Numbered, &[i64]),
    expected: Numbered,
) -> String {
    format!(
        "delete bound {}, model {}; {}; schema {}; area {}",
        found,
        expected,
        first_words(found_words, area),
        hex(schema),
        words(area)
    )
}

/// A delete that its bound does not hold for, given how many journal records were free.
pub fn of_delete(
    (schema, area, call): (&[u8], &[i64], &[i64]),
    (bound, free): (Numbered, i64),
    answer: Answer,
) -> String {
    format!(
        "answer {}, delete bound {}, {} records free; call {:?}; schema {}; area {}",
        answer,
        bound,
        free,
        call,
        hex(schema),
        words(area)
    )
}
