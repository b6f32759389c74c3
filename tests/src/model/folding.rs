//! How values are compared: as they are typed, or in a folded column without regard to capitals.

use super::schema::{Row, Value};

/// The mark of a column: what is done to its words before they are compared. None where the column
/// is not folded.
pub type Mark = Option<fn(i64) -> i64>;

/// The word with its bytes from 41 to 5A (hexadecimal) raised by 20 (hexadecimal).
pub fn folded(word: i64) -> i64 {
    by_bytes(word, |byte| match byte {
        0x41..=0x5A => byte + 0x20,
        _ => byte,
    })
}

/// The word with each of its eight bytes replaced.
pub fn by_bytes(word: i64, other: impl Fn(u8) -> u8) -> i64 {
    i64::from_le_bytes(word.to_le_bytes().map(other))
}

/// A value as it is compared in a column of this mark. Two values are equal there if these are.
pub fn compared(mark: Mark, value: Value) -> Value {
    match mark {
        Some(fold) => value.map(fold),
        None => value,
    }
}

/// The values of a key as they are compared, given the marks of its columns.
pub fn compared_key(marks: &[Mark], key: &Row) -> Row {
    let pairs = marks.iter().zip(key);
    pairs.map(|(&mark, &value)| compared(mark, value)).collect()
}
