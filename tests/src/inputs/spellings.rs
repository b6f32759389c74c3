//! Words of eight bytes in several spellings: letters in capitals or not, and bytes that are nearly
//! letters.

use crate::model::schema::Value;
use crate::random::Random;

/// By this bit a capital and its small letter differ, and so do bytes that are not letters.
const CAPITAL: u8 = 0x20;

/// The ends of the letters, the bytes just past them, the same from 80 (hexadecimal) on, and others.
pub const ANY: &[u8] = &[
    0x40, 0x41, 0x5A, 0x5B, 0x60, 0x61, 0x7A, 0x7B, 0x80, 0xC1, 0xDA, 0xE1, 0xFA, 0xFF, 0x4C, 0x66,
    0x32, 0x00,
];

/// Those that are printable ASCII.
pub const PRINTABLE: &[u8] = &[
    0x40, 0x41, 0x5A, 0x5B, 0x60, 0x61, 0x7A, 0x7B, 0x4C, 0x66, 0x32,
];

/// As many words, many of which differ in nothing but the spelling, or nearly.
pub fn domain(r: &mut Random, count: usize, bytes: &[u8]) -> Vec<i64> {
    let mut words: Vec<i64> = vec![word(r, bytes)];
    while words.len() < count {
        let before = r.pick(&words);
        words.push(match r.between(0, 4) {
            0 | 1 => word(r, bytes),
            2 | 3 => respelled(r, before),
            _ => nearly(r, before),
        });
    }
    words
}

/// A word of these bytes; of some, all but the first few are zero.
pub fn word(r: &mut Random, bytes: &[u8]) -> i64 {
    let mut all = [0; 8];
    let used = r.pick(&[1, 2, 3, 7, 8, 8]);
    all[..used].fill_with(|| r.pick(bytes));
    i64::from_le_bytes(all)
}

/// The word with some of its letters in the other case, if it has letters.
pub fn respelled(r: &mut Random, word: i64) -> i64 {
    flipped(r, word, |byte| byte.is_ascii_alphabetic())
}

/// The word with some bytes changed in the same bit, of which one at least is no letter, if there is
/// such a byte.
pub fn nearly(r: &mut Random, word: i64) -> i64 {
    let other = flipped(r, word, |byte| byte >= 0x40 && !byte.is_ascii_alphabetic());
    if r.once_in(2) {
        respelled(r, other)
    } else {
        other
    }
}

/// A value in another spelling, now and then in one that is nearly the same.
pub fn other(r: &mut Random, value: Value) -> Value {
    let word = value?;
    Some(if r.once_in(5) {
        nearly(r, word)
    } else {
        respelled(r, word)
    })
}

/// The word with the bit changed in some of such bytes: in one at least, if there is one.
fn flipped(r: &mut Random, word: i64, such: fn(u8) -> bool) -> i64 {
    let mut bytes = word.to_le_bytes();
    let places: Vec<usize> = (0..8).filter(|&place| such(bytes[place])).collect();
    if places.is_empty() {
        return word;
    }
    let always = r.pick(&places);
    for place in places {
        if place == always || r.once_in(3) {
            bytes[place] ^= CAPITAL;
        }
    }
    i64::from_le_bytes(bytes)
}
