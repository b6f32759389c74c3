//! Calls that break one rule of the form of a call, most of them.

use super::grounds::Ground;
use crate::random::Random;

/// A well-formed call with a word or two changed, or of another number of words.
pub fn spoiled(r: &mut Random, ground: &Ground, mut call: Vec<i64>) -> Vec<i64> {
    if matches!(call[0], 10 | 11) && !r.once_in(4) {
        spoil_search(r, ground, &mut call);
        return call;
    }
    match r.between(0, 7) {
        0 => call.resize(r.other_than(12, 0, 24), 0),
        1 => call[0] = odd(r, 11),
        2 => call[1] = odd(r, ground.schema.tables.len() as i64 - 1),
        3 => call[2] = odd(r, 1023),
        4 => call[3] = odd(r, 255),
        5 => call[r.between(4, 11)] = odd(r, 1),
        6 => null_with_value(r, &mut call),
        _ => {
            call[r.between(0, 11)] = odd(r, 9);
            call[r.between(0, 11)] = odd(r, 9);
        }
    }
    call
}

/// A word of a search changed, or a value put beside a NULL that is sought or set.
fn spoil_search(r: &mut Random, ground: &Ground, call: &mut [i64]) {
    let tables = &ground.schema.tables;
    let last_column = tables[call[1] as usize].columns as i64 - 1;
    let (bits, unused) = if call[0] == 10 { (1, 5) } else { (3, 7) };
    match r.between(0, 6) {
        0 => call[1] = odd(r, tables.len() as i64 - 1),
        1 => call[2] = odd(r, last_column),
        2 => call[3] = odd(r, bits),
        3 => {
            call[3] |= 1;
            call[4] = odd(r, 1);
        }
        4 => call[5] = odd(r, last_column),
        5 => {
            call[3] |= bits & 2;
            call[6] = odd(r, 1);
        }
        _ => call[r.between(unused, 11)] = odd(r, 1),
    }
}

/// A number at or past the ends of 0 to `most`, at the ends of 64 bits, or any.
fn odd(r: &mut Random, most: i64) -> i64 {
    let any = r.word() as i64;
    let within = r.between(0, most as usize) as i64;
    r.pick(&[-1, 0, 1, most, most + 1, i64::MIN, i64::MAX, any, within])
}

/// A column marked NULL that has a value.
fn null_with_value(r: &mut Random, call: &mut [i64]) {
    let column = r.between(0, 7);
    call[3] |= 1 << column;
    call[4 + column] = odd(r, 1);
}
