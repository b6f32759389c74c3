//! Calls and orphan lists on schemas with broken foreign keys.

use super::broken_keys_situations::{self as situations, OF_LISTS};
use super::seen::Seen;
use super::watched::{Sort, Start};
use crate::inputs::broken_key_calls::{any, on_chain};
use crate::inputs::calls::new_row;
use crate::inputs::grounds::Ground;
use crate::inputs::{broken_keys, damages, populated};
use crate::random::Random;

pub const SORT: Sort = Sort {
    start,
    damaged,
    shown: |rules, made| situations::shown(&Seen::new(rules, made)),
    of_lists: OF_LISTS,
};

fn start(r: &mut Random) -> Start {
    if r.once_in(8) {
        let ground = broken_keys::deep(r);
        let area = broken_keys::chained(r, &ground);
        return Start::reached(ground, area, on_chain);
    }
    let ground = broken_keys::ground(r);
    if r.once_in(2) {
        let area = broken_keys::filled(r, &ground);
        return Start::filled(ground, area, any);
    }
    let area = populated::reached_with_level(r, &ground, 2, &new_row);
    Start::reached(ground, area, any)
}

/// A damaged copy: of single words, of the states of rows, or of kept numbers of broken keys.
fn damaged(r: &mut Random, ground: &Ground, area: &[i64]) -> Vec<i64> {
    match r.between(0, 4) {
        0 => damages::damaged(r, ground, area),
        1 => broken_keys::with_kept_numbers(r, ground, area),
        _ => damages::damaged_rows(r, ground, area),
    }
}
