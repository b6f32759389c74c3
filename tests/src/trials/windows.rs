//! Calls and orphan lists on schemas with windowed keys.

use super::seen::Seen;
use super::watched::{Sort, Start};
use super::window_lists;
use super::window_situations::SITUATIONS;
use crate::inputs::grounds::Ground;
use crate::inputs::{damages, populated, window_calls, windows};
use crate::random::Random;

pub const SORT: Sort = Sort {
    start,
    damaged,
    shown: |rules, made| Seen::new(rules, made).shown(SITUATIONS.into_iter().flatten()),
    of_lists: window_lists::SITUATIONS,
};

fn start(r: &mut Random) -> Start {
    if r.once_in(12) {
        let (ground, area) = windows::chained(r);
        return Start::reached(ground, area, window_calls::on_chain);
    }
    let ground = windows::ground(r);
    if r.between(0, 4) < 2 {
        let area = populated::filled(r, &ground, &windows::row);
        return Start::filled(ground, area, window_calls::any);
    }
    let area = populated::reached_with_level(r, &ground, 3, &windows::row);
    Start::reached(ground, area, window_calls::any)
}

/// A copy with damaged windows, or with other damages.
fn damaged(r: &mut Random, ground: &Ground, area: &[i64]) -> Vec<i64> {
    if r.once_in(3) {
        damages::mostly_rows(r, ground, area)
    } else {
        windows::damaged(r, ground, area)
    }
}
