//! Calls and orphan lists on schemas with folded columns.

use super::folded_lists;
use super::folded_situations;
use super::seen::Seen;
use super::watched::{Sort, Start};
use crate::inputs::{damages, folded, folded_calls, populated, spellings};
use crate::random::Random;

pub const SORT: Sort = Sort {
    start,
    damaged: damages::mostly_rows,
    shown: |rules, made| folded_situations::shown(&Seen::new(rules, made)),
    of_lists: folded_lists::SITUATIONS,
};

fn start(r: &mut Random) -> Start {
    if r.once_in(8) {
        let (ground, area) = folded::chained(r);
        return Start::reached(ground, area, folded_calls::on_chain);
    }
    let ground = folded::ground(r, spellings::ANY);
    if r.between(0, 4) < 2 {
        let area = populated::filled(r, &ground, &folded::row);
        return Start::filled(ground, area, folded_calls::any);
    }
    let area = populated::reached_with_level(r, &ground, 3, &folded::row);
    Start::reached(ground, area, folded_calls::any)
}
