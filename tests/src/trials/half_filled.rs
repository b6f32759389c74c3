//! Calls and orphan lists on rows with half-filled child keys, under both matches.

use super::half_filled_seen::OfKey;
use super::half_filled_situations::Seen;
use super::trace::Trace;
use super::watched::{Made, Sort, Start};
use crate::inputs::{damages, half_filled, half_filled_calls, populated};
use crate::model::rules::Rules;
use crate::random::Random;

pub const SORT: Sort = Sort {
    start,
    damaged: damages::mostly_rows,
    shown,
    of_lists: &[],
};

fn start(r: &mut Random) -> Start {
    let ground = half_filled::ground(r);
    if r.once_in(3) {
        let area = populated::filled(r, &ground, &half_filled::row);
        return Start::filled(ground, area, half_filled_calls::any);
    }
    let area = populated::reached_with_level(r, &ground, 2, &half_filled::row);
    Start::reached(ground, area, half_filled_calls::any)
}

/// What a call shows that is accepted or refused by 19 to 21.
fn shown(rules: &Rules, made: &Made) -> Vec<&'static str> {
    if !matches!(made.code, 0 | 19..=21) {
        return Vec::new();
    }
    let before = &made.before;
    let mut after = made.after.clone();
    if matches!(made.code, 19 | 20) {
        after = before.clone();
        Trace::new(rules, &mut after, &made.call);
    }
    let keys = 0..before.schema.keys.len();
    let seen = Seen {
        call: &made.call,
        code: made.code,
        in_transaction: before.in_transaction(),
        keys: keys
            .map(|key| OfKey::new(key, before, &after, &made.call))
            .collect(),
    };
    seen.shown().collect()
}
