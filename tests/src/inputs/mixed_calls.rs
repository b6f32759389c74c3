//! Calls of all sorts that suit an area.

use super::grounds::Ground;
use super::{broken_key_calls, folded_calls, half_filled_calls, window_calls};
use crate::random::Random;

/// Any call, now and then one on half-filled keys, and where there are such, one in which windows
/// matter, one on tables that broken keys touch, and one in which spellings of folded columns matter.
pub fn any(r: &mut Random, ground: &Ground, words: &[i64]) -> Vec<i64> {
    if ground.schema.any_windowed() && r.once_in(2) {
        window_calls::any(r, ground, words)
    } else if ground.schema.any_broken() && r.once_in(2) {
        broken_key_calls::any(r, ground, words)
    } else if ground.schema.any_folded() && r.once_in(2) {
        folded_calls::any(r, ground, words)
    } else {
        half_filled_calls::now_and_then(r, ground, words)
    }
}
