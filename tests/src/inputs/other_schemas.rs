//! Other schema bytes than those that an area was made for.

use super::grounds::Ground;
use crate::random::Random;
use crate::schema_bytes::{breaks, half_drawn};

/// The bytes of a schema whose foreign keys are whole, with a rule broken or some keys broken. Of a
/// schema without a foreign key, or with a broken one, the bytes with one of them changed.
pub fn altered(r: &mut Random, ground: &Ground) -> Vec<u8> {
    let mut records = ground.records.clone();
    if records.keys.is_empty() || ground.schema.any_broken() {
        let mut bytes = ground.bytes.clone();
        let at = r.between(0, bytes.len() - 1);
        bytes[at] ^= r.between(1, 255) as u8;
        return bytes;
    }
    if r.once_in(4) {
        half_drawn::break_some(&mut records, r);
    } else {
        let (_, _, change) = r.pick(&breaks::all());
        change(&mut records, r);
    }
    records.bytes()
}
