//! One call by an engine and by the model: the same answer and every word alike.

use crate::differences::of_call;
use crate::engine::{Answer, Engine};
use crate::model::Model;

/// Schema, area and call.
pub type Input<'a> = (&'a [u8], &'a [i64], &'a [i64]);

/// The answer to the call and the area after it, or what is printed of a difference.
pub fn call(
    engine: &dyn Engine,
    model: &Model,
    (schema, area, call): Input,
) -> Result<(Answer, Vec<i64>), String> {
    let (mut found_words, mut expected_words) = (area.to_vec(), area.to_vec());
    let found = engine.call(schema, &mut found_words, call);
    let expected = model.call(schema, &mut expected_words, call);
    if found == expected && found_words == expected_words {
        return Ok((expected, expected_words));
    }
    Err(of_call(
        (schema, area, call),
        (found, &found_words),
        (expected, &expected_words),
    ))
}
