//! Single delete bounds: an engine against the model, the answer and the area, which is left as it was.

use crate::counts::Counts;
use crate::differences::of_bound;
use crate::engine::{Engine, Numbered};
use crate::model::Model;

/// The codes that the question can be answered by.
pub const CODES: &[i64] = &[0, 1, 3, 10];

/// A word before an area and one after it.
const GUARD: [i64; 1] = [7];

pub struct ToldBounds {
    model: Model,
    /// How many bounds had each code.
    pub codes: Counts<i64>,
}

impl ToldBounds {
    pub fn new() -> ToldBounds {
        ToldBounds {
            model: Model::of_the_paper(),
            codes: Counts::default(),
        }
    }

    /// Compares the bounds that are told of an area; a word before it and one after it are watched too.
    pub fn compare(
        &mut self,
        engine: &dyn Engine,
        schema: &[u8],
        area: &[i64],
    ) -> Result<Numbered, String> {
        let before = [&GUARD, area, &GUARD].concat();
        let mut after = before.clone();
        let found = engine.delete_bound(schema, &mut after[1..=area.len()]);
        let expected = self.model.delete_bound(schema, &mut area.to_vec());
        self.codes.add(expected.code);
        if found == expected && after == before {
            return Ok(expected);
        }
        Err(of_bound((schema, area), (found, &after[1..]), expected))
    }
}
