//! Changes of parent rows: an engine against the model, with what their actions do to child rows
//! counted.

use super::compared;
use super::origins::Origin;
use super::walks::Walks;
use crate::counts::Counts;
use crate::engine::Engine;
use crate::inputs::grounds::{self, Ground};
use crate::inputs::{areas, calls, damages, herds};
use crate::model::Model;
use crate::random::Random;

type Outcome = Result<(), String>;

/// How many calls are made on one schema, and as many on damaged copies.
const TURNS: usize = 4;

pub struct ChildRows {
    model: Model,
    /// How many calls had each code.
    pub calls: Counts<i64>,
    pub walks: Walks,
}

impl ChildRows {
    pub fn new() -> ChildRows {
        ChildRows {
            model: Model::of_the_paper(),
            calls: Counts::default(),
            walks: Walks::new(),
        }
    }

    /// A few calls on one schema, and before each the same on a damaged copy of the area.
    pub fn trial(&mut self, engine: &dyn Engine, r: &mut Random) -> Outcome {
        let (ground, mut area, origin) = start(r);
        for _ in 0..TURNS {
            let call = calls::leading_to_actions(r, &ground, &area);
            let damaged = damages::damaged_rows(r, &ground, &area);
            for (words, origin) in [(damaged, Origin::Damaged), (area.clone(), origin)] {
                let input = (&ground.bytes[..], &words[..], &call[..]);
                let (answer, after) = compared::call(engine, &self.model, input)?;
                self.calls.add(answer.code);
                self.walks.count(input, answer, origin);
                area = after;
            }
        }
        Ok(())
    }
}

/// A schema, an area of it, and where that comes from.
fn start(r: &mut Random) -> (Ground, Vec<i64>, Origin) {
    if r.once_in(8) {
        let ground = grounds::chain(r);
        let area = areas::chained(r, &ground);
        return (ground, area, Origin::Reached);
    }
    let ground = if r.once_in(5) {
        grounds::tangled(r).folded_once_in(r, 4)
    } else {
        herds::ground(r)
    };
    let (area, origin) = if r.between(0, 4) < 2 {
        (herds::filled(r, &ground), Origin::Filled)
    } else {
        (herds::reached(r, &ground), Origin::Reached)
    };
    (ground, area, origin)
}
