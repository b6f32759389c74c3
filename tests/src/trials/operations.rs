//! Single operations: an engine against the model, answer, every word and every record.

use super::compared::{self, Input};
use super::lent_list::LentLists;
use super::origins::Origin;
use super::searches::Searches;
use super::told_bound::ToldBounds;
use crate::counts::Counts;
use crate::differences::{hex, words};
use crate::engine::Engine;
use crate::inputs::grounds::{self, Ground};
use crate::inputs::{areas, damages, malformed, other_schemas, window_calls};
use crate::model::Model;
use crate::random::Random;

type Outcome = Result<(), String>;

pub struct Operations {
    model: Model,
    /// How many calls had each code.
    pub calls: Counts<i64>,
    /// The calls of kinds 10 and 11 among them.
    pub searches: Searches,
    pub lists: LentLists,
    pub bounds: ToldBounds,
    pub others: usize,
}

impl Operations {
    pub fn new() -> Operations {
        Operations {
            model: Model::of_the_paper(),
            calls: Counts::default(),
            searches: Searches::new(),
            lists: LentLists::new(),
            bounds: ToldBounds::new(),
            others: 0,
        }
    }

    /// Operations on one schema: from an area to the next by calls, and beside them on damaged
    /// copies.
    pub fn trial(&mut self, engine: &dyn Engine, r: &mut Random) -> Outcome {
        let (ground, mut area, turns, origin) = start(r);
        for _ in 0..turns {
            let mut call = window_calls::now_and_then(r, &ground, &area);
            if r.once_in(8) {
                call = malformed::spoiled(r, &ground, call);
            }
            area = self.call(engine, (&ground.bytes, &area, &call), origin)?;
            self.beside(engine, r, &ground, &area)?;
        }
        Ok(())
    }

    /// Operations that leave the area of the trial as it is.
    fn beside(&mut self, engine: &dyn Engine, r: &mut Random, g: &Ground, area: &[i64]) -> Outcome {
        let damaged = damages::damaged(r, g, area);
        let call = window_calls::now_and_then(r, g, &damaged);
        self.call(engine, (&g.bytes, &damaged, &call), Origin::Damaged)?;
        if r.once_in(10) {
            let area = damages::of_wrong_length(r, area);
            self.call(engine, (&g.bytes, &area, &call), Origin::Damaged)?;
            self.fresh(engine, &g.bytes, &area)?;
            self.ask(engine, r, (&g.bytes, &area))?;
        }
        if r.once_in(10) {
            let schema = other_schemas::altered(r, g);
            self.call(engine, (&schema, area, &call), Origin::Damaged)?;
            self.fresh(engine, &schema, area)?;
            self.ask(engine, r, (&schema, area))?;
            for area in [&damaged[..], &[]] {
                self.bounds.compare(engine, &schema, area)?;
            }
        }
        if r.once_in(10) {
            self.fresh(engine, &g.bytes, &damaged)?;
            self.ask(engine, r, (&g.bytes, &damaged))?;
        }
        if r.once_in(4) {
            self.ask(engine, r, (&g.bytes, area))?;
        }
        Ok(())
    }

    /// Compares what is told of an area: its orphan list and its delete bound.
    fn ask(
        &mut self,
        engine: &dyn Engine,
        r: &mut Random,
        (schema, area): (&[u8], &[i64]),
    ) -> Outcome {
        self.lists.compare(engine, r, schema, area)?;
        self.bounds.compare(engine, schema, area)?;
        Ok(())
    }

    /// Compares a call. Gives the area after it.
    fn call(
        &mut self,
        engine: &dyn Engine,
        input: Input,
        origin: Origin,
    ) -> Result<Vec<i64>, String> {
        let (answer, after) = compared::call(engine, &self.model, input)?;
        self.calls.add(answer.code);
        self.searches.count(input, answer, origin);
        Ok(after)
    }

    /// Compares the making of a fresh area, and the number of words that one has.
    fn fresh(&mut self, engine: &dyn Engine, schema: &[u8], area: &[i64]) -> Outcome {
        let (mut found_words, mut expected_words) = (area.to_vec(), area.to_vec());
        let found = engine.make_fresh(schema, &mut found_words);
        let expected = self.model.make_fresh(schema, &mut expected_words);
        let sizes = (engine.area_words(schema), self.model.area_words(schema));
        self.others += 2;
        if found == expected && found_words == expected_words && sizes.0 == sizes.1 {
            return Ok(());
        }
        Err(format!(
            "made fresh: {}, model {}; area words {}, model {}; schema {}; area {}",
            found,
            expected,
            sizes.0,
            sizes.1,
            hex(schema),
            words(area)
        ))
    }
}

/// A schema, an area of it, how many calls are made from there on, and where the area comes from.
fn start(r: &mut Random) -> (Ground, Vec<i64>, usize, Origin) {
    match r.between(0, 39) {
        0 => {
            let ground = grounds::large(r);
            let area = areas::filled(r, &ground);
            (ground, area, 4, Origin::Filled)
        }
        1..=20 => {
            let ground = grounds::chain(r);
            let area = areas::chained(r, &ground);
            (ground, area, 4, Origin::Reached)
        }
        21..=31 => {
            let ground = grounds::collisions(r);
            let area = areas::filled(r, &ground);
            (ground, area, 20, Origin::Filled)
        }
        _ => {
            let ground = grounds::collisions(r);
            let area = ground.fresh();
            (ground, area, 60, Origin::Reached)
        }
    }
}
