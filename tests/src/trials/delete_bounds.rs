//! Delete bounds on schemas of all sorts: on areas that calls lead to, on filled ones and on damaged
//! ones.

use super::bound_situations::SITUATIONS;
use super::origins::Origin;
use super::told_bound::ToldBounds;
use super::watched::MakeCall;
use crate::counts::Counts;
use crate::engine::Engine;
use crate::inputs::grounds::{self, Ground};
use crate::inputs::{areas, bounded, calls, damages, mixed_calls, orphan_grounds, other_schemas};
use crate::random::Random;

type Outcome = Result<(), String>;

pub struct DeleteBounds {
    pub bounds: ToldBounds,
    /// The largest number that was told.
    pub largest: i64,
    /// How often each situation was met on the areas of each origin.
    pub met: [Counts<&'static str>; 3],
}

impl DeleteBounds {
    pub fn new() -> DeleteBounds {
        DeleteBounds {
            bounds: ToldBounds::new(),
            largest: 0,
            met: Default::default(),
        }
    }

    /// Bounds on one schema.
    pub fn trial(&mut self, engine: &dyn Engine, r: &mut Random) -> Outcome {
        let (ground, turns, make_call) = start(r);
        let mut area = ground.fresh();
        for _ in 0..r.between(1, turns) {
            let call = make_call(r, &ground, &area);
            engine.call(&ground.bytes, &mut area, &call);
            if r.once_in(8) {
                self.ask(engine, &ground, &area, Origin::Reached)?;
            }
        }
        let filled = areas::filled(r, &ground);
        self.ask(engine, &ground, &filled, Origin::Filled)?;
        let either = if r.once_in(2) { area } else { filled };
        self.on_altered(engine, r, &ground, &either)
    }

    /// The largest sum there can be: 16 tables of 1,024 rows, and SET NULL in all of eight columns.
    pub fn largest(&mut self, engine: &dyn Engine) -> Outcome {
        let ground = bounded::largest();
        for (filled, number) in [(8, 147_456), (5, 98_304), (0, 16_384)] {
            let value = |column: usize| (column < filled).then_some(5);
            let area = areas::all_alike(&ground, &(0..8).map(value).collect());
            let told = self.bounds.compare(engine, &ground.bytes, &area)?;
            if told.number != number {
                return Err(format!("{} columns filled: told {}", filled, told));
            }
        }
        Ok(())
    }

    /// Bounds of damaged copies of an area, of copies of another length, and under other schema bytes.
    fn on_altered(
        &mut self,
        engine: &dyn Engine,
        r: &mut Random,
        ground: &Ground,
        area: &[i64],
    ) -> Outcome {
        for _ in 0..3 {
            let rows = damages::mostly_rows(r, ground, area);
            self.ask(engine, ground, &rows, Origin::Damaged)?;
        }
        let damaged = damages::damaged(r, ground, area);
        self.ask(engine, ground, &damaged, Origin::Damaged)?;
        let altered = other_schemas::altered(r, ground);
        for area in [area, &damaged] {
            let of_wrong_length = damages::of_wrong_length(r, area);
            self.bounds
                .compare(engine, &ground.bytes, &of_wrong_length)?;
            self.bounds.compare(engine, &altered, area)?;
            self.bounds.compare(engine, &altered, &of_wrong_length)?;
        }
        Ok(())
    }

    /// Compares the bounds of an area and counts what it shows.
    fn ask(
        &mut self,
        engine: &dyn Engine,
        ground: &Ground,
        area: &[i64],
        origin: Origin,
    ) -> Outcome {
        let told = self.bounds.compare(engine, &ground.bytes, area)?;
        if told.code == 0 {
            self.largest = self.largest.max(told.number);
            let area = ground.area(area);
            let shown = SITUATIONS.iter().filter(|situation| (situation.2)(&area));
            let met = &mut self.met[origin as usize];
            shown.for_each(|situation| met.add(situation.0));
        }
        Ok(())
    }
}

/// A schema, at most how many calls are made from a fresh area, and how a call is made.
fn start(r: &mut Random) -> (Ground, usize, MakeCall) {
    match r.between(0, 19) {
        0 => (grounds::large(r), 4, mixed_calls::any),
        1..=3 => (orphan_grounds::many_keys(r), 50, calls::leading_to_orphans),
        4..=11 => (bounded::ground(r), 50, mixed_calls::any),
        _ => (grounds::collisions(r), 50, mixed_calls::any),
    }
}
