//! Orphan lists on schemas of many foreign keys: on areas that calls lead to, on filled ones and on
//! damaged ones.

use super::lent_list::LentLists;
use super::origins::Origin;
use super::situations;
use crate::counts::Counts;
use crate::engine::Engine;
use crate::inputs::grounds::Ground;
use crate::inputs::{areas, calls, damages, orphan_grounds, other_schemas};
use crate::random::Random;

type Outcome = Result<(), String>;

pub struct OrphanLists {
    pub lists: LentLists,
    /// How many orphans the longest list had.
    pub longest: usize,
    /// How often each situation was met on the areas of each origin.
    pub met: [Counts<&'static str>; 3],
}

impl OrphanLists {
    pub fn new() -> OrphanLists {
        OrphanLists {
            lists: LentLists::new(),
            longest: 0,
            met: Default::default(),
        }
    }

    /// Lists on one schema.
    pub fn trial(&mut self, engine: &dyn Engine, r: &mut Random) -> Outcome {
        let ground = orphan_grounds::many_keys(r);
        let mut area = ground.fresh();
        for _ in 0..r.between(10, 50) {
            let call = calls::leading_to_orphans(r, &ground, &area);
            engine.call(&ground.bytes, &mut area, &call);
            if r.once_in(8) {
                self.list(engine, r, &ground, &area, Origin::Reached)?;
            }
        }
        let filled = areas::filled(r, &ground);
        self.list(engine, r, &ground, &filled, Origin::Filled)?;
        let either = if r.once_in(2) { area } else { filled };
        self.on_altered(engine, r, &ground, &either)
    }

    /// The largest list there can be, 32 keys of 1,024 orphans each, in about as many records.
    pub fn largest(&mut self, engine: &dyn Engine, r: &mut Random) -> Outcome {
        let ground = orphan_grounds::largest();
        let area = areas::all_orphans(&ground);
        for (room, code) in [(32_767, 22), (32_768, 0), (32_769, 0)] {
            let found = self
                .lists
                .compare_in(room, engine, r, &ground.bytes, &area)?;
            if found != code {
                return Err(format!("{} records are answered by {}", room, found));
            }
        }
        Ok(())
    }

    /// Lists on damaged copies of an area, on one of another length, and with other schema bytes.
    fn on_altered(
        &mut self,
        engine: &dyn Engine,
        r: &mut Random,
        ground: &Ground,
        area: &[i64],
    ) -> Outcome {
        for _ in 0..3 {
            let damaged = damages::damaged(r, ground, area);
            self.list(engine, r, ground, &damaged, Origin::Damaged)?;
        }
        let of_wrong_length = damages::of_wrong_length(r, area);
        self.lists
            .compare(engine, r, &ground.bytes, &of_wrong_length)?;
        let altered = other_schemas::altered(r, ground);
        self.lists.compare(engine, r, &altered, area)?;
        Ok(())
    }

    /// Compares a list and counts what it shows.
    fn list(
        &mut self,
        engine: &dyn Engine,
        r: &mut Random,
        ground: &Ground,
        area: &[i64],
        origin: Origin,
    ) -> Outcome {
        let compared = self.lists.compare(engine, r, &ground.bytes, area)?;
        if compared.code == 0 {
            self.longest = self.longest.max(compared.orphans.len());
        }
        if matches!(compared.code, 0 | 22) {
            let area = ground.area(area);
            let shown = situations::of(&area, &compared);
            let met = &mut self.met[origin as usize];
            shown.into_iter().for_each(|situation| met.add(situation));
        }
        Ok(())
    }
}
