//! Calls, orphan lists and delete bounds of one sort: an engine against the model, with what is to be
//! seen in them counted.

use super::compared;
use super::lent_list::LentLists;
use super::origins::Origin;
use super::told_bound::ToldBounds;
use crate::counts::Counts;
use crate::engine::Engine;
use crate::inputs::grounds::Ground;
use crate::model::area::Area;
use crate::model::form::{self, Call};
use crate::model::rules::Rules;
use crate::model::Model;
use crate::random::Random;

type Outcome = Result<(), String>;

/// How many calls are made on one schema.
const TURNS: usize = 12;

/// What calls are of a sort: where they start, what damages an area, and what they show by name.
pub struct Sort {
    pub start: fn(&mut Random) -> Start,
    pub damaged: fn(&mut Random, &Ground, &[i64]) -> Vec<i64>,
    pub shown: fn(&Rules, &Made) -> Vec<&'static str>,
    /// What accepted orphan lists can show.
    pub of_lists: &'static [OfList],
}

/// A name, the areas on which it is to be seen, and whether an orphan list of an area shows it.
pub type OfList = (&'static str, &'static [Origin], fn(&Area) -> bool);

/// Makes a well-formed call that suits an area.
pub type MakeCall = fn(&mut Random, &Ground, &[i64]) -> Vec<i64>;

/// A schema, an area of it, where that comes from, and how a call is made.
pub struct Start {
    pub ground: Ground,
    pub area: Vec<i64>,
    pub origin: Origin,
    pub call: MakeCall,
}

impl Start {
    pub fn reached(ground: Ground, area: Vec<i64>, call: MakeCall) -> Start {
        Start {
            ground,
            area,
            origin: Origin::Reached,
            call,
        }
    }

    pub fn filled(ground: Ground, area: Vec<i64>, call: MakeCall) -> Start {
        Start {
            origin: Origin::Filled,
            ..Start::reached(ground, area, call)
        }
    }
}

/// A call that was compared, its code, and the area before it and after it.
pub struct Made<'a> {
    pub call: Call,
    pub code: i64,
    pub before: Area<'a>,
    pub after: Area<'a>,
}

impl<'a> Made<'a> {
    /// A well-formed call on an area, its code, and the words after it.
    pub fn new(
        rules: &Rules,
        ground: &'a Ground,
        (area, call): (&[i64], &[i64]),
        (code, after): (i64, &[i64]),
    ) -> Made<'a> {
        Made {
            call: form::read(rules, &ground.schema, call).expect("the call is well-formed"),
            code,
            before: ground.area(area),
            after: ground.area(after),
        }
    }
}

pub struct Watched {
    sort: &'static Sort,
    model: Model,
    /// How many calls had each code.
    pub codes: Counts<i64>,
    /// How many calls and lists showed each situation on the areas of each origin.
    pub met: [Counts<&'static str>; 3],
    pub lists: LentLists,
    pub bounds: ToldBounds,
}

impl Watched {
    pub fn new(sort: &'static Sort) -> Watched {
        Watched {
            sort,
            model: Model::of_the_paper(),
            codes: Counts::default(),
            met: Default::default(),
            lists: LentLists::new(),
            bounds: ToldBounds::new(),
        }
    }

    /// A few calls on one schema, and beside some of them the same on damaged copies of the area.
    pub fn trial(&mut self, engine: &dyn Engine, r: &mut Random) -> Outcome {
        let start = (self.sort.start)(r);
        let (ground, mut area) = (&start.ground, start.area);
        for _ in 0..TURNS {
            let call = (start.call)(r, ground, &area);
            if r.once_in(2) {
                let damaged = (self.sort.damaged)(r, ground, &area);
                self.call(engine, ground, (&damaged, &call), Origin::Damaged)?;
                self.ask(engine, r, (ground, &damaged), Origin::Damaged)?;
            }
            area = self.call(engine, ground, (&area, &call), start.origin)?;
            self.ask(engine, r, (ground, &area), start.origin)?;
        }
        Ok(())
    }

    /// Compares a call. Gives the area after it.
    fn call(
        &mut self,
        engine: &dyn Engine,
        ground: &Ground,
        (area, call): (&[i64], &[i64]),
        origin: Origin,
    ) -> Result<Vec<i64>, String> {
        let input = (&ground.bytes[..], area, call);
        let (answer, after) = compared::call(engine, &self.model, input)?;
        self.codes.add(answer.code);
        let rules = &self.model.rules;
        let made = Made::new(rules, ground, (area, call), (answer.code, &after));
        let shown = (self.sort.shown)(rules, &made);
        self.count(origin, shown);
        Ok(after)
    }

    /// Compares an orphan list and a delete bound once in four times.
    fn ask(
        &mut self,
        engine: &dyn Engine,
        r: &mut Random,
        (ground, area): (&Ground, &[i64]),
        origin: Origin,
    ) -> Outcome {
        if r.once_in(4) {
            self.bounds.compare(engine, &ground.bytes, area)?;
            let compared = self.lists.compare(engine, r, &ground.bytes, area)?;
            if compared.code == 0 {
                let area = ground.area(area);
                let shown = self.sort.of_lists.iter().filter(|list| (list.2)(&area));
                self.count(origin, shown.map(|list| list.0).collect());
            }
        }
        Ok(())
    }

    fn count(&mut self, origin: Origin, shown: Vec<&'static str>) {
        let met = &mut self.met[origin as usize];
        shown.into_iter().for_each(|situation| met.add(situation));
    }
}
