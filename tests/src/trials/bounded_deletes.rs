//! Deletes on schemas whose deletes are bounded: the paper's claim about the number that an engine
//! tells before, with the calls compared with the model. On other schemas deletes that change more are
//! counted.

use super::compared;
use super::delete_situations as situations;
use super::origins::Origin;
use super::seen::Seen;
use super::watched::{Made, Start};
use crate::counts::Counts;
use crate::differences::of_delete;
use crate::engine::{Answer, Engine};
use crate::inputs::grounds::{self, Ground};
use crate::inputs::{
    areas, bounded, damages, delete_calls, far_deletes, mixed_calls, populated, windows,
};
use crate::model::bound::{self, is_bounded};
use crate::model::Model;
use crate::random::Random;

type Outcome = Result<(), String>;

/// How many deletes are made on one schema.
const TURNS: usize = 4;

pub struct BoundedDeletes {
    model: Model,
    /// How many deletes had each code where as many records were free as the bound says, and where
    /// fewer were.
    pub with_room: Counts<i64>,
    pub with_less: Counts<i64>,
    /// The rows changed by a delete and its bound: the largest share of it.
    pub largest: (i64, i64),
    /// How many deletes changed as many rows as the bound allows.
    pub whole: usize,
    /// How often each situation was met on the areas of each origin.
    pub met: [Counts<&'static str>; 3],
    /// How many deletes on other schemas were accepted, and how many of them changed more rows than
    /// the bound tells, by what those schemas have.
    pub others: usize,
    pub exceeding: Counts<&'static str>,
}

/// An area, a delete on it, and where the area comes from.
type Delete<'a> = (&'a [i64], &'a [i64], Origin);

impl BoundedDeletes {
    pub fn new() -> BoundedDeletes {
        BoundedDeletes {
            model: Model::of_the_paper(),
            with_room: Counts::default(),
            with_less: Counts::default(),
            largest: (0, 1),
            whole: 0,
            met: Default::default(),
            others: 0,
            exceeding: Counts::default(),
        }
    }

    /// How many deletes were compared.
    pub fn deletes(&self) -> usize {
        self.with_room.sum() + self.with_less.sum()
    }

    /// A few deletes on one schema, and before each the same on a damaged copy of the area. Before some
    /// of them another call is made.
    pub fn trial(&mut self, engine: &dyn Engine, r: &mut Random) -> Outcome {
        let start = start(r);
        let (ground, mut area) = (&start.ground, start.area);
        assert!(
            is_bounded(&ground.schema),
            "the claim is about such schemas"
        );
        for _ in 0..TURNS {
            if r.once_in(3) {
                let call = mixed_calls::any(r, ground, &area);
                area = compared::call(engine, &self.model, (&ground.bytes, &area, &call))?.1;
            }
            let call = (start.call)(r, ground, &area);
            let damaged = damages::damaged_rows(r, ground, &area);
            self.in_journals(engine, r, ground, (&damaged, &call, Origin::Damaged))?;
            area = self.in_journals(engine, r, ground, (&area, &call, start.origin))?;
        }
        Ok(())
    }

    /// A delete, and the same where about as many journal records are free as it changes rows, or as
    /// the bound says. Gives the area after the first.
    fn in_journals(
        &mut self,
        engine: &dyn Engine,
        r: &mut Random,
        ground: &Ground,
        (area, call, origin): Delete,
    ) -> Result<Vec<i64>, String> {
        let (answer, after) = self.delete(engine, ground, (area, call, origin))?;
        let bound = bound::sum(bound::PAPER, &ground.area(area));
        let free = r.pick(&[bound, answer.changed]) + r.pick(&[-1, -1, 0, 0, 1]);
        let free = usize::try_from(free).unwrap_or(0);
        let (fitted, area) = bounded::with_free_records(ground, area, free);
        self.delete(engine, &fitted, (&area, call, origin))?;
        Ok(after)
    }

    /// Compares a delete and holds it to the claim. Gives the answer and the area after it.
    fn delete(
        &mut self,
        engine: &dyn Engine,
        ground: &Ground,
        (area, call, origin): Delete,
    ) -> Result<(Answer, Vec<i64>), String> {
        let bound = engine.delete_bound(&ground.bytes, &mut area.to_vec());
        let (answer, after) = compared::call(engine, &self.model, (&ground.bytes, area, call))?;
        let free = (ground.schema.room - ground.area(area).used()) as i64;
        if bound.code != 0 || !claim_holds(answer, bound.number, free) {
            let input = (&ground.bytes[..], area, call);
            return Err(of_delete(input, (bound, free), answer));
        }
        self.count(answer, bound.number, free);
        self.look(ground, (area, call, origin), (answer, &after));
        Ok((answer, after))
    }

    fn count(&mut self, answer: Answer, bound: i64, free: i64) {
        let codes = if free >= bound {
            &mut self.with_room
        } else {
            &mut self.with_less
        };
        codes.add(answer.code);
        if answer.code == 0 && bound > 0 {
            let (changed, of) = self.largest;
            if (answer.changed * of, bound) > (changed * bound, of) {
                self.largest = (answer.changed, bound);
            }
            self.whole += usize::from(answer.changed == bound);
        }
    }

    /// Counts what a delete shows.
    fn look(
        &mut self,
        ground: &Ground,
        (area, call, origin): Delete,
        (answer, after): (Answer, &[i64]),
    ) {
        let rules = &self.model.rules;
        let made = Made::new(rules, ground, (area, call), (answer.code, after));
        let shown = situations::shown(&Seen::new(rules, &made));
        let met = &mut self.met[origin as usize];
        shown.into_iter().for_each(|situation| met.add(situation));
    }

    /// A few deletes on one area of a schema whose deletes are not bounded, by what it has.
    pub fn other_trial(&mut self, engine: &dyn Engine, r: &mut Random) -> Outcome {
        let (name, make) = r.pick(OTHERS);
        let (ground, area) = make(r);
        if is_bounded(&ground.schema) {
            return Ok(());
        }
        let bound = bound::sum(bound::PAPER, &ground.area(&area));
        for _ in 0..TURNS {
            let call = delete_calls::any(r, &ground, &area);
            let input = (&ground.bytes[..], &area[..], &call[..]);
            let (answer, _) = compared::call(engine, &self.model, input)?;
            self.others += usize::from(answer.code == 0);
            if answer.changed > bound {
                self.exceeding.add(name);
            }
        }
        Ok(())
    }
}

/// Makes a schema and an area of it.
type Make = fn(&mut Random) -> (Ground, Vec<i64>);

/// Schemas whose deletes are not bounded, by what they have.
pub const OTHERS: &[(&str, Make)] = &[
    ("SET DEFAULT", far_deletes::by_default),
    ("a parent key cleared", far_deletes::by_parent_key),
];

/// An accepted delete changes at most so many rows; with so many records free none is refused by 15.
fn claim_holds(answer: Answer, bound: i64, free: i64) -> bool {
    answer.changed <= bound && (answer.code != 15 || free < bound)
}

fn start(r: &mut Random) -> Start {
    match r.between(0, 19) {
        0 => {
            let ground = grounds::chain(r);
            let ground = bounded::bounded(r, ground);
            let area = areas::chained(r, &ground);
            Start::reached(ground, area, delete_calls::on_chain)
        }
        1..=5 => {
            let (ground, area) = far_deletes::by_null(r);
            Start::reached(ground, area, delete_calls::any)
        }
        6..=10 => {
            let ground = bounded::ground(r);
            let area = populated::filled(r, &ground, &windows::row);
            Start::filled(ground, area, delete_calls::any)
        }
        _ => {
            let ground = bounded::ground(r);
            let area = populated::reached_with_level(r, &ground, 3, &windows::row);
            Start::reached(ground, area, delete_calls::any)
        }
    }
}
