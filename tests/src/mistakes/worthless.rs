//! The paper's worthless engines that no single rule makes.

use super::Named;
use crate::engine::{Answer, Engine, Listed, Numbered, Orphan};
use crate::model::Model;

/// The answer to a call, given the model.
type AnswerCall = fn(&Model, &[u8], &mut [i64], &[i64]) -> Answer;

/// The answer to the question how much one delete can touch, given the model.
type TellBound = fn(&Model, &[u8], &mut [i64]) -> Numbered;

/// A name, and that answer.
pub type OtherBound = (&'static str, TellBound);

/// The model, but for its calls or its delete bounds.
struct Worthless {
    model: Model,
    call: AnswerCall,
    bound: TellBound,
}

pub fn all() -> Vec<Named> {
    vec![
        with_calls("turns away each call", |_, _, _, _| Answer::refused(10)),
        with_calls("says 0, 0, 0 to all", |_, _, _, _| Answer::done(0, 0)),
        with_calls("writes no row", |model, schema, area, call| {
            model.call(schema, &mut area.to_vec(), call)
        }),
        with_calls("net never told", |model, schema, area, call| Answer {
            net: 0,
            ..model.call(schema, area, call)
        }),
    ]
}

/// The model with other answers to calls.
pub fn with_calls(name: &'static str, call: AnswerCall) -> Named {
    with_answers(name, call, Model::delete_bound)
}

/// The model with other delete bounds.
pub fn with_bounds(&(name, bound): &OtherBound) -> Named {
    with_answers(name, Model::call, bound)
}

fn with_answers(name: &'static str, call: AnswerCall, bound: TellBound) -> Named {
    let engine = Worthless {
        model: Model::of_the_paper(),
        call,
        bound,
    };
    (name, Box::new(engine))
}

impl Engine for Worthless {
    fn check_schema(&self, schema: &[u8]) -> i64 {
        self.model.check_schema(schema)
    }

    fn area_words(&self, schema: &[u8]) -> i64 {
        self.model.area_words(schema)
    }

    fn make_fresh(&self, schema: &[u8], area: &mut [i64]) -> i64 {
        self.model.make_fresh(schema, area)
    }

    fn call(&self, schema: &[u8], area: &mut [i64], call: &[i64]) -> Answer {
        (self.call)(&self.model, schema, area, call)
    }

    fn list_orphans(&self, schema: &[u8], area: &[i64], list: &mut [Orphan]) -> Listed {
        self.model.list_orphans(schema, area, list)
    }

    fn delete_bound(&self, schema: &[u8], area: &mut [i64]) -> Numbered {
        (self.bound)(&self.model, schema, area)
    }
}
