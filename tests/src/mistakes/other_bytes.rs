//! Engines that take other schema bytes for those that they are handed.

use super::Named;
use crate::engine::{Answer, Engine, Listed, Numbered, Orphan};
use crate::model::Model;

/// A name, and what is done to the bytes.
pub type OtherBytes = (&'static str, fn(&mut [u8]));

struct Reading {
    model: Model,
    change: fn(&mut [u8]),
}

pub fn engine(&(name, change): &OtherBytes) -> Named {
    let reading = Reading {
        model: Model::of_the_paper(),
        change,
    };
    (name, Box::new(reading))
}

impl Reading {
    fn of(&self, schema: &[u8]) -> Vec<u8> {
        let mut bytes = schema.to_vec();
        (self.change)(&mut bytes);
        bytes
    }
}

impl Engine for Reading {
    fn check_schema(&self, schema: &[u8]) -> i64 {
        self.model.check_schema(&self.of(schema))
    }

    fn area_words(&self, schema: &[u8]) -> i64 {
        self.model.area_words(&self.of(schema))
    }

    fn make_fresh(&self, schema: &[u8], area: &mut [i64]) -> i64 {
        self.model.make_fresh(&self.of(schema), area)
    }

    fn call(&self, schema: &[u8], area: &mut [i64], call: &[i64]) -> Answer {
        self.model.call(&self.of(schema), area, call)
    }

    fn list_orphans(&self, schema: &[u8], area: &[i64], list: &mut [Orphan]) -> Listed {
        self.model.list_orphans(&self.of(schema), area, list)
    }

    fn delete_bound(&self, schema: &[u8], area: &mut [i64]) -> Numbered {
        self.model.delete_bound(&self.of(schema), area)
    }
}
