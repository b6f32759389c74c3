//! Mistakes in the answer how much one delete can touch that no reading of the sum makes: what it is
//! refused by, what is told then, and what is left of the area.

use super::worthless::OtherBound;
use crate::engine::{Engine, Numbered};
use crate::model::area::Area;
use crate::model::bound::{self, is_bounded};
use crate::model::schema::Schema;
use crate::model::Model;

pub const ALL: &[OtherBound] = &[
    ("bound: 3 judged before 1", |model, schema, area| {
        if area.len() < 333 {
            return Numbered::refused(3);
        }
        model.delete_bound(schema, area)
    }),
    (
        "bound: 10 judged before 1",
        |model, schema, area| match area.get(..4) {
            Some(&[0..=9, 0..=2, _, 0]) | None => model.delete_bound(schema, area),
            Some(_) => Numbered::refused(10),
        },
    ),
    ("bound: 10 judged before 3", |model, schema, area| {
        let mut words = of_length(schema, area);
        match model.delete_bound(schema, &mut words).code {
            10 => Numbered::refused(10),
            _ => model.delete_bound(schema, area),
        }
    }),
    ("bound: told for a longer area", |model, schema, area| {
        let mut words = of_length(schema, area);
        words.truncate(area.len());
        model.delete_bound(schema, &mut words)
    }),
    ("bound: told for a shorter area", |model, schema, area| {
        let mut words = of_length(schema, area);
        let most = area.len().max(words.len());
        words.resize(most, 0);
        model.delete_bound(schema, &mut words)
    }),
    ("bound: told for a damaged area", |model, schema, area| {
        let answer = model.delete_bound(schema, area);
        match answer.code {
            10 => Numbered::told(sum(schema, area)),
            _ => answer,
        }
    }),
    ("bound: 10 with the number", |model, schema, area| {
        let answer = model.delete_bound(schema, area);
        match answer.code {
            10 => Numbered {
                number: sum(schema, area),
                ..answer
            },
            _ => answer,
        }
    }),
    (
        "bound: 3 with the number of words wanted",
        |model, schema, area| {
            let answer = model.delete_bound(schema, area);
            match answer.code {
                3 => Numbered {
                    number: model.area_words(schema),
                    ..answer
                },
                _ => answer,
            }
        },
    ),
    ("bound: 23 where a key is broken", |model, schema, area| {
        let answer = model.delete_bound(schema, area);
        let broken = Schema::read(schema).map_or(false, |schema| schema.any_broken());
        match answer.code {
            0 if broken => Numbered::refused(23),
            _ => answer,
        }
    }),
    (
        "bound: 0 told where deletes are not bounded",
        |model, schema, area| {
            let answer = model.delete_bound(schema, area);
            match Schema::read(schema) {
                Ok(schema) if !is_bounded(&schema) => Numbered {
                    number: 0,
                    ..answer
                },
                _ => answer,
            }
        },
    ),
    (
        "bound: no more told than journal records are free",
        |model, schema, area| {
            let answer = model.delete_bound(schema, area);
            match Schema::read(schema) {
                Ok(schema) if answer.code == 0 => {
                    let free = schema.room as i64 - area[2];
                    Numbered::told(answer.number.min(free))
                }
                _ => answer,
            }
        },
    ),
    (
        "bound: journal records in use counted too",
        |model, schema, area| {
            let answer = model.delete_bound(schema, area);
            match answer.code {
                0 => Numbered::told(answer.number + area[2]),
                _ => answer,
            }
        },
    ),
    ("bound: the number in 16 bits", |model, schema, area| {
        let answer = model.delete_bound(schema, area);
        Numbered {
            number: answer.number & 0xFFFF,
            ..answer
        }
    }),
    ("bound: a refused area cleared", |model, schema, area| {
        let answer = model.delete_bound(schema, area);
        if answer.code != 0 {
            area.fill(0);
        }
        answer
    }),
    (
        "bound: the journal's free records cleared",
        |model, schema, area| {
            let answer = model.delete_bound(schema, area);
            if let (0, Ok(schema)) = (answer.code, Schema::read(schema)) {
                let mut book = area_of(&schema, area);
                book.zero_journal_from(book.used());
                area.copy_from_slice(&book.words);
            }
            answer
        },
    ),
];

fn area_of<'a>(schema: &'a Schema, words: &[i64]) -> Area<'a> {
    Area {
        schema,
        words: words.to_vec(),
    }
}

/// The sum of an area of the right length, damaged or not.
fn sum(schema: &[u8], area: &[i64]) -> i64 {
    let schema = Schema::read(schema).expect("the area was judged");
    bound::sum(bound::PAPER, &area_of(&schema, area))
}

/// The words cut or filled up to the length that a valid schema needs.
fn of_length(schema: &[u8], area: &[i64]) -> Vec<i64> {
    let mut words = area.to_vec();
    let length = Model::of_the_paper().area_words(schema) as usize;
    words.resize(length, 0);
    words
}
