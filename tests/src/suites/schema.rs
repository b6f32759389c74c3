//! The check of schema bytes: the engine against the model, on damaged, valid and random slices.

use crate::counts::Counts;
use crate::differences::hex;
use crate::engine::{Built, Engine};
use crate::model::schema::{Match, Schema};
use crate::random::Random;
use crate::report::Report;
use crate::schema_bytes::breaks;
use crate::schema_bytes::half_drawn::{break_one, WAYS};
use crate::schema_bytes::mistakes::{self, Mistake};
use crate::schema_bytes::records;
use crate::schema_bytes::rules::Rules;
use crate::schema_bytes::slices::{Family, FAMILIES};
use crate::schema_bytes::valid::any_valid;
use crate::trials::broken_by;

/// How often each break is made.
const BREAK_TURNS: usize = 200;

/// How many slices there are to be, and how many of each code.
const LEAST_SLICES: usize = 200_000;
const LEAST_OF_A_CODE: usize = 1_000;

/// How many columns of a table are folded.
const FOLDED: &[&str] = &["none", "some", "all"];

/// The forms of a windowed key that is not broken: how many columns it has.
const WINDOWED: &[&str] = &["of 2", "of 3", "of 4"];

/// The forms of a foreign key: its match, and how many columns it has.
const FORMS: &[&str] = &[
    "SIMPLE of 1",
    "SIMPLE of 2",
    "SIMPLE of 3",
    "SIMPLE of 4",
    "FULL of 1",
    "FULL of 2",
    "FULL of 3",
    "FULL of 4",
];

pub fn run(r: &mut Random, report: &mut Report) {
    let mut judge = Judge {
        model: Rules::of_the_paper(),
        mistakes: mistakes::all(),
        codes: [0; 2],
        folded: Counts::default(),
        keys: Counts::default(),
        windowed: Counts::default(),
        broken: Counts::default(),
    };
    for (name, code, change) in breaks::all() {
        report.test(name, judge.run_break((code, false), change, r));
    }
    for way in WAYS {
        let outcome = judge.run_break((0, true), |s, r| break_one(s, way, r), r);
        report.test(&format!("half-drawn: {}", way.0), outcome);
    }
    for family in FAMILIES {
        report.test(family.name, judge.run_family(family, r));
    }
    judge.count_codes(report);
    report.counts(
        "accepted tables by folded columns",
        LEAST_OF_A_CODE,
        &judge.folded.of(FOLDED),
    );
    report.counts(
        "accepted foreign keys",
        LEAST_OF_A_CODE,
        &judge.keys.of(FORMS),
    );
    report.counts(
        "accepted windowed keys",
        LEAST_OF_A_CODE,
        &judge.windowed.of(WINDOWED),
    );
    report.counts(
        "accepted broken foreign keys",
        LEAST_OF_A_CODE,
        &judge.broken.of(broken_by::CAUSES),
    );
    judge.count_mistakes(report);
}

type Outcome = Result<(), String>;

struct Judge {
    model: Rules,
    mistakes: Vec<Mistake>,
    /// How many slices had the code 0 or 1.
    codes: [usize; 2],
    /// How many tables of accepted slices had no column folded, some, or all.
    folded: Counts<&'static str>,
    /// How many foreign keys of accepted slices had each form.
    keys: Counts<&'static str>,
    /// How many of them were windowed and not broken, by how many columns they had.
    windowed: Counts<&'static str>,
    /// How many of them were broken, by what breaks them.
    broken: Counts<&'static str>,
}

impl Judge {
    /// Makes a change of valid schemas after which they have this code and, accepted, a broken key or
    /// none.
    fn run_break(
        &mut self,
        (code, broken): (i64, bool),
        change: impl Fn(&mut records::Schema, &mut Random),
        r: &mut Random,
    ) -> Outcome {
        let mut outcome = Ok(());
        let mut turns = 0;
        for _ in 0..100 * BREAK_TURNS {
            let mut schema = any_valid(r);
            if schema.keys.is_empty() {
                continue;
            }
            let before = schema.bytes();
            change(&mut schema, r);
            let bytes = schema.bytes();
            if bytes != before {
                self.judge(&bytes, Some(code), &mut outcome);
                turns += 1;
                let read = Schema::read(&bytes);
                if read.map_or(false, |schema| schema.any_broken() != broken) {
                    return Err(format!(
                        "broken keys expected: {}; bytes {}",
                        broken,
                        hex(&bytes)
                    ));
                }
            }
            if turns == BREAK_TURNS {
                return outcome;
            }
        }
        Err(format!("made only {} times", turns))
    }

    fn run_family(&mut self, family: &Family, r: &mut Random) -> Outcome {
        let mut outcome = Ok(());
        for i in 0..family.count {
            self.judge(&(family.make)(r, i), family.code, &mut outcome);
        }
        outcome
    }

    /// Compares the engine with the model, and both with the code that is expected. The outcome
    /// keeps the first difference.
    fn judge(&mut self, bytes: &[u8], expected: Option<i64>, outcome: &mut Outcome) {
        let code = self.model.code(bytes);
        self.codes[code as usize] += 1;
        if let Ok(schema) = Schema::read(bytes) {
            self.count_folded(&schema);
            self.count_keys(&schema);
        }
        for mistake in self.mistakes.iter_mut().filter(|m| !m.caught) {
            mistake.caught = (mistake.code)(bytes) != code;
        }
        let found = Built.check_schema(bytes);
        let expected = expected.unwrap_or(code);
        if outcome.is_ok() && (found != code || expected != code) {
            *outcome = Err(format!(
                "engine {}, model {}, expected {}; bytes {}",
                found,
                code,
                expected,
                hex(bytes)
            ));
        }
    }

    /// Counts the tables of an accepted slice.
    fn count_folded(&mut self, schema: &Schema) {
        for table in &schema.tables {
            let folded = table.marks.iter().filter(|mark| mark.is_some()).count();
            self.folded.add(match folded {
                0 => FOLDED[0],
                all if all == table.columns => FOLDED[2],
                _ => FOLDED[1],
            });
        }
    }

    /// Counts the foreign keys of an accepted slice.
    fn count_keys(&mut self, schema: &Schema) {
        for key in &schema.keys {
            let of_match = 4 * usize::from(key.matching == Match::Full);
            self.keys.add(FORMS[of_match + key.child_columns.len() - 1]);
            if key.window.is_some() && !key.broken {
                self.windowed.add(WINDOWED[key.child_columns.len() - 2]);
            }
            if key.broken {
                let by = broken_by::of(schema, key).into_iter();
                by.for_each(|name| self.broken.add(name));
            }
        }
    }

    fn count_codes(&self, report: &mut Report) {
        let [accepted, refused] = self.codes;
        let all = accepted + refused;
        println!(
            "{} slices: {} accepted, {} refused by 1",
            all, accepted, refused
        );
        report.at_least("slices", LEAST_SLICES, all);
        report.at_least("accepted slices", LEAST_OF_A_CODE, accepted);
        report.at_least("slices refused by 1", LEAST_OF_A_CODE, refused);
    }

    fn count_mistakes(&self, report: &mut Report) {
        let caught = self.mistakes.iter().filter(|m| m.caught).count();
        println!("{} of {} mistakes caught", caught, self.mistakes.len());
        for mistake in &self.mistakes {
            let outcome = if mistake.caught {
                Ok(())
            } else {
                Err("no slice tells it from the model".into())
            };
            report.test(&format!("mistake: {}", mistake.name), outcome);
        }
    }
}
