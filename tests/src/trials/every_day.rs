//! Every day beside every window, and every window beside every other, of some days each.

use super::compared;
use crate::engine::Engine;
use crate::inputs::calls::row_call;
use crate::inputs::grounds::Ground;
use crate::model::keys::orphan_counts;
use crate::model::schema::Row;
use crate::model::Model;
use crate::schema_bytes::build::{key, table, windowed, NO_ACTION, RESTRICT};
use crate::schema_bytes::records::Schema as Records;

type Outcome = Result<(), String>;

/// The ends of the range of days, those about 0, and some between.
const DAYS: [i64; 11] = [
    i64::MIN,
    i64::MIN + 1,
    i64::MIN / 2,
    -2,
    -1,
    0,
    1,
    2,
    i64::MAX / 2,
    i64::MAX - 1,
    i64::MAX,
];

/// A few days in a row.
const FEW: [i64; 5] = [0, 1, 2, 3, 4];

/// A first day and the day after the last.
type Window = (i64, i64);

pub struct EveryDay {
    model: Model,
    /// How many calls were accepted, and how many were refused.
    pub accepted: usize,
    pub refused: usize,
}

impl EveryDay {
    pub fn new() -> EveryDay {
        EveryDay {
            model: Model::of_the_paper(),
            accepted: 0,
            refused: 0,
        }
    }

    /// A reading on every day is entered beside a calibration of every window.
    pub fn readings(&mut self, engine: &dyn Engine) -> Outcome {
        let ground = ground(NO_ACTION);
        for first in DAYS {
            for end in DAYS {
                for day in DAYS {
                    let insert = row_call(1, 1, 0, &[Some(1), Some(day)]);
                    let code = if first <= day && day < end { 0 } else { 20 };
                    let rows = [(0, 0, calibration(1, (first, end)))];
                    self.call(engine, (&ground, &rows), &insert, code)?;
                }
            }
        }
        Ok(())
    }

    /// A calibration of every window is entered, and made of another one, beside one of every window.
    pub fn windows(&mut self, engine: &dyn Engine) -> Outcome {
        let ground = ground(NO_ACTION);
        for beside in every_window() {
            for own in every_window() {
                let code = match (beside, own) {
                    _ if beside.0 == own.0 => 17,
                    _ if !FEW.iter().any(|&day| holds(own, day)) => 24,
                    _ if FEW.iter().any(|&day| holds(own, day) && holds(beside, day)) => 24,
                    _ => 0,
                };
                let new = calibration(1, own);
                let mut rows = vec![(0, 0, calibration(1, beside))];
                let insert = row_call(1, 0, 1, &new);
                self.call(engine, (&ground, &rows), &insert, code)?;
                rows.push((0, 1, calibration(2, (0, 1))));
                let update = row_call(2, 0, 1, &new);
                self.call(engine, (&ground, &rows), &update, code)?;
            }
        }
        Ok(())
    }

    /// A calibration with a reading on some day is moved from every window to every other.
    pub fn moves(&mut self, engine: &dyn Engine) -> Outcome {
        for (action, refusal) in [(RESTRICT, 18), (NO_ACTION, 20)] {
            let ground = ground(action);
            for old in every_window().filter(|&window| holds(window, 2)) {
                for new in every_window() {
                    let code = match new {
                        _ if new.1 <= new.0 => 24,
                        _ if !holds(new, 2) => refusal,
                        _ => 0,
                    };
                    let reading = vec![Some(1), Some(2)];
                    let rows = [(0, 0, calibration(1, old)), (1, 0, reading)];
                    let update = row_call(2, 0, 0, &calibration(1, new));
                    self.call(engine, (&ground, &rows), &update, code)?;
                }
            }
        }
        Ok(())
    }

    /// Compares a call on an area of these rows, each with its table and number, with the model, and
    /// its code.
    fn call(
        &mut self,
        engine: &dyn Engine,
        (ground, rows): (&Ground, &[(usize, usize, Row)]),
        call: &[i64],
        code: i64,
    ) -> Outcome {
        let mut area = ground.area(&ground.fresh());
        for (table, number, row) in rows {
            area.put_row(*table, *number, Some(row));
        }
        let counts = orphan_counts(&self.model.rules, &area);
        area.kept_mut()[..counts.len()].copy_from_slice(&counts);
        let input = (&ground.bytes[..], &area.words[..], call);
        let (answer, _) = compared::call(engine, &self.model, input)?;
        if answer.code != code {
            return Err(format!("{:?}: {}, and not {}", call, answer, code));
        }
        self.accepted += usize::from(code == 0);
        self.refused += usize::from(code != 0);
        Ok(())
    }
}

/// Calibrations in table 0: sensor, first day and end. Readings in table 1: sensor and day.
fn ground(action: u8) -> Ground {
    let tables = vec![table(2, 3, &[3]), table(1, 2, &[])];
    let own = windowed(key((1, &[0, 1]), (0, &[0, 1]), action, action));
    Ground::new(Records::new(2, tables, vec![own]), Vec::new())
}

fn calibration(sensor: i64, (first, end): Window) -> Row {
    vec![Some(sensor), Some(first), Some(end)]
}

fn every_window() -> impl Iterator<Item = Window> {
    FEW.into_iter()
        .flat_map(|first| FEW.map(move |end| (first, end)))
}

fn holds((first, end): Window, day: i64) -> bool {
    first <= day && day < end
}
