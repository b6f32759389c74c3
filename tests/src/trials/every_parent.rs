//! Every parent table, every parent column, every choice of up to three columns beside every pair of
//! unique keys, and every choice of two columns of a windowed key. Whether the foreign key is broken is told by an insert of a child row with
//! NULL in its key.

use super::compared;
use crate::engine::Engine;
use crate::inputs::calls::row_call;
use crate::model::schema::Schema;
use crate::model::Model;
use crate::schema_bytes::build::{key, table, windowed, NO_ACTION};
use crate::schema_bytes::records::{Key, Schema as Records, Table};

type Outcome = Result<(), String>;

/// The columns of which choices are made: those of a table of three columns, and missing ones.
const COLUMNS: [u8; 6] = [0, 1, 2, 3, 8, 255];

pub struct EveryParent {
    model: Model,
    /// How many foreign keys were whole, and how many were broken.
    pub whole: usize,
    pub broken: usize,
}

impl EveryParent {
    pub fn new() -> EveryParent {
        EveryParent {
            model: Model::of_the_paper(),
            whole: 0,
            broken: 0,
        }
    }

    /// Every parent table beside every number of tables.
    pub fn tables(&mut self, engine: &dyn Engine) -> Outcome {
        for count in 1..=16 {
            for parent in 0..=255 {
                let tables = vec![table(1, 1, &[1]); count];
                self.key(engine, tables, (parent, &[0]), usize::from(parent) < count)?;
            }
        }
        Ok(())
    }

    /// Every parent column beside every number of columns. The first two and the last two columns
    /// are unique keys.
    pub fn columns(&mut self, engine: &dyn Engine) -> Outcome {
        for count in 1..=8u8 {
            let ends = [0, 1.min(count - 1), count.max(2) - 2, count - 1];
            let unique = ends.map(|column| 1 << column);
            for column in 0..=255 {
                let tables = vec![table(1, 1, &[]), table(1, count, &unique)];
                self.key(engine, tables, (1, &[column]), ends.contains(&column))?;
            }
        }
        Ok(())
    }

    /// Every sequence of up to three columns beside every pair of unique keys of three columns.
    pub fn choices(&mut self, engine: &dyn Engine) -> Outcome {
        for list in sequences() {
            for first in 0..8 {
                for second in 0..if first == 0 { 1 } else { 8 } {
                    let tables = vec![table(1, 3, &[]), table(1, 3, &[first, second])];
                    let there = list.iter().all(|&column| column < 3);
                    let mask = |list: &[u8]| list.iter().fold(0, |mask, column| mask | 1 << column);
                    let whole = there && [first, second].contains(&mask(&list));
                    self.key(engine, tables, (1, &list), whole)?;
                }
            }
        }
        Ok(())
    }

    /// Every choice of two columns of a windowed key beside every number of columns: it is whole if the
    /// column after the second is there and is not the first.
    pub fn windows(&mut self, engine: &dyn Engine) -> Outcome {
        for count in 2..=8 {
            for (other, first_day) in (0..64).map(|both| (both / 8, both % 8)) {
                if other == first_day || other.max(first_day) >= count {
                    continue;
                }
                let unique = 1 << other | 1 << first_day;
                let tables = vec![table(1, 2, &[]), table(1, count, &[unique])];
                let parent = (1, &[other, first_day][..]);
                let own = windowed(key((0, &[0, 1]), parent, NO_ACTION, NO_ACTION));
                let end = first_day + 1;
                self.enter(engine, tables, own, end < count && end != other)?;
            }
        }
        Ok(())
    }

    /// A key whose first columns of table 0 refer to the parent.
    fn key(
        &mut self,
        engine: &dyn Engine,
        tables: Vec<Table>,
        parent: (u8, &[u8]),
        whole: bool,
    ) -> Outcome {
        let child_columns: Vec<u8> = (0..parent.1.len() as u8).collect();
        let own = key((0, &child_columns), parent, NO_ACTION, NO_ACTION);
        self.enter(engine, tables, own, whole)
    }

    /// Enters a row of table 0 with NULL in every column, under a key of that table.
    fn enter(&mut self, engine: &dyn Engine, tables: Vec<Table>, own: Key, whole: bool) -> Outcome {
        let row = vec![None; tables[0].columns.into()];
        let bytes = Records::new(1, tables, vec![own.clone()]).bytes();
        let schema = Schema::read(&bytes).map_err(|code| format!("refused by {}", code))?;
        let area = vec![0; schema.area_words()];
        let insert = row_call(1, 0, 0, &row);
        let (answer, _) = compared::call(engine, &self.model, (&bytes, &area, &insert))?;
        let expected = if whole { 0 } else { 23 };
        if answer.code != expected {
            let columns = own.parent_columns;
            return Err(format!("{:?}: {}, and not {}", columns, answer, expected));
        }
        self.whole += usize::from(whole);
        self.broken += usize::from(!whole);
        Ok(())
    }
}

/// The sequences of up to three of the columns.
fn sequences() -> Vec<Vec<u8>> {
    let mut all: Vec<Vec<u8>> = COLUMNS.iter().map(|&column| vec![column]).collect();
    let mut next = 0;
    while next < all.len() {
        let list = all[next].clone();
        let further = COLUMNS.iter().filter(|column| !list.contains(column));
        if list.len() < 3 {
            all.extend(further.map(|&column| [&list[..], &[column]].concat()));
        }
        next += 1;
    }
    all
}
