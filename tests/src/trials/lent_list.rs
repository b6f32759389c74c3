//! Single orphan lists: an engine against the model, answer and every record in its place.

use crate::counts::Counts;
use crate::differences::of_list;
use crate::engine::{Engine, Orphan};
use crate::model::Model;
use crate::random::Random;

/// The codes that a list can be answered by.
pub const CODES: &[i64] = &[0, 1, 3, 10, 22];

/// How many records are lent for so many orphans: as many, one more, one fewer, many more, any
/// number about that, none.
const ROOMS: &[fn(&mut Random, usize) -> usize] = &[
    |_, orphans| orphans,
    |_, orphans| orphans + 1,
    |_, orphans| orphans.saturating_sub(1),
    |r, orphans| orphans + r.between(2, 100),
    |r, orphans| r.between(0, 2 * orphans + 4),
    |_, _| 0,
];

pub struct LentLists {
    model: Model,
    /// How many lists had each code.
    pub codes: Counts<i64>,
}

/// What was compared.
pub struct Compared {
    pub code: i64,
    /// The model's orphans: none where it refuses by 1, 3 or 10.
    pub orphans: Vec<Orphan>,
    /// How many records were lent.
    pub room: usize,
}

impl LentLists {
    pub fn new() -> LentLists {
        LentLists {
            model: Model::of_the_paper(),
            codes: Counts::default(),
        }
    }

    /// Compares a list in about as many records as there are orphans.
    pub fn compare(
        &mut self,
        engine: &dyn Engine,
        r: &mut Random,
        schema: &[u8],
        area: &[i64],
    ) -> Result<Compared, String> {
        let orphans = self.model.orphans(schema, area).unwrap_or_default();
        let room = r.pick(ROOMS)(r, orphans.len());
        Ok(Compared {
            code: self.compare_in(room, engine, r, schema, area)?,
            orphans,
            room,
        })
    }

    /// Compares a list in this many records; one before them and one after them are watched too.
    /// Gives the code.
    pub fn compare_in(
        &mut self,
        room: usize,
        engine: &dyn Engine,
        r: &mut Random,
        schema: &[u8],
        area: &[i64],
    ) -> Result<i64, String> {
        let mut found_list = telling_records(r, room + 2);
        let mut expected_list = found_list.clone();
        let found = engine.list_orphans(schema, area, &mut found_list[1..=room]);
        let lent = &mut expected_list[1..=room];
        let expected = self.model.list_orphans(schema, area, lent);
        self.codes.add(expected.code);
        if found == expected && found_list == expected_list {
            return Ok(expected.code);
        }
        Err(of_list(
            (schema, area, room),
            (found, &found_list),
            (expected, &expected_list),
        ))
    }
}

/// Records of which no two are equal and none is an orphan's.
fn telling_records(r: &mut Random, count: usize) -> Vec<Orphan> {
    let record = |place: usize| Orphan {
        foreign_key: u64::MAX - place as u64,
        row: r.word(),
    };
    (0..count).map(record).collect()
}
