//! Calls of kinds 10 and 11, counted: by code, by rows changed, by what their words break, and by
//! what is to be seen in them.

use super::compared::Input;
use super::origins::Origin;
use super::search_situations;
use crate::counts::Counts;
use crate::engine::Answer;
use crate::model::area::Area;
use crate::model::form;
use crate::model::rules::Rules;
use crate::model::schema::Schema;
use crate::model::search::Search;

/// The codes that such a call can be answered by, but for what actions of a deletion seldom lead to.
const CODES: &[i64] = &[0, 1, 3, 4, 10, 14, 15, 16, 17, 18, 19, 20, 23, 24];

/// The codes that a call of this kind is often answered by: a deletion passes 24.
pub fn codes(kind: i64) -> &'static [i64] {
    match kind {
        10 => &CODES[..CODES.len() - 1],
        _ => CODES,
    }
}

/// How many rows an accepted call changes.
pub const CHANGED: &[&str] = &["none", "one", "two or more"];

/// Situations are not looked for in tables of more rows: that takes long and shows nothing else.
const MOST_ROWS: usize = 64;

pub struct Searches {
    rules: Rules,
    /// Deletions, kind 10, then updates, kind 11.
    pub of_kind: [OfKind; 2],
    /// How often each situation was met on the areas of each origin.
    pub met: [Counts<&'static str>; 3],
}

/// How often calls of a kind had each code, how often they changed so many rows, and how often their
/// words broke each condition.
#[derive(Default)]
pub struct OfKind {
    pub codes: Counts<i64>,
    pub changed: Counts<&'static str>,
    pub broken: Counts<&'static str>,
}

/// Whether these are twelve words of kind 10 or 11.
pub fn is_search(call: &[i64]) -> bool {
    call.len() == 12 && matches!(call[0], 10 | 11)
}

pub fn how_many(changed: i64) -> &'static str {
    CHANGED[changed.clamp(0, 2) as usize]
}

impl Searches {
    pub fn new() -> Searches {
        Searches {
            rules: Rules::of_the_paper(),
            of_kind: Default::default(),
            met: Default::default(),
        }
    }

    /// Counts a call, if it is one of these kinds, with the answer to it.
    pub fn count(&mut self, (schema, area, call): Input, answer: Answer, origin: Origin) {
        if !is_search(call) {
            return;
        }
        let of_kind = &mut self.of_kind[call[0] as usize - 10];
        of_kind.codes.add(answer.code);
        if answer.code == 0 {
            of_kind.changed.add(how_many(answer.changed));
        }
        if matches!(answer.code, 1 | 3 | 10) {
            return;
        }
        let schema = Schema::read(schema).expect("it was not refused by 1");
        match form::broken(&self.rules, &schema, call) {
            Some(condition) => of_kind.broken.add(condition),
            None => self.count_situations(&schema, area, &Search::read(call), answer.code, origin),
        }
    }

    fn count_situations(
        &mut self,
        schema: &Schema,
        area: &[i64],
        search: &Search,
        code: i64,
        origin: Origin,
    ) {
        if schema.tables[search.table].rows > MOST_ROWS {
            return;
        }
        let entry = Area {
            schema,
            words: area.to_vec(),
        };
        let shown = search_situations::of(&self.rules, &entry, search, code);
        let met = &mut self.met[origin as usize];
        shown.into_iter().for_each(|situation| met.add(situation));
    }
}
