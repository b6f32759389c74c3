//! Calls on different families in either order, on areas that calls lead to; and calls on one family,
//! whose order matters.

use super::order_situations::{self, Seen};
use super::pairs::{entered, opened, populated, some_pair, some_two, Family};
use super::two_orders::{On, Pair, Twins};
use crate::counts::Counts;
use crate::engine::{Answer, Engine};
use crate::inputs::calls::{plain_call, transaction_call};
use crate::inputs::{bounded, families, mixed_calls};
use crate::model;
use crate::random::Random;

type Outcome = Result<(), String>;

/// How many turns there are on one schema.
const TURNS: usize = 30;

#[derive(Default)]
pub struct EitherOrder {
    /// How many pairs on different families were looked for inside a transaction.
    pub sought: usize,
    /// Those that were accepted, by kinds, and by what they show.
    pub kinds: Counts<String>,
    pub met: Counts<&'static str>,
    /// The rollbacks, commits and releases sent next to both areas of a pair, by what became of them.
    pub next: Counts<String>,
    /// How many lists of calls were sent to both areas of a pair, how many calls that were, and how
    /// many lists led to areas that are alike in every word.
    pub lists: usize,
    pub later: usize,
    pub ended_alike: usize,
    /// How many pairs were sent again where their records fill the journal, and where it is one record
    /// short.
    pub fitted: usize,
    pub one_short: usize,
    /// How many pairs were accepted outside a transaction, and for how many of them the other order
    /// gave the same answers and the same area.
    pub outside: usize,
    pub outside_alike: usize,
    /// Pairs on one family, accepted inside a transaction, by what the other order gave.
    pub one_family: Counts<String>,
}

impl EitherOrder {
    /// Pairs on one schema, from a fresh area on.
    pub fn trial(&mut self, engine: &dyn Engine, r: &mut Random) -> Outcome {
        let ground = &families::ground(r);
        let on = On { engine, ground };
        let families = model::families::all(&ground.schema);
        let mut area = populated(&on, r);
        for _ in 0..TURNS {
            if area[0] == 0 {
                self.outside(&on, r, &area, &families);
                area = opened(&on, r, area);
            }
            area = self.turn(&on, r, area, &families)?;
        }
        Ok(())
    }

    /// Pairs on one family and on two, and now and then other calls. Gives the area after them.
    fn turn(
        &mut self,
        on: &On,
        r: &mut Random,
        mut area: Vec<i64>,
        families: &[Vec<usize>],
    ) -> Result<Vec<i64>, String> {
        if r.once_in(2) {
            area = entered(on, r, area);
        }
        if r.once_in(3) {
            let family = &families[r.between(0, families.len() - 1)];
            let table = r.between(0, family.len() - 1);
            let one_table = &family[table..=table];
            let tables = r.pick(&[family, one_table]);
            self.of_one_family(on, r, &area, tables);
        }
        if let Some(two) = some_two(r, families) {
            area = self.of_two_families(on, r, area, two)?;
        }
        if r.once_in(3) {
            let call = transaction_call(r, area[0]);
            area = on.send(&area, &call).1;
        }
        Ok(area)
    }

    /// Two calls inside a transaction, each on another family. Gives the area after both in some order,
    /// or as it was where none are found.
    fn of_two_families(
        &mut self,
        on: &On,
        r: &mut Random,
        area: Vec<i64>,
        two: [&Family; 2],
    ) -> Result<Vec<i64>, String> {
        self.sought += 1;
        let found = some_pair(on, r, &area, two);
        let calls = found.as_ref().map(|[one, other]| [&one[..], other]);
        let pair = calls.and_then(|calls| Pair::accepted(on, &area, calls));
        let pair = match pair.filter(Pair::in_transaction) {
            Some(pair) => pair,
            None => return Ok(area),
        };
        self.count(on, &pair);
        let twins = pair.claim(on)?;
        let sent = self.send_next(on, r, &twins);
        sent.map_err(|why| pair.told(on, &why))?;
        if r.once_in(6) {
            self.in_tight_journals(on, &pair)?;
        }
        let [one, other] = twins.areas;
        Ok(if r.once_in(2) { one } else { other })
    }

    fn count(&mut self, on: &On, pair: &Pair) {
        let [one, other] = pair.calls.map(|call| call[0]);
        self.kinds.add(format!("{} and {}", one, other));
        let shown = order_situations::shown(&Seen::new(on.ground, pair));
        shown.into_iter().for_each(|name| self.met.add(name));
    }

    /// Sends calls to both areas of a pair: rollbacks to every level and of all, a commit, a release,
    /// and now and then some calls one after the other.
    fn send_next(&mut self, on: &On, r: &mut Random, twins: &Twins) -> Outcome {
        for level in 1..=twins.levels {
            self.beside(on, twins, "rollback to level", (7, level))?;
        }
        self.beside(on, twins, "rollback", (8, 0))?;
        self.beside(on, twins, "commit", (9, 0))?;
        let level = r.edged(1, twins.levels as usize) as i64;
        self.beside(on, twins, "release of level", (6, level))?;
        if r.once_in(4) {
            self.send_later(on, r, twins.clone())?;
        }
        Ok(())
    }

    /// Sends a call of kinds 6 to 9 to copies of both areas and counts it by its name and its code.
    fn beside(&mut self, on: &On, twins: &Twins, name: &str, (kind, level): (i64, i64)) -> Outcome {
        let answer = twins.clone().send(on, &plain_call(kind, level))?;
        let name = match level {
            0 => name.into(),
            _ => format!("{} {}", name, level),
        };
        self.next.add(match answer.code {
            0 => name,
            code => format!("{} refused by {}", name, code),
        });
        Ok(())
    }

    /// Some calls of all sorts, each sent to both areas.
    fn send_later(&mut self, on: &On, r: &mut Random, mut twins: Twins) -> Outcome {
        for _ in 0..r.between(2, 8) {
            let call = mixed_calls::any(r, on.ground, &twins.areas[0]);
            twins.send(on, &call)?;
            self.later += 1;
        }
        self.lists += 1;
        self.ended_alike += usize::from(twins.in_every_word());
        Ok(())
    }

    /// The same pair where the journal just holds the records of both, and where it is one short.
    fn in_tight_journals(&mut self, on: &On, pair: &Pair) -> Outcome {
        let free = pair.changed() as usize;
        let (ground, area) = bounded::with_free_records(on.ground, pair.before, free);
        let fitted = On {
            ground: &ground,
            ..*on
        };
        let same = Pair::accepted(&fitted, &area, pair.calls);
        let same = same.filter(|same| same.answers == pair.answers);
        let same = same.ok_or_else(|| pair.told(&fitted, "otherwise where both just fit"))?;
        let rolled_back = same.claim(&fitted)?.send(&fitted, &plain_call(8, 0));
        rolled_back.map_err(|why| same.told(&fitted, &why))?;
        self.fitted += 1;
        if pair.answers.iter().all(|answer| answer.changed > 0) {
            self.one_short += 1;
            return one_record_short(on, pair);
        }
        Ok(())
    }

    /// Two calls outside a transaction, each on another family.
    fn outside(&mut self, on: &On, r: &mut Random, area: &[i64], families: &[Vec<usize>]) {
        let found = some_two(r, families).and_then(|two| some_pair(on, r, area, two));
        if let Some([one, other]) = found {
            let first = on.send_both(area, [&one, &other]);
            self.outside += 1;
            self.outside_alike += usize::from(first == on.send_reversed(area, [&one, &other]));
        }
    }

    /// Two calls inside a transaction on tables of one family: what the other order gives.
    fn of_one_family(&mut self, on: &On, r: &mut Random, area: &[i64], tables: &Family) {
        let found = some_pair(on, r, area, [tables, tables]);
        if let Some([one, other]) = found {
            let first = on.send_both(area, [&one, &other]);
            let reversed = on.send_reversed(area, [&one, &other]);
            let journal = area.len() - 10 * on.ground.schema.room;
            self.one_family.add(match (&first, &reversed) {
                (_, ([one, other], _)) if one.code != 0 || other.code != 0 => {
                    format!("refused by {}", one.code.max(other.code))
                }
                ((answers, _), (others, _)) if answers != others => "other answers".into(),
                ((_, one), (_, other)) if one[..journal] != other[..journal] => "other rows".into(),
                _ => "the same".into(),
            });
        }
    }
}

/// Where the journal is one record short, the call sent last is refused by 15, in either order.
fn one_record_short(on: &On, pair: &Pair) -> Outcome {
    let free = pair.changed() as usize - 1;
    let (ground, area) = bounded::with_free_records(on.ground, pair.before, free);
    let short = On {
        ground: &ground,
        ..*on
    };
    let full = Answer::refused(15);
    let (answers, _) = short.send_both(&area, pair.calls);
    let (others, _) = short.send_reversed(&area, pair.calls);
    if answers != [pair.answers[0], full] || others != [full, pair.answers[1]] {
        return Err(pair.told(&short, "otherwise where the journal is one record short"));
    }
    Ok(())
}
