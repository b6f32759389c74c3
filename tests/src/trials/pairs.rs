//! Areas of schemas with several families that an engine's calls lead to, and pairs of calls on them
//! that are accepted one after the other.

use super::two_orders::On;
use crate::inputs::calls::plain_call;
use crate::inputs::{families, mixed_calls};
use crate::random::Random;

/// How many calls are tried until one is accepted.
const TRIES: usize = 3;

/// Tables of a family.
pub type Family = [usize];

/// An area with rows in most tables, and at times with levels.
pub fn populated(on: &On, r: &mut Random) -> Vec<i64> {
    let mut area = on.ground.fresh();
    let tables = &on.ground.schema.tables;
    let places: usize = tables.iter().map(|table| table.rows).sum();
    for _ in 0..2 * places {
        area = entered(on, r, area);
    }
    for _ in 0..r.pick(&[0, 0, 10, 30]) {
        let call = mixed_calls::any(r, on.ground, &area);
        area = on.send(&area, &call).1;
    }
    area
}

/// A row is entered into some table, if there is a vacant one and nothing forbids it.
pub fn entered(on: &On, r: &mut Random, area: Vec<i64>) -> Vec<i64> {
    let table = r.between(0, on.ground.schema.tables.len() - 1);
    match families::inserted(r, on.ground, &on.ground.area(&area), table) {
        Some(insert) => on.send(&area, &insert).1,
        None => area,
    }
}

/// Opens a transaction and often further levels, with rows entered between.
pub fn opened(on: &On, r: &mut Random, area: Vec<i64>) -> Vec<i64> {
    let mut area = on.send(&area, &plain_call(r.pick(&[4, 5]), 0)).1;
    for _ in 1..r.edged(1, 9) {
        if r.once_in(2) {
            area = entered(on, r, area);
        }
        area = on.send(&area, &plain_call(5, 0)).1;
    }
    area
}

/// Two different families.
pub fn some_two<'a>(r: &mut Random, families: &'a [Vec<usize>]) -> Option<[&'a Family; 2]> {
    let last = families.len() - 1;
    (last > 0).then(|| {
        let one = r.between(0, last);
        let other = r.other_than(one, 0, last);
        [&families[one][..], &families[other]]
    })
}

/// Two calls, each on a table of its family, that are accepted one after the other, if some are found.
pub fn some_pair(
    on: &On,
    r: &mut Random,
    area: &[i64],
    [one, other]: [&Family; 2],
) -> Option<[Vec<i64>; 2]> {
    let (first, between) = some_accepted(on, r, area, one)?;
    let (second, _) = some_accepted(on, r, &between, other)?;
    Some([first, second])
}

/// A call on a table of the family that is accepted, and the area after it, if one is found. It seldom
/// changes no row.
fn some_accepted(
    on: &On,
    r: &mut Random,
    area: &[i64],
    family: &Family,
) -> Option<(Vec<i64>, Vec<i64>)> {
    let book = on.ground.area(area);
    (0..TRIES).find_map(|_| {
        let call = families::call(r, on.ground, &book, family);
        let (answer, after) = on.send(area, &call);
        let wanted = answer.code == 0 && (answer.changed > 0 || r.once_in(8));
        wanted.then_some((call, after))
    })
}
