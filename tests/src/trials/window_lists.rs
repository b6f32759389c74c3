//! What there is to see in orphan lists on schemas with windowed keys, by name, so that it can be
//! counted.

use super::origins::Origin::{Damaged, Filled};
use super::origins::ANY;
use super::watched::OfList;
use super::window_seen::{is_served, parent_keys, Pair};
use crate::model::area::Area;
use crate::model::keys::{full, half_filled, maps};
use crate::model::schema::{Key, Match, Row};

pub const SITUATIONS: &[OfList] = &[
    ("not listed after the first day", ANY, |area| {
        any_pair(area, true, |pair| pair.day() > pair.first())
    }),
    ("listed on the end's day", ANY, |area| {
        any_pair(area, false, |pair| {
            pair.day() == pair.end() && full(pair.parent)
        })
    }),
    ("listed before the first day", ANY, |area| {
        any_pair(area, false, |pair| {
            full(pair.parent) && pair.day() < pair.first()
        })
    }),
    ("listed beside a parent whose end is NULL", ANY, |area| {
        any_pair(area, false, |pair| {
            pair.end().is_none() && pair.first().is_some() && pair.first() <= pair.day()
        })
    }),
    ("listed for NULL in its day", ANY, |area| {
        any_child(area, |key, child, _| {
            key.matching == Match::Full && half_filled(child) && child[child.len() - 1].is_none()
        })
    }),
    (
        "not listed twice by two parents",
        &[Filled, Damaged],
        |area| {
            any_child(area, |key, child, parents| {
                let serves = |parent: &&(usize, Row)| maps(key, child, &parent.1);
                parents.iter().filter(serves).count() > 1
            })
        },
    ),
];

/// Whether a live child row of a windowed key that is not broken stands so to the parents.
fn any_child(area: &Area, such: impl Fn(&Key, &Row, &[(usize, Row)]) -> bool) -> bool {
    let keys = area.schema.keys.iter();
    let mut keys = keys.filter(|key| key.window.is_some() && !key.broken);
    keys.any(|key| {
        let parents = parent_keys(area, key);
        let mut rows = area.live_rows(key.child).into_iter();
        rows.any(|(_, row)| such(key, &key.compared(&key.child_key(&row)), &parents))
    })
}

/// Whether a live child row without NULL in its key, served or not, stands so to a parent of its names.
fn any_pair(area: &Area, served: bool, such: impl Fn(&Pair) -> bool) -> bool {
    any_child(area, |key, child, parents| {
        let stands = |parent: &Row| {
            let pair = Pair { child, parent };
            pair.beside() && such(&pair)
        };
        full(child)
            && is_served(key, child, parents) == served
            && parents.iter().any(|(_, parent)| stands(parent))
    })
}
