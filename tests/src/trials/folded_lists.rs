//! What there is to see in orphan lists on schemas with folded columns, by name, so that it can be
//! counted.

use super::folded_seen::{differ_in, has_parent, parent_keys, same_letters};
use super::origins::ANY;
use super::watched::OfList;
use crate::model::area::Area;
use crate::model::keys::full;
use crate::model::schema::{Key, Row, Value};

pub const SITUATIONS: &[OfList] = &[
    ("not listed for a parent in another spelling", ANY, |area| {
        any_child(area, |key, child, parents| {
            has_parent(key, child, parents) && !parents.contains(child)
        })
    }),
    ("listed beside a parent in another spelling", ANY, |area| {
        any_child(area, |key, child, parents| {
            let alike = |parent: &Row| same_letters(child, parent);
            !has_parent(key, child, parents) && parents.iter().any(alike)
        })
    }),
    ("listed beside nearly a parent", ANY, |area| {
        any_child(area, |key, child, parents| {
            let folded = key.marks.iter().all(|mark| mark.is_some());
            let near = |parent: &Row| {
                let mut pairs = child.iter().zip(parent);
                pairs.all(|(&one, &other)| is_near(one, other))
            };
            folded && !has_parent(key, child, parents) && parents.iter().any(near)
        })
    }),
];

/// Whether a live child row of an unbroken key with no NULL in its key stands so to the parents.
fn any_child(area: &Area, such: fn(&Key, &Row, &[Row]) -> bool) -> bool {
    let mut keys = area.schema.keys.iter().filter(|key| !key.broken);
    keys.any(|key| {
        let parents = parent_keys(area, key);
        let rows = area.live_rows(key.child).into_iter();
        let mut children = rows.map(|(_, row)| key.child_key(&row)).filter(full);
        children.any(|child| such(key, &child, &parents))
    })
}

/// Whether two values are alike but for bytes that are nearly letters.
fn is_near(one: Value, other: Value) -> bool {
    let bytes = [0x40, 0x5B, 0xC1, 0xDA];
    one == other || bytes.iter().any(|&byte| differ_in(byte, one, other))
}
