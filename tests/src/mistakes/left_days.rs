//! Mistakes in which child rows of a windowed key a changed parent row leaves behind, or comes to
//! serve: days of its window that go, stay or come are taken for others.

use super::Mistake;
use crate::model::area::Area;
use crate::model::keys::row_maps;
use crate::model::rules::Rules;
use crate::model::schema::{Key, Row, Value};
use crate::model::statement;
use crate::model::walk::{self, Walk};

/// First day and end of a window.
type Days = (Value, Value);

/// A mistake for windows that stand so before and after.
type Pair = fn(Days, Days) -> bool;

pub const ALL: &[Mistake] = &[
    ("RESTRICT passes a window that ends sooner", |rules| {
        rules.restricts = |area, walk, child| restricts_but(area, walk, child, ends_sooner);
    }),
    ("RESTRICT passes a window that begins later", |rules| {
        rules.restricts = |area, walk, child| restricts_but(area, walk, child, begins_later);
    }),
    ("RESTRICT passes a window inside the old one", |rules| {
        rules.restricts = |area, walk, child| restricts_but(area, walk, child, is_inside);
    }),
    ("a window that ends sooner strands nobody", |rules| {
        rules.moves = |rules, before, after| strands_but(rules, before, after, ends_sooner);
    }),
    ("a window that begins later strands nobody", |rules| {
        rules.moves = |rules, before, after| strands_but(rules, before, after, begins_later);
    }),
    ("a window inside the old one strands nobody", |rules| {
        rules.moves = |rules, before, after| strands_but(rules, before, after, is_inside);
    }),
    ("a window that ends later mends nobody", |rules| {
        rules.moves = |rules, before, after| mends_but(rules, before, after, ends_sooner);
    }),
    ("a window that begins sooner mends nobody", |rules| {
        rules.moves = |rules, before, after| mends_but(rules, before, after, begins_later);
    }),
    ("a window around the old one mends nobody", |rules| {
        rules.moves = |rules, before, after| mends_but(rules, before, after, is_inside);
    }),
];

fn ends_sooner(old: Days, new: Days) -> bool {
    old.0 == new.0 && new.1 < old.1
}

fn begins_later(old: Days, new: Days) -> bool {
    old.0 < new.0 && old.1 == new.1
}

fn is_inside(old: Days, new: Days) -> bool {
    old.0 < new.0 && new.1 < old.1
}

/// Whether a parent key of a windowed key keeps its names, with no NULL in its window, and its
/// windows stand so.
fn changes_so(key: &Key, old: &Row, new: &Row, such: Pair) -> bool {
    let (old, new) = (key.compared(old), key.compared(new));
    let names = old.len().max(2) - 2;
    let days = |row: &Row| (row[names], row[names + 1]);
    let filled = |(first, end): Days| first.is_some() && end.is_some();
    key.window.is_some()
        && old[..names] == new[..names]
        && filled(days(&new))
        && such(days(&old), days(&new))
}

/// RESTRICT, but for parent rows whose windows stand so.
fn restricts_but(area: &Area, walk: &Walk, child: &Row, such: Pair) -> bool {
    let so = |new: &Row| changes_so(walk.key, &walk.old_key, &walk.key.parent_key(new), such);
    walk::restricts(area, walk, child) && !walk.change.new.as_ref().map_or(false, so)
}

/// The kept numbers' moves, child rows left behind by windows that stand so not counted.
fn strands_but(rules: &Rules, before: &Area, after: &Area, such: Pair) -> Vec<i64> {
    moves_with(rules, before, after, |key| {
        -left_behind(key, before, after, such)
    })
}

/// The kept numbers' moves, child rows not counted that the windows would leave behind, and so, if
/// they changed the other way.
fn mends_but(rules: &Rules, before: &Area, after: &Area, such: Pair) -> Vec<i64> {
    moves_with(rules, before, after, |key| {
        left_behind(key, after, before, such)
    })
}

/// The kept numbers' moves with so many more for each foreign key.
fn moves_with(rules: &Rules, before: &Area, after: &Area, more: impl Fn(&Key) -> i64) -> Vec<i64> {
    let moves = statement::moves(rules, before, after).into_iter();
    let more = before.schema.keys.iter().map(more);
    moves.zip(more).map(|(by, more)| by + more).collect()
}

/// How many child rows of a windowed key are the same in both areas, have a parent row in the first
/// whose windows stand so, and no parent row in the second.
fn left_behind(key: &Key, one: &Area, other: &Area, such: Pair) -> i64 {
    if key.window.is_none() || key.broken {
        return 0;
    }
    let (parents, others) = (one.live_rows(key.parent), other.live_rows(key.parent));
    let loses = |child: &Row| {
        let mut parents = parents.iter();
        !others
            .iter()
            .any(|(_, parent)| row_maps(key, child, parent))
            && parents.any(|(number, parent)| {
                let then = other.row(key.parent, *number);
                let so = |then: &Row| {
                    changes_so(key, &key.parent_key(parent), &key.parent_key(then), such)
                };
                row_maps(key, child, parent) && then.as_ref().map_or(false, so)
            })
    };
    let rows = one.live_rows(key.child).into_iter();
    rows.filter(|(number, row)| other.row(key.child, *number).as_ref() == Some(row) && loses(row))
        .count() as i64
}
