//! Windows of parent rows: refusal 24.

use super::area::Area;
use super::change::Change;
use super::keys::full;
use super::schema::{Key, Row, Value};

/// How a row that is written is judged. Keys are those of parent rows as they are compared, each with
/// the end of its window last.
#[derive(Clone, Copy)]
pub struct Reading {
    /// Whether a foreign key is looked at, given the change.
    pub looks: fn(&Area, &Change, &Key) -> bool,
    /// Whether a key is looked at, as the written row's and as another row's.
    pub counts: fn(&Row) -> bool,
    /// Whether the written row's window has a day.
    pub lasts: fn(Value, Value) -> bool,
    /// Whether two rows are equal in the other columns of the key.
    pub beside: fn(&[Value], &[Value]) -> bool,
    /// Whether two windows share a day: the written row's, and another's.
    pub share: fn((Value, Value), (Value, Value)) -> bool,
    /// The live rows that the written row is compared with.
    pub others: fn(&Area, &Change) -> Vec<Row>,
}

/// The paper's.
pub const PAPER: Reading = Reading {
    looks: |_, change, key| looks(change, key),
    counts: full,
    lasts: |first, end| first < end,
    beside: |one, other| one == other,
    share: share_a_day,
    others,
};

/// Every unbroken windowed key whose parent is the written table is looked at.
pub fn looks(change: &Change, key: &Key) -> bool {
    key.parent == change.table && key.window.is_some() && !key.broken
}

/// Whether a day lies in both windows: the later first day is before the earlier end.
pub fn share_a_day(one: (Value, Value), other: (Value, Value)) -> bool {
    one.0.max(other.0) < one.1.min(other.1)
}

/// The other live rows of the table.
pub fn others(area: &Area, change: &Change) -> Vec<Row> {
    let rows = area.live_rows(change.table).into_iter();
    let others = rows.filter(|(number, _)| *number != change.row);
    others.map(|(_, row)| row).collect()
}

/// Whether the written row has a window under each key that is looked at, and shares no day of it. A
/// deletion passes.
pub fn pass(area: &Area, change: &Change, reading: Reading) -> bool {
    let new = match &change.new {
        Some(new) => new,
        None => return true,
    };
    let keys = area.schema.keys.iter();
    let mut keys = keys.filter(|key| (reading.looks)(area, change, key));
    keys.all(|key| passes(area, change, reading, (key, new)))
}

fn passes(area: &Area, change: &Change, reading: Reading, (key, new): (&Key, &Row)) -> bool {
    let of = |row: &Row| key.compared(&key.parent_key(row));
    let own = of(new);
    if !(reading.counts)(&own) {
        return true;
    }
    let days = key.parent_columns.len() - 1;
    let window = |key: &Row| (key[days], key[days + 1]);
    let clashes = |other: Row| {
        (reading.counts)(&other)
            && (reading.beside)(&own[..days], &other[..days])
            && (reading.share)(window(&own), window(&other))
    };
    let (first, end) = window(&own);
    let others = (reading.others)(area, change);
    (reading.lasts)(first, end) && !others.iter().any(|row| clashes(of(row)))
}
