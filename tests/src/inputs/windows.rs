//! Schemas with windowed keys, and areas in which windows touch, share days, or hold none.

use super::calls::{new_row, spelled};
use super::grounds::Ground;
use super::populated;
use crate::model::area::Area;
use crate::model::keys::orphan_counts;
use crate::model::rules::Rules;
use crate::model::schema::{Key, Row, Value};
use crate::random::Random;
use crate::schema_bytes::build;
use crate::schema_bytes::records::{self, Schema as Records, Table};
use crate::schema_bytes::valid::low_bits;

/// A schema with windowed keys, some of them broken.
pub fn ground(r: &mut Random) -> Ground {
    match r.between(0, 11) {
        0 | 1 => handed_down(r),
        2 => moved_again(r),
        3..=5 => half_drawn(r),
        _ => calibrations(r),
    }
}

/// A few days: small numbers, numbers of which some are letters in both cases, or the ends of 64 bits
/// and those about 0. The first ones are names too.
fn days(r: &mut Random) -> Vec<i64> {
    match r.between(0, 3) {
        0 => vec![0x41, 0x61, 0x40, 0x42, 0x44, 0x5A, 0x62, 0x64, 0x7A],
        1 => vec![0, -1, 1, i64::MIN, i64::MIN + 1, i64::MAX - 1, i64::MAX],
        _ => (0..=r.between(4, 7) as i64).collect(),
    }
}

/// The columns of a windowed key in a parent of so many columns: the first day is the last of them.
fn with_end(r: &mut Random, width: usize, columns: usize) -> Vec<u8> {
    let first = r.between(0, columns - 2) as u8;
    let mut key: Vec<u8> = (0..columns as u8).collect();
    key.retain(|&column| column != first && column != first + 1);
    r.shuffle(&mut key);
    key.truncate(width - 1);
    key.push(first);
    key
}

/// The same without an end for its window: it is missing, or in the key.
fn without_end(r: &mut Random, width: usize, columns: usize) -> Vec<u8> {
    let mut key: Vec<u8> = (0..columns as u8).collect();
    let last = columns as u8 - 1;
    let first = if r.once_in(2) {
        last
    } else {
        r.between(0, columns - 2) as u8
    };
    key.retain(|&column| column != first);
    r.shuffle(&mut key);
    if first < last {
        let end = key.iter().position(|&column| column == first + 1);
        key.swap(0, end.expect("it is a column"));
    }
    key.truncate(width - 1);
    key.push(first);
    key
}

fn mask(columns: &[u8]) -> u8 {
    columns.iter().fold(0, |mask, column| mask | 1 << column)
}

/// Two of three tables have folded columns; some have a column that is NOT NULL.
fn table(r: &mut Random, columns: usize, unique: &[u8]) -> Table {
    let mut table = build::table(r.pick(&[3, 4, 6, 8]), columns as u8, unique);
    let some = r.byte();
    table.folded = low_bits(columns) & r.pick(&[0, some, 255]);
    if r.once_in(3) {
        table.not_null = 1 << r.between(0, columns - 1);
    }
    table
}

/// A windowed key from any columns of a table of so many.
fn windowed(r: &mut Random, (child, columns): (u8, usize), parent: (u8, &[u8])) -> records::Key {
    let mut child_columns: Vec<u8> = (0..columns as u8).collect();
    r.shuffle(&mut child_columns);
    let width = parent.1.len();
    records::Key {
        deferred: r.pick(&[0, 1, 1]),
        matching: r.between(0, 1) as u8,
        ..build::windowed(build::key(
            (child, &child_columns[..width]),
            parent,
            r.between(0, 1) as u8,
            r.between(0, 1) as u8,
        ))
    }
}

/// Calibrations in table 0, which readings in table 1 belong to. One or two windows for each row, and
/// up to four keys, of which some are of table 0 itself.
fn calibrations(r: &mut Random) -> Ground {
    let width = r.pick(&[2, 2, 2, 3, 3, 4]);
    let columns = r.between(width + 1, (width + 3).min(8));
    let windows = [0; 2].map(|_| with_end(r, width, columns));
    of_windows(r, (width, columns), windows)
}

/// The same, but one window of table 0 has no end.
fn half_drawn(r: &mut Random) -> Ground {
    let width = r.pick(&[2, 2, 3]);
    let columns = width + r.between(1, 3);
    let mut windows = [with_end(r, width, columns), without_end(r, width, columns)];
    r.shuffle(&mut windows);
    of_windows(r, (width, columns), windows)
}

fn of_windows(r: &mut Random, (width, columns): (usize, usize), windows: [Vec<u8>; 2]) -> Ground {
    let unique = [mask(&windows[0]), mask(&windows[1])];
    let of_child = r.between(width, width + 2);
    let mut tables = vec![table(r, columns, &unique), table(r, of_child, &[])];
    if r.once_in(4) {
        tables[1].unique[0] = 1 << r.between(0, of_child - 1);
    }
    let mut keys = Vec::new();
    for _ in 0..r.pick(&[1, 1, 2, 3]) {
        let window = &windows[r.pick(&[0, 0, 1])];
        let child = r.pick(&[(1, of_child), (1, of_child), (1, of_child), (0, columns)]);
        keys.push(windowed(r, child, (0, window)));
    }
    let room = r.pick(&[4, 8, 20, 40, 40, 60]);
    Ground::new(Records::new(room, tables, keys), days(r))
}

/// Sensors in table 0. Calibrations in table 1 have a sensor, and so have often readings in table 2,
/// which belong to calibrations: a sensor's change is handed down by actions.
fn handed_down(r: &mut Random) -> Ground {
    let mut tables = vec![table(r, 1, &[1]), table(r, 3, &[3]), table(r, 3, &[])];
    tables[1].defaults[0] = 1;
    let mut action = || r.pick(&[2, 3, 4, 4, 4, 4]);
    let actions = [(action(), action()), (action(), action())];
    let plain = |child: u8, (on_delete, on_update)| {
        build::deferred(build::key((child, &[0]), (0, &[0]), on_delete, on_update))
    };
    let window = build::key((2, &[0, 1]), (1, &[0, 1]), 0, 0);
    let mut keys = vec![
        plain(1, actions[0]),
        records::Key {
            on_delete: r.between(0, 1) as u8,
            on_update: r.between(0, 1) as u8,
            deferred: r.pick(&[0, 1, 1]),
            matching: r.between(0, 1) as u8,
            ..build::windowed(window)
        },
    ];
    if r.once_in(2) {
        keys.push(plain(2, actions[1]));
    }
    r.shuffle(&mut keys);
    Ground::new(Records::new(r.pick(&[8, 40]), tables, keys), days(r))
}

/// Calibrations in table 0 have a tag in c3. By CASCADE their first day or end is the tag of one of
/// them: a change of a row can change the same row again, and only then its readings are looked at.
fn moved_again(r: &mut Random) -> Ground {
    let tables = vec![table(r, 4, &[3, 8]), table(r, 2, &[])];
    let column = r.between(1, 2) as u8;
    let window = build::key((1, &[0, 1]), (0, &[0, 1]), r.between(0, 1) as u8, 1);
    let mut keys = vec![
        build::deferred(build::key((0, &[column]), (0, &[3]), 0, build::CASCADE)),
        build::deferred(build::windowed(window)),
    ];
    if r.once_in(4) {
        keys.reverse();
    }
    Ground::new(Records::new(40, tables, keys), days(r))
}

/// A schema whose table 0 refers to itself, with windows in c2 and c3 of its rows, and an area with a
/// chain of rows, each of which refers to the one before it. Rows of table 1 belong to their windows.
/// Inserts lead to it.
pub fn chained(r: &mut Random) -> (Ground, Vec<i64>) {
    let rows = r.between(16, 19);
    let tables = vec![
        build::table(rows as u16, 4, &[1, 5]),
        build::table(4, 2, &[]),
    ];
    let window = build::key((1, &[0, 1]), (0, &[0, 2]), 0, r.between(0, 1) as u8);
    let mut keys = vec![
        build::key((0, &[1]), (0, &[0]), build::CASCADE, r.between(0, 4) as u8),
        build::deferred(build::windowed(window)),
    ];
    r.shuffle(&mut keys);
    let room = r.pick(&[16, 17, 40, 40]);
    let values = (0..=rows as i64).collect();
    let ground = Ground::new(Records::new(room, tables, keys), values);
    let mut area = ground.area(&ground.fresh());
    for (number, id) in (0..rows).zip(0..) {
        let first = r.between(0, 4) as i64;
        let above = (id > 0).then_some(id - 1);
        let row = vec![Some(id), above, Some(first), Some(first + 2)];
        area.put_row(0, number, Some(&row));
        if number < 4 {
            area.put_row(1, number, Some(&vec![Some(id), Some(first + 1)]));
        }
    }
    let words = populated::with_level(r, &ground, 2, area.words);
    (ground, words)
}

/// The windowed keys, broken ones too.
pub fn windowed_keys(ground: &Ground) -> impl Iterator<Item = &Key> {
    ground.schema.keys.iter().filter(|key| key.window.is_some())
}

/// The first day and the end of a parent row, as they are.
pub fn window_of(key: &Key, parent: &Row) -> (Value, Value) {
    let values = key.parent_key(parent);
    let days = key.parent_columns.len() - 1;
    (values[days], values[days + 1])
}

/// Sets first day and end of a parent row, where it has these columns.
pub fn set_window(key: &Key, parent: &mut Row, (first, end): (Value, Value)) {
    let columns: Vec<usize> = key.columns_in_parent().collect();
    let days = key.parent_columns.len() - 1;
    for (&column, value) in columns[days..].iter().zip([first, end]) {
        if let Some(place) = parent.get_mut(column) {
            *place = value;
        }
    }
}

/// A window, now and then an empty one or one that ends before it begins; seldom NULL in it.
pub fn window(r: &mut Random, ground: &Ground) -> (Value, Value) {
    let (one, other) = (r.pick(&ground.values), r.pick(&ground.values));
    let (first, end) = match r.between(0, 17) {
        0 => (one.max(other), one.min(other)),
        1 => (one, one),
        2 => (one, one.saturating_add(1)),
        _ if one == other => (one, r.pick(&ground.values).max(one)),
        _ => (one.min(other), one.max(other)),
    };
    match r.between(0, 19) {
        0 => (None, Some(end)),
        1 | 2 => (Some(first), None),
        _ => (Some(first), Some(end)),
    }
}

/// A day in a window, often its first or its last, or beside it.
pub fn day(r: &mut Random, ground: &Ground, (first, end): (Value, Value)) -> Value {
    let inside = |&day: &i64| first <= Some(day) && Some(day) < end;
    let days: Vec<i64> = ground.values.iter().copied().filter(inside).collect();
    match r.between(0, 9) {
        0 | 1 => first,
        2 => end,
        3 => end.and_then(|end| end.checked_sub(1)),
        4 => first.and_then(|first| first.checked_sub(1)),
        5 => Some(r.pick(&ground.values)),
        6 if r.once_in(2) => None,
        _ if days.is_empty() => first,
        _ => Some(r.pick(&days)),
    }
}

/// A row: as a parent it has one of a few names and a window, as a child often a day of a parent's.
/// Now and then it has NULL where that is not let pass.
pub fn row(r: &mut Random, ground: &Ground, area: &Area, table: usize) -> Row {
    let mut row = new_row(r, ground, area, table);
    for key in windowed_keys(ground) {
        if key.parent == table && !r.once_in(6) {
            as_parent(r, ground, area, key, &mut row);
        }
        if key.child == table && !r.once_in(6) {
            as_child(r, ground, area, key, &mut row);
        }
    }
    for &column in &ground.schema.tables[table].not_null {
        if r.once_in(12) {
            row[column] = None;
        }
    }
    row
}

/// Gives the row the window and names of a parent, often such that it touches another's window.
pub fn as_parent(r: &mut Random, ground: &Ground, area: &Area, key: &Key, row: &mut Row) {
    let mut others = key.parent_columns[..key.parent_columns.len() - 1].to_vec();
    others.retain(|&column| column < row.len());
    for &column in &others {
        row[column] = (!r.once_in(16)).then(|| r.pick(&ground.values[..2]));
    }
    let (first, end) = window(r, ground);
    set_window(key, row, (first, end));
    let beside = area.live_rows(key.parent);
    if !beside.is_empty() && r.once_in(3) {
        let (_, other) = &beside[r.between(0, beside.len() - 1)];
        for &column in &others {
            row[column] = spelled(r, ground, other[column]);
        }
        let other = window_of(key, other);
        let touching = if r.once_in(2) {
            (other.1, end)
        } else {
            (first, other.0)
        };
        set_window(key, row, touching);
    }
}

/// Gives the row the names of some parent and a day in its window, or nearly.
pub fn as_child(r: &mut Random, ground: &Ground, area: &Area, key: &Key, row: &mut Row) {
    let parents = area.live_rows(key.parent);
    if parents.is_empty() {
        return;
    }
    let (_, parent) = &parents[r.between(0, parents.len() - 1)];
    for (&column, value) in key.child_columns.iter().zip(key.parent_key(parent)) {
        row[column] = if r.once_in(12) {
            None
        } else {
            spelled(r, ground, value)
        };
    }
    let last = key.child_columns[key.child_columns.len() - 1];
    row[last] = day(r, ground, window_of(key, parent));
}

/// The words with the windows of some parent rows altered, or given to rows of the same names; the
/// kept numbers of most are those counted then. Refusal 10 lets them pass if it did before.
pub fn damaged(r: &mut Random, ground: &Ground, words: &[i64]) -> Vec<i64> {
    let mut area = ground.area(words);
    let keys: Vec<&Key> = windowed_keys(ground).collect();
    for _ in 0..r.between(1, 3) {
        if !keys.is_empty() {
            let key = r.pick(&keys);
            damage_window(r, ground, &mut area, key);
        }
    }
    if !r.once_in(3) {
        let counts = orphan_counts(&Rules::of_the_paper(), &area);
        area.kept_mut()[..counts.len()].copy_from_slice(&counts);
    }
    area.words
}

fn damage_window(r: &mut Random, ground: &Ground, area: &mut Area, key: &Key) {
    let parents = area.live_rows(key.parent);
    if parents.is_empty() {
        return;
    }
    let (number, mut parent) = parents[r.between(0, parents.len() - 1)].clone();
    let (_, other) = &parents[r.between(0, parents.len() - 1)];
    let first = window_of(key, &parent).0;
    match r.between(0, 3) {
        0 => set_window(key, &mut parent, window(r, ground)),
        1 => set_window(key, &mut parent, (first, None)),
        2 => parent = other.clone(),
        _ => {
            parent = other.clone();
            let (first, end) = window_of(key, other);
            let longer = end.map(|end| end.saturating_add(r.between(0, 2) as i64));
            set_window(key, &mut parent, (first, longer));
        }
    }
    area.put_row(key.parent, number, Some(&parent));
}
