//! Changes of single words of an area.

use super::areas::state;
use super::grounds::Ground;
use crate::random::Random;

/// A damage's name, and the damage.
pub type Damage = (&'static str, fn(&mut Random, &Ground, &mut Vec<i64>));

pub const DAMAGES: &[Damage] = &[
    ("open levels", |r, _, area| area[0] = near(r, 9)),
    ("opened by", |r, _, area| area[1] = near(r, 2)),
    ("journal use", |r, ground, area| {
        area[2] = near(r, ground.schema.room)
    }),
    ("word 3", |r, _, area| area[3] = near(r, 1)),
    ("a kept number", |r, ground, area| {
        let key = some_key(r, ground);
        area[4 + key] = number(r, ground, key);
    }),
    ("a saved number", |r, ground, area| {
        let (level, key) = (some_level(r, area), some_key(r, ground));
        area[36 + 33 * level + 1 + key] = number(r, ground, key);
    }),
    ("a level's journal use", |r, ground, area| {
        let level = some_level(r, area);
        area[36 + 33 * level] = near(r, ground.schema.room);
    }),
    ("a row's state", |r, ground, area| {
        damage_state(r, ground, area)
    }),
    ("a word of a row", |r, ground, area| {
        let at = r.between(333, journal_at(ground) - 1);
        area[at] = near(r, 3);
    }),
    ("a journal place", |r, ground, area| {
        let at = some_record(r, ground, area);
        area[at] = place(r, ground);
    }),
    ("a word of the journal", |r, ground, area| {
        let at = some_record(r, ground, area) + r.between(1, 9);
        area[at] = if r.once_in(2) { state(r) } else { near(r, 3) };
    }),
    ("any word", |r, _, area| {
        let at = r.between(0, area.len() - 1);
        area[at] = near(r, 9);
    }),
];

/// The words with one to three damages, of the right length.
pub fn damaged(r: &mut Random, ground: &Ground, area: &[i64]) -> Vec<i64> {
    let mut area = area.to_vec();
    for _ in 0..r.pick(&[1, 1, 2, 3]) {
        let (_, damage) = r.pick(DAMAGES);
        damage(r, ground, &mut area);
    }
    area
}

/// A damaged copy, mostly of the states of rows alone.
pub fn mostly_rows(r: &mut Random, ground: &Ground, area: &[i64]) -> Vec<i64> {
    if r.once_in(4) {
        damaged(r, ground, area)
    } else {
        damaged_rows(r, ground, area)
    }
}

/// The words with the states of some rows damaged: refusal 10 lets them pass.
pub fn damaged_rows(r: &mut Random, ground: &Ground, area: &[i64]) -> Vec<i64> {
    let mut area = area.to_vec();
    for _ in 0..r.between(1, 4) {
        damage_state(r, ground, &mut area);
    }
    area
}

/// Changes the state of some row.
fn damage_state(r: &mut Random, ground: &Ground, area: &mut [i64]) {
    let mut at = 333;
    let table = r.between(0, ground.schema.tables.len() - 1);
    for before in &ground.schema.tables[..table] {
        at += before.words();
    }
    let table = &ground.schema.tables[table];
    area[at + (1 + table.columns) * r.between(0, table.rows - 1)] = state(r);
}

/// The words with some taken off, or some more.
pub fn of_wrong_length(r: &mut Random, area: &[i64]) -> Vec<i64> {
    let mut area = area.to_vec();
    let length = r.pick(&[
        0,
        1,
        332,
        333,
        area.len() - 1,
        area.len() + 1,
        area.len() + 10,
    ]);
    let length = if length == area.len() { 0 } else { length };
    area.resize(length, 0);
    area
}

/// A number from 0 to `most`, just past them, or at the ends of 64 bits.
fn near(r: &mut Random, most: usize) -> i64 {
    let within = r.between(0, most) as i64;
    let outer = r.pick(&[-1, most as i64 + 1, i64::MIN, i64::MAX]);
    if r.once_in(3) {
        outer
    } else {
        within
    }
}

/// The number of a foreign key, or now and then one past them.
fn some_key(r: &mut Random, ground: &Ground) -> usize {
    let keys = ground.schema.keys.len();
    if keys == 0 || r.once_in(6) {
        r.between(keys.min(31), 31)
    } else {
        r.between(0, keys - 1)
    }
}

/// A number at or past the ends of the key's range.
fn number(r: &mut Random, ground: &Ground, key: usize) -> i64 {
    let key = ground.schema.keys.get(key);
    near(r, key.map_or(1, |key| ground.schema.tables[key.child].rows))
}

/// A level, counted from 0; more often an open one.
fn some_level(r: &mut Random, area: &[i64]) -> usize {
    let open = area[0].clamp(0, 9) as usize;
    if open == 0 || r.once_in(4) {
        r.between(0, 8)
    } else {
        r.between(0, open - 1)
    }
}

fn journal_at(ground: &Ground) -> usize {
    ground.schema.area_words() - 10 * ground.schema.room
}

/// Where a journal record begins; more often a used one.
fn some_record(r: &mut Random, ground: &Ground, area: &[i64]) -> usize {
    let room = ground.schema.room;
    let used = usize::try_from(area[2]).map_or(0, |used| used.min(room));
    let count = if used == 0 || r.once_in(4) {
        room
    } else {
        used
    };
    journal_at(ground) + 10 * r.between(0, count - 1)
}

/// A table and a row, or just past them.
fn place(r: &mut Random, ground: &Ground) -> i64 {
    let tables = &ground.schema.tables;
    let table = r.between(0, tables.len());
    let rows = tables.get(table).map_or(1, |t| t.rows);
    let place = (1024 * table + r.edged(0, rows)) as i64;
    r.pick(&[place, place, place, place, -1, -1024, i64::MIN, i64::MAX])
}
