//! The form of an area: refusal 10.

use super::area::Area;

/// What must hold of the words of an area, with its name.
pub type Form = (&'static str, fn(&Area) -> bool);

/// Each is asked only if those before it hold.
pub const FORMS: &[Form] = &[
    ("words 0 to 3", header_in_range),
    ("words 0 to 3 in accord", header_in_accord),
    ("kept numbers", |area| numbers_in_range(area, area.kept())),
    ("saved numbers", |area| {
        (1..=area.open()).all(|level| numbers_in_range(area, &area.level(level)[1..]))
    }),
    ("journal use of level 1", first_level_use),
    ("journal use of later levels", later_level_uses),
    ("journal places", |area| {
        (0..area.used()).all(|record| area.journal_place(record).is_some())
    }),
];

fn header_in_range(area: &Area) -> bool {
    let header = &area.words[..4];
    (0..=9).contains(&header[0])
        && (0..=2).contains(&header[1])
        && (0..=area.schema.room as i64).contains(&header[2])
        && header[3] == 0
}

fn header_in_accord(area: &Area) -> bool {
    let header = &area.words[..4];
    match header[0] {
        0 => header[1] == 0 && header[2] == 0,
        _ => header[1] != 0,
    }
}

/// The largest kept number of a key: the child's rows, and 0 past the foreign keys.
pub fn most_kept(area: &Area, key: usize) -> i64 {
    let key = area.schema.keys.get(key);
    key.map_or(0, |key| area.schema.tables[key.child].rows as i64)
}

fn numbers_in_range(area: &Area, numbers: &[i64]) -> bool {
    let mut numbers = numbers.iter().enumerate();
    numbers.all(|(key, number)| (0..=most_kept(area, key)).contains(number))
}

fn first_level_use(area: &Area) -> bool {
    area.open() == 0 || area.level(1)[0] == 0
}

fn later_level_uses(area: &Area) -> bool {
    let use_of = |level| area.level(level)[0];
    (2..=area.open()).all(|level| (use_of(level - 1)..=area.words[2]).contains(&use_of(level)))
}
