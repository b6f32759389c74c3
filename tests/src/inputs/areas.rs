//! Areas with random words that refusal 10 lets pass, most of them not reachable by calls.

use super::grounds::Ground;
use crate::model::area::Area;
use crate::model::keys::orphan_counts;
use crate::model::rules::Rules;
use crate::model::schema::Row;
use crate::random::Random;

/// Rows at random, with kept numbers that fit them or not, with levels and a journal or without.
pub fn filled(r: &mut Random, ground: &Ground) -> Vec<i64> {
    let mut area = ground.area(&ground.fresh());
    fill_rows(r, ground, &mut area);
    if !r.once_in(3) {
        let counts = orphan_counts(&Rules::of_the_paper(), &area);
        area.kept_mut()[..counts.len()].copy_from_slice(&counts);
    } else {
        let numbers = kept_numbers(r, ground);
        area.kept_mut().copy_from_slice(&numbers);
    }
    if r.once_in(2) {
        open_levels(r, ground, &mut area);
    }
    area.words
}

fn fill_rows(r: &mut Random, ground: &Ground, area: &mut Area) {
    let full = r.between(1, 4);
    let mut at = 333;
    for table in &ground.schema.tables {
        for _ in 0..table.rows {
            if !r.once_in(full + 1) {
                fill_row(r, ground, &mut area.words[at..at + 1 + table.columns]);
            }
            at += 1 + table.columns;
        }
    }
}

/// A live row; the masks of some have bits past the columns, or values in NULL columns.
fn fill_row(r: &mut Random, ground: &Ground, words: &mut [i64]) {
    let columns = words.len() - 1;
    let nulls = i64::from(r.byte() & r.byte() & r.byte());
    let tidy = !r.once_in(8);
    words[0] = 256
        + if tidy {
            nulls & ((1 << columns) - 1)
        } else {
            nulls
        };
    for (i, word) in words[1..].iter_mut().enumerate() {
        if nulls >> i & 1 == 0 || !tidy {
            *word = r.pick(&ground.values);
        }
    }
}

/// 32 kept numbers within their ranges.
fn kept_numbers(r: &mut Random, ground: &Ground) -> Vec<i64> {
    let schema = &ground.schema;
    let mut numbers = vec![0; 32];
    for (number, key) in numbers.iter_mut().zip(&schema.keys) {
        if r.once_in(3) {
            *number = r.edged(0, schema.tables[key.child].rows) as i64;
        }
    }
    numbers
}

/// Opens levels over a journal of random records.
pub fn open_levels(r: &mut Random, ground: &Ground, area: &mut Area) {
    let open = r.edged(1, 9);
    let used = r.edged(0, ground.schema.room.min(30));
    area.words[0] = open as i64;
    area.words[1] = r.between(1, 2) as i64;
    area.words[2] = used as i64;
    let mut use_below = 0;
    for level in 1..=open {
        if level > 1 {
            use_below = r.edged(use_below, used);
        }
        let saved = kept_numbers(r, ground);
        area.level_mut(level)[0] = use_below as i64;
        area.level_mut(level)[1..].copy_from_slice(&saved);
    }
    for record in 0..used {
        fill_record(r, ground, area, record);
    }
}

fn fill_record(r: &mut Random, ground: &Ground, area: &mut Area, record: usize) {
    let tables = &ground.schema.tables;
    let rows: usize = tables.iter().map(|t| t.words()).sum();
    let at = 333 + rows + 10 * record;
    let table = r.between(0, tables.len() - 1);
    let row = r.between(0, tables[table].rows - 1);
    area.words[at] = (table * 1024 + row) as i64;
    area.words[at + 1] = if r.once_in(2) { 0 } else { state(r) };
    for word in &mut area.words[at + 2..at + 10] {
        *word = r.pick(&ground.values);
    }
}

/// A state word: live, or one of those beside.
pub fn state(r: &mut Random) -> i64 {
    let live = 256 + i64::from(r.byte());
    let any = r.word() as i64;
    let others = [0, 1, 255, 256, 511, 512, -1, i64::MIN, i64::MAX, any];
    if r.once_in(2) {
        live
    } else {
        r.pick(&others)
    }
}

/// A chain: row i begins with i, each further column is one less, so it refers to row i - 1; the
/// first refers to none. The rows past the chain refer to none, or each to a row of it. Rows stand
/// in any order. Inserts from the first on lead to it.
pub fn chained(r: &mut Random, ground: &Ground) -> Vec<i64> {
    let mut area = ground.area(&ground.fresh());
    let table = &ground.schema.tables[0];
    let mut places: Vec<usize> = (0..table.rows).collect();
    match r.between(0, 2) {
        0 => {}
        1 => places.reverse(),
        _ => r.shuffle(&mut places),
    }
    let length = if r.once_in(2) {
        r.between(16, 18)
    } else {
        r.between(table.rows - 3, table.rows)
    };
    let live = r.pick(&[length, table.rows, table.rows]);
    let branched = r.once_in(2);
    for (i, &place) in places[..live].iter().enumerate() {
        let after = if i < length || !branched {
            i
        } else {
            r.between(1, length)
        };
        let mut row: Row = (0..table.columns as i64)
            .map(|c| Some(after as i64 - c))
            .collect();
        row[0] = Some(i as i64);
        if i == 0 || i >= length && !branched {
            row[table.columns - 1] = None;
        }
        area.put_row(0, place, Some(&row));
    }
    area.words
}

/// Each row of table 0 refers by its second column to a key that no row has.
pub fn all_orphans(ground: &Ground) -> Vec<i64> {
    let mut area = ground.area(&ground.fresh());
    for row in 0..ground.schema.tables[0].rows {
        area.put_row(0, row, Some(&vec![Some(row as i64), Some(-1)]));
    }
    area.words
}

/// Every row of every table has these values.
pub fn all_alike(ground: &Ground, row: &Row) -> Vec<i64> {
    let mut area = ground.area(&ground.fresh());
    for (number, table) in ground.schema.tables.iter().enumerate() {
        (0..table.rows).for_each(|place| area.put_row(number, place, Some(row)));
    }
    area.words
}
