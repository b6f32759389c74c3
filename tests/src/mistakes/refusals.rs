//! Mistakes in the checks: which there are, their limits, their order, and what a refusal leaves.

use super::Mistake;
use crate::model::area::Area;
use crate::model::change::{own_mark, unique, Change, Check};
use crate::model::damage::most_kept;
use crate::model::rules::Rules;

pub const ALL: &[Mistake] = &[
    ("too deep with none used", |rules| {
        set_check(rules, 14, |_, _, change| change.depth <= 1);
    }),
    ("depth 17 let pass", |rules| {
        set_check(rules, 14, |_, _, change| change.depth <= 17);
    }),
    ("depth 16 refused", |rules| {
        set_check(rules, 14, |_, _, change| change.depth <= 15);
    }),
    ("journal full with none used", |rules| {
        set_check(rules, 15, |_, area, _| {
            (1..area.schema.room).contains(&area.used())
        });
    }),
    ("the journal's last record not used", |rules| {
        set_check(rules, 15, |_, area, _| area.used() + 1 < area.schema.room);
    }),
    ("journal room judged before depth", |rules| {
        move_check(rules, 15, 0)
    }),
    ("NOT NULL judged before journal room", |rules| {
        move_check(rules, 16, 1)
    }),
    ("unique judged before NOT NULL", |rules| {
        move_check(rules, 17, 3)
    }),
    ("unique not judged", |rules| {
        rules.checks.retain(|check| check.0 != 17)
    }),
    ("NULL in a unique key equals NULL", |rules| {
        set_check(rules, 17, |_, area, change| {
            unique(area, change, own_mark, |one, other| one == other)
        });
    }),
    ("20 judged before 19", |rules| rules.ends.swap(0, 1)),
    ("19 not judged", |rules| {
        rules.ends.retain(|end| end.0 != 19)
    }),
    ("immediate keys wait inside a transaction", |rules| {
        set_end(rules, |area, key| {
            area.in_transaction() || area.kept()[key] == 0
        });
    }),
    ("deferred keys wait outside a transaction", |rules| {
        set_end(rules, |area, key| {
            area.schema.keys[key].deferred || area.kept()[key] == 0
        });
    }),
    ("a refused statement leaves the journal's words", |rules| {
        rules.refused = |area, entry| area.words.copy_from_slice(&entry.words);
    }),
    ("a refused statement leaves what it changed", |rules| {
        rules.refused = |_, _| {}
    }),
    ("a row keeps its values when it is deleted", |rules| {
        rules.write = |area, table, row, new| {
            let old = area.row(table, row);
            area.journal(table, row);
            area.put_row(table, row, new.or(old.as_ref()));
            if new.is_none() {
                *state_of(area, table, row) = 0;
            }
        };
    }),
    ("a write that alters no value not counted", |rules| {
        rules.write = |area, table, row, new| {
            if area.row(table, row).as_ref() != new {
                area.journal(table, row);
                area.put_row(table, row, new);
            }
        };
    }),
    ("new words in the journal", |rules| {
        rules.write = |area, table, row, new| {
            area.put_row(table, row, new);
            area.journal(table, row);
        };
    }),
    ("mask bits past the columns let pass", |rules| {
        drop_form(rules, "mask")
    }),
    ("values of NULL columns let pass", |rules| {
        drop_form(rules, "values of NULL")
    }),
    ("values past the columns let pass", |rules| {
        drop_form(rules, "values of no column")
    }),
    ("unused words let pass", |rules| {
        drop_form(rules, "unused words")
    }),
    (
        "a kept number one above the child's rows let pass",
        |rules| {
            set_form(rules, "kept numbers", |area| {
                numbers_let_pass(area, area.kept())
            });
        },
    ),
    (
        "a saved number one above the child's rows let pass",
        |rules| {
            set_form(rules, "saved numbers", |area| {
                (1..=area.open()).all(|level| numbers_let_pass(area, &area.level(level)[1..]))
            });
        },
    ),
    ("header words at odds let pass", |rules| {
        set_form(rules, "words 0 to 3 in accord", |_| true);
    }),
    ("level 1's journal use judged like a later one", |rules| {
        set_form(rules, "journal use of level 1", |area| {
            area.open() == 0 || (0..=area.words[2]).contains(&area.level(1)[0])
        });
    }),
];

/// The check of a refusal.
pub fn check_of(rules: &mut Rules, code: i64) -> &mut Check {
    let slot = rules.checks.iter_mut().find(|check| check.0 == code);
    slot.expect("there is such a check")
}

pub fn set_check(rules: &mut Rules, code: i64, holds: fn(&Rules, &Area, &Change) -> bool) {
    check_of(rules, code).1 = holds;
}

/// Moves the check of a refusal to this place among the others.
pub fn move_check(rules: &mut Rules, code: i64, place: usize) {
    let check = *check_of(rules, code);
    rules.checks.retain(|other| other.0 != code);
    rules.checks.insert(place, check);
}

/// Replaces the check of refusal 20.
fn set_end(rules: &mut Rules, holds: fn(&Area, usize) -> bool) {
    rules.ends[1].1 = holds;
}

/// Drops one condition of the form of a call.
pub fn drop_form(rules: &mut Rules, name: &str) {
    let all = rules.call_forms.len();
    rules.call_forms.retain(|form| form.0 != name);
    assert!(rules.call_forms.len() < all, "there is such a condition");
}

/// Replaces one condition of the form of an area.
pub fn set_form(rules: &mut Rules, name: &str, holds: fn(&Area) -> bool) {
    let slot = rules.area_forms.iter_mut().find(|form| form.0 == name);
    slot.expect("there is such a condition").1 = holds;
}

/// Whether kept numbers are at most one above their range.
fn numbers_let_pass(area: &Area, numbers: &[i64]) -> bool {
    let mut numbers = numbers.iter().enumerate();
    numbers.all(|(key, number)| (0..=most_kept(area, key) + 1).contains(number))
}

/// The state word of a row.
fn state_of<'a>(area: &'a mut Area, table: usize, row: usize) -> &'a mut i64 {
    let tables = &area.schema.tables;
    let before: usize = tables[..table].iter().map(|t| t.words()).sum();
    &mut area.words[333 + before + row * (1 + tables[table].columns)]
}
