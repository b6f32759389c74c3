//! Mistakes in folded columns: which bytes are folded, and by whose mark.

use super::other_bytes::OtherBytes;
use super::refusals::set_check;
use super::Mistake;
use crate::model::change::{own_mark, unique};
use crate::model::folding::{by_bytes, compared, folded, Mark};
use crate::model::keys::equal;
use crate::model::schema::{mark_of, parent_mark, Key, Schema, Table};
use crate::model::search::met_by;
use crate::schema_bytes::view::{table_at, View};

/// Which bytes are folded.
pub const BYTES: &[Mistake] = &[
    ("5B folded", |rules| {
        rules.read = |bytes| folding(bytes, |word| raising(word, 0x41, 0x5B));
    }),
    ("40 folded", |rules| {
        rules.read = |bytes| folding(bytes, |word| raising(word, 0x40, 0x5A));
    }),
    ("5A not folded", |rules| {
        rules.read = |bytes| folding(bytes, |word| raising(word, 0x41, 0x59));
    }),
    ("41 not folded", |rules| {
        rules.read = |bytes| folding(bytes, |word| raising(word, 0x42, 0x5A));
    }),
    ("bytes from 80 on folded", |rules| {
        rules.read = |bytes| {
            folding(bytes, |word| {
                by_bytes(word, |byte| match byte & 0x7F {
                    0x41..=0x5A => byte + 0x20,
                    _ => byte,
                })
            })
        };
    }),
    ("one bit of every byte passed over", |rules| {
        rules.read = |bytes| folding(bytes, |word| by_bytes(word, |byte| byte | 0x20));
    }),
    ("one bit of every byte from 40 on passed over", |rules| {
        rules.read = |bytes| {
            folding(bytes, |word| {
                by_bytes(word, |byte| if byte < 0x40 { byte } else { byte | 0x20 })
            })
        };
    }),
    ("the lowest byte alone folded", |rules| {
        rules.read = |bytes| folding(bytes, |word| in_part(word, 0xFF));
    }),
    ("the highest byte not folded", |rules| {
        rules.read = |bytes| folding(bytes, |word| in_part(word, i64::MAX >> 7));
    }),
    ("the lower four bytes alone folded", |rules| {
        rules.read = |bytes| folding(bytes, |word| in_part(word, 0xFFFF_FFFF));
    }),
    ("negative words not folded", |rules| {
        rules.read = |bytes| folding(bytes, |word| if word < 0 { word } else { folded(word) });
    }),
    ("words up to a zero byte folded", |rules| {
        rules.read = |bytes| folding(bytes, up_to_zero);
    }),
];

/// By whose mark values are compared.
pub const MARKS: &[Mistake] = &[
    ("no column folded", |rules| {
        rules.read = |bytes| marking(bytes, |_| None);
    }),
    ("every column folded", |rules| {
        rules.read = |bytes| marking(bytes, |_| Some(folded));
    }),
    ("a foreign key by the child column's mark", |rules| {
        rules.read = |bytes| pairing(bytes, child_mark);
    }),
    ("a foreign key by either mark", |rules| {
        rules.read = |bytes| {
            pairing(bytes, |tables, key, pair| {
                parent_mark(tables, key, pair).or(child_mark(tables, key, pair))
            })
        };
    }),
    ("a foreign key where both marks agree", |rules| {
        rules.read = |bytes| {
            pairing(bytes, |tables, key, pair| {
                parent_mark(tables, key, pair).and(child_mark(tables, key, pair))
            })
        };
    }),
    ("a pair by the mark of the column of its number", |rules| {
        rules.read = |bytes| pairing(bytes, |tables, key, pair| mark_of(tables, key.parent, pair));
    }),
    ("every pair by the first pair's mark", |rules| {
        rules.read = |bytes| pairing(bytes, |tables, key, _| parent_mark(tables, key, 0));
    }),
    ("every pair by the last pair's mark", |rules| {
        rules.read = |bytes| {
            pairing(bytes, |tables, key, _| {
                parent_mark(tables, key, key.parent_columns.len() - 1)
            })
        };
    }),
    ("a parent's column sought in the child table", |rules| {
        rules.read = |bytes| {
            pairing(bytes, |tables, key, pair| {
                mark_of(tables, key.child, key.parent_columns[pair])
            })
        };
    }),
    ("pairs of a deferred key not folded", |rules| {
        rules.read = |bytes| {
            pairing(bytes, |tables, key, pair| {
                parent_mark(tables, key, pair).filter(|_| !key.deferred)
            })
        };
    }),
    ("unique keys not folded", |rules| {
        set_check(rules, 17, |_, area, change| {
            unique(area, change, |_, _| None, equal)
        });
    }),
    ("every column of a unique key folded", |rules| {
        set_check(rules, 17, |_, area, change| {
            unique(area, change, |_, _| Some(folded), equal)
        });
    }),
    ("unique keys folded if their first column is", |rules| {
        set_check(rules, 17, |_, area, change| {
            unique(area, change, |table, _| own_mark(table, 0), equal)
        });
    }),
    ("kinds 10 and 11 find by no mark", |rules| {
        rules.met = |_, area, search, row| met_by(None, area, search, row);
    }),
    ("kinds 10 and 11 fold every column", |rules| {
        rules.met = |_, area, search, row| met_by(Some(folded), area, search, row);
    }),
    ("kinds 10 and 11 by the mark of the column set", |rules| {
        rules.met = |_, area, search, row| {
            let column = search.set.map_or(search.column, |set| set.0);
            met_by(
                area.schema.tables[search.table].marks[column],
                area,
                search,
                row,
            )
        };
    }),
    ("kinds 10 and 11 fold the value sought alone", |rules| {
        rules.met = |_, area, search, row| {
            let mark = area.schema.tables[search.table].marks[search.column];
            let live = area.row(search.table, row);
            live.filter(|row| row[search.column] == compared(mark, search.sought))
        };
    }),
];

/// Engines that read the masks of folded columns as others.
pub const READINGS: &[OtherBytes] = &[
    (
        "the folded mask of the first table taken for every table",
        |bytes| {
            let first = View(bytes).folded(0) as u8;
            set_masks(bytes, |columns, _| first & low(columns));
        },
    ),
    ("the folded mask read from its highest bit on", |bytes| {
        set_masks(bytes, |columns, mask| {
            if mask <= low(columns) && columns > 0 && columns <= 8 {
                mask.reverse_bits() >> (8 - columns)
            } else {
                mask
            }
        });
    }),
    ("folded bits of no column passed over", |bytes| {
        set_masks(bytes, |columns, mask| mask & low(columns));
    }),
];

/// The mask of so many columns.
fn low(columns: usize) -> u8 {
    (1u16 << columns.min(8)).wrapping_sub(1) as u8
}

/// The word with its bytes from one to another raised.
fn raising(word: i64, from: u8, to: u8) -> i64 {
    by_bytes(word, |byte| match byte {
        _ if (from..=to).contains(&byte) => byte + 0x20,
        _ => byte,
    })
}

/// The word folded in the bits of a mask.
fn in_part(word: i64, mask: i64) -> i64 {
    folded(word) & mask | word & !mask
}

/// The word folded up to its first zero byte.
fn up_to_zero(word: i64) -> i64 {
    let bytes = word.to_le_bytes();
    let used = bytes.iter().take_while(|&&byte| byte != 0).count();
    match used {
        8 => folded(word),
        _ => in_part(word, (1 << (8 * used)) - 1),
    }
}

/// The schema with every folded column folded in another way.
fn folding(bytes: &[u8], fold: fn(i64) -> i64) -> Result<Schema, i64> {
    marking(bytes, |mark| mark.and(Some(fold)))
}

/// The schema with other marks of its columns.
fn marking(bytes: &[u8], other: impl Fn(Mark) -> Mark) -> Result<Schema, i64> {
    let mut schema = Schema::read(bytes)?;
    let marks = schema.tables.iter_mut().flat_map(|table| &mut table.marks);
    marks.for_each(|mark| *mark = other(*mark));
    Ok(schema.with_marks(parent_mark))
}

/// The schema with other marks of its foreign keys' pairs.
fn pairing(bytes: &[u8], mark: fn(&[Table], &Key, usize) -> Mark) -> Result<Schema, i64> {
    Schema::read(bytes).map(|schema| schema.with_marks(mark))
}

fn child_mark(tables: &[Table], key: &Key, pair: usize) -> Mark {
    mark_of(tables, key.child, key.child_columns[pair])
}

/// Sets the folded mask in each table record that lies in the bytes, given the columns and the mask.
fn set_masks(bytes: &mut [u8], other: impl Fn(usize, u8) -> u8) {
    for table in 0..View(bytes).tables().min(16) {
        let columns = View(bytes).columns(table);
        if let Some(byte) = bytes.get_mut(table_at(table) + 9) {
            *byte = other(columns, *byte);
        }
    }
}
