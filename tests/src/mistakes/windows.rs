//! Mistakes in windowed keys: which days lie in a window, which changes are changes of the key, what
//! RESTRICT refuses, and which orphans there are.

use super::other_bytes::OtherBytes;
use super::Mistake;
use crate::model::area::Area;
use crate::model::folding::{compared, folded, Mark};
use crate::model::keys::{full, half_filled, having, maps, orphan, row_maps};
use crate::model::list;
use crate::model::rules::Rules;
use crate::model::schema::{
    has_end, has_unique, holds, mark_of, parent_mark, Action, Key, Match, Row, Schema, Table,
    Value, Window,
};
use crate::model::statement;
use crate::model::walk::{self, Walk};
use crate::schema_bytes::view::View;

/// Which days lie in a window.
pub const DAYS: &[Mistake] = &[
    ("the end inside the window", |rules| {
        rules.read = |bytes| {
            holding(bytes, |day, first, end| {
                by(day, first, end, |d, f, e| f <= d && d <= e)
            })
        };
    }),
    ("the first day outside the window", |rules| {
        rules.read = |bytes| {
            holding(bytes, |day, first, end| {
                by(day, first, end, |d, f, e| f < d && d < e)
            })
        };
    }),
    ("days compared without sign", |rules| {
        rules.read = |bytes| {
            holding(bytes, |day, first, end| {
                let [day, first, end] = [day, first, end].map(|day| day.map(|day| day as u64));
                full_days(day, first, end) && first <= day && day < end
            })
        };
    }),
    ("days told apart by subtraction", |rules| {
        rules.read = |bytes| {
            holding(bytes, |day, first, end| {
                by(day, first, end, |d, f, e| {
                    d.wrapping_sub(f) >= 0 && e.wrapping_sub(d) > 0
                })
            })
        };
    }),
    ("days folded where their columns are", |rules| {
        rules.read = |bytes| Schema::read(bytes).map(|schema| schema.with_marks(plain_mark));
    }),
    ("the first day alone serves", |rules| {
        rules.read = |bytes| {
            holding(bytes, |day, first, end| {
                holds(day, first, end) && day == first
            })
        };
    }),
    ("the end not looked at", |rules| {
        rules.read = |bytes| {
            holding(bytes, |day, first, end| {
                full_days(day, first, end) && first <= day
            })
        };
    }),
    ("the first day not looked at", |rules| {
        rules.read = |bytes| {
            holding(bytes, |day, first, end| {
                full_days(day, first, end) && day < end
            })
        };
    }),
    ("NULL in the end taken for no end", |rules| {
        rules.read = |bytes| {
            holding(bytes, |day, first, end| match end {
                None => day.is_some() && first.is_some() && first <= day,
                _ => holds(day, first, end),
            })
        };
    }),
    ("NULL in the first day taken for no first day", |rules| {
        rules.read = |bytes| {
            holding(bytes, |day, first, end| match first {
                None => day.is_some() && end.is_some() && day < end,
                _ => holds(day, first, end),
            })
        };
    }),
    ("NULL in the end read as its word 0", |rules| {
        rules.read = |bytes| holding(bytes, |day, first, end| holds(day, first, end.or(Some(0))));
    }),
    ("a row without a day taken", |rules| {
        rules.maps = |key, child, parent| {
            let last = child.len() - 1;
            let no_day = key.window.is_some() && child[last].is_none() && full(parent);
            no_day && child[..last] == parent[..last] || maps(key, child, parent)
        };
    }),
    ("a windowed key read as another key", |rules| {
        rules.read = |bytes| windows(bytes, |_, _| None);
    }),
    (
        "the end in the column after the first key column",
        |rules| {
            rules.read = |bytes| {
                windows(bytes, |key, window| {
                    let end = key.parent_columns[0] + 1;
                    Some(Window { end, ..window })
                })
            };
        },
    ),
    (
        "the end in the column after the highest key column",
        |rules| {
            rules.read = |bytes| {
                windows(bytes, |key, window| {
                    let end = key.parent_columns.iter().max().map_or(0, |last| last + 1);
                    Some(Window { end, ..window })
                })
            };
        },
    ),
    (
        "the other columns of a windowed key not compared",
        |rules| {
            rules.maps = |key, child, parent| match key.window {
                Some(_) => {
                    let last = child.len() - 1;
                    full(child)
                        && full(parent)
                        && holds(child[last], parent[last], parent[last + 1])
                }
                None => maps(key, child, parent),
            };
        },
    ),
];

/// Whether a windowed key is broken.
pub const BROKEN: &[Mistake] = &[
    ("an end in the key breaks no key", |rules| {
        rules.read = |bytes| {
            breaking(bytes, |parent, key| {
                key.window
                    .map_or(true, |window| window.end < parent.columns)
            })
        };
    }),
    ("an end that is missing breaks no key", |rules| {
        rules.read = |bytes| {
            breaking(bytes, |_, key| {
                let in_key = |window: Window| key.parent_columns.contains(&window.end);
                !key.window.map_or(false, in_key)
            })
        };
    }),
    ("a window without an end taken for none", |rules| {
        rules.read = |bytes| {
            let mut schema = Schema::read(bytes)?;
            let tables = schema.tables.clone();
            for key in &mut schema.keys {
                let parent = tables.get(key.parent);
                let ends = parent.map_or(true, |parent| has_end(parent, key));
                key.window = key.window.filter(|_| ends);
            }
            Ok(schema
                .with_marks(parent_mark)
                .with_broken(has_unique, has_end))
        };
    }),
    ("the end in a unique key breaks a windowed key", |rules| {
        rules.read = |bytes| {
            breaking(bytes, |parent, key| {
                let end = key.window.map(|window| window.end);
                let mut unique = parent.unique.iter().flatten();
                has_end(parent, key) && !unique.any(|&column| Some(column) == end)
            })
        };
    }),
];

/// Which changes of a parent row are changes of its key, and what RESTRICT refuses.
pub const CHANGES: &[Mistake] = &[
    ("a change of the end no change of the key", |rules| {
        rules.fires = |key, old, new| {
            let n = key.parent_columns.len();
            let own = |row: &Row| key.compared(row)[..n].to_vec();
            full(old) && new.map_or(true, |new| own(new) != own(old))
        };
    }),
    ("NULL in the new end no change of the key", |rules| {
        rules.fires = |key, old, new| {
            let n = key.parent_columns.len();
            let cleared = |new: &Row| new.len() > n && new[n].is_none() && new[..n] == old[..n];
            walk::fires(key, old, new) && !new.map_or(false, cleared)
        };
    }),
    (
        "a first day in another spelling no change of the key",
        |rules| {
            rules.fires = |key, old, new| {
                let alike = |new: &Row| key.window.is_some() && in_spelling(old, new);
                walk::fires(key, old, new) && !new.map_or(false, alike)
            };
        },
    ),
    ("RESTRICT refuses every update of a window", |rules| {
        rules.restricts = |_, _, _| true;
    }),
    ("RESTRICT judged by the old row", |rules| {
        rules.restricts = |area, walk, child| {
            walk::restricts(area, walk, child)
                && (walk.change.new.is_none() || walk.key.window.is_none())
        };
    }),
    (
        "RESTRICT passes a row that another parent serves",
        |rules| {
            rules.restricts = |area, walk, child| {
                walk::restricts(area, walk, child)
                    && !(is_windowed(walk) && is_served(area, walk, child))
            };
        },
    ),
    (
        "RESTRICT passes an update that another parent makes good",
        |rules| {
            rules.restricts = |area, walk, child| {
                let update = walk.change.new.is_some() && is_windowed(walk);
                walk::restricts(area, walk, child) && !(update && is_served(area, walk, child))
            };
        },
    ),
    ("RESTRICT judged by the row as it then is", |rules| {
        rules.restricts = |area, walk, child| {
            let now = area.row(walk.change.table, walk.change.row);
            match now.filter(|_| is_windowed(walk) && walk.change.new.is_some()) {
                Some(now) => !row_maps(walk.key, child, &now),
                None => walk::restricts(area, walk, child),
            }
        };
    }),
    ("RESTRICT looks at the first row taken alone", |rules| {
        rules.restricts = |area, walk, child| {
            let first = having(area, walk.key, &walk.old_key).into_iter().next();
            let first = first.and_then(|row| area.row(walk.key.child, row));
            walk::restricts(area, walk, first.as_ref().unwrap_or(child))
        };
    }),
    ("RESTRICT passes the deletion of a window", |rules| {
        rules.restricts = |area, walk, child| {
            let deletion = walk.change.new.is_none() && is_windowed(walk);
            !deletion && walk::restricts(area, walk, child)
        };
    }),
    (
        "RESTRICT of a windowed key strikes as NO ACTION does",
        |rules| {
            rules.action = |key, deletion| match walk::action(key, deletion) {
                Action::Restrict if key.window.is_some() => Action::NoAction,
                action => action,
            };
        },
    ),
    (
        "NO ACTION of a windowed key strikes as RESTRICT does",
        |rules| {
            rules.action = |key, deletion| match walk::action(key, deletion) {
                Action::NoAction if key.window.is_some() => Action::Restrict,
                action => action,
            };
        },
    ),
];

/// Orphans of windowed keys.
pub const ORPHANS: &[Mistake] = &[
    ("MATCH FULL passes over the day", |rules| {
        rules.orphan = |key, child, parents| {
            let others = child[..child.len() - 1].to_vec();
            let half = key.matching == Match::Full && half_filled(child);
            match key.window {
                Some(_) if half => half_filled(&others),
                _ => orphan(key, child, parents),
            }
        };
    }),
    ("a row without a day no orphan under MATCH FULL", |rules| {
        rules.orphan = |key, child, parents| {
            let no_day = key.window.is_some() && child[child.len() - 1].is_none();
            !no_day && orphan(key, child, parents)
        };
    }),
    (
        "a row without a day an orphan under MATCH SIMPLE",
        |rules| {
            rules.orphan = |key, child, parents| {
                let no_day = key.window.is_some() && child[child.len() - 1].is_none();
                no_day && half_filled(child) || orphan(key, child, parents)
            };
        },
    ),
    ("orphans of windowed keys not counted", |rules| {
        rules.orphan = |key, child, parents| key.window.is_none() && orphan(key, child, parents);
    }),
    ("orphans listed by the first day", |rules| {
        rules.listed = |area, _| {
            let schema = on_first_days(area.schema);
            list::orphans(&Rules::of_the_paper(), &under(&schema, area))
        };
    }),
    ("kept numbers moved by the first day", |rules| {
        rules.moves = |rules, before, after| {
            let schema = on_first_days(before.schema);
            statement::moves(rules, &under(&schema, before), &under(&schema, after))
        };
    }),
    (
        "a row stranded although a twin of its parent serves it",
        |rules| {
            rules.moves = |rules, before, after| {
                let stranded = stranded_by_twins(before, after);
                let moves = statement::moves(rules, before, after).into_iter();
                moves.zip(stranded).map(|(by, more)| by + more).collect()
            };
        },
    ),
];

/// Engines that read the bytes of the windows as others.
pub const READINGS: &[OtherBytes] = &[
    ("windowed as the first key is", |bytes| {
        let first = View(bytes).key_byte(0, 15) as u8;
        set_windowed(bytes, |_| first);
    }),
    ("a windowed byte of 2 taken as 1", |bytes| {
        set_windowed(bytes, |windowed| if windowed == 2 { 1 } else { windowed });
    }),
    ("the lowest bit of the windowed byte looked at", |bytes| {
        set_windowed(bytes, |windowed| windowed & 1);
    }),
];

/// Whether no day is NULL and they stand so: the day, the first day and the end.
fn by(day: Value, first: Value, end: Value, such: fn(i64, i64, i64) -> bool) -> bool {
    match (day, first, end) {
        (Some(day), Some(first), Some(end)) => such(day, first, end),
        _ => false,
    }
}

fn full_days<T>(day: Option<T>, first: Option<T>, end: Option<T>) -> bool {
    day.is_some() && first.is_some() && end.is_some()
}

/// The schema with another reading of the days of windows.
fn holding(bytes: &[u8], holds: fn(Value, Value, Value) -> bool) -> Result<Schema, i64> {
    let schema = Schema::read(bytes)?;
    Ok(schema.with_windows(|_, window| Some(Window { holds, ..window })))
}

/// The schema with other windows, and the marks and broken keys that follow from them.
fn windows(bytes: &[u8], other: fn(&Key, Window) -> Option<Window>) -> Result<Schema, i64> {
    let schema = Schema::read(bytes)?.with_windows(other);
    Ok(schema
        .with_marks(parent_mark)
        .with_broken(has_unique, has_end))
}

/// The schema with another reading of whether a parent has an end.
fn breaking(bytes: &[u8], ends: fn(&Table, &Key) -> bool) -> Result<Schema, i64> {
    Schema::read(bytes).map(|schema| schema.with_broken(has_unique, ends))
}

/// The mark of a parent column, also of a first day.
fn plain_mark(tables: &[Table], key: &Key, pair: usize) -> Mark {
    mark_of(tables, key.parent, key.parent_columns[pair])
}

/// Whether nothing but the first day is another one, and that is the same without regard to capitals.
fn in_spelling(old: &Row, new: &Row) -> bool {
    let (first, end) = (old.len() - 2, old.len() - 1);
    let letters = |row: &Row| compared(Some(folded), row[first]);
    old[..first] == new[..first] && old[end] == new[end] && letters(old) == letters(new)
}

fn is_windowed(walk: &Walk) -> bool {
    walk.key.window.is_some()
}

/// Whether a live parent row serves the child row.
fn is_served(area: &Area, walk: &Walk, child: &Row) -> bool {
    twins(area, walk.key, child) > 0
}

/// How many live parent rows serve a child row.
fn twins(area: &Area, key: &Key, child: &Row) -> usize {
    let parents = area.live_rows(key.parent).into_iter();
    parents
        .filter(|(_, parent)| row_maps(key, child, parent))
        .count()
}

/// For each foreign key, how many child rows of a windowed one stay as they are and lose a parent,
/// while another serves them.
fn stranded_by_twins(before: &Area, after: &Area) -> Vec<i64> {
    let loses = |key: &Key, child: &Row| {
        let left = twins(after, key, child);
        left > 0 && left < twins(before, key, child)
    };
    let count = |key: &Key| {
        let rows = before.live_rows(key.child).into_iter();
        let stays = |number: usize| after.row(key.child, number);
        rows.filter(|(number, row)| stays(*number).as_ref() == Some(row) && loses(key, row))
            .count() as i64
    };
    let counted = |key: &Key| match key.window {
        Some(_) if !key.broken => count(key),
        _ => 0,
    };
    before.schema.keys.iter().map(counted).collect()
}

/// The schema with windows in which the first day lies alone.
fn on_first_days(schema: &Schema) -> Schema {
    let first: fn(Value, Value, Value) -> bool =
        |day, first, end| holds(day, first, end) && day == first;
    let schema = schema.clone();
    schema.with_windows(|_, window| {
        Some(Window {
            holds: first,
            ..window
        })
    })
}

/// The area taken with another schema.
fn under<'s>(schema: &'s Schema, area: &Area) -> Area<'s> {
    Area {
        schema,
        words: area.words.clone(),
    }
}

/// Sets the windowed byte in each record of a foreign key that lies in the bytes.
fn set_windowed(bytes: &mut [u8], other: impl Fn(u8) -> u8) {
    let view = View(bytes);
    let keys = 0..view.keys().min(32);
    let places: Vec<usize> = keys.map(|key| view.key_at(key) + 15).collect();
    for place in places {
        if let Some(byte) = bytes.get_mut(place) {
            *byte = other(*byte);
        }
    }
}
