//! A schema as the model keeps it.

use super::folding::{compared_key, folded, Mark};
use crate::schema_bytes::rules::Rules;
use crate::schema_bytes::view::{bit, table_at, View};

/// NULL or a number.
pub type Value = Option<i64>;
pub type Row = Vec<Value>;

#[derive(Clone)]
pub struct Table {
    pub rows: usize,
    pub columns: usize,
    pub not_null: Vec<usize>,
    pub unique: Vec<Vec<usize>>,
    /// The mark of each column.
    pub marks: Vec<Mark>,
    pub defaults: Row,
}

#[derive(Clone, Copy, PartialEq)]
pub enum Action {
    NoAction,
    Restrict,
    SetNull,
    SetDefault,
    Cascade,
}

impl Action {
    /// The action as SQL says it.
    pub fn sql(self) -> &'static str {
        match self {
            Action::NoAction => "NO ACTION",
            Action::Restrict => "RESTRICT",
            Action::SetNull => "SET NULL",
            Action::SetDefault => "SET DEFAULT",
            Action::Cascade => "CASCADE",
        }
    }
}

/// What becomes of a child row with NULL in some but not all columns of the key.
#[derive(Clone, Copy, PartialEq)]
pub enum Match {
    /// It is no orphan.
    Simple,
    /// It is an orphan.
    Full,
}

impl Match {
    /// The match as SQL says it.
    pub fn sql(self) -> &'static str {
        match self {
            Match::Simple => "MATCH SIMPLE",
            Match::Full => "MATCH FULL",
        }
    }
}

/// The window of a parent row under a windowed key.
#[derive(Clone, Copy)]
pub struct Window {
    /// The parent column that holds the day after the last: the one after the last parent column.
    pub end: usize,
    /// Whether a day lies in the window of a first day and an end.
    pub holds: fn(Value, Value, Value) -> bool,
}

#[derive(Clone)]
pub struct Key {
    pub child: usize,
    pub parent: usize,
    pub deferred: bool,
    pub on_delete: Action,
    pub on_update: Action,
    pub child_columns: Vec<usize>,
    pub parent_columns: Vec<usize>,
    /// The mark by which each pair of columns is compared: that of the parent column. None where
    /// the parent column is missing, and for the days of a windowed key, of which the end is the last.
    pub marks: Vec<Mark>,
    pub matching: Match,
    /// None where the key is not windowed.
    pub window: Option<Window>,
    /// The parent table or a parent column is missing, no unique key of the parent has exactly the
    /// parent columns, or the end of a window is missing or in the key.
    pub broken: bool,
}

#[derive(Clone)]
pub struct Schema {
    /// How many records the journal has room for.
    pub room: usize,
    pub tables: Vec<Table>,
    pub keys: Vec<Key>,
}

impl Schema {
    /// The schema of the bytes, or refusal 1.
    pub fn read(bytes: &[u8]) -> Result<Schema, i64> {
        match Rules::of_the_paper().code(bytes) {
            0 => Ok(Schema::of_valid(View(bytes))),
            code => Err(code),
        }
    }

    fn of_valid(s: View) -> Schema {
        let schema = Schema {
            room: s.half(12),
            tables: (0..s.tables()).map(|t| table(s, t)).collect(),
            keys: (0..s.keys()).map(|k| key(s, k)).collect(),
        };
        let schema = schema.with_marks(parent_mark);
        schema.with_broken(has_unique, has_end)
    }

    /// The schema with each pair of columns of a foreign key compared by such a mark.
    pub fn with_marks(mut self, mark: fn(&[Table], &Key, usize) -> Mark) -> Schema {
        for key in &mut self.keys {
            let pairs = 0..key.child_columns.len();
            let marks = pairs.map(|pair| mark(&self.tables, key, pair));
            let end = key.window.map(|_| None);
            key.marks = marks.chain(end).collect();
        }
        self
    }

    /// The schema with those keys broken whose parent table is missing, does not serve the parent
    /// columns, or has no end for a windowed key.
    pub fn with_broken(
        mut self,
        serves: fn(&Table, &[usize]) -> bool,
        ends: fn(&Table, &Key) -> bool,
    ) -> Schema {
        for key in &mut self.keys {
            let parent = self.tables.get(key.parent);
            let whole = |parent: &Table| serves(parent, &key.parent_columns) && ends(parent, key);
            key.broken = !parent.map_or(false, whole);
        }
        self
    }

    /// The schema with other windows of its windowed keys.
    pub fn with_windows(mut self, other: impl Fn(&Key, Window) -> Option<Window>) -> Schema {
        for key in &mut self.keys {
            key.window = key.window.and_then(|window| other(key, window));
        }
        self
    }

    pub fn any_windowed(&self) -> bool {
        self.keys.iter().any(|key| key.window.is_some())
    }

    pub fn any_broken(&self) -> bool {
        self.keys.iter().any(|key| key.broken)
    }

    pub fn any_folded(&self) -> bool {
        let mut marks = self.tables.iter().flat_map(|table| &table.marks);
        marks.any(|mark| mark.is_some())
    }

    /// Whether the parent table of a key exists, and its parent columns.
    pub fn has_parent(&self, key: &Key) -> bool {
        let parent = self.tables.get(key.parent);
        let has_columns = |table: &Table| key.parent_columns.iter().all(|&c| c < table.columns);
        parent.map_or(false, has_columns)
    }

    /// How many words an area of this schema has.
    pub fn area_words(&self) -> usize {
        let rows: usize = self.tables.iter().map(Table::words).sum();
        333 + rows + 10 * self.room
    }
}

impl Table {
    /// How many words the rows take.
    pub fn words(&self) -> usize {
        self.rows * (1 + self.columns)
    }
}

impl Key {
    pub fn child_key(&self, row: &Row) -> Row {
        self.child_columns.iter().map(|&c| row[c]).collect()
    }

    /// The parent columns, and after them the end of a windowed key.
    pub fn columns_in_parent(&self) -> impl Iterator<Item = usize> + '_ {
        let end = self.window.map(|window| window.end);
        self.parent_columns.iter().copied().chain(end)
    }

    /// The values in these columns of a parent row. One that is missing reads as NULL: only a mistaken
    /// reading looks there.
    pub fn parent_key(&self, row: &Row) -> Row {
        let columns = self.columns_in_parent();
        columns.map(|c| row.get(c).copied().flatten()).collect()
    }

    /// The values of a child key or a parent key as they are compared.
    pub fn compared(&self, key: &Row) -> Row {
        compared_key(&self.marks, key)
    }
}

/// The mark by which a foreign key's pair of this number is compared: the parent column's, but none
/// for the days of a windowed key.
pub fn parent_mark(tables: &[Table], key: &Key, pair: usize) -> Mark {
    match key.window {
        Some(_) if pair + 1 == key.parent_columns.len() => None,
        _ => mark_of(tables, key.parent, key.parent_columns[pair]),
    }
}

/// The mark of a column: none where it is missing.
pub fn mark_of(tables: &[Table], table: usize, column: usize) -> Mark {
    *tables.get(table)?.marks.get(column)?
}

/// Whether exactly these columns are a unique key of the parent.
pub fn has_unique(parent: &Table, columns: &[usize]) -> bool {
    parent.unique.iter().any(|unique| same(unique, columns))
}

/// Whether the end of a windowed key is a column of the parent, and not in the key.
pub fn has_end(parent: &Table, key: &Key) -> bool {
    key.window.map_or(true, |window| {
        window.end < parent.columns && !key.parent_columns.contains(&window.end)
    })
}

/// Whether the first day is not after the day, and the end is. NULL lies in no window.
pub fn holds(day: Value, first: Value, end: Value) -> bool {
    match (day, first, end) {
        (Some(day), Some(first), Some(end)) => first <= day && day < end,
        _ => false,
    }
}

/// Whether two lists have the same columns, in any order.
pub fn same(one: &[usize], other: &[usize]) -> bool {
    one.len() == other.len() && one.iter().all(|column| other.contains(column))
}

/// The columns of a mask.
pub fn columns_of(mask: usize) -> Vec<usize> {
    (0..8).filter(|&i| bit(mask, i)).collect()
}

fn table(s: View, t: usize) -> Table {
    let masks = s.unique(t).iter().map(|&mask| usize::from(mask));
    let default = |column: usize| {
        let at = table_at(t) + 16 + 8 * column;
        let bytes = s.part(at, 8).try_into().expect("a default has eight bytes");
        (!bit(s.default_null(t), column)).then(|| i64::from_le_bytes(bytes))
    };
    let mark = |column: usize| bit(s.folded(t), column).then_some(folded as fn(i64) -> i64);
    Table {
        rows: s.half(table_at(t)),
        columns: s.columns(t),
        not_null: columns_of(s.not_null(t)),
        unique: masks.filter(|&mask| mask != 0).map(columns_of).collect(),
        marks: (0..s.columns(t)).map(mark).collect(),
        defaults: (0..s.columns(t)).map(default).collect(),
    }
}

fn key(s: View, k: usize) -> Key {
    let numbers =
        |columns: &[u8]| -> Vec<usize> { columns.iter().map(|&c| usize::from(c)).collect() };
    let parent_columns = numbers(s.parent_columns(k).0);
    let end = parent_columns.last().map_or(0, |last| last + 1);
    Key {
        child: s.child(k),
        parent: s.parent(k),
        deferred: s.key_byte(k, 2) == 1,
        on_delete: action(s.key_byte(k, 3)),
        on_update: action(s.key_byte(k, 4)),
        child_columns: numbers(s.child_columns(k).0),
        parent_columns,
        marks: Vec::new(),
        matching: match s.key_byte(k, 14) {
            0 => Match::Simple,
            _ => Match::Full,
        },
        window: (s.key_byte(k, 15) == 1).then_some(Window { end, holds }),
        broken: false,
    }
}

fn action(code: usize) -> Action {
    match code {
        0 => Action::NoAction,
        1 => Action::Restrict,
        2 => Action::SetNull,
        3 => Action::SetDefault,
        _ => Action::Cascade,
    }
}
