//! What is asked of a call on folded columns: which rows have parents, or unique keys, in other
//! spellings.

use super::seen::Seen;
use super::trace::Step;
use crate::model::area::Area;
use crate::model::change::Kind;
use crate::model::folding::{compared, folded};
use crate::model::form::Call;
use crate::model::keys::{equal, full, having, maps};
use crate::model::schema::{Action, Key, Row, Table, Value};

/// Whether two values differ as typed and are equal without regard to capitals.
pub fn respelled(one: Value, other: Value) -> bool {
    match (one, other) {
        (Some(one), Some(other)) => one != other && folded(one) == folded(other),
        _ => false,
    }
}

/// Whether two values differ in bytes of this kind: in this one and the one that is 20 (hexadecimal)
/// above it, and but for capitals in no others.
pub fn differ_in(byte: u8, one: Value, other: Value) -> bool {
    let (one, other) = match (one, other) {
        (Some(one), Some(other)) => (folded(one).to_le_bytes(), folded(other).to_le_bytes()),
        _ => return false,
    };
    let pairs = one.iter().zip(&other);
    let mut unequal = pairs.filter(|(one, other)| one != other);
    one != other && unequal.all(|(&a, &b)| a.min(b) == byte && a.max(b) == byte + 0x20)
}

/// Whether two keys or rows are equal without regard to capitals, with NULL in the same columns.
pub fn same_letters(one: &Row, other: &Row) -> bool {
    let mut pairs = one.iter().zip(other);
    pairs.all(|(&one, &other)| one == other || respelled(one, other))
}

/// The keys of live parent rows, as typed.
pub fn parent_keys(area: &Area, key: &Key) -> Vec<Row> {
    let parents = area.live_rows(key.parent).into_iter();
    parents.map(|(_, row)| key.parent_key(&row)).collect()
}

/// Whether one of these parent keys is equal to a child key.
pub fn has_parent(key: &Key, child_key: &Row, parent_keys: &[Row]) -> bool {
    let wanted = key.compared(child_key);
    let mut parents = parent_keys.iter();
    parents.any(|parent| maps(key, &wanted, &key.compared(parent)))
}

/// Whether two keys of a foreign key are equal and not spelled alike.
pub fn otherwise(key: &Key, one: &Row, other: &Row) -> bool {
    one != other && equal(&key.compared(one), &key.compared(other))
}

/// The values of a unique key in a row as they are compared.
fn unique_values(table: &Table, unique: &[usize], row: &Row) -> Row {
    let columns = unique.iter();
    columns
        .map(|&column| compared(table.marks[column], row[column]))
        .collect()
}

impl<'a> Seen<'a> {
    fn whole_keys(&self) -> impl Iterator<Item = &'a Key> {
        self.schema.keys.iter().filter(|key| !key.broken)
    }

    /// Whether a search of either kind passes over a live row, or finds one, that has such a value
    /// beside the one sought, given whether the column is folded.
    pub fn searches(&self, finds: bool, such: impl Fn(bool, Value, Value) -> bool) -> bool {
        let search = match self.call {
            Call::Search(search) => search,
            _ => return false,
        };
        let mark = self.schema.tables[search.table].marks[search.column];
        let mut rows = self.before.live_rows(search.table).into_iter();
        rows.any(|(_, row)| {
            let value = row[search.column];
            let found = compared(mark, value) == compared(mark, search.sought);
            found == finds && such(mark.is_some(), value, search.sought)
        })
    }

    /// The child keys, as typed, of the rows that were written.
    fn written_keys(&self, key: &'a Key) -> impl Iterator<Item = Row> + '_ {
        self.written(key.child).map(|row| key.child_key(&row))
    }

    /// Whether a row that was written has such a parent in another spelling: the foreign key, the
    /// child key and the parent key.
    pub fn served(&self, such: impl Fn(&Key, &Row, &Row) -> bool) -> bool {
        self.whole_keys().any(|key| {
            let parents = parent_keys(&self.after, key);
            self.written_keys(key).any(|child| {
                let mut parents = parents.iter();
                parents.any(|parent| otherwise(key, &child, parent) && such(key, &child, parent))
            })
        })
    }

    /// Whether a row that was written has no NULL in its child key and no parent, and stands so to
    /// some parent row.
    pub fn unserved(&self, such: impl Fn(&Key, &Row, &Row) -> bool) -> bool {
        self.whole_keys().any(|key| {
            let parents = parent_keys(&self.after, key);
            self.written_keys(key).filter(full).any(|child| {
                !has_parent(key, &child, &parents)
                    && parents.iter().any(|parent| such(key, &child, parent))
            })
        })
    }

    /// Whether a row that was written has a parent in another spelling by one key, and by another key
    /// of the same child columns no parent but one that is spelled otherwise.
    pub fn served_by_one_alone(&self) -> bool {
        let beside = |one: &Key, child: &Row| {
            let same = |key: &&Key| key.child == one.child;
            let mut others = self.whole_keys().filter(same);
            others.any(|other| {
                other.child_columns == one.child_columns && self.has_respelled_alone(other, child)
            })
        };
        self.served(|key, child, _| beside(key, child))
    }

    /// Whether there is no parent with this child key, but one that is spelled otherwise.
    fn has_respelled_alone(&self, key: &Key, child: &Row) -> bool {
        let parents = parent_keys(&self.after, key);
        !has_parent(key, child, &parents)
            && parents.iter().any(|parent| same_letters(child, parent))
    }

    /// Whether an update leaves a parent key equal and spells it otherwise, and child rows that have
    /// it stay as they are: which key, and the update.
    pub fn parent_respelled(&self, such: impl Fn(&Key, &Step) -> bool) -> bool {
        let updates = self.steps.iter().filter(|step| step.kind == Kind::Update);
        let is_so = |step: &Step, key: &Key| {
            let (old, new) = match (&step.old, &step.new) {
                (Some(old), Some(new)) => (key.parent_key(old), key.parent_key(new)),
                _ => return false,
            };
            let mut children = having(self.before, key, &old).into_iter();
            let stays = |row| self.before.row(key.child, row) == self.after.row(key.child, row);
            otherwise(key, &old, &new) && children.any(stays) && such(key, step)
        };
        let mut pairs = updates.flat_map(|step| self.whole_keys().map(move |key| (step, key)));
        pairs.any(|(step, key)| key.parent == step.table && is_so(step, key))
    }

    /// Whether the action, upon a deletion or an update, finds a child row in another spelling.
    pub fn takes(&self, action: Action, deletion: bool) -> bool {
        self.any_fired(|key, fired| {
            let mut found = fired.found.iter();
            fired.action == action
                && fired.new_key.is_none() == deletion
                && found.any(|(child, _)| otherwise(key, child, &fired.old_key))
        })
    }

    /// Whether a child row without a parent comes to have one in another spelling that was written.
    pub fn mended_by_spelling(&self) -> bool {
        let written = |key: &&Key, step: &&Step| key.parent == step.table && step.new.is_some();
        self.whole_keys().any(|key| {
            let steps = self.steps.iter().filter(|step| written(&key, step));
            let mut new = steps.filter_map(|step| step.new.as_ref().map(|new| key.parent_key(new)));
            new.any(|new| {
                let mut children = having(self.before, key, &new).into_iter();
                children.any(|row| {
                    let was = self.before.row(key.child, row);
                    let child = was.clone().map(|row| key.child_key(&row));
                    let alone = !has_parent(key, &new, &parent_keys(self.before, key));
                    let stays = was == self.after.row(key.child, row);
                    alone && stays && child.map_or(false, |child| otherwise(key, &child, &new))
                })
            })
        })
    }

    /// Whether a row change stands so to another live row by a unique key: the table, the unique key,
    /// and the values as typed, in the new row and in the other.
    pub fn beside_unique(
        &self,
        step: &Step,
        such: impl Fn(&Table, &[usize], (&Row, &Row)) -> bool,
    ) -> bool {
        let table = &self.schema.tables[step.table];
        let mut others = self.after.live_rows(step.table);
        others.retain(|(number, _)| *number != step.row);
        let new = match &step.new {
            Some(new) => new,
            None => return false,
        };
        let mut keys = table.unique.iter();
        keys.any(|unique| {
            let mut others = others.iter();
            others.any(|(_, other)| such(table, unique, (new, other)))
        })
    }

    /// Whether 17 is for another row whose unique key is equal and spelled otherwise, and is so.
    pub fn unique_otherwise(&self, such: impl Fn(&Table, &[usize], (&Row, &Row)) -> bool) -> bool {
        self.refused(17).map_or(false, |step| {
            self.beside_unique(step, |table, unique, (new, other)| {
                let values = |row| unique_values(table, unique, row);
                let typed = unique.iter().any(|&column| new[column] != other[column]);
                typed && equal(&values(new), &values(other)) && such(table, unique, (new, other))
            })
        })
    }

    /// Whether an accepted row change leaves a row beside another whose unique key differs in such a
    /// column alone, given whether that is folded and both values.
    pub fn unique_but_for(&self, such: impl Fn(bool, Value, Value) -> bool) -> bool {
        let differs = |table: &Table, unique: &[usize], (new, other): (&Row, &Row)| {
            let equal = |column: usize| {
                let mark = table.marks[column];
                new[column].is_some()
                    && compared(mark, new[column]) == compared(mark, other[column])
            };
            let unequal: Vec<usize> = unique.iter().copied().filter(|&c| !equal(c)).collect();
            match unequal[..] {
                [column] => such(table.marks[column].is_some(), new[column], other[column]),
                _ => false,
            }
        };
        let mut steps = self.steps.iter();
        steps.any(|step| {
            let now = self.after.row(step.table, step.row);
            now == step.new && self.beside_unique(step, differs)
        })
    }
}
