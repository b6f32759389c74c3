//! What is asked of a call on windowed keys: the windows that are written, and which days lie in
//! them.

use super::seen::Seen;
use super::trace::{Fired, Step};
use crate::model::area::Area;
use crate::model::change::Kind;
use crate::model::keys::{full, maps, row_maps};
use crate::model::schema::{Key, Row, Value};

/// A child key and a parent key of a windowed key, both as they are compared.
pub struct Pair<'k> {
    pub child: &'k Row,
    pub parent: &'k Row,
}

impl Pair<'_> {
    /// Whether they are equal but for the days.
    pub fn beside(&self) -> bool {
        let last = self.child.len() - 1;
        full(&self.child[..last].to_vec()) && self.child[..last] == self.parent[..last]
    }

    pub fn day(&self) -> Value {
        self.child[self.child.len() - 1]
    }

    pub fn first(&self) -> Value {
        self.parent[self.child.len() - 1]
    }

    pub fn end(&self) -> Value {
        self.parent[self.child.len()]
    }
}

/// The day after a day.
pub fn next(day: Value) -> Value {
    day.and_then(|day| day.checked_add(1))
}

/// First day and end of a parent key.
pub fn days(parent: &Row) -> (Value, Value) {
    (parent[parent.len() - 2], parent[parent.len() - 1])
}

/// The parent key without first day and end.
pub fn names(parent: &Row) -> &[Value] {
    &parent[..parent.len() - 2]
}

/// The keys of live parent rows, with their numbers, as they are compared.
pub fn parent_keys(area: &Area, key: &Key) -> Vec<(usize, Row)> {
    let parents = area.live_rows(key.parent).into_iter();
    let of = |row: Row| key.compared(&key.parent_key(&row));
    parents.map(|(number, row)| (number, of(row))).collect()
}

/// Whether a child key maps to one of these parent keys.
pub fn is_served(key: &Key, child: &Row, parents: &[(usize, Row)]) -> bool {
    parents.iter().any(|(_, parent)| maps(key, child, parent))
}

impl<'a> Seen<'a> {
    /// The windowed keys that are not broken.
    pub fn windowed(&self) -> impl Iterator<Item = &'a Key> {
        let keys = self.schema.keys.iter();
        keys.filter(|key| key.window.is_some() && !key.broken)
    }

    /// Whether a child row that was written, and is there after it, stands so to the parents.
    pub fn any_child(&self, such: impl Fn(&Key, &Row, &[(usize, Row)]) -> bool) -> bool {
        self.windowed().any(|key| {
            let parents = parent_keys(&self.after, key);
            let rows = self.written(key.child);
            let mut children = rows.map(|row| key.compared(&key.child_key(&row)));
            children.any(|child| such(key, &child, &parents))
        })
    }

    /// Whether a child row that was written, served or not, stands so to one of the parents.
    pub fn any_pair(&self, served: bool, such: impl Fn(&Pair) -> bool) -> bool {
        self.any_child(|key, child, parents| {
            let mut parents_so = parents.iter().filter(|(_, parent)| {
                let pair = Pair { child, parent };
                pair.beside() && such(&pair) && maps(key, child, parent) == served
            });
            is_served(key, child, parents) == served && parents_so.next().is_some()
        })
    }

    /// Whether the statement's first row change writes a parent row that is so: under which key, its
    /// parent key, those of the other live rows, and the change.
    pub fn any_window(&self, such: impl Fn(&Key, &Row, &[Row], &Step) -> bool) -> bool {
        let step = match self.steps.first() {
            Some(step) => step,
            None => return false,
        };
        let of_table = |key: &&Key| key.parent == step.table;
        let mut keys = self.windowed().filter(of_table);
        keys.any(|key| {
            let others = parent_keys(self.before, key).into_iter();
            let others = others.filter(|(number, _)| *number != step.row);
            let others: Vec<Row> = others.map(|(_, parent)| parent).collect();
            let row = step.new.as_ref().or(step.old.as_ref());
            let own = row.map(|row| key.compared(&key.parent_key(row)));
            own.map_or(false, |own| such(key, &own, &others, step))
        })
    }

    /// Whether the first row change is refused by 24 for a window beside which another stands so:
    /// own window, then the other's.
    pub fn refused_beside(&self, such: impl Fn((Value, Value), (Value, Value)) -> bool) -> bool {
        self.code == 24
            && self.any_window(|_, own, others, step| {
                let so = |other: &Row| names(own) == names(other) && such(days(own), days(other));
                full(own) && step.due.contains(&24) && others.iter().any(|o| full(o) && so(o))
            })
    }

    /// Whether the first row change passes 24 with a window beside which another row stands so.
    pub fn passed_beside(&self, such: impl Fn(&Row, &Row) -> bool) -> bool {
        self.any_window(|_, own, others, step| {
            step.new.is_some() && step.due.is_empty() && others.iter().any(|other| such(own, other))
        })
    }

    /// Whether an update or, without one, a deletion of a parent row took child rows of a windowed key
    /// in such a way.
    pub fn any_fired_of_window(&self, such: impl Fn(&Key, &Fired) -> bool) -> bool {
        self.any_fired(|key, fired| key.window.is_some() && such(key, fired))
    }

    /// The same for a row change after which keys and rows taken are so: the old and the new parent
    /// key, and the child keys, all as they are compared.
    pub fn updates(&self, such: impl Fn(&Key, (&Row, &Row), &[Row]) -> bool) -> bool {
        self.any_fired_of_window(|key, fired| {
            let new = match &fired.new_key {
                Some(new) => key.compared(new),
                None => return false,
            };
            let found = fired.found.iter();
            let found: Vec<Row> = found.map(|(child, _)| key.compared(child)).collect();
            !found.is_empty() && such(key, (&key.compared(&fired.old_key), &new), &found)
        })
    }

    /// Whether a child row that was not served is so after the call, by a parent row that is so: that
    /// row before, if there was one, and after.
    pub fn mended_by_window(&self, such: impl Fn(Option<&Row>, &Row) -> bool) -> bool {
        self.code == 0
            && self.windowed().any(|key| {
                let rows = self.before.live_rows(key.child).into_iter();
                let stays = |&(number, ref row): &(usize, Row)| {
                    self.after.row(key.child, number).as_ref() == Some(row)
                };
                let mut stays = rows.filter(stays);
                stays.any(|(_, child)| self.is_mended(key, &child, &such))
            })
    }

    fn is_mended(
        &self,
        key: &Key,
        child: &Row,
        such: &impl Fn(Option<&Row>, &Row) -> bool,
    ) -> bool {
        let serves = |parent: &Row| row_maps(key, child, parent);
        let before = self.before.live_rows(key.parent);
        let mut after = self.after.live_rows(key.parent).into_iter();
        full(&key.child_key(child))
            && !before.iter().any(|(_, parent)| serves(parent))
            && after.any(|(number, parent)| {
                let old = self.before.row(key.parent, number);
                serves(&parent) && such(old.as_ref(), &parent)
            })
    }

    /// Whether a child row of a parent that it loses is served by another before and after.
    pub fn served_on(&self, deletion: bool) -> bool {
        self.any_fired_of_window(|key, fired| {
            let parents = parent_keys(&self.after, key);
            let mut found = fired.found.iter().map(|(child, _)| key.compared(child));
            let new = fired.new_key.as_ref().map(|new| key.compared(new));
            new.is_none() == deletion
                && found.any(|child| {
                    let stays = new.as_ref().map_or(false, |new| maps(key, &child, new));
                    !stays && is_served(key, &child, &parents)
                })
        })
    }

    /// Whether a row was changed again by what followed from its own change.
    pub fn changes_again(&self) -> bool {
        let mut places = self.steps.iter().map(|step| (step.table, step.row));
        let first = places.next();
        first.is_some() && places.any(|place| Some(place) == first)
    }

    /// Whether a row of a windowed key's parent, or child, was changed in this way.
    pub fn any_step_of_window(&self, such: impl Fn(&Key, &Step) -> bool) -> bool {
        let mut keys = self.windowed();
        keys.any(|key| self.any_step(|step| such(key, step)))
    }

    /// Whether kind 11 sets this column of a windowed key's table and changes a row.
    pub fn sets(&self, place: impl Fn(&Key) -> (usize, usize)) -> bool {
        let search = match self.search(11) {
            Some(search) => search,
            None => return false,
        };
        let column = search.set.map(|set| set.0);
        self.any_step_of_window(|key, step| {
            let (table, wanted) = place(key);
            step.kind == Kind::Update
                && step.table == table
                && search.table == table
                && column == Some(wanted)
        })
    }
}
