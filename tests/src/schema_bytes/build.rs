//! Schemas in few words.

use super::records::{Key, Schema, Table};
use super::valid::four;

pub const NO_ACTION: u8 = 0;
pub const RESTRICT: u8 = 1;
pub const SET_NULL: u8 = 2;
pub const SET_DEFAULT: u8 = 3;
pub const CASCADE: u8 = 4;

pub const SIMPLE: u8 = 0;
pub const FULL: u8 = 1;

/// A table with unique keys, each the columns of a mask.
pub fn table(rows: u16, columns: u8, unique: &[u8]) -> Table {
    let mut masks = [0; 4];
    masks[..unique.len()].copy_from_slice(unique);
    Table {
        rows,
        columns,
        not_null: 0,
        unique: masks,
        default_null: 0,
        folded: 0,
        zeros: [0; 6],
        defaults: [0; 8],
    }
}

/// An immediate foreign key of MATCH SIMPLE: child table and columns, parent table and columns,
/// actions upon a deletion and an update.
pub fn key(child: (u8, &[u8]), parent: (u8, &[u8]), on_delete: u8, on_update: u8) -> Key {
    Key {
        child: child.0,
        parent: parent.0,
        deferred: 0,
        on_delete,
        on_update,
        count: child.1.len() as u8,
        child_columns: four(child.1),
        parent_columns: four(parent.1),
        matching: SIMPLE,
        windowed: 0,
    }
}

pub fn deferred(key: Key) -> Key {
    Key { deferred: 1, ..key }
}

pub fn match_full(key: Key) -> Key {
    Key {
        matching: FULL,
        ..key
    }
}

/// The key as a windowed one: its last parent column is the first day.
pub fn windowed(key: Key) -> Key {
    Key { windowed: 1, ..key }
}

/// The table with the columns of a mask folded.
pub fn folded(table: Table, folded: u8) -> Table {
    Table { folded, ..table }
}

/// Table 0 with a key in c0, and table 1 with a key in c0 that refers to it by c1. J = 16.
pub fn parent_and_child(keys: Vec<Key>) -> Schema {
    Schema::new(16, vec![table(4, 2, &[1]), table(4, 2, &[1])], keys)
}

/// The foreign key of table 1 to table 0 with these actions.
pub fn child_to_parent(on_delete: u8, on_update: u8) -> Key {
    key((1, &[1]), (0, &[0]), on_delete, on_update)
}

/// One table whose c1 refers to its own c0.
pub fn to_itself(rows: u16, room: u16, on_delete: u8) -> Schema {
    let own = key((0, &[1]), (0, &[0]), on_delete, NO_ACTION);
    Schema::new(room, vec![table(rows, 2, &[1])], vec![own])
}
