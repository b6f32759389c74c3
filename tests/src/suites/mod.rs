//! The suites: each runs its tests on the built engine or program and reports them by name.

mod broken_keys;
mod child_rows;
mod delete_bounds;
mod edges;
mod either_order;
mod folded;
mod half_filled;
mod met;
mod mistakes;
mod operations;
mod orphan_lists;
mod program;
mod replay;
mod schema;
mod sqlite;
mod sqlite_broken;
mod sqlite_names;
mod watched;
mod windows;

use crate::random::Random;
use crate::report::Report;

pub type Suite = fn(&mut Random, &mut Report);

/// The suites with their names, in the order in which they run.
pub const ALL: &[(&str, Suite)] = &[
    ("schema", schema::run),
    ("operations", operations::run),
    ("child_rows", child_rows::run),
    ("half_filled", half_filled::run),
    ("broken_keys", broken_keys::run),
    ("folded", folded::run),
    ("windows", windows::run),
    ("orphan_lists", orphan_lists::run),
    ("delete_bounds", delete_bounds::run),
    ("either_order", either_order::run),
    ("replay", replay::run),
    ("edges", edges::run),
    ("sqlite", sqlite::run),
    ("program", program::run),
    ("mistakes", mistakes::run),
];
