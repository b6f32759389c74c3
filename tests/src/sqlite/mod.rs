//! Stock SQLite as another reading of the rules of foreign keys.

mod binding;
pub mod database;
pub mod names;
pub mod statements;
