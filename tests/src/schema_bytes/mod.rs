//! Schema bytes: the rules of the paper, valid schemas, and schemas with a rule broken.

pub mod breaks;
mod breaks_header;
mod breaks_keys;
mod breaks_tables;
pub mod build;
mod changed;
pub mod half_drawn;
pub mod harmless;
pub mod mistakes;
pub mod records;
pub mod rules;
pub mod slices;
pub mod valid;
pub mod view;
