//! Named changes of valid schemas, each with the code that follows.

use crate::random::Random;
use crate::schema_bytes::breaks_header::HEADER;
use crate::schema_bytes::breaks_keys::KEYS;
use crate::schema_bytes::breaks_tables::TABLES;
use crate::schema_bytes::half_drawn::BESIDE;
use crate::schema_bytes::harmless::HARMLESS;
use crate::schema_bytes::records::Schema;

/// A name, the code, and the change. It is made to a valid schema with a foreign key; one that has
/// no room for the change is left as it is.
pub type Break = (&'static str, i64, fn(&mut Schema, &mut Random));

pub fn all() -> Vec<Break> {
    [HEADER, TABLES, KEYS, BESIDE, HARMLESS].concat()
}
