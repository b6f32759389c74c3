//! Random schemas, areas and calls for the tests of the engine's calls and orphan lists.

pub mod areas;
pub mod bounded;
pub mod broken_key_calls;
pub mod broken_keys;
pub mod calls;
pub mod damages;
pub mod delete_calls;
pub mod families;
pub mod far_deletes;
pub mod folded;
pub mod folded_calls;
pub mod grounds;
pub mod half_filled;
pub mod half_filled_calls;
pub mod herds;
pub mod malformed;
pub mod mixed_calls;
pub mod orphan_grounds;
pub mod other_schemas;
pub mod parents;
pub mod populated;
pub mod searches;
pub mod spellings;
pub mod window_calls;
pub mod windows;
