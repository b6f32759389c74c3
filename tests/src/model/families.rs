//! Families of tables: those that foreign keys join, directly or through others.

use super::schema::Schema;

/// The family of each table, told by the lowest table in it. A broken key joins nothing.
pub fn of_tables(schema: &Schema) -> Vec<usize> {
    let mut families: Vec<usize> = (0..schema.tables.len()).collect();
    for key in schema.keys.iter().filter(|key| !key.broken) {
        let (child, parent) = (families[key.child], families[key.parent]);
        let (low, high) = (child.min(parent), child.max(parent));
        let joined = families.iter_mut().filter(|family| **family == high);
        joined.for_each(|family| *family = low);
    }
    families
}

/// The tables of each family.
pub fn all(schema: &Schema) -> Vec<Vec<usize>> {
    let families = of_tables(schema);
    let tables = 0..families.len();
    let of = |family: usize| tables.clone().filter(|&t| families[t] == family).collect();
    let lowest = tables.clone().filter(|&table| families[table] == table);
    lowest.map(of).collect()
}

/// Whether a broken key stands between two families, each told by one of its tables.
pub fn broken_key_between(schema: &Schema, one: usize, other: usize) -> bool {
    let families = of_tables(schema);
    let family = |table: usize| families.get(table).copied();
    let ends = [family(one), family(other)];
    let mut broken = schema.keys.iter().filter(|key| key.broken);
    broken.any(|key| {
        let (child, parent) = (family(key.child), family(key.parent));
        [child, parent] == ends || [parent, child] == ends
    })
}
