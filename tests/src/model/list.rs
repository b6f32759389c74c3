//! The orphan list, by the section of that name.

use super::area::Area;
use super::keys;
use super::rules::Rules;
use crate::engine::Orphan;

/// All orphans counted from the rows, by foreign key number, then by rising child row.
pub fn orphans(rules: &Rules, area: &Area) -> Vec<Orphan> {
    let of_key = |key: usize| {
        let rows = keys::orphans(rules, area, key).into_iter();
        rows.map(move |row| Orphan::new(key, row))
    };
    let all = (0..area.schema.keys.len()).flat_map(of_key).collect();
    (rules.listed)(area, all)
}

/// Writes the orphans into a lent list and gives their number, or refusal 22.
pub fn write(rules: &Rules, orphans: &[Orphan], list: &mut [Orphan]) -> Result<i64, i64> {
    if !(rules.fits)(orphans.len(), list.len()) {
        (rules.too_short)(orphans, list);
        return Err(22);
    }
    (rules.write_list)(orphans, list);
    Ok(orphans.len() as i64)
}

/// Records past the orphans keep what they held.
pub fn write_records(orphans: &[Orphan], list: &mut [Orphan]) {
    list[..orphans.len()].copy_from_slice(orphans);
}
