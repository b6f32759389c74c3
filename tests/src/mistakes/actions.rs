//! Mistakes in keys, orphans and referential actions.

use super::Mistake;
use crate::model::keys::{full, half_filled, having, maps, orphan};
use crate::model::schema::Action;
use crate::model::walk;

pub const ALL: &[Mistake] = &[
    (
        "actions after an update that leaves the key equal",
        |rules| {
            rules.fires = |_, old, _| full(old);
        },
    ),
    ("a composite key with one NULL counted", |rules| {
        rules.orphan = |key, child_key, parent_keys| {
            half_filled(child_key) || orphan(key, child_key, parent_keys)
        };
    }),
    ("RESTRICT held until commit", |rules| {
        rules.action = |key, deletion| match walk::action(key, deletion) {
            Action::Restrict => Action::NoAction,
            action => action,
        };
    }),
    ("NO ACTION strikes as RESTRICT does", |rules| {
        rules.action = |key, deletion| match walk::action(key, deletion) {
            Action::NoAction => Action::Restrict,
            action => action,
        };
    }),
    ("the on-update action upon a deletion", |rules| {
        rules.action = |key, _| key.on_update;
    }),
    ("no action where the new key has NULL", |rules| {
        rules.fires = |key, old, new| walk::fires(key, old, new) && new.map_or(true, full);
    }),
    ("NULL taken as equal to NULL", |rules| {
        rules.fires =
            |key, old, new| new.map_or(true, |new| key.compared(new) != key.compared(old));
        rules.maps = |key, one, other| one == other || maps(key, one, other);
    }),
    ("only the first column of a key compared", |rules| {
        rules.maps = |_, one, other| full(one) && one[0] == other[0];
    }),
    ("foreign keys from the last to the first", |rules| {
        rules.key_sequence = |_, keys| keys.into_iter().rev().collect();
    }),
    ("child rows from the last to the first", |rules| {
        rules.turns = |area, key, _| (0..area.schema.tables[key.child].rows).rev().collect();
    }),
    ("child rows listed before the first is changed", |rules| {
        rules.turns = having;
        rules.maps = |_, _, _| true;
    }),
    ("a row that comes to have the old key not taken", |rules| {
        rules.turns = having;
    }),
    ("the first child row only", |rules| {
        rules.turns = |area, key, old| having(area, key, old).into_iter().take(1).collect();
    }),
    ("a self-referring row passed over", |rules| {
        rules.found = |rules, area, walk, row| {
            let found = walk::found(rules, area, walk, row);
            found.filter(|_| (walk.key.child, row) != (walk.change.table, walk.change.row))
        };
    }),
    ("SET DEFAULT writes NULL", |rules| {
        rules.image = |schema, key, action, child, parent| {
            let action = match action {
                Action::SetDefault => Action::SetNull,
                action => action,
            };
            walk::image(schema, key, action, child, parent)
        };
    }),
    ("SET NULL clears the first column only", |rules| {
        rules.image = |schema, key, action, child, parent| {
            let mut new = walk::image(schema, key, action, child, parent)?;
            if action == Action::SetNull {
                let rest = &key.child_columns[1..];
                rest.iter().for_each(|&column| new[column] = child[column]);
            }
            Some(new)
        };
    }),
    (
        "CASCADE upon an update gives columns in table order",
        |rules| {
            rules.image = |schema, key, action, child, parent| {
                let mut new = walk::image(schema, key, action, child, parent)?;
                if let (Action::Cascade, Some(parent)) = (action, parent) {
                    let mut from = key.parent_columns.clone();
                    from.sort();
                    let pairs = key.child_columns.iter().zip(from);
                    pairs.for_each(|(&column, from)| new[column] = parent[from]);
                }
                Some(new)
            };
        },
    ),
];
