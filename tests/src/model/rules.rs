//! The sentences of the paper that a mistaken reading can get wrong, each as one entry that can be
//! replaced. `of_the_paper` gives the paper's own.

use super::area::Area;
use super::bound;
use super::change::{self, Check, Kind};
use super::damage;
use super::form;
use super::keys;
use super::list;
use super::schema::{Action, Key, Row, Schema};
use super::search::{self, Search};
use super::statement::{self, End, Outcome};
use super::transaction;
use super::walk::{self, Walk};
use super::windows;
use crate::engine::Orphan;
use std::collections::BTreeSet;

#[derive(Clone)]
pub struct Rules {
    /// The schema of the bytes, or their refusal.
    pub read: fn(&[u8]) -> Result<Schema, i64>,
    /// Refusal 4: what must hold of the words of a call.
    pub call_forms: Vec<form::Form>,
    /// Refusal 10: what must hold of the words of an area.
    pub area_forms: Vec<damage::Form>,
    /// The checks of a row change, in order: refusals 14, 15, 23, 16, 17 and 24.
    pub checks: Vec<Check>,
    /// Refusal 23: whether a change of this kind of a row of the table uses a foreign key.
    pub uses: fn(&Key, usize, Kind) -> bool,
    /// Refusal 24: how a row that is written is judged by its windows.
    pub windows: windows::Reading,
    /// The checks at the end of a statement, in order, each for all keys: refusals 19 and 20.
    pub ends: Vec<End>,
    /// Whether a live row is an orphan: of which key, its child key, the keys of live parent rows, all
    /// as they are compared.
    pub orphan: fn(&Key, &Row, &BTreeSet<Row>) -> bool,
    /// Whether a child row is taken: which key, its child key and the old parent key, both as they are
    /// compared.
    pub maps: fn(&Key, &Row, &Row) -> bool,
    /// Whether actions of a foreign key follow a change of this parent key to that one, both as typed,
    /// or to none by a deletion.
    pub fires: fn(&Key, &Row, Option<&Row>) -> bool,
    /// The action of a key upon a deletion or an update.
    pub action: fn(&Key, bool) -> Action,
    /// The sequence of foreign keys.
    pub key_sequence: fn(&Schema, Vec<usize>) -> Vec<usize>,
    /// The child rows that come to their turn: of which key, and the old parent key.
    pub turns: fn(&Area, &Key, &Row) -> Vec<usize>,
    /// The child row that is taken at the turn of a number, with its number.
    pub found: fn(&Rules, &Area, &Walk, usize) -> Option<(usize, Row)>,
    /// Whether RESTRICT refuses at a child row that is taken.
    pub restricts: fn(&Area, &Walk, &Row) -> bool,
    /// What an action makes of a child row, given the new parent row.
    pub image: fn(&Schema, &Key, Action, &Row, Option<&Row>) -> Option<Row>,
    /// Writes a row change: journal and row.
    pub write: fn(&mut Area, usize, usize, Option<&Row>),
    /// The rows that come to their turn in one statement for many rows.
    pub rows_sought: fn(&Area, &Search) -> Vec<usize>,
    /// The row of this number, if it is met: the area when the statement began, and as it is.
    pub met: fn(&Area, &Area, &Search, usize) -> Option<Row>,
    /// The depth of a row that is met.
    pub depth_of_met: usize,
    /// What is judged after each row that is met: the area when the statement began, and as it is.
    pub between_rows: fn(&Rules, &Area, &Area) -> Result<(), i64>,
    /// The end of a statement: the area when it began, and after its row changes.
    pub settle: fn(&Rules, &Area, &mut Area) -> Outcome,
    /// By how much the kept numbers move: the area before and after.
    pub moves: fn(&Rules, &Area, &Area) -> Vec<i64>,
    /// Rows changed, from the journal use before and after.
    pub changed: fn(usize, usize) -> i64,
    /// What a refusal inside a statement leaves: the area then, and when the statement began.
    pub refused: fn(&mut Area, &Area),
    /// Opens a level: the word for what opened the transaction.
    pub open: fn(&mut Area, i64),
    /// How many levels can be open.
    pub most_levels: usize,
    /// Whether a level can be released or rolled back to.
    pub reachable: fn(&Area, usize) -> bool,
    /// Whether the kept numbers let a commit pass.
    pub commits: fn(&Area) -> bool,
    /// Closes the levels above this one.
    pub close_above: fn(&mut Area, usize),
    /// Ends the transaction: its levels are closed already.
    pub end: fn(&mut Area),
    /// The sequence in which journal records, given oldest first, are put back.
    pub undo_sequence: fn(Vec<usize>) -> Vec<usize>,
    /// Zeroes the records from the one named up to the use before the undoing.
    pub undone: fn(&mut Area, usize, usize),
    /// Gives the kept numbers back that a level saved.
    pub restore: fn(&mut Area, usize),
    /// What the list makes of all orphans, which are given by foreign key, then by child row.
    pub listed: fn(&Area, Vec<Orphan>) -> Vec<Orphan>,
    /// Whether so many orphans fit into a list of so many records.
    pub fits: fn(usize, usize) -> bool,
    /// Writes the orphans into a list that they fit into.
    pub write_list: fn(&[Orphan], &mut [Orphan]),
    /// What is done to a list that is too short for the orphans.
    pub too_short: fn(&[Orphan], &mut [Orphan]),
    /// What a refusal leaves in a list.
    pub list_refused: fn(&mut [Orphan]),
    /// How the sum that bounds a delete is counted.
    pub bound: bound::Reading,
}

impl Rules {
    pub fn of_the_paper() -> Rules {
        Rules {
            read: Schema::read,
            call_forms: [form::FORMS, search::FORMS].concat(),
            area_forms: damage::FORMS.to_vec(),
            checks: change::CHECKS.to_vec(),
            uses: change::uses,
            windows: windows::PAPER,
            ends: statement::ENDS.to_vec(),
            orphan: keys::orphan,
            maps: keys::maps,
            fires: walk::fires,
            action: walk::action,
            key_sequence: |_, keys| keys,
            turns: |area, key, _| (0..area.schema.tables[key.child].rows).collect(),
            found: walk::found,
            restricts: walk::restricts,
            image: walk::image,
            write: change::write,
            rows_sought: search::rows,
            met: |_, area, search, row| search::met(area, search, row),
            depth_of_met: 1,
            between_rows: |_, _, _| Ok(()),
            settle: statement::settle,
            moves: statement::moves,
            changed: |before, after| (after - before) as i64,
            refused: statement::put_back,
            open: transaction::open,
            most_levels: 9,
            reachable: transaction::reachable,
            commits: |area| area.kept().iter().all(|&number| number == 0),
            close_above: transaction::close_above,
            end: transaction::end,
            undo_sequence: |records| records.into_iter().rev().collect(),
            undone: |area, from, used| area.zero_records(from..used),
            restore: transaction::restore,
            listed: |_, orphans| orphans,
            fits: |orphans, records| orphans <= records,
            write_list: list::write_records,
            too_short: |_, _| {},
            list_refused: |_| {},
            bound: bound::PAPER,
        }
    }
}
