//! The words of an area, at the places that the section "Area words" of the paper gives them.

use super::schema::{Row, Schema};
use std::ops::Range;

/// Words of the header, of a level and of a journal record.
const KEPT_AT: usize = 4;
const LEVELS_AT: usize = 36;
const LEVEL: usize = 33;
const TABLES_AT: usize = 333;
const RECORD: usize = 10;

#[derive(Clone)]
pub struct Area<'a> {
    pub schema: &'a Schema,
    pub words: Vec<i64>,
}

impl Area<'_> {
    /// How many levels are open.
    pub fn open(&self) -> usize {
        self.words[0] as usize
    }

    pub fn in_transaction(&self) -> bool {
        self.words[0] != 0
    }

    /// How many journal records are used.
    pub fn used(&self) -> usize {
        self.words[2] as usize
    }

    /// The 32 kept numbers.
    pub fn kept(&self) -> &[i64] {
        &self.words[KEPT_AT..KEPT_AT + 32]
    }

    pub fn kept_mut(&mut self) -> &mut [i64] {
        &mut self.words[KEPT_AT..KEPT_AT + 32]
    }

    pub fn kept_sum(&self) -> i64 {
        self.kept().iter().sum()
    }

    /// The words of a level from 1 to 9: the journal use, then the 32 kept numbers when it opened.
    pub fn level(&self, level: usize) -> &[i64] {
        &self.words[level_words(level)]
    }

    pub fn level_mut(&mut self, level: usize) -> &mut [i64] {
        &mut self.words[level_words(level)]
    }

    fn row_words(&self, table: usize, row: usize) -> Range<usize> {
        let tables = &self.schema.tables;
        let before: usize = tables[..table].iter().map(|t| t.words()).sum();
        let width = 1 + tables[table].columns;
        let start = TABLES_AT + before + row * width;
        start..start + width
    }

    /// The words of a row, live or vacant: the state and the values.
    pub fn stored(&self, table: usize, row: usize) -> (i64, &[i64]) {
        let words = &self.words[self.row_words(table, row)];
        (words[0], &words[1..])
    }

    /// The row, or none where it is vacant.
    pub fn row(&self, table: usize, row: usize) -> Option<Row> {
        let (state, values) = self.stored(table, row);
        if !(256..=511).contains(&state) {
            return None;
        }
        let nulls = state - 256;
        let value = |(i, &v): (usize, &i64)| (nulls >> i & 1 == 0).then_some(v);
        Some(values.iter().enumerate().map(value).collect())
    }

    /// The live rows of a table with their numbers, rising: none of a table that is missing.
    pub fn live_rows(&self, table: usize) -> Vec<(usize, Row)> {
        let rows = 0..self.schema.tables.get(table).map_or(0, |t| t.rows);
        rows.filter_map(|n| self.row(table, n).map(|row| (n, row)))
            .collect()
    }

    /// Writes the row in the form that the paper gives to written and deleted rows.
    pub fn put_row(&mut self, table: usize, row: usize, new: Option<&Row>) {
        let place = self.row_words(table, row);
        let words = &mut self.words[place];
        words.fill(0);
        if let Some(values) = new {
            words[0] = 256;
            for (i, value) in values.iter().enumerate() {
                match value {
                    Some(number) => words[1 + i] = *number,
                    None => words[0] += 1 << i,
                }
            }
        }
    }

    fn record_words(&self, record: usize) -> Range<usize> {
        let tables: usize = self.schema.tables.iter().map(|t| t.words()).sum();
        let start = TABLES_AT + tables + RECORD * record;
        start..start + RECORD
    }

    /// The words of a journal record.
    pub fn record(&self, record: usize) -> &[i64] {
        &self.words[self.record_words(record)]
    }

    /// The table and the row that a journal record names, if there is such a row.
    pub fn journal_place(&self, record: usize) -> Option<(usize, usize)> {
        let place = self.words[self.record_words(record).start];
        let (table, row) = (place.div_euclid(1024), place.rem_euclid(1024) as usize);
        let tables = &self.schema.tables;
        let table = usize::try_from(table).ok().filter(|&t| t < tables.len())?;
        (row < tables[table].rows).then_some((table, row))
    }

    /// Adds the old words of a row to the journal.
    pub fn journal(&mut self, table: usize, row: usize) {
        let old = self.words[self.row_words(table, row)].to_vec();
        let place = self.record_words(self.used());
        let record = &mut self.words[place];
        record.fill(0);
        record[0] = (table * 1024 + row) as i64;
        record[1..1 + old.len()].copy_from_slice(&old);
        self.words[2] += 1;
    }

    /// Puts back the old words that a used journal record holds.
    pub fn put_back(&mut self, record: usize) {
        let (table, row) = self.journal_place(record).expect("refusal 10 was judged");
        let place = self.row_words(table, row);
        let old = self.record_words(record).start + 1;
        let width = place.len();
        self.words.copy_within(old..old + width, place.start);
    }

    /// Zeroes the journal's words from this record on.
    pub fn zero_journal_from(&mut self, record: usize) {
        let start = self.record_words(record).start;
        self.words[start..].fill(0);
    }

    /// Zeroes the words of these journal records.
    pub fn zero_records(&mut self, records: Range<usize>) {
        for record in records {
            let place = self.record_words(record);
            self.words[place].fill(0);
        }
    }
}

fn level_words(level: usize) -> Range<usize> {
    let start = LEVELS_AT + LEVEL * (level - 1);
    start..start + LEVEL
}
