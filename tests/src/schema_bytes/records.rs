//! A schema as records whose fields can be set one by one, and its bytes.

use crate::random::Random;

#[derive(Clone)]
pub struct Header {
    pub mark: [u8; 4],
    pub tables: u16,
    pub keys: u16,
    pub tables_at: u16,
    pub keys_at: u16,
    pub room: u16,
    pub length: u16,
}

#[derive(Clone)]
pub struct Table {
    pub rows: u16,
    pub columns: u8,
    pub not_null: u8,
    pub unique: [u8; 4],
    pub default_null: u8,
    pub folded: u8,
    pub zeros: [u8; 6],
    pub defaults: [i64; 8],
}

#[derive(Clone)]
pub struct Key {
    pub child: u8,
    pub parent: u8,
    pub deferred: u8,
    pub on_delete: u8,
    pub on_update: u8,
    pub count: u8,
    pub child_columns: [u8; 4],
    pub parent_columns: [u8; 4],
    pub matching: u8,
    pub windowed: u8,
}

#[derive(Clone)]
pub struct Schema {
    pub header: Header,
    pub tables: Vec<Table>,
    pub keys: Vec<Key>,
    /// How many bytes are handed over, where not all or more than all.
    pub handed_over: Option<usize>,
}

impl Schema {
    pub fn new(room: u16, tables: Vec<Table>, keys: Vec<Key>) -> Schema {
        let header = Header {
            mark: [0x46, 0x4B, 0x42, 0x31],
            tables: 0,
            keys: 0,
            tables_at: 16,
            keys_at: 0,
            room,
            length: 0,
        };
        let mut schema = Schema {
            header,
            tables,
            keys,
            handed_over: None,
        };
        schema.recount();
        schema
    }

    /// Sets the header's counts, offset and length to those of the records.
    pub fn recount(&mut self) {
        let (tables, keys) = (self.tables.len(), self.keys.len());
        self.header.tables = tables as u16;
        self.header.keys = keys as u16;
        self.header.keys_at = (16 + 80 * tables) as u16;
        self.header.length = (16 + 80 * tables + 16 * keys) as u16;
    }

    pub fn any_table(&mut self, r: &mut Random) -> &mut Table {
        let t = r.between(0, self.tables.len() - 1);
        &mut self.tables[t]
    }

    pub fn any_key(&mut self, r: &mut Random) -> &mut Key {
        let k = r.between(0, self.keys.len() - 1);
        &mut self.keys[k]
    }

    pub fn key_and_child(&mut self, r: &mut Random) -> (&mut Key, &mut Table) {
        let k = r.between(0, self.keys.len() - 1);
        let key = &mut self.keys[k];
        let child = &mut self.tables[usize::from(key.child)];
        (key, child)
    }

    pub fn key_and_parent(&mut self, r: &mut Random) -> (&mut Key, &mut Table) {
        let k = r.between(0, self.keys.len() - 1);
        let key = &mut self.keys[k];
        let parent = &mut self.tables[usize::from(key.parent)];
        (key, parent)
    }

    pub fn bytes(&self) -> Vec<u8> {
        let mut out = Vec::new();
        self.header.write(&mut out);
        self.tables.iter().for_each(|t| t.write(&mut out));
        self.keys.iter().for_each(|k| k.write(&mut out));
        out.resize(self.handed_over.unwrap_or(out.len()), 0);
        out
    }
}

impl Header {
    fn write(&self, out: &mut Vec<u8>) {
        out.extend(self.mark);
        let counts = [self.tables, self.keys];
        let offsets = [self.tables_at, self.keys_at];
        let sizes = [self.room, self.length];
        for half in [counts, offsets, sizes].concat() {
            out.extend(half.to_le_bytes());
        }
    }
}

impl Table {
    fn write(&self, out: &mut Vec<u8>) {
        out.extend(self.rows.to_le_bytes());
        out.extend([self.columns, self.not_null]);
        out.extend(self.unique);
        out.extend([self.default_null, self.folded]);
        out.extend(self.zeros);
        for default in self.defaults {
            out.extend(default.to_le_bytes());
        }
    }
}

impl Key {
    fn write(&self, out: &mut Vec<u8>) {
        out.extend([self.child, self.parent, self.deferred]);
        out.extend([self.on_delete, self.on_update, self.count]);
        out.extend(self.child_columns);
        out.extend(self.parent_columns);
        out.extend([self.matching, self.windowed]);
    }

    /// The column count.
    pub fn n(&self) -> usize {
        self.count.into()
    }

    /// Whether the parent has an end for windows that begin in this column: the column after it, and
    /// that is not in the key.
    pub fn window_ends(&self, first_day: u8, parent: &Table) -> bool {
        let end = first_day.checked_add(1);
        end.map_or(false, |end| {
            end < parent.columns && !self.parent_columns[..self.n()].contains(&end)
        })
    }

    /// The key as a windowed one that has its first day in the parent column at this place among
    /// its columns: that pair becomes the last, and other actions than NO ACTION and RESTRICT one of
    /// them.
    pub fn made_windowed(&mut self, place: usize) {
        let last = self.n() - 1;
        self.child_columns.swap(place, last);
        self.parent_columns.swap(place, last);
        self.on_delete %= 2;
        self.on_update %= 2;
        self.windowed = 1;
    }

    /// The mask of the parent columns.
    pub fn parent_mask(&self) -> u8 {
        let columns = &self.parent_columns[..self.n()];
        columns.iter().fold(0, |mask, c| mask | 1 << c)
    }
}
