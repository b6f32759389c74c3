//! The fields of schema bytes, at the places that the paper gives them.

/// Schema bytes. What lies past their end reads as 0: only a mistaken reading looks there.
#[derive(Clone, Copy)]
pub struct View<'a>(pub &'a [u8]);

impl<'a> View<'a> {
    pub fn byte(self, at: usize) -> usize {
        self.0.get(at).copied().unwrap_or(0).into()
    }

    pub fn half(self, at: usize) -> usize {
        self.byte(at) + 256 * self.byte(at + 1)
    }

    pub fn part(self, at: usize, count: usize) -> &'a [u8] {
        self.0.get(at..at + count).unwrap_or(&[])
    }

    pub fn is_zero(self, at: usize, count: usize) -> bool {
        self.part(at, count).iter().all(|&b| b == 0)
    }

    pub fn tables(self) -> usize {
        self.half(4)
    }

    pub fn keys(self) -> usize {
        self.half(6)
    }

    pub fn keys_at(self) -> usize {
        16 + 80 * self.tables()
    }

    pub fn length(self) -> usize {
        self.keys_at() + 16 * self.keys()
    }

    pub fn columns(self, table: usize) -> usize {
        self.byte(table_at(table) + 2)
    }

    pub fn not_null(self, table: usize) -> usize {
        self.byte(table_at(table) + 3)
    }

    pub fn unique(self, table: usize) -> &'a [u8] {
        self.part(table_at(table) + 4, 4)
    }

    pub fn default_null(self, table: usize) -> usize {
        self.byte(table_at(table) + 8)
    }

    pub fn folded(self, table: usize) -> usize {
        self.byte(table_at(table) + 9)
    }

    /// Whether the default of the column is 0.
    pub fn default_is_zero(self, table: usize, column: usize) -> bool {
        self.is_zero(table_at(table) + 16 + 8 * column, 8)
    }

    pub fn key_at(self, key: usize) -> usize {
        self.keys_at() + 16 * key
    }

    /// The byte of a foreign key's record at this place in it.
    pub fn key_byte(self, key: usize, place: usize) -> usize {
        self.byte(self.key_at(key) + place)
    }

    pub fn child(self, key: usize) -> usize {
        self.key_byte(key, 0)
    }

    pub fn parent(self, key: usize) -> usize {
        self.key_byte(key, 1)
    }

    pub fn count(self, key: usize) -> usize {
        self.key_byte(key, 5)
    }

    /// The four child columns: those of the key, and the rest.
    pub fn child_columns(self, key: usize) -> (&'a [u8], &'a [u8]) {
        self.split(key, 6)
    }

    /// The four parent columns: those of the key, and the rest.
    pub fn parent_columns(self, key: usize) -> (&'a [u8], &'a [u8]) {
        self.split(key, 10)
    }

    fn split(self, key: usize, place: usize) -> (&'a [u8], &'a [u8]) {
        let four = self.part(self.key_at(key) + place, 4);
        four.split_at(self.count(key).min(four.len()))
    }
}

pub fn table_at(table: usize) -> usize {
    16 + 80 * table
}

/// Whether bit `i` of a mask is 1.
pub fn bit(mask: usize, i: usize) -> bool {
    i < 8 && mask >> i & 1 == 1
}
