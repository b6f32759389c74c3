//! What an engine does, and the built one: the functions of the library for C.

use std::fmt;

/// The answer to a call.
#[repr(C)]
#[derive(Clone, Copy, Debug, PartialEq)]
pub struct Answer {
    pub code: i64,
    pub changed: i64,
    pub net: i64,
}

impl Answer {
    pub fn done(changed: i64, net: i64) -> Answer {
        Answer {
            code: 0,
            changed,
            net,
        }
    }

    pub fn refused(code: i64) -> Answer {
        Answer {
            code,
            changed: 0,
            net: 0,
        }
    }
}

impl fmt::Display for Answer {
    fn fmt(&self, out: &mut fmt::Formatter) -> fmt::Result {
        write!(out, "{},{},{}", self.code, self.changed, self.net)
    }
}

/// The answer of the orphan list.
#[repr(C)]
#[derive(Clone, Copy, Debug, PartialEq)]
pub struct Listed {
    pub code: i64,
    pub count: i64,
}

impl fmt::Display for Listed {
    fn fmt(&self, out: &mut fmt::Formatter) -> fmt::Result {
        write!(out, "{},{}", self.code, self.count)
    }
}

/// The answer of a question that asks for one number.
#[repr(C)]
#[derive(Clone, Copy, Debug, PartialEq)]
pub struct Numbered {
    pub code: i64,
    pub number: i64,
}

impl Numbered {
    pub fn told(number: i64) -> Numbered {
        Numbered { code: 0, number }
    }

    pub fn refused(code: i64) -> Numbered {
        Numbered { code, number: 0 }
    }
}

impl fmt::Display for Numbered {
    fn fmt(&self, out: &mut fmt::Formatter) -> fmt::Result {
        write!(out, "{},{}", self.code, self.number)
    }
}

/// A record of the orphan list.
#[repr(C)]
#[derive(Clone, Copy, Debug, PartialEq, PartialOrd, Eq, Ord)]
pub struct Orphan {
    pub foreign_key: u64,
    pub row: u64,
}

impl Orphan {
    pub fn new(foreign_key: usize, row: usize) -> Orphan {
        Orphan {
            foreign_key: foreign_key as u64,
            row: row as u64,
        }
    }
}

impl fmt::Display for Orphan {
    fn fmt(&self, out: &mut fmt::Formatter) -> fmt::Result {
        write!(out, "key {} row {}", self.foreign_key, self.row)
    }
}

pub trait Engine {
    /// The code of the check of schema bytes: 0 or 1.
    fn check_schema(&self, schema: &[u8]) -> i64;
    /// How many words the schema's areas have, or 0 where it is refused.
    fn area_words(&self, schema: &[u8]) -> i64;
    fn make_fresh(&self, schema: &[u8], area: &mut [i64]) -> i64;
    fn call(&self, schema: &[u8], area: &mut [i64], call: &[i64]) -> Answer;
    fn list_orphans(&self, schema: &[u8], area: &[i64], list: &mut [Orphan]) -> Listed;
    /// How many rows one delete can touch. Nothing is to be written: the area is lent as one that can be
    /// written to, so that it is seen if it is.
    fn delete_bound(&self, schema: &[u8], area: &mut [i64]) -> Numbered;
}

extern "C" {
    fn hoofbook_check_schema(schema: *const u8, schema_len: usize) -> i64;
    fn hoofbook_area_words(schema: *const u8, schema_len: usize) -> i64;
    fn hoofbook_make_fresh(
        schema: *const u8,
        schema_len: usize,
        area: *mut i64,
        area_len: usize,
    ) -> i64;
    fn hoofbook_call(
        schema: *const u8,
        schema_len: usize,
        area: *mut i64,
        area_len: usize,
        call: *const i64,
        call_len: usize,
    ) -> Answer;
    fn hoofbook_list_orphans(
        schema: *const u8,
        schema_len: usize,
        area: *const i64,
        area_len: usize,
        list: *mut Orphan,
        list_len: usize,
    ) -> Listed;
    fn hoofbook_delete_bound(
        schema: *const u8,
        schema_len: usize,
        area: *const i64,
        area_len: usize,
    ) -> Numbered;
}

/// The engine of the library that the tests are linked with.
pub struct Built;

// SAFETY of all: each pointer and length are those of a slice, lent as the engine uses it.
impl Engine for Built {
    fn check_schema(&self, schema: &[u8]) -> i64 {
        unsafe { hoofbook_check_schema(schema.as_ptr(), schema.len()) }
    }

    fn area_words(&self, schema: &[u8]) -> i64 {
        unsafe { hoofbook_area_words(schema.as_ptr(), schema.len()) }
    }

    fn make_fresh(&self, schema: &[u8], area: &mut [i64]) -> i64 {
        let (at, words) = (area.as_mut_ptr(), area.len());
        unsafe { hoofbook_make_fresh(schema.as_ptr(), schema.len(), at, words) }
    }

    fn call(&self, schema: &[u8], area: &mut [i64], call: &[i64]) -> Answer {
        let (at, words) = (area.as_mut_ptr(), area.len());
        let (bytes, length) = (schema.as_ptr(), schema.len());
        unsafe { hoofbook_call(bytes, length, at, words, call.as_ptr(), call.len()) }
    }

    fn list_orphans(&self, schema: &[u8], area: &[i64], list: &mut [Orphan]) -> Listed {
        let (bytes, length) = (schema.as_ptr(), schema.len());
        let (at, words) = (area.as_ptr(), area.len());
        let (records, room) = (list.as_mut_ptr(), list.len());
        unsafe { hoofbook_list_orphans(bytes, length, at, words, records, room) }
    }

    fn delete_bound(&self, schema: &[u8], area: &mut [i64]) -> Numbered {
        let (at, words) = (area.as_mut_ptr(), area.len());
        unsafe { hoofbook_delete_bound(schema.as_ptr(), schema.len(), at, words) }
    }
}
