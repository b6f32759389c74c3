//! The functions of libsqlite3 that are used, as safe ones.

use super::names;
use crate::model::schema::Value;
use std::ffi::{CStr, CString};
use std::os::raw::{c_char, c_int, c_void};
use std::ptr::{null, null_mut};
use std::slice;

const OK: c_int = 0;
const ROW: c_int = 100;
const DONE: c_int = 101;
const TYPE_TEXT: c_int = 3;
const TYPE_NULL: c_int = 5;

/// In place of a destructor: the library copies the text at once.
const TRANSIENT: isize = -1;

#[repr(C)]
struct Handle {
    _opaque: [u8; 0],
}

#[link(name = "sqlite3")]
extern "C" {
    fn sqlite3_open(name: *const c_char, db: *mut *mut Handle) -> c_int;
    fn sqlite3_close(db: *mut Handle) -> c_int;
    fn sqlite3_errmsg(db: *mut Handle) -> *const c_char;
    fn sqlite3_libversion() -> *const c_char;
    fn sqlite3_changes(db: *mut Handle) -> c_int;
    fn sqlite3_total_changes(db: *mut Handle) -> c_int;
    fn sqlite3_prepare_v2(
        db: *mut Handle,
        sql: *const c_char,
        length: c_int,
        statement: *mut *mut c_void,
        rest: *mut *const c_char,
    ) -> c_int;
    fn sqlite3_step(statement: *mut c_void) -> c_int;
    fn sqlite3_reset(statement: *mut c_void) -> c_int;
    fn sqlite3_finalize(statement: *mut c_void) -> c_int;
    fn sqlite3_bind_int64(statement: *mut c_void, number: c_int, value: i64) -> c_int;
    fn sqlite3_bind_text(
        statement: *mut c_void,
        number: c_int,
        text: *const c_char,
        length: c_int,
        destructor: isize,
    ) -> c_int;
    fn sqlite3_bind_null(statement: *mut c_void, number: c_int) -> c_int;
    fn sqlite3_column_type(statement: *mut c_void, column: c_int) -> c_int;
    fn sqlite3_column_int64(statement: *mut c_void, column: c_int) -> i64;
    fn sqlite3_column_text(statement: *mut c_void, column: c_int) -> *const u8;
    fn sqlite3_column_bytes(statement: *mut c_void, column: c_int) -> c_int;
}

/// The version of the library.
pub fn version() -> String {
    // SAFETY: the library's version is a constant text.
    unsafe { CStr::from_ptr(sqlite3_libversion()) }
        .to_string_lossy()
        .into_owned()
}

/// A database in memory. It is closed last: its statements hold it.
pub struct Connection {
    db: *mut Handle,
}

impl Connection {
    pub fn in_memory() -> Connection {
        let name = CString::new(":memory:").expect("the name has no zero byte");
        let mut db = null_mut();
        // SAFETY: the name ends with a zero byte, and `db` is where the library puts the handle.
        let code = unsafe { sqlite3_open(name.as_ptr(), &mut db) };
        assert_eq!(code, OK, "SQLite opens a database in memory");
        Connection { db }
    }

    /// A statement that must be one, not to be used after the connection is dropped.
    pub fn prepare(&self, sql: &str) -> Statement {
        let prepared = self.prepared(sql);
        prepared.unwrap_or_else(|message| panic!("{}: {}", sql, message))
    }

    /// A statement, or none where SQLite refuses it for a broken foreign key.
    pub fn prepare_unless_broken(&self, sql: &str) -> Option<Statement> {
        let for_broken_key = |message: &str| {
            ["foreign key mismatch", "no such table"]
                .iter()
                .any(|m| message.starts_with(m))
        };
        match self.prepared(sql) {
            Ok(statement) => Some(statement),
            Err(message) if for_broken_key(&message) => None,
            Err(message) => panic!("{}: {}", sql, message),
        }
    }

    /// A statement, or the message by which SQLite refuses it.
    fn prepared(&self, sql: &str) -> Result<Statement, String> {
        let text = CString::new(sql).expect("SQL has no zero byte");
        let mut handle = null_mut();
        // SAFETY: the connection is open, the text ends with a zero byte, and the handle is put into
        // a place of its own.
        let code = unsafe {
            sqlite3_prepare_v2(
                self.db,
                text.as_ptr(),
                -1,
                &mut handle,
                null_mut::<*const c_char>(),
            )
        };
        if code == OK {
            Ok(Statement { handle })
        } else {
            Err(self.message())
        }
    }

    /// Runs one statement that must succeed.
    pub fn execute(&self, sql: &str) {
        let done = self.prepare(sql).run();
        assert!(done, "{}: {}", sql, self.message());
    }

    /// How many rows the last insert, update or delete changed itself.
    pub fn changes(&self) -> i32 {
        // SAFETY: the connection is open.
        unsafe { sqlite3_changes(self.db) }
    }

    /// How many rows all inserts, updates and deletes changed, those by actions included.
    pub fn total_changes(&self) -> i64 {
        // SAFETY: the connection is open.
        i64::from(unsafe { sqlite3_total_changes(self.db) })
    }

    fn message(&self) -> String {
        // SAFETY: the connection is open; the text is copied at once.
        let text = unsafe { sqlite3_errmsg(self.db) };
        if text == null() {
            return String::new();
        }
        unsafe { CStr::from_ptr(text) }
            .to_string_lossy()
            .into_owned()
    }
}

impl Drop for Connection {
    fn drop(&mut self) {
        // SAFETY: the handle is not used afterwards.
        unsafe { sqlite3_close(self.db) };
    }
}

/// What a parameter of a statement is set to.
pub enum Parameter {
    Null,
    Number(i64),
    Name(Vec<u8>),
}

pub struct Statement {
    handle: *mut c_void,
}

impl Statement {
    /// Sets the parameters, the first of which has number 1.
    pub fn bind(&self, parameters: &[Parameter]) {
        for (i, parameter) in parameters.iter().enumerate() {
            let (handle, number) = (self.handle, i as c_int + 1);
            // SAFETY: the statement is reset, the library refuses numbers out of range, and it copies
            // a text of this length.
            match parameter {
                Parameter::Number(word) => unsafe { sqlite3_bind_int64(handle, number, *word) },
                Parameter::Name(name) => unsafe {
                    let (text, length) = (name.as_ptr() as *const c_char, name.len() as c_int);
                    sqlite3_bind_text(handle, number, text, length, TRANSIENT)
                },
                Parameter::Null => unsafe { sqlite3_bind_null(handle, number) },
            };
        }
    }

    /// Runs it to its end, past the rows that it gives. Tells whether it succeeded.
    pub fn run(&self) -> bool {
        self.rows(0).is_some()
    }

    /// Runs it to its end. Gives this many columns of each row, or none where it failed.
    pub fn rows(&self, columns: usize) -> Option<Vec<Vec<Value>>> {
        let mut rows = Vec::new();
        // SAFETY: the statement is prepared; columns are read only after a row was given.
        unsafe {
            let mut code = sqlite3_step(self.handle);
            while code == ROW {
                rows.push((0..columns as c_int).map(|c| self.column(c)).collect());
                code = sqlite3_step(self.handle);
            }
            sqlite3_reset(self.handle);
            (code == DONE).then_some(rows)
        }
    }

    /// A column of the row that was given. A text is a name.
    unsafe fn column(&self, column: c_int) -> Value {
        match sqlite3_column_type(self.handle, column) {
            TYPE_NULL => None,
            TYPE_TEXT => {
                let text = sqlite3_column_text(self.handle, column);
                let length = sqlite3_column_bytes(self.handle, column) as usize;
                Some(names::word(slice::from_raw_parts(text, length)))
            }
            _ => Some(sqlite3_column_int64(self.handle, column)),
        }
    }
}

impl Drop for Statement {
    fn drop(&mut self) {
        // SAFETY: the handle is not used afterwards.
        unsafe { sqlite3_finalize(self.handle) };
    }
}
