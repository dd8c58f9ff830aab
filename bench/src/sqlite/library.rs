//! The functions of SQLite's library that the book calls. The library is opened at run time, where it is installed.

use std::ffi::{c_char, c_int, c_void, CStr, CString};

extern "C" {
    fn dlopen(name: *const c_char, flags: c_int) -> *mut c_void;
    fn dlsym(library: *mut c_void, name: *const c_char) -> *mut c_void;
}

pub type Connection = *mut c_void;
pub type Statement = *mut c_void;

pub struct Library {
    open: unsafe extern "C" fn(*const c_char, *mut Connection) -> c_int,
    close: unsafe extern "C" fn(Connection) -> c_int,
    prepare: unsafe extern "C" fn(Connection, *const c_char, c_int, *mut Statement, *mut *const c_char) -> c_int,
    finalize: unsafe extern "C" fn(Statement) -> c_int,
    next_statement: unsafe extern "C" fn(Connection, Statement) -> Statement,
    pub bind: unsafe extern "C" fn(Statement, c_int, i64) -> c_int,
    pub step: unsafe extern "C" fn(Statement) -> c_int,
    pub reset: unsafe extern "C" fn(Statement) -> c_int,
    pub column: unsafe extern "C" fn(Statement, c_int) -> i64,
    column_text: unsafe extern "C" fn(Statement, c_int) -> *const c_char,
    pub column_type: unsafe extern "C" fn(Statement, c_int) -> c_int,
    pub changes: unsafe extern "C" fn(Connection) -> c_int,
    message: unsafe extern "C" fn(Connection) -> *const c_char,
    version: unsafe extern "C" fn() -> *const c_char,
}

const RESOLVE_NOW: c_int = 2;
pub const ROW: c_int = 100;
pub const DONE: c_int = 101;
pub const NULL: c_int = 5;

impl Library {
    pub fn load() -> Option<Library> {
        unsafe {
            let library = [c"libsqlite3.so.0", c"libsqlite3.so"].iter().map(|name| dlopen(name.as_ptr(), RESOLVE_NOW)).find(|found| !found.is_null())?;
            let symbol = |name: &CStr| {
                let found = dlsym(library, name.as_ptr());
                (!found.is_null()).then_some(found)
            };
            use std::mem::transmute as as_function;
            Some(Library {
                open: as_function::<*mut c_void, unsafe extern "C" fn(*const c_char, *mut Connection) -> c_int>(symbol(c"sqlite3_open")?),
                close: as_function::<*mut c_void, unsafe extern "C" fn(Connection) -> c_int>(symbol(c"sqlite3_close")?),
                prepare: as_function::<*mut c_void, unsafe extern "C" fn(Connection, *const c_char, c_int, *mut Statement, *mut *const c_char) -> c_int>(
                    symbol(c"sqlite3_prepare_v2")?,
                ),
                finalize: as_function::<*mut c_void, unsafe extern "C" fn(Statement) -> c_int>(symbol(c"sqlite3_finalize")?),
                next_statement: as_function::<*mut c_void, unsafe extern "C" fn(Connection, Statement) -> Statement>(symbol(c"sqlite3_next_stmt")?),
                bind: as_function::<*mut c_void, unsafe extern "C" fn(Statement, c_int, i64) -> c_int>(symbol(c"sqlite3_bind_int64")?),
                step: as_function::<*mut c_void, unsafe extern "C" fn(Statement) -> c_int>(symbol(c"sqlite3_step")?),
                reset: as_function::<*mut c_void, unsafe extern "C" fn(Statement) -> c_int>(symbol(c"sqlite3_reset")?),
                column: as_function::<*mut c_void, unsafe extern "C" fn(Statement, c_int) -> i64>(symbol(c"sqlite3_column_int64")?),
                column_text: as_function::<*mut c_void, unsafe extern "C" fn(Statement, c_int) -> *const c_char>(symbol(c"sqlite3_column_text")?),
                column_type: as_function::<*mut c_void, unsafe extern "C" fn(Statement, c_int) -> c_int>(symbol(c"sqlite3_column_type")?),
                changes: as_function::<*mut c_void, unsafe extern "C" fn(Connection) -> c_int>(symbol(c"sqlite3_changes")?),
                message: as_function::<*mut c_void, unsafe extern "C" fn(Connection) -> *const c_char>(symbol(c"sqlite3_errmsg")?),
                version: as_function::<*mut c_void, unsafe extern "C" fn() -> *const c_char>(symbol(c"sqlite3_libversion")?),
            })
        }
    }

    pub fn version(&self) -> String {
        unsafe { CStr::from_ptr((self.version)()).to_string_lossy().into_owned() }
    }

    pub fn message(&self, connection: Connection) -> String {
        unsafe { CStr::from_ptr((self.message)(connection)).to_string_lossy().into_owned() }
    }

    pub fn connect(&self, name: &CStr) -> Connection {
        let mut connection = std::ptr::null_mut();
        let opened = unsafe { (self.open)(name.as_ptr(), &mut connection) };
        assert_eq!(opened, 0, "SQLite opens no database {name:?}");
        connection
    }

    pub fn prepare(&self, connection: Connection, sql: &str) -> Statement {
        let text = CString::new(sql).expect("no zero byte");
        let mut statement = std::ptr::null_mut();
        let result = unsafe { (self.prepare)(connection, text.as_ptr(), -1, &mut statement, std::ptr::null_mut()) };
        assert_eq!(result, 0, "{sql}: {}", self.message(connection));
        statement
    }

    /// Runs a statement once: the first column of its row, where it answers one.
    pub fn execute(&self, connection: Connection, sql: &str) -> Option<String> {
        let statement = self.prepare(connection, sql);
        let result = unsafe { (self.step)(statement) };
        assert!(result == ROW || result == DONE, "{sql}: {}", self.message(connection));
        let answer = (result == ROW).then(|| unsafe { CStr::from_ptr((self.column_text)(statement, 0)).to_string_lossy().into_owned() });
        unsafe { (self.finalize)(statement) };
        answer
    }

    /// Ends every statement of a connection, and then the connection.
    pub fn close(&self, connection: Connection) {
        unsafe {
            loop {
                let statement = (self.next_statement)(connection, std::ptr::null_mut());
                if statement.is_null() {
                    break;
                }
                (self.finalize)(statement);
            }
            assert_eq!((self.close)(connection), 0, "{}", self.message(connection));
        }
    }
}
