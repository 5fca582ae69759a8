//! SQLite in memory: a table with a covering index, prepared statements, one
//! transaction a week. The library is looked for when the benchmark runs, so
//! that it also runs where SQLite is not installed.

use crate::sets::Layouts;
use crate::structures::{Answered, Structure, NONE};
use meltusk::{Call, Set, Totals};
use second::check::ABSENT;
use second::Delivery;
use std::ffi::{c_char, c_int, c_void, CStr, CString};
use std::ptr::{null, null_mut};

const LIBRARY: &CStr = c"libsqlite3.so.0";
const ROW: c_int = 100;
const DONE: c_int = 101;
const NOW: c_int = 2; // RTLD_NOW

extern "C" {
    fn dlopen(name: *const c_char, flags: c_int) -> *mut c_void;
    fn dlsym(library: *mut c_void, name: *const c_char) -> *mut c_void;
}

type Database = *mut c_void;
type Statement = *mut c_void;

/// The functions of SQLite that are used.
#[derive(Clone, Copy)]
struct Api {
    version: unsafe extern "C" fn() -> *const c_char,
    open: unsafe extern "C" fn(*const c_char, *mut Database) -> c_int,
    close: unsafe extern "C" fn(Database) -> c_int,
    exec: unsafe extern "C" fn(
        Database,
        *const c_char,
        *const c_void,
        *mut c_void,
        *mut c_void,
    ) -> c_int,
    prepare:
        unsafe extern "C" fn(Database, *const c_char, c_int, *mut Statement, *mut c_void) -> c_int,
    finalize: unsafe extern "C" fn(Statement) -> c_int,
    bind: unsafe extern "C" fn(Statement, c_int, i64) -> c_int,
    step: unsafe extern "C" fn(Statement) -> c_int,
    reset: unsafe extern "C" fn(Statement) -> c_int,
    column: unsafe extern "C" fn(Statement, c_int) -> i64,
    changes: unsafe extern "C" fn(Database) -> c_int,
}

impl Api {
    /// None where SQLite is not installed.
    fn load() -> Option<Api> {
        // SAFETY: the names are C strings, and each function has the type that
        // SQLite's interface gives it.
        unsafe {
            let library = dlopen(LIBRARY.as_ptr(), NOW);
            if library.is_null() {
                return None;
            }
            macro_rules! function {
                ($name:literal) => {{
                    let found = dlsym(library, $name.as_ptr());
                    if found.is_null() {
                        return None;
                    }
                    std::mem::transmute(found)
                }};
            }
            Some(Api {
                version: function!(c"sqlite3_libversion"),
                open: function!(c"sqlite3_open"),
                close: function!(c"sqlite3_close"),
                exec: function!(c"sqlite3_exec"),
                prepare: function!(c"sqlite3_prepare_v2"),
                finalize: function!(c"sqlite3_finalize"),
                bind: function!(c"sqlite3_bind_int64"),
                step: function!(c"sqlite3_step"),
                reset: function!(c"sqlite3_reset"),
                column: function!(c"sqlite3_column_int64"),
                changes: function!(c"sqlite3_changes"),
            })
        }
    }
}

/// SQLite's version, if it is installed.
pub fn version() -> Option<String> {
    let api = Api::load()?;
    // SAFETY: the answer is a C string that is never freed.
    Some(
        unsafe { CStr::from_ptr((api.version)()) }
            .to_string_lossy()
            .into_owned(),
    )
}

const TABLE: &str =
    "CREATE TABLE deliveries (grower INTEGER, weight INTEGER, oil_yield INTEGER, day INTEGER);
    CREATE INDEX by_grower ON deliveries (grower, weight, oil_yield, day);";
const RANGE: &str = "SELECT count(*), sum(weight), sum(weight * oil_yield) FROM deliveries
    WHERE grower BETWEEN ?1 AND ?2";
const RANGE_DAYS: &str = "SELECT count(*), sum(weight), sum(weight * oil_yield) FROM deliveries
    WHERE grower BETWEEN ?1 AND ?2 AND day BETWEEN ?3 AND ?4";
const FIND: &str = "SELECT count(*), sum(weight), sum(weight * oil_yield) FROM deliveries
    WHERE grower = ?1";
const INSERT: &str = "INSERT INTO deliveries VALUES (?1, ?2, ?3, ?4)";
const DELETE: &str = "DELETE FROM deliveries WHERE rowid = (SELECT rowid FROM deliveries
    WHERE grower = ?1 AND weight = ?2 AND oil_yield = ?3 AND day = ?4 LIMIT 1)";
const MOVE: &str = "UPDATE deliveries SET grower = ?5 WHERE rowid = (SELECT rowid FROM deliveries
    WHERE grower = ?1 AND weight = ?2 AND oil_yield = ?3 AND day = ?4 LIMIT 1)";

pub struct Sqlite {
    api: Api,
    database: Database,
    find: Statement,
    range: Statement,
    range_days: Statement,
    insert: Statement,
    delete: Statement,
    moved: Statement,
}

impl Sqlite {
    /// A database with the set's deliveries; none where SQLite is not installed.
    pub fn new(set: &Set) -> Option<Sqlite> {
        let api = Api::load()?;
        let mut database = null_mut();
        // SAFETY: the name is a C string, and `database` is written once.
        let opened = unsafe { (api.open)(c":memory:".as_ptr(), &mut database) };
        assert_eq!(opened, 0, "SQLite opens no database");
        let mut sqlite = Sqlite {
            api,
            database,
            find: null_mut(),
            range: null_mut(),
            range_days: null_mut(),
            insert: null_mut(),
            delete: null_mut(),
            moved: null_mut(),
        };
        sqlite.execute(TABLE);
        sqlite.find = sqlite.prepared(FIND);
        sqlite.range = sqlite.prepared(RANGE);
        sqlite.range_days = sqlite.prepared(RANGE_DAYS);
        sqlite.insert = sqlite.prepared(INSERT);
        sqlite.delete = sqlite.prepared(DELETE);
        sqlite.moved = sqlite.prepared(MOVE);
        sqlite.execute("BEGIN");
        for slot in 0..set.records() {
            sqlite.call(Call::Insert(set.delivery(slot)));
        }
        sqlite.execute("COMMIT; ANALYZE; BEGIN");
        Some(sqlite)
    }

    fn execute(&self, text: &str) {
        let text = CString::new(text).expect("a text without zeros");
        // SAFETY: the database is open and the text a C string.
        let code = unsafe {
            (self.api.exec)(self.database, text.as_ptr(), null(), null_mut(), null_mut())
        };
        assert_eq!(code, 0, "SQLite refuses {text:?}");
    }

    fn prepared(&self, text: &str) -> Statement {
        let text = CString::new(text).expect("a text without zeros");
        let mut statement = null_mut();
        // SAFETY: the database is open, the text a C string, and `statement` is
        // written once.
        let code = unsafe {
            (self.api.prepare)(self.database, text.as_ptr(), -1, &mut statement, null_mut())
        };
        assert_eq!(code, 0, "SQLite refuses {text:?}");
        statement
    }

    /// Runs a statement that changes rows; answers how many.
    fn change(&self, statement: Statement, values: &[u32]) -> c_int {
        // SAFETY: the statement is prepared and takes these values.
        unsafe {
            self.bind(statement, values);
            assert_eq!((self.api.step)(statement), DONE, "SQLite refuses a change");
            let changes = (self.api.changes)(self.database);
            (self.api.reset)(statement);
            changes
        }
    }

    fn totals(&self, statement: Statement, values: &[u32]) -> Totals {
        // SAFETY: the statement is prepared, takes these values, and has one row
        // of three numbers.
        unsafe {
            self.bind(statement, values);
            assert_eq!((self.api.step)(statement), ROW, "SQLite answers nothing");
            let column = |i| (self.api.column)(statement, i) as u64;
            let totals = Totals {
                records: column(0),
                weight: column(1),
                oil: column(2),
            };
            (self.api.reset)(statement);
            totals
        }
    }

    unsafe fn bind(&self, statement: Statement, values: &[u32]) {
        for (&value, place) in values.iter().zip(1..) {
            (self.api.bind)(statement, place, i64::from(value));
        }
    }
}

impl Drop for Sqlite {
    fn drop(&mut self) {
        let reads = [self.find, self.range, self.range_days];
        let writes = [self.insert, self.delete, self.moved];
        // SAFETY: each statement is prepared once and used no more.
        unsafe {
            for statement in reads.into_iter().chain(writes) {
                (self.api.finalize)(statement);
            }
            (self.api.close)(self.database);
        }
    }
}

impl Structure for Sqlite {
    /// A week is one transaction, which is taken back.
    fn fresh(&mut self) {
        self.execute("ROLLBACK; BEGIN");
    }

    fn call(&mut self, call: Call) -> Answered {
        let absent = |changes| if changes == 1 { 0 } else { ABSENT };
        let values = |d: Delivery| [d.grower, d.weight, d.oil_yield, d.day];
        match call {
            Call::Find(grower) => (0, self.totals(self.find, &[grower])),
            Call::Range(lo, hi) => (0, self.totals(self.range, &[lo, hi])),
            Call::RangeDays(lo, hi, span) => {
                let values = [lo, hi, span.first, span.last];
                (0, self.totals(self.range_days, &values))
            }
            Call::Insert(d) => {
                self.change(self.insert, &values(d));
                (0, NONE)
            }
            Call::Delete(d) => (absent(self.change(self.delete, &values(d))), NONE),
            Call::Move(d, new) => {
                let [grower, weight, oil_yield, day] = values(d);
                let changes = self.change(self.moved, &[grower, weight, oil_yield, day, new]);
                (absent(changes), NONE)
            }
        }
    }
}
