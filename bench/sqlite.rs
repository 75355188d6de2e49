//! SQLite as a library, with prepared statements, over its fastest fitting tables.
//!
//!     sqlite versions PATH    a whole row for each change, so that it answers at any timestamp
//!     sqlite latest PATH      one row for each key, so that it answers at the end only
//!
//! PATH is a file of the current folder, or `:memory:`. Journal in WAL mode, synchronous=FULL, a cache of 256 MB. All
//! changes up to a flush are one transaction; a flush commits it and moves the journal into the file. Keys of one
//! whole number only.

#[path = "common/log.rs"]
mod log;
#[allow(dead_code)] // SQLite makes rows of versions by itself
#[path = "common/rows.rs"]
mod rows;
#[path = "common/session.rs"]
mod session;

use log::{Change, Cursor, Value, DELETE, INSERT};
use rows::{Query, Replies, Row};
use session::Peer;
use std::ffi::CString;
use std::os::raw::{c_char, c_int, c_void};
use std::ptr::{null, null_mut};
use std::slice::from_raw_parts;

type Handle = *mut c_void;

#[link(name = "sqlite3")]
extern "C" {
    fn sqlite3_open(path: *const c_char, db: *mut Handle) -> c_int;
    fn sqlite3_exec(db: Handle, sql: *const c_char, f: *const c_void, a: *const c_void, e: *const c_void) -> c_int;
    fn sqlite3_prepare_v2(
        db: Handle,
        sql: *const c_char,
        n: c_int,
        statement: *mut Handle,
        tail: *const c_void,
    ) -> c_int;
    fn sqlite3_bind_int64(statement: Handle, i: c_int, value: i64) -> c_int;
    fn sqlite3_bind_null(statement: Handle, i: c_int) -> c_int;
    fn sqlite3_bind_text(statement: Handle, i: c_int, text: *const c_char, n: c_int, free: *const c_void) -> c_int;
    fn sqlite3_step(statement: Handle) -> c_int;
    fn sqlite3_reset(statement: Handle) -> c_int;
    fn sqlite3_column_type(statement: Handle, i: c_int) -> c_int;
    fn sqlite3_column_int64(statement: Handle, i: c_int) -> i64;
    fn sqlite3_column_text(statement: Handle, i: c_int) -> *const u8;
    fn sqlite3_column_bytes(statement: Handle, i: c_int) -> c_int;
}

const NULL_TYPE: c_int = 5;
const ROW: c_int = 100;
const DONE: c_int = 101;

#[derive(Clone, Copy)]
struct Statement(Handle);

impl Statement {
    fn bind(self, i: c_int, value: Value) -> Statement {
        let status = unsafe {
            match value {
                Value::Null => sqlite3_bind_null(self.0, i),
                Value::Bool(b) => sqlite3_bind_int64(self.0, i, b as i64),
                Value::Int(n) => sqlite3_bind_int64(self.0, i, n),
                Value::Text(s) => sqlite3_bind_text(self.0, i, s.as_ptr().cast(), s.len() as c_int, null()),
            }
        };
        assert_eq!(status, 0, "bind");
        self
    }

    fn run(self) {
        assert!(!self.step(), "no rows");
    }

    /// Goes to the next row; false where there is none, and then the statement is fresh again.
    fn step(self) -> bool {
        match unsafe { sqlite3_step(self.0) } {
            ROW => true,
            DONE => unsafe { sqlite3_reset(self.0) != 0 },
            other => panic!("sqlite3_step: {other}"),
        }
    }

    fn int(self, i: c_int) -> i64 {
        unsafe { sqlite3_column_int64(self.0, i) }
    }

    /// The columns status, total, note and gift, which stand from column 1 on.
    fn row(&self) -> Row<'_> {
        let note = unsafe {
            if sqlite3_column_type(self.0, 3) == NULL_TYPE {
                Value::Null
            } else {
                let text = sqlite3_column_text(self.0, 3);
                let bytes = from_raw_parts(text, sqlite3_column_bytes(self.0, 3) as usize);
                Value::Text(std::str::from_utf8(bytes).expect("UTF-8"))
            }
        };
        [Value::Int(self.int(1)), Value::Int(self.int(2)), note, Value::Bool(self.int(4) != 0)]
    }
}

#[derive(Clone, Copy)]
struct Db(Handle);

impl Db {
    fn open(path: &str) -> Db {
        let name = CString::new(path).unwrap();
        let mut db = null_mut();
        assert_eq!(unsafe { sqlite3_open(name.as_ptr(), &mut db) }, 0, "{path}");
        Db(db)
    }

    fn run(self, sql: &str) {
        let text = CString::new(sql).unwrap();
        assert_eq!(unsafe { sqlite3_exec(self.0, text.as_ptr(), null(), null(), null()) }, 0, "{sql}");
    }

    fn prepare(self, sql: &str) -> Statement {
        let text = CString::new(sql).unwrap();
        let mut statement = null_mut();
        assert_eq!(unsafe { sqlite3_prepare_v2(self.0, text.as_ptr(), -1, &mut statement, null()) }, 0, "{sql}");
        Statement(statement)
    }
}

/// The statements of one of the two tables.
struct Tables {
    create: &'static str,
    insert: &'static str,
    update: &'static str,
    delete: &'static str,
    select: &'static str,
    select_above: &'static str,
    compact: &'static str,
}

// ?1 the key, ?2 the timestamp, ?3 to ?6 the columns, ?7 a bit for each column that an update sets.
const VERSIONS: Tables = Tables {
    create: "CREATE TABLE IF NOT EXISTS versions(id INTEGER, ts INTEGER, op INTEGER, status INTEGER, total INTEGER,
        note TEXT, gift INTEGER, PRIMARY KEY(id, ts)) WITHOUT ROWID",
    insert: "INSERT INTO versions VALUES(?1, ?2, 1, ?3, ?4, ?5, ?6)",
    update: "INSERT INTO versions SELECT id, ?2, 2, iif(?7 & 1, ?3, status), iif(?7 & 2, ?4, total),
        iif(?7 & 4, ?5, note), iif(?7 & 8, ?6, gift) FROM versions WHERE id = ?1 ORDER BY ts DESC LIMIT 1",
    delete: "INSERT INTO versions(id, ts, op) VALUES(?1, ?2, 3)",
    // Beside max(ts), SQLite gives the other columns of the row that has the maximum.
    select: "SELECT id, status, total, note, gift FROM (SELECT *, max(ts) FROM versions
        WHERE ts <= ?1 AND id >= ?2 AND id < ?3 GROUP BY id) WHERE op <> 3 ORDER BY id",
    select_above: "SELECT id, status, total, note, gift FROM (SELECT *, max(ts) FROM versions
        WHERE ts <= ?1 AND id >= ?2 AND id < ?3 GROUP BY id) WHERE op <> 3 AND total > ?4 ORDER BY id",
    compact: "DELETE FROM versions WHERE ts <= ?1 AND (op = 3 OR ts < (SELECT max(ts) FROM versions later
        WHERE later.id = versions.id AND later.ts <= ?1))",
};

const LATEST: Tables = Tables {
    create: "CREATE TABLE IF NOT EXISTS orders(id INTEGER PRIMARY KEY, status INTEGER, total INTEGER, note TEXT,
        gift INTEGER)",
    insert: "INSERT INTO orders VALUES(?1, ?3, ?4, ?5, ?6)",
    update: "UPDATE orders SET status = iif(?7 & 1, ?3, status), total = iif(?7 & 2, ?4, total),
        note = iif(?7 & 4, ?5, note), gift = iif(?7 & 8, ?6, gift) WHERE id = ?1 AND ?2",
    delete: "DELETE FROM orders WHERE id = ?1 AND ?2",
    select: "SELECT id, status, total, note, gift FROM orders
        WHERE ?1 AND id >= ?2 AND id < ?3 ORDER BY id",
    select_above: "SELECT id, status, total, note, gift FROM orders
        WHERE ?1 AND id >= ?2 AND id < ?3 AND total > ?4 ORDER BY id",
    compact: "SELECT 1 WHERE ?1 < 0",
};

struct Sqlite {
    db: Db,
    tables: &'static Tables,
    changing: bool,
    insert: Statement,
    update: Statement,
    delete: Statement,
    select: Statement,
    select_above: Statement,
}

impl Sqlite {
    fn open(tables: &'static Tables, path: &str) -> Sqlite {
        let db = Db::open(path);
        db.run("PRAGMA journal_mode=WAL; PRAGMA synchronous=FULL; PRAGMA cache_size=-262144");
        db.run(tables.create);
        Sqlite {
            db,
            tables,
            changing: false,
            insert: db.prepare(tables.insert),
            update: db.prepare(tables.update),
            delete: db.prepare(tables.delete),
            select: db.prepare(tables.select),
            select_above: db.prepare(tables.select_above),
        }
    }
}

impl Peer for Sqlite {
    fn take(&mut self, change: Change<'static>) {
        if !self.changing {
            self.db.run("BEGIN");
            self.changing = true;
        }
        let statement = match change.op {
            INSERT => self.insert,
            DELETE => self.delete,
            _ => self.update,
        };
        let id = Cursor(change.key).key_part().expect("a key");
        statement.bind(1, id).bind(2, Value::Int(change.ts as i64));
        if change.op != DELETE {
            bind_columns(statement, &change);
        }
        statement.run();
    }

    fn flush(&mut self) {
        if self.changing {
            self.db.run("COMMIT");
            self.changing = false;
        }
        self.db.run("PRAGMA wal_checkpoint(TRUNCATE)");
    }

    fn scan(&mut self, query: &Query, replies: &mut Replies) {
        let statement = match query.above {
            None => self.select,
            Some(bound) => self.select_above.bind(4, Value::Int(bound)),
        };
        statement.bind(1, Value::Int(query.at as i64)).bind(2, Value::Int(query.from)).bind(3, Value::Int(query.to));
        while statement.step() {
            let mut key = [1; 9];
            key[1..].copy_from_slice(&statement.int(0).to_be_bytes());
            replies.row(&key, &statement.row());
        }
    }

    fn compact(&mut self, minimum: u64) {
        self.db.prepare(self.tables.compact).bind(1, Value::Int(minimum as i64)).run();
        self.db.run("VACUUM; PRAGMA wal_checkpoint(TRUNCATE)");
    }
}

/// Binds the columns that the change sets, and for an update which they are.
fn bind_columns(statement: Statement, change: &Change) {
    let mut columns = Cursor(change.columns);
    let mut set = 0;
    for _ in 0..columns.u16().expect("a number") {
        let number = columns.u16().expect("a number");
        set |= 1 << (number - 1);
        statement.bind(number as c_int + 2, columns.value().expect("a value"));
    }
    if change.op != INSERT {
        statement.bind(7, Value::Int(set));
    }
}

fn main() {
    let words: Vec<String> = std::env::args().skip(1).collect();
    match words.iter().map(String::as_str).collect::<Vec<_>>()[..] {
        ["versions", path] => session::serve(Sqlite::open(&VERSIONS, path)),
        ["latest", path] => session::serve(Sqlite::open(&LATEST, path)),
        _ => eprintln!("usage: sqlite versions | latest PATH"),
    }
}
