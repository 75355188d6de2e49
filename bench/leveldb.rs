//! LevelDB as a library that keeps every version: an entry for each change under its id and its falling timestamp. A
//! scan puts the rows together as it goes.
//!
//! Batches of 1,000 puts without a sync; a flush syncs. No compression, a write buffer of 64 MB. Keys of one whole
//! number only.

#[path = "common/log.rs"]
mod log;
#[path = "common/rows.rs"]
mod rows;
#[path = "common/session.rs"]
mod session;

use log::{Change, Cursor, Value};
use rows::{Composer, Query, Replies};
use session::Peer;
use std::ffi::CString;
use std::os::raw::{c_char, c_int, c_uchar, c_void};
use std::ptr::{null, null_mut};
use std::slice::from_raw_parts;

type Handle = *mut c_void;

#[link(name = "leveldb")]
extern "C" {
    fn leveldb_options_create() -> Handle;
    fn leveldb_options_set_create_if_missing(options: Handle, value: c_uchar);
    fn leveldb_options_set_compression(options: Handle, value: c_int);
    fn leveldb_options_set_write_buffer_size(options: Handle, value: usize);
    fn leveldb_open(options: Handle, name: *const c_char, error: *mut *mut c_char) -> Handle;
    fn leveldb_writeoptions_create() -> Handle;
    fn leveldb_writeoptions_set_sync(options: Handle, value: c_uchar);
    fn leveldb_writebatch_create() -> Handle;
    fn leveldb_writebatch_clear(batch: Handle);
    fn leveldb_writebatch_put(batch: Handle, key: *const u8, key_length: usize, value: *const u8, length: usize);
    fn leveldb_write(db: Handle, options: Handle, batch: Handle, error: *mut *mut c_char);
    fn leveldb_readoptions_create() -> Handle;
    fn leveldb_create_iterator(db: Handle, options: Handle) -> Handle;
    fn leveldb_iter_seek(iterator: Handle, key: *const u8, length: usize);
    fn leveldb_iter_valid(iterator: Handle) -> c_uchar;
    fn leveldb_iter_next(iterator: Handle);
    fn leveldb_iter_key(iterator: Handle, length: *mut usize) -> *const u8;
    fn leveldb_iter_value(iterator: Handle, length: *mut usize) -> *const u8;
    fn leveldb_iter_destroy(iterator: Handle);
    fn leveldb_compact_range(db: Handle, low: *const u8, low_length: usize, high: *const u8, high_length: usize);
}

const BATCH: usize = 1000;

struct LevelDb {
    db: Handle,
    batch: Handle,
    write_options: Handle,
    read_options: Handle,
    held: usize,
    value: Vec<u8>,
}

fn ordered(id: i64) -> [u8; 8] {
    (id as u64 ^ 1 << 63).to_be_bytes()
}

impl LevelDb {
    fn open(path: &str) -> LevelDb {
        let name = CString::new(path).unwrap();
        let mut error = null_mut();
        unsafe {
            let options = leveldb_options_create();
            leveldb_options_set_create_if_missing(options, 1);
            leveldb_options_set_compression(options, 0);
            leveldb_options_set_write_buffer_size(options, 64 << 20);
            let db = leveldb_open(options, name.as_ptr(), &mut error);
            assert!(error.is_null(), "leveldb_open");
            let (batch, write_options) = (leveldb_writebatch_create(), leveldb_writeoptions_create());
            LevelDb { db, batch, write_options, read_options: leveldb_readoptions_create(), held: 0, value: Vec::new() }
        }
    }

    fn write(&mut self, sync: bool) {
        let mut error = null_mut();
        unsafe {
            leveldb_writeoptions_set_sync(self.write_options, sync as c_uchar);
            leveldb_write(self.db, self.write_options, self.batch, &mut error);
            assert!(error.is_null(), "leveldb_write");
            leveldb_writebatch_clear(self.batch);
        }
        self.held = 0;
    }
}

impl Peer for LevelDb {
    fn take(&mut self, change: Change<'static>) {
        let mut parts = Cursor(change.key);
        let id = match parts.key_part() {
            Some(Value::Int(id)) if parts.0.is_empty() => id,
            _ => panic!("keys of one whole number only"),
        };
        let mut key = [0; 16];
        key[..8].copy_from_slice(&ordered(id));
        key[8..].copy_from_slice(&(!change.ts).to_be_bytes());
        self.value.clear();
        self.value.push(change.op);
        self.value.extend_from_slice(change.columns);
        unsafe { leveldb_writebatch_put(self.batch, key.as_ptr(), 16, self.value.as_ptr(), self.value.len()) };
        self.held += 1;
        if self.held == BATCH {
            self.write(false);
        }
    }

    fn flush(&mut self) {
        self.write(true);
    }

    fn scan(&mut self, query: &Query, replies: &mut Replies) {
        let (low, high) = (ordered(query.from), ordered(query.to));
        let mut versions = Versions::default();
        unsafe {
            let iterator = leveldb_create_iterator(self.db, self.read_options);
            leveldb_iter_seek(iterator, low.as_ptr(), low.len());
            while leveldb_iter_valid(iterator) != 0 {
                let (mut key_length, mut length) = (0, 0);
                let key = from_raw_parts(leveldb_iter_key(iterator, &mut key_length), 16);
                let (id, falling) = key.split_at(8);
                if id >= &high[..] {
                    break;
                }
                if id != versions.id {
                    versions.print(query, replies);
                    versions.id.copy_from_slice(id);
                }
                if !u64::from_be_bytes(falling.try_into().unwrap()) <= query.at {
                    let value = leveldb_iter_value(iterator, &mut length);
                    versions.add(from_raw_parts(value, length));
                }
                leveldb_iter_next(iterator);
            }
            leveldb_iter_destroy(iterator);
        }
        versions.print(query, replies);
    }

    fn compact(&mut self, _minimum: u64) {
        unsafe { leveldb_compact_range(self.db, null(), 0, null(), 0) }
    }
}

/// The versions of one id up to the asked moment, the newest first.
#[derive(Default)]
struct Versions {
    id: [u8; 8],
    bytes: Vec<u8>,
    ends: Vec<usize>,
}

impl Versions {
    fn add(&mut self, version: &[u8]) {
        self.bytes.extend_from_slice(version);
        self.ends.push(self.bytes.len());
    }

    /// Prints the row that they make, if there is one, and forgets them.
    fn print(&mut self, query: &Query, replies: &mut Replies) {
        let mut composer = Composer::new();
        let mut start = 0;
        for end in &self.ends {
            let version = &self.bytes[start..*end];
            start = *end;
            if let Some(row) = composer.take(version[0], &version[1..]) {
                if query.takes(&row) {
                    let mut key = [1; 9];
                    key[1..].copy_from_slice(&(u64::from_be_bytes(self.id) ^ 1 << 63).to_be_bytes());
                    replies.row(&key, &row);
                }
            }
        }
        self.bytes.clear();
        self.ends.clear();
    }
}

fn main() {
    session::serve(LevelDb::open("leveldb"))
}
