//! The plain program: what Rust without proofs needs for the same work, on one thread and in memory.
//!
//!     plain parse    reads and checks each frame, and keeps nothing
//!     plain map      puts each version into an ordered map by key and falling timestamp; answers scans from it
//!
//! It keeps slices of the log, looks at no schema, and does not check that a stream is fair. A flush writes the
//! versions to a file as they stand in the map, and syncs it.

#[path = "common/log.rs"]
mod log;
#[path = "common/rows.rs"]
mod rows;
#[path = "common/session.rs"]
mod session;

use log::{Change, Cursor, Value};
use rows::{Composer, Query, Replies};
use session::Peer;
use std::collections::BTreeMap;
use std::fs::File;
use std::io::{BufWriter, Write};

struct Parse;

impl Peer for Parse {
    fn take(&mut self, _: Change<'static>) {}
    fn flush(&mut self) {}
    fn scan(&mut self, _: &Query, _: &mut Replies) {}
    fn compact(&mut self, _: u64) {}
}

/// A key in its order: one whole number, the common case, or the bytes of several parts.
#[derive(PartialEq, Eq, PartialOrd, Ord)]
enum Key {
    Int(u64),
    Bytes(Vec<u8>),
}

fn ordered(n: i64) -> u64 {
    n as u64 ^ 1 << 63
}

impl Key {
    fn of(spelled: &[u8]) -> Key {
        let mut parts = Cursor(spelled);
        let mut bytes = Vec::new();
        while let Some(part) = parts.key_part() {
            match part {
                Value::Int(n) if bytes.is_empty() && parts.0.is_empty() => return Key::Int(ordered(n)),
                Value::Int(n) => bytes.extend_from_slice(&ordered(n).to_be_bytes()),
                Value::Text(s) => bytes.extend(s.bytes().chain([0, 1])),
                _ => {}
            }
        }
        Key::Bytes(bytes)
    }
}

#[derive(Default)]
struct Map {
    versions: BTreeMap<(Key, u64), Change<'static>>,
}

impl Peer for Map {
    fn take(&mut self, change: Change<'static>) {
        self.versions.insert((Key::of(change.key), !change.ts), change);
    }

    fn flush(&mut self) {
        let mut out = BufWriter::with_capacity(1 << 20, File::create("plain.store").expect("a file"));
        for change in self.versions.values() {
            let parts: [&[u8]; 4] = [change.key, &change.ts.to_be_bytes(), &[change.op], change.columns];
            parts.iter().for_each(|part| out.write_all(part).expect("written"));
        }
        out.into_inner().expect("written").sync_all().expect("synced");
    }

    fn scan(&mut self, query: &Query, replies: &mut Replies) {
        let narrow = (query.from, query.to) != (i64::MIN, i64::MAX);
        let bounds = (Key::Int(ordered(query.from)), 0)..(Key::Int(ordered(query.to)), 0);
        if narrow {
            print(self.versions.range(bounds), query, replies);
        } else {
            print(self.versions.iter(), query, replies);
        }
    }

    fn compact(&mut self, _: u64) {}
}

fn print<'a>(
    versions: impl Iterator<Item = (&'a (Key, u64), &'a Change<'static>)>,
    query: &Query,
    replies: &mut Replies,
) {
    let mut key = None;
    let mut composer = Composer::new();
    for ((k, falling), change) in versions {
        if key != Some(k) {
            key = Some(k);
            composer = Composer::new();
        }
        if !falling > query.at {
            continue;
        }
        match composer.take(change.op, change.columns) {
            Some(row) if query.takes(&row) => replies.row(change.key, &row),
            _ => {}
        }
    }
}

fn main() {
    match std::env::args().nth(1).as_deref() {
        Some("parse") => session::serve(Parse),
        Some("map") => session::serve(Map::default()),
        _ => eprintln!("usage: plain parse | map"),
    }
}
