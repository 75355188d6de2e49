//! A plain reader of the change log (docs/formats.md). It checks the grammar of each frame, as far as the feeds of
//! `feed.rs` use it: no bytes and no structs. It does not check that a stream is fair, and it knows no schema.

use std::fs;
use std::io;

#[derive(Clone, Copy)]
pub enum Value<'a> {
    Null,
    Bool(bool),
    Int(i64),
    Text(&'a str),
}

/// A change. `key` holds its spelled parts and `columns` its set columns, both checked.
#[derive(Clone, Copy)]
pub struct Change<'a> {
    pub ts: u64,
    pub op: u8,
    pub key: &'a [u8],
    pub columns: &'a [u8],
}

pub const INSERT: u8 = 1;
pub const DELETE: u8 = 3;

/// Bytes that are read from the front.
pub struct Cursor<'a>(pub &'a [u8]);

impl<'a> Cursor<'a> {
    pub fn take(&mut self, n: usize) -> Option<&'a [u8]> {
        if self.0.len() < n {
            return None;
        }
        let (front, rest) = self.0.split_at(n);
        self.0 = rest;
        Some(front)
    }

    pub fn u8(&mut self) -> Option<u8> {
        Some(self.take(1)?[0])
    }

    pub fn u16(&mut self) -> Option<u16> {
        Some(u16::from_be_bytes(self.take(2)?.try_into().ok()?))
    }

    pub fn u32(&mut self) -> Option<u32> {
        Some(u32::from_be_bytes(self.take(4)?.try_into().ok()?))
    }

    pub fn u64(&mut self) -> Option<u64> {
        Some(u64::from_be_bytes(self.take(8)?.try_into().ok()?))
    }

    fn text(&mut self) -> Option<&'a str> {
        let length = self.u32()? as usize;
        std::str::from_utf8(self.take(length)?).ok()
    }

    pub fn value(&mut self) -> Option<Value<'a>> {
        match self.u8()? {
            0 => Some(Value::Null),
            1 => Some(Value::Bool(self.u8()? == 1)),
            2 => Some(Value::Int(self.u64()? as i64)),
            3 => Some(Value::Text(self.text()?)),
            _ => None,
        }
    }

    pub fn key_part(&mut self) -> Option<Value<'a>> {
        match self.u8()? {
            1 => Some(Value::Int(self.u64()? as i64)),
            2 => Some(Value::Text(self.text()?)),
            _ => None,
        }
    }
}

fn change(body: &[u8]) -> Option<Change<'_>> {
    let mut c = Cursor(body);
    let (ts, _table, _version, op) = (c.u64()?, c.u32()?, c.u32()?, c.u8()?);
    if ts == 0 || ts >> 63 != 0 || !(INSERT..=DELETE).contains(&op) {
        return None;
    }
    let parts = c.u8()?;
    let start = c.0;
    for _ in 0..parts {
        c.key_part()?;
    }
    let key = &start[..start.len() - c.0.len()];
    let columns = c.0;
    let mut last = 0;
    for _ in 0..c.u16()? {
        let number = c.u16()?;
        if number <= last {
            return None;
        }
        last = number;
        c.value()?;
    }
    c.0.is_empty().then(|| Change { ts, op, key, columns })
}

/// A stream of the feed, and how far it was pumped.
pub struct Stream {
    bytes: &'static [u8],
    at: usize,
    checkpoint: u64,
}

/// What a pump did, as its reply tells it.
pub struct Pumped {
    pub records: u64,
    pub offset: usize,
    pub checkpoint: u64,
    pub stop: &'static str,
}

const HEADER: u8 = 1;
const CHANGE: u8 = 2;
const CHECKPOINT: u8 = 3;

impl Stream {
    /// Reads the file into memory, where it stays, and goes behind its header.
    pub fn open(path: &str) -> io::Result<Stream> {
        let bytes: &'static [u8] = Box::leak(fs::read(path)?.into_boxed_slice());
        let mut stream = Stream { bytes, at: 0, checkpoint: 0 };
        match stream.frame() {
            Some((HEADER, _)) => Ok(stream),
            _ => Err(io::Error::new(io::ErrorKind::InvalidData, "no header")),
        }
    }

    pub fn checkpoint(&self) -> u64 {
        self.checkpoint
    }

    fn frame(&mut self) -> Option<(u8, &'static [u8])> {
        let mut c = Cursor(&self.bytes[self.at..]);
        let (kind, length) = (c.u8()?, c.u32()?);
        let body = c.take(length as usize)?;
        self.at = self.bytes.len() - c.0.len();
        Some((kind, body))
    }

    /// Hands over the changes among the next records, at most `most` of them.
    pub fn pump(&mut self, most: u64, mut each: impl FnMut(Change<'static>)) -> Pumped {
        let mut records = 0;
        let mut stop = "Count";
        while records < most {
            match self.frame() {
                Some((CHANGE, body)) => each(change(body).expect("a change")),
                Some((CHECKPOINT, body)) => self.checkpoint = Cursor(body).u64().expect("a checkpoint"),
                Some(_) => panic!("a frame of another kind before {}", self.at),
                None => {
                    stop = "End";
                    break;
                }
            }
            records += 1;
        }
        Pumped { records, offset: self.at, checkpoint: self.checkpoint, stop }
    }
}
