//! Rows of the table `orders`: made of versions, and printed as lightning prints them.

use crate::log::{Cursor, Value, DELETE, INSERT};
use std::io::{self, Write};

const STATUS: [&str; 4] = ["new", "paid", "shipped", "closed"];

pub const STATUS_COLUMN: usize = 0;
pub const TOTAL_COLUMN: usize = 1;

/// The columns status, total, note and gift.
pub type Row<'a> = [Value<'a>; 4];

/// The row of one key, made of its versions, the newest first.
pub struct Composer<'a> {
    cells: [Option<Value<'a>>; 4],
    over: bool,
}

impl<'a> Composer<'a> {
    pub fn new() -> Composer<'a> {
        Composer { cells: [None; 4], over: false }
    }

    /// Takes the next older version, and gives the row once it is known.
    pub fn take(&mut self, op: u8, columns: &'a [u8]) -> Option<Row<'a>> {
        if self.over {
            return None;
        }
        if op == DELETE {
            self.over = true;
            return None;
        }
        let mut c = Cursor(columns);
        for _ in 0..c.u16()? {
            let number = c.u16()? as usize;
            let value = c.value()?;
            self.cells[number - 1].get_or_insert(value);
        }
        if op != INSERT {
            return None;
        }
        self.over = true;
        Some(self.cells.map(|cell| cell.unwrap_or(Value::Null)))
    }
}

/// What a scan asks for: the moment, a range of one whole number as key, and a bound that `total` lies above.
#[derive(Clone, Copy)]
pub struct Query {
    pub at: u64,
    pub from: i64,
    pub to: i64,
    pub above: Option<i64>,
}

impl Query {
    pub fn takes(&self, row: &Row) -> bool {
        match (self.above, row[TOTAL_COLUMN]) {
            (None, _) => true,
            (Some(bound), Value::Int(total)) => total > bound,
            _ => false,
        }
    }
}

/// Replies, handed to standard output in pieces of 64 KiB.
pub struct Replies {
    text: Vec<u8>,
    pub rows: u64,
}

const PIECE: usize = 1 << 16;

impl Replies {
    pub fn new() -> Replies {
        Replies { text: Vec::with_capacity(2 * PIECE), rows: 0 }
    }

    pub fn line(&mut self, line: &str) {
        self.text.extend_from_slice(line.as_bytes());
        self.text.push(b'\n');
    }

    /// Prints a row; `key` holds the key's parts as the log spells them.
    pub fn row(&mut self, key: &[u8], row: &Row) {
        self.rows += 1;
        self.text.extend_from_slice(b"row [");
        let mut parts = Cursor(key);
        while let Some(part) = parts.key_part() {
            self.cell(part);
            self.text.push(b',');
        }
        for (column, value) in row.iter().enumerate() {
            if column > 0 {
                self.text.push(b',');
            }
            match *value {
                Value::Int(n) if column == STATUS_COLUMN => self.json(STATUS[n as usize]),
                other => self.cell(other),
            }
        }
        self.text.extend_from_slice(b"]\n");
        if self.text.len() >= PIECE {
            self.send().expect("standard output");
        }
    }

    fn cell(&mut self, value: Value) {
        match value {
            Value::Null => self.text.extend_from_slice(b"null"),
            Value::Bool(true) => self.text.extend_from_slice(b"true"),
            Value::Bool(false) => self.text.extend_from_slice(b"false"),
            Value::Int(n) => self.number(n),
            Value::Text(s) => self.json(s),
        }
    }

    fn number(&mut self, n: i64) {
        let mut digits = [0u8; 20];
        let mut at = digits.len();
        let mut left = n.unsigned_abs();
        loop {
            at -= 1;
            digits[at] = b'0' + (left % 10) as u8;
            left /= 10;
            if left == 0 {
                break;
            }
        }
        if n < 0 {
            self.text.push(b'-');
        }
        self.text.extend_from_slice(&digits[at..]);
    }

    fn json(&mut self, s: &str) {
        self.text.push(b'"');
        for b in s.bytes() {
            match b {
                b'"' | b'\\' => self.text.extend_from_slice(&[b'\\', b]),
                0..=31 => self.text.extend_from_slice(format!("\\u{:04x}", b).as_bytes()),
                _ => self.text.push(b),
            }
        }
        self.text.push(b'"');
    }

    pub fn send(&mut self) -> io::Result<()> {
        let mut out = io::stdout();
        out.write_all(&self.text)?;
        out.flush()?;
        self.text.clear();
        Ok(())
    }
}
