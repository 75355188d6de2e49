//! Writes the change log of one table, `orders`, by a seed: 60 % inserts of new keys, 30 % updates of one or two
//! columns, 10 % deletes, and a checkpoint after every 100 changes. The timestamps are 1, 2, 3 and so on.
//!
//!     feed CHANGES SEED KIND FOLDER
//!
//! KIND is `int` (the key is one whole number), `text` (a region and a number), `streams` (the first, over four
//! streams that part the keys) or `hot` (the first, but all updates are of one key). FOLDER gets the streams `feed.0`
//! .., the script line `schema`, and for keys of one whole number `keys`: the ids of the rows at the end, rising, one
//! a line.

use std::fs::{self, File};
use std::io::{self, BufWriter, Write};

const TABLE: u32 = 7;
const CHECKPOINT_EVERY: u64 = 100;
const REGIONS: [&str; 6] = ["ap", "eu", "jp", "sa", "us", "za"];
const WORDS: [&str; 16] = [
    "blue", "box", "call", "cash", "door", "early", "field", "gate", "glass", "green", "moon", "north", "plate",
    "ring", "stone", "wood",
];

#[derive(Clone, Copy, PartialEq)]
enum Kind {
    Int,
    Text,
    Streams,
    Hot,
}

/// The generator SplitMix64.
struct Random(u64);

impl Random {
    fn next(&mut self) -> u64 {
        self.0 = self.0.wrapping_add(0x9E37_79B9_7F4A_7C15);
        let mut z = self.0;
        z = (z ^ (z >> 30)).wrapping_mul(0xBF58_476D_1CE4_E5B9);
        z = (z ^ (z >> 27)).wrapping_mul(0x94D0_49BB_1331_11EB);
        z ^ (z >> 31)
    }

    fn below(&mut self, n: u64) -> u64 {
        ((self.next() as u128 * n as u128) >> 64) as u64
    }
}

/// Ids in mixed order: a bijection of the numbers below 2^bits.
fn scatter(x: u64, bits: u32) -> u64 {
    let mask = (1 << bits) - 1;
    let half = (bits + 1) / 2;
    let mut y = x & mask;
    for odd in [0x9E37_79B9_7F4A_7C15u64, 0xD6E8_FEB8_6659_FD93, 0xCA5A_8263_9512_1157] {
        y ^= y >> half;
        y = y.wrapping_mul(odd) & mask;
    }
    y ^ (y >> half)
}

struct Stream {
    out: BufWriter<File>,
}

impl Stream {
    fn frame(&mut self, kind: u8, body: &[u8]) -> io::Result<()> {
        self.out.write_all(&[kind])?;
        self.out.write_all(&(body.len() as u32).to_be_bytes())?;
        self.out.write_all(body)
    }
}

struct Feed {
    kind: Kind,
    random: Random,
    bits: u32,
    keys: u64,
    live: Vec<u64>,
    streams: Vec<Stream>,
    body: Vec<u8>,
}

impl Feed {
    fn create(changes: u64, seed: u64, kind: Kind, folder: &str) -> io::Result<Feed> {
        let bits = (64 - changes.leading_zeros()).max(8);
        let mut feed =
            Feed { kind, random: Random(seed), bits, keys: 0, live: Vec::new(), streams: Vec::new(), body: Vec::new() };
        let count = if kind == Kind::Streams { 4 } else { 1 };
        for s in 0..count {
            let out = BufWriter::with_capacity(1 << 20, File::create(format!("{folder}/feed.{s}"))?);
            let mut stream = Stream { out };
            stream.frame(1, &feed.header(s, count))?;
            feed.streams.push(stream);
        }
        Ok(feed)
    }

    fn header(&self, stream: u64, count: u64) -> Vec<u8> {
        let mut b = b"LTLOG1".to_vec();
        b.extend_from_slice(&(stream as u32).to_be_bytes());
        let low = if stream == 0 { Vec::new() } else { self.bound(stream) };
        b.extend_from_slice(&(low.len() as u16).to_be_bytes());
        b.extend_from_slice(&low);
        if stream + 1 == count {
            b.push(0);
            return b;
        }
        let high = self.bound(stream + 1);
        b.push(1);
        b.extend_from_slice(&(high.len() as u16).to_be_bytes());
        b.extend_from_slice(&high);
        b
    }

    /// The key bytes at which a stream begins: the ids are parted in quarters.
    fn bound(&self, stream: u64) -> Vec<u8> {
        let mut b = TABLE.to_be_bytes().to_vec();
        b.extend_from_slice(&(stream << (self.bits - 2) ^ 1 << 63).to_be_bytes());
        b
    }

    fn id(&self, key: u64) -> u64 {
        1 + scatter(key, self.bits)
    }

    /// Writes the change at a timestamp.
    fn change(&mut self, ts: u64) -> io::Result<()> {
        let draw = self.random.below(100);
        let hot = self.kind == Kind::Hot;
        let (op, key) = if draw < 60 || self.live.len() < 2 {
            self.keys += 1;
            self.live.push(self.keys - 1);
            (1, self.keys - 1)
        } else if draw < 90 {
            let at = if hot { 0 } else { self.random.below(self.live.len() as u64) };
            (2, self.live[at as usize])
        } else {
            let at = 1 + self.random.below(self.live.len() as u64 - 1);
            (3, self.live.swap_remove(at as usize))
        };
        self.spell(ts, op, key);
        let quarter = (self.id(key) >> (self.bits - 2)).min(3) as usize;
        let stream = if self.kind == Kind::Streams { quarter } else { 0 };
        self.streams[stream].frame(2, &self.body)
    }

    fn spell(&mut self, ts: u64, op: u8, key: u64) {
        self.body.clear();
        self.body.extend_from_slice(&ts.to_be_bytes());
        self.body.extend_from_slice(&TABLE.to_be_bytes());
        self.body.extend_from_slice(&1u32.to_be_bytes());
        self.body.push(op);
        if self.kind == Kind::Text {
            let region = REGIONS[(key % 6) as usize];
            self.body.extend_from_slice(&[2, 2]);
            self.text(region);
        } else {
            self.body.push(1);
        }
        self.body.push(1);
        self.body.extend_from_slice(&self.id(key).to_be_bytes());
        let set = match op {
            1 => 15,
            2 => 1 << self.random.below(4) | 1 << self.random.below(4),
            _ => 0u8,
        };
        self.body.extend_from_slice(&(set.count_ones() as u16).to_be_bytes());
        (0..4).filter(|column| set >> column & 1 == 1).for_each(|column| self.column(column));
    }

    fn text(&mut self, s: &str) {
        self.body.extend_from_slice(&(s.len() as u32).to_be_bytes());
        self.body.extend_from_slice(s.as_bytes());
    }

    fn column(&mut self, column: u8) {
        self.body.extend_from_slice(&[0, column + 1]);
        match column {
            0 => self.int(4),
            1 => self.int(1_000_000),
            2 if self.random.below(10) == 0 => self.body.push(0),
            2 => {
                let note = self.note();
                self.body.push(3);
                self.text(&note);
            }
            _ => {
                let gift = self.random.below(8) == 0;
                self.body.extend_from_slice(&[1, gift as u8]);
            }
        }
    }

    fn int(&mut self, below: u64) {
        let n = self.random.below(below);
        self.body.push(2);
        self.body.extend_from_slice(&n.to_be_bytes());
    }

    fn note(&mut self) -> String {
        let mut note = String::new();
        for _ in 0..2 + self.random.below(4) {
            note.push_str(WORDS[self.random.below(16) as usize]);
            note.push(' ');
        }
        if self.random.below(50) == 0 {
            note.push_str("\"quoted\" ");
        }
        note.push_str(&self.random.below(100_000).to_string());
        note
    }

    fn checkpoint(&mut self, ts: u64) -> io::Result<()> {
        self.streams.iter_mut().try_for_each(|stream| stream.frame(3, &ts.to_be_bytes()))
    }
}

fn schema(kind: Kind) -> String {
    let key = if kind == Kind::Text { r#"["region","text"],["id","int64"]"# } else { r#"["id","int64"]"# };
    let columns = [
        r#"{"number":1,"name":"status","kind":{"enum":[[0,"new"],[1,"paid"],[2,"shipped"],[3,"closed"]]}}"#,
        r#"{"number":2,"name":"total","kind":"int64"}"#,
        r#"{"number":3,"name":"note","kind":"text"}"#,
        r#"{"number":4,"name":"gift","kind":"bool","default":false}"#,
    ];
    format!(
        r#"schema {{"table":"orders","number":{TABLE},"version":1,"key":[{key}],"columns":[{}]}}"#,
        columns.join(",")
    )
}

fn write(changes: u64, seed: u64, kind: Kind, folder: &str) -> io::Result<()> {
    fs::create_dir_all(folder)?;
    let mut feed = Feed::create(changes, seed, kind, folder)?;
    for ts in 1..=changes {
        feed.change(ts)?;
        if ts % CHECKPOINT_EVERY == 0 || ts == changes {
            feed.checkpoint(ts)?;
        }
    }
    feed.streams.iter_mut().try_for_each(|stream| stream.out.flush())?;
    fs::write(format!("{folder}/schema"), schema(kind))?;
    let mut ids: Vec<u64> = feed.live.iter().map(|key| feed.id(*key)).collect();
    ids.sort_unstable();
    let mut keys = BufWriter::new(File::create(format!("{folder}/keys"))?);
    ids.iter().try_for_each(|id| writeln!(keys, "{id}"))?;
    keys.flush()
}

fn main() -> io::Result<()> {
    let words: Vec<String> = std::env::args().skip(1).collect();
    let kind = match words.get(2).map(String::as_str) {
        Some("int") => Kind::Int,
        Some("text") => Kind::Text,
        Some("streams") => Kind::Streams,
        Some("hot") => Kind::Hot,
        _ => panic!("usage: feed CHANGES SEED int|text|streams|hot FOLDER"),
    };
    write(words[0].parse().expect("CHANGES"), words[1].parse().expect("SEED"), kind, &words[3])
}
