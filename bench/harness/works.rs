//! The rows of the table that the programs of `bench/` fill: which work, over which feed, by whom.

use crate::contestant::Contestant;
use crate::feed::Feed;
use crate::race::{race, How, Line, Work};
use crate::Lab;
use std::io;

/// The contestants, by how they are asked.
pub struct Field {
    pub lightning: Contestant,
    parse: Contestant,
    pub plain: Contestant,
    versions: Contestant,
    latest: Contestant,
    pub leveldb: Contestant,
}

impl Field {
    pub fn new(lab: &Lab) -> Field {
        let tool = |name: &str| lab.tools.join(name);
        Field {
            lightning: Contestant::new("lightning", &lab.product, "run").product(),
            parse: Contestant::new("plain Rust, parse alone", &tool("plain"), "parse"),
            plain: Contestant::new("plain Rust", &tool("plain"), "map"),
            versions: Contestant::new("SQLite, all versions", &tool("sqlite"), "versions sqlite.db").flushing(),
            latest: Contestant::new("SQLite, latest rows", &tool("sqlite"), "latest sqlite.db")
                .flushing()
                .latest_only(),
            leveldb: Contestant::new("LevelDB, all versions", &tool("leveldb"), "").flushing(),
        }
    }

    fn flushed_lightning(&self) -> Contestant {
        Contestant { name: "lightning, flushed".to_string(), ..self.lightning.clone() }.flushing()
    }

    /// SQLite without a file.
    fn in_memory(&self, of: &Contestant) -> Contestant {
        let words = vec![of.words[0].clone(), ":memory:".to_string()];
        Contestant { name: format!("{}, in memory", of.name), words, flushes: false, ..of.clone() }
    }

    /// Those that answer from what they hold.
    fn readers(&self) -> Vec<Contestant> {
        let lightning = [self.lightning.clone(), self.flushed_lightning()];
        [&lightning[..], &[self.plain.clone()], &self.stores()].concat()
    }

    fn stores(&self) -> [Contestant; 3] {
        [self.versions.clone(), self.latest.clone(), self.leveldb.clone()]
    }
}

pub fn work(title: &str, how: How, setup: String, timed: String) -> Work {
    Work { title: title.to_string(), how, setup, timed, after: String::new(), past: false }
}

/// All rows but growth and those of single crates.
pub fn all(lab: &Lab, field: &Field) -> io::Result<(Feed, Vec<Line>)> {
    let feed = Feed::make(lab, "int", lab.changes)?;
    let mut lines = pumps(lab, field, &feed);
    lines.extend(scans(lab, field, &feed));
    lines.extend(cold(lab, field, &feed));
    lines.extend(compaction(lab, field)?);
    for (kind, name) in [("text", "text keys"), ("streams", "4 streams"), ("hot", "one hot key")] {
        lines.extend(other(lab, field, kind, name)?);
    }
    Ok((feed, lines))
}

fn pumps(lab: &Lab, field: &Field, feed: &Feed) -> Vec<Line> {
    let memory = [
        field.lightning.clone(),
        field.parse.clone(),
        field.plain.clone(),
        field.in_memory(&field.versions),
        field.in_memory(&field.latest),
    ];
    let stores = [&[field.lightning.clone(), field.plain.clone()][..], &field.stores()].concat();
    let pump = work("pump, in memory", How::Whole, String::new(), feed.pump());
    let durable = work("pump and flush", How::Whole, String::new(), feed.pump() + "flush 0\n");
    let mut lines = race(lab, feed, &[pump], &memory, &field.plain);
    lines.extend(race(lab, feed, &[durable], &stores, &field.plain));
    lines
}

fn scans(lab: &Lab, field: &Field, feed: &Feed) -> Vec<Line> {
    let session = |title: &str, timed| work(title, How::Session, feed.pump(), timed);
    let works = [
        session("scan of all rows, at the end", feed.scan(feed.changes)),
        Work { past: true, ..session("scan of all rows, at the middle", feed.scan(feed.changes / 2)) },
        session("filter of 1 % of the rows", feed.filter()),
        session("10,000 scans of one row", feed.points(10_000)),
    ];
    race(lab, feed, &works, &field.readers(), &field.plain)
}

fn cold(lab: &Lab, field: &Field, feed: &Feed) -> Vec<Line> {
    let works = [
        work("range of 100 rows, cold", How::Cold, feed.pump(), feed.hundred()),
        work("opening, and a scan of one row", How::Cold, feed.pump(), feed.one()),
    ];
    let contestants = [&[field.flushed_lightning()][..], &field.stores()].concat();
    race(lab, feed, &works, &contestants, &field.plain)
}

fn compaction(lab: &Lab, field: &Field) -> io::Result<Vec<Line>> {
    let feed = Feed::make(lab, "int", lab.changes / 5)?;
    let timed = format!("retain {}\ncompact 0 major\n", feed.changes);
    let compaction = work("major compaction of ten deltas", How::Fresh, feed.ten_flushes(), timed);
    let compaction = Work { after: feed.scan(feed.changes), ..compaction };
    let contestants = [field.lightning.clone(), field.versions.clone(), field.leveldb.clone()];
    let unflushed = contestants.map(|contestant| Contestant { flushes: false, ..contestant });
    let lines = race(lab, &feed, &[compaction], &unflushed, &field.plain);
    feed.remove()?;
    Ok(lines)
}

/// A pump and a scan over a feed of another kind.
fn other(lab: &Lab, field: &Field, kind: &str, name: &str) -> io::Result<Vec<Line>> {
    let feed = Feed::make(lab, kind, lab.changes / 4)?;
    let works = [
        work(&format!("pump, in memory: {name}"), How::Whole, String::new(), feed.pump()),
        work(&format!("scan of all rows, at the end: {name}"), How::Session, feed.pump(), feed.scan(feed.changes)),
    ];
    let contestants = [field.lightning.clone(), field.plain.clone()];
    let lines = race(lab, &feed, &works, &contestants, &field.plain);
    feed.remove()?;
    Ok(lines)
}
