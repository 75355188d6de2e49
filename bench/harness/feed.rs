//! The feeds that are measured, and the script lines over them.

use crate::Lab;
use std::fs;
use std::io;
use std::path::PathBuf;
use std::process::Command;

const ALL: u64 = 4_294_967_295;
const CHECKPOINT_EVERY: u64 = 100;

#[derive(Default)]
pub struct Feed {
    pub changes: u64,
    pub bytes: u64,
    pub streams: Vec<PathBuf>,
    schema: String,
    keys: Vec<i64>,
}

impl Feed {
    /// Makes the feed of a kind that `bench/feed.rs` names.
    pub fn make(lab: &Lab, kind: &str, changes: u64) -> io::Result<Feed> {
        let folder = lab.work.join(format!("feed-{kind}-{changes}"));
        let words = [changes.to_string(), lab.seed.to_string(), kind.to_string()];
        let status = Command::new(lab.tools.join("feed")).args(words).arg(&folder).status()?;
        if !status.success() {
            return Err(io::Error::new(io::ErrorKind::Other, "the feed was not made"));
        }
        let streams: Vec<_> =
            (0..).map(|s| folder.join(format!("feed.{s}"))).take_while(|path| path.exists()).collect();
        let bytes = streams.iter().filter_map(|path| fs::metadata(path).ok()).map(|file| file.len()).sum();
        let keys = fs::read_to_string(folder.join("keys"))?.lines().filter_map(|line| line.parse().ok()).collect();
        Ok(Feed { changes, bytes, streams, schema: fs::read_to_string(folder.join("schema"))?, keys })
    }

    pub fn remove(self) -> io::Result<()> {
        self.streams.iter().try_for_each(fs::remove_file)
    }

    pub fn rows(&self) -> usize {
        self.keys.len()
    }

    /// The table's schema, and a pump of all streams.
    pub fn pump(&self) -> String {
        let pumps = (0..self.streams.len()).map(|s| format!("pump {s} {ALL}\n"));
        format!("{}\n{}", self.schema, pumps.collect::<String>())
    }

    /// The table's schema, and ten pumps of a tenth of the first stream each, each with a flush.
    pub fn ten_flushes(&self) -> String {
        let part = self.changes / CHECKPOINT_EVERY / 10 * (CHECKPOINT_EVERY + 1);
        let pumps = (0..10).map(|i| format!("pump 0 {}\nflush 0\n", if i < 9 { part } else { ALL }));
        format!("{}\n{}", self.schema, pumps.collect::<String>())
    }

    pub fn scan(&self, at: u64) -> String {
        format!("scan orders 1 {at}\n")
    }

    fn range(&self, from: i64, to: i64) -> String {
        format!("scan orders 1 {} {{\"from\":[{from}],\"to\":[{to}]}}\n", self.changes)
    }

    /// A scan of 100 rows in the middle.
    pub fn hundred(&self) -> String {
        let middle = self.keys.len() / 2;
        self.range(self.keys[middle], self.keys[middle + 100])
    }

    /// A scan of one row in the middle.
    pub fn one(&self) -> String {
        let key = self.keys[self.keys.len() / 2];
        self.range(key, key + 1)
    }

    /// Scans of one row each, in mixed order.
    pub fn points(&self, count: usize) -> String {
        let keys = (0..count).map(|i| self.keys[i * 7919 % self.keys.len()]);
        keys.map(|key| self.range(key, key + 1)).collect()
    }

    /// A scan of the rows whose total is among the highest hundredth of what `total` can be.
    pub fn filter(&self) -> String {
        format!("scan orders 1 {} {{\"if\":[\">\",\"total\",989999]}}\n", self.changes)
    }
}
