//! Growth: how the processor seconds of a work rise with the number of changes.

use crate::feed::Feed;
use crate::race::{race, How, Line};
use crate::works::{work, Field};
use crate::Lab;
use std::io;

/// A work of one contestant: its processor seconds at each size, as far as there are any.
pub struct Growth {
    pub work: String,
    pub contestant: String,
    pub seconds: Vec<Option<f64>>,
}

impl Growth {
    /// The power of the number of changes that the seconds follow, between the first and the last size.
    pub fn exponent(&self, sizes: &[u64]) -> Option<f64> {
        let (first, last) = ((*self.seconds.first()?)?, (*self.seconds.last()?)?);
        let factor = *sizes.last()? as f64 / *sizes.first()? as f64;
        Some((last / first).ln() / factor.ln())
    }
}

pub fn all(lab: &Lab, field: &Field) -> io::Result<Vec<Growth>> {
    let contestants = [field.lightning.clone(), field.plain.clone(), field.leveldb.clone()];
    let mut found: Vec<Growth> = Vec::new();
    for changes in &lab.sizes {
        let feed = Feed::make(lab, "int", *changes)?;
        let works = [
            work("pump", How::Whole, String::new(), feed.pump()),
            work("scan of all rows", How::Session, feed.pump(), feed.scan(*changes)),
        ];
        for line in race(lab, &feed, &works, &contestants, &field.plain) {
            add(&mut found, line);
        }
        feed.remove()?;
    }
    Ok(found)
}

fn add(found: &mut Vec<Growth>, line: Line) {
    let seconds = line.outcome.ok().map(|cost| cost.processor);
    match found.iter_mut().find(|g| g.work == line.work && g.contestant == line.contestant) {
        Some(growth) => growth.seconds.push(seconds),
        None => found.push(Growth { work: line.work, contestant: line.contestant, seconds: vec![seconds] }),
    }
}
