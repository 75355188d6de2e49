//! The script that a peer of lightning answers: the lines of lightning's own script that `bench/run` asks, with the
//! same replies.

use crate::log::{Change, Stream};
use crate::rows::{Query, Replies};
use std::io::{self, BufRead, BufReader};

/// What each peer does in its own way.
pub trait Peer {
    /// Takes the next change of the log.
    fn take(&mut self, change: Change<'static>);
    /// Makes what was taken durable.
    fn flush(&mut self);
    /// Gives the rows at a moment, in key order.
    fn scan(&mut self, query: &Query, replies: &mut Replies);
    /// Rewrites what is kept; what no scan from `minimum` on needs may go.
    fn compact(&mut self, minimum: u64);
}

struct Session<P> {
    peer: P,
    streams: Vec<Stream>,
    flushes: u64,
    minimum: u64,
    replies: Replies,
}

/// Answers the lines of standard input, over the streams `feed.0`, `feed.1` and so on of the current folder, which are
/// read at the first pump. Then it ends the process.
pub fn serve(peer: impl Peer) -> ! {
    let mut session = Session { peer, streams: Vec::new(), flushes: 0, minimum: 0, replies: Replies::new() };
    let mut script = BufReader::with_capacity(1 << 16, io::stdin().lock());
    let mut line = String::new();
    while script.read_line(&mut line).expect("standard input") > 0 {
        if session.answer(line.trim_end()).is_none() {
            session.replies.line("refused E1 BadLine");
        }
        line.clear();
        if !script.buffer().contains(&b'\n') {
            session.replies.send().expect("standard output");
        }
    }
    // The memory is left to the system: dropping it piece by piece would only cost time.
    std::process::exit(0)
}

impl<P: Peer> Session<P> {
    fn answer(&mut self, line: &str) -> Option<()> {
        let (word, rest) = line.split_once(' ')?;
        match word {
            "schema" => self.replies.line("ok schema orders 1"),
            "pump" => self.pump(rest)?,
            "flush" => self.flush(),
            "retain" => {
                self.minimum = rest.parse().ok()?;
                self.replies.line(&format!("ok retain {rest}"));
            }
            "compact" => {
                self.peer.compact(self.minimum);
                self.replies.line(&format!("ok compact 0 inputs {0} delta {0}", self.flushes));
            }
            "scan" => {
                let query = query(rest)?;
                self.replies.rows = 0;
                self.peer.scan(&query, &mut self.replies);
                let last = format!("ok scan {}", self.replies.rows);
                self.replies.line(&last);
            }
            _ => return None,
        }
        Some(())
    }

    fn pump(&mut self, words: &str) -> Option<()> {
        if self.streams.is_empty() {
            self.streams = (0..).map_while(|s| Stream::open(&format!("feed.{s}")).ok()).collect();
        }
        let (number, most) = words.split_once(' ')?;
        let stream = self.streams.get_mut(number.parse::<usize>().ok()?)?;
        let peer = &mut self.peer;
        let p = stream.pump(most.parse().ok()?, |change| peer.take(change));
        self.replies.line(&format!(
            "ok pump {number} records {} offset {} checkpoint {} stop {}",
            p.records, p.offset, p.checkpoint, p.stop
        ));
        Some(())
    }

    fn flush(&mut self) {
        self.peer.flush();
        let checkpoint = self.streams.iter().map(Stream::checkpoint).min().unwrap_or(0);
        self.replies.line(&format!("ok flush 0 resume {checkpoint} delta {}", self.flushes));
        self.flushes += 1;
    }
}

/// Reads `orders 1 T`, perhaps with options behind it: a range by `from` and `to`, or a filter by `if`.
fn query(words: &str) -> Option<Query> {
    let mut words = words.splitn(4, ' ');
    let (_table, _version) = (words.next()?, words.next()?);
    let at = words.next()?.parse().ok()?;
    let mut query = Query { at, from: i64::MIN, to: i64::MAX, above: None };
    if let Some(options) = words.next() {
        query.from = number_after(options, "\"from\":[").unwrap_or(i64::MIN);
        query.to = number_after(options, "\"to\":[").unwrap_or(i64::MAX);
        query.above = number_after(options, "\"if\":[\">\",\"total\",");
    }
    Some(query)
}

fn number_after(options: &str, name: &str) -> Option<i64> {
    let (_, rest) = options.split_once(name)?;
    rest[..rest.find(']')?].parse().ok()
}
