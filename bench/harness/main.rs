//! Measures lightning beside its peers, and prints Markdown. `bench/run` builds and starts it.

mod contestant;
mod feed;
mod growth;
mod leaf;
mod process;
mod race;
mod report;
mod works;

use crate::race::Line;
use crate::report::{grouped, growth_table, lines_table};
use crate::works::Field;
use std::fmt;
use std::fs;
use std::io;
use std::path::{Path, PathBuf};
use std::process::ExitCode;
use std::time::Duration;

/// Why a line of the table has no figures.
pub enum Fault {
    NotYet,
    NotBuilt,
    Missing,
    Refused(String),
    Differs(String),
    Slow(u64),
    Ended,
    Io(io::Error),
}

impl From<io::Error> for Fault {
    fn from(error: io::Error) -> Fault {
        Fault::Io(error)
    }
}

impl fmt::Display for Fault {
    fn fmt(&self, f: &mut fmt::Formatter) -> fmt::Result {
        match self {
            Fault::NotYet => write!(f, "not there yet"),
            Fault::NotBuilt => write!(f, "not built"),
            Fault::Missing => write!(f, "left out"),
            Fault::Refused(_) => write!(f, "refuses it"),
            Fault::Differs(_) => write!(f, "answers otherwise"),
            Fault::Slow(seconds) => write!(f, "stopped after {seconds} s"),
            Fault::Ended => write!(f, "ended too early"),
            Fault::Io(error) => write!(f, "{error}"),
        }
    }
}

impl Fault {
    /// What the table has no room for.
    fn detail(&self) -> String {
        match self {
            Fault::Refused(text) | Fault::Differs(text) => format!(": {text}"),
            _ => String::new(),
        }
    }

    /// Whether something is wrong, and not only absent or slow.
    fn is_wrong(&self) -> bool {
        matches!(self, Fault::Refused(_) | Fault::Differs(_) | Fault::Ended | Fault::Io(_))
    }
}

/// Where things are, and how much is measured.
pub struct Lab {
    pub root: PathBuf,
    pub tools: PathBuf,
    pub work: PathBuf,
    pub product: PathBuf,
    pub facts: String,
    pub page: Option<PathBuf>,
    pub changes: u64,
    pub sizes: Vec<u64>,
    pub seed: u64,
    pub runs: usize,
    /// A contestant that takes more seconds than this is timed three times at most.
    pub long: f64,
    pub limit: Duration,
}

impl Lab {
    /// The folder that a contestant runs in.
    pub fn folder(&self, name: &str) -> PathBuf {
        self.work.join("run").join(name.replace([' ', ',', ':'], "-"))
    }

    fn resize(&mut self, changes: u64) {
        self.changes = changes;
        self.sizes = vec![changes / 4, changes, changes * 4];
    }

    /// Reads the words that `bench/run` hands over: its own folders, and then the user's.
    fn from_words(mut words: impl Iterator<Item = String>) -> Option<Lab> {
        let mut folder = || words.next().map(PathBuf::from);
        let (root, tools, work, product) = (folder()?, folder()?, folder()?, folder()?);
        let facts = words.next()?;
        let limit = Duration::from_secs(600);
        let mut lab = Lab {
            root,
            tools,
            work,
            product,
            facts,
            page: None,
            changes: 0,
            sizes: vec![],
            seed: 1,
            runs: 5,
            long: 10.0,
            limit,
        };
        lab.resize(1_000_000);
        while let Some(word) = words.next() {
            match word.as_str() {
                "--quick" => {
                    lab.resize(20_000);
                    lab.limit = Duration::from_secs(5);
                }
                "--changes" => lab.resize(words.next()?.parse().ok().filter(|n| *n >= 10_000)?),
                "--seed" => lab.seed = words.next()?.parse().ok()?,
                "--page" => lab.page = Some(words.next()?.into()),
                _ => return None,
            }
        }
        Some(lab)
    }
}

fn measure(lab: &Lab) -> io::Result<bool> {
    let field = Field::new(lab);
    let load = fs::read_to_string("/proc/loadavg")?;
    let (feed, mut lines) = works::all(lab, &field)?;
    lines.extend(leaf::all(lab)?);
    let growth = growth::all(lab, &field)?;
    let text = format!(
        "{}\n\nThe main feed has {} changes, {:.1} MB, and {} rows at its end. \
         The load of the machine was {} at the start.\n\n{}\n\
         Growth, in processor seconds:\n\n{}",
        lab.facts,
        grouped(feed.changes),
        feed.bytes as f64 / 1e6,
        grouped(feed.rows() as u64),
        load.split(' ').next().unwrap_or("?"),
        lines_table(&lines),
        growth_table(&lab.sizes, &growth)
    );
    print!("{text}");
    if let Some(page) = &lab.page {
        put_into(page, &text)?;
    }
    let is_wrong = |line: &Line| matches!(&line.outcome, Err(fault) if fault.is_wrong());
    Ok(!lines.iter().any(is_wrong))
}

const BEGIN: &str = "<!-- bench/run: begin -->\n";
const END: &str = "<!-- bench/run: end -->";

/// Replaces what stands between the two marks of a page.
fn put_into(page: &Path, text: &str) -> io::Result<()> {
    let old = fs::read_to_string(page)?;
    let parts = old.split_once(BEGIN).and_then(|(before, rest)| Some((before, rest.split_once(END)?.1)));
    let (before, after) =
        parts.ok_or_else(|| io::Error::new(io::ErrorKind::InvalidData, "the page lacks the marks"))?;
    fs::write(page, format!("{before}{BEGIN}\n{text}\n{END}{after}"))
}

fn main() -> ExitCode {
    let lab = match Lab::from_words(std::env::args().skip(1)) {
        Some(lab) => lab,
        None => {
            eprintln!("bench/run: these options are not known; see bench/run --help");
            return ExitCode::from(2);
        }
    };
    match measure(&lab) {
        Ok(true) => ExitCode::SUCCESS,
        Ok(false) => {
            eprintln!("bench/run: a contestant answers otherwise or failed; see the table");
            ExitCode::FAILURE
        }
        Err(error) => {
            eprintln!("bench/run: {error}");
            ExitCode::FAILURE
        }
    }
}
