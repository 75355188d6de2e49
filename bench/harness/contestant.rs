//! Who takes part, and the folder that each runs in.

use crate::feed::Feed;
use crate::process::Process;
use crate::{Fault, Lab};
use std::fs;
use std::os::unix::fs::symlink;
use std::path::{Path, PathBuf};

/// A program that answers the script. `flushes`: it makes what it pumped durable before it is asked. `latest_only`:
/// it cannot answer below the last timestamp.
#[derive(Clone)]
pub struct Contestant {
    pub name: String,
    pub program: PathBuf,
    pub words: Vec<String>,
    pub product: bool,
    pub flushes: bool,
    pub latest_only: bool,
}

impl Contestant {
    pub fn new(name: &str, program: &Path, words: &str) -> Contestant {
        Contestant {
            name: name.to_string(),
            program: program.to_path_buf(),
            words: words.split_whitespace().map(str::to_string).collect(),
            product: false,
            flushes: false,
            latest_only: false,
        }
    }

    pub fn product(self) -> Contestant {
        Contestant { product: true, ..self }
    }

    pub fn flushing(self) -> Contestant {
        Contestant { flushes: true, ..self }
    }

    pub fn latest_only(self) -> Contestant {
        Contestant { latest_only: true, ..self }
    }

    /// Makes the folder anew, with the feed's streams in it, and for lightning with an empty store where it makes
    /// one.
    pub fn fresh_folder(&self, lab: &Lab, feed: &Feed) -> Result<PathBuf, Fault> {
        self.is_there(lab)?;
        let folder = lab.folder(&self.name);
        if folder.exists() {
            fs::remove_dir_all(&folder)?;
        }
        fs::create_dir_all(&folder)?;
        for (s, stream) in feed.streams.iter().enumerate() {
            symlink(stream, folder.join(format!("feed.{s}")))?;
        }
        if self.product && !feed.streams.is_empty() {
            let words = ["init".to_string(), STORE_LIMIT.to_string()];
            // A lightning without a store refuses the word; that it lacks the store then shows where one is asked
            // for.
            let _ = Process::start(&self.program, &words, &folder)?.end();
        }
        Ok(folder)
    }

    pub fn start(&self, folder: &Path) -> Result<Process, Fault> {
        Ok(Process::start(&self.program, &self.words, folder)?)
    }

    /// Whether there is a program. One of a crate that does not stand yet is not missed.
    fn is_there(&self, lab: &Lab) -> Result<(), Fault> {
        let folder = self.program.ancestors().nth(2).unwrap_or(Path::new("/"));
        let planned = folder.starts_with(lab.root.join("crates")) && !folder.exists();
        match self.program.exists() {
            true => Ok(()),
            false if !self.product => Err(Fault::Missing),
            false if planned => Err(Fault::NotYet),
            false => Err(Fault::NotBuilt),
        }
    }
}

const STORE_LIMIT: u64 = 1 << 36;
