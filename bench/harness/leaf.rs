//! Rows of single crates: each file `bench/leaf/*.row` is a row. Its lines are `NAME: TEXT`:
//!
//!     work: what the table calls it
//!     setup: a line that is sent first, untimed
//!     timed: a line that is timed
//!     lightning: the built program over the crate, from the repository's top, and its words
//!     plain Rust: a program of bench/leaf/, without its .rs, and its words
//!
//! Both programs answer line by line, each line with a last line that begins with `ok`, and end where the input does.
//! `{changes}` stands for the number of changes of the main feed. The answers are compared as everywhere.

use crate::contestant::Contestant;
use crate::feed::Feed;
use crate::race::{race, How, Line};
use crate::works::work;
use crate::Lab;
use std::fs;
use std::io;
use std::path::Path;

pub fn all(lab: &Lab) -> io::Result<Vec<Line>> {
    let mut files: Vec<_> = fs::read_dir(lab.root.join("bench/leaf"))?.flatten().map(|entry| entry.path()).collect();
    files.retain(|path| path.extension().map_or(false, |end| end == "row"));
    files.sort();
    let mut lines = Vec::new();
    for file in files {
        lines.extend(row(lab, &file)?);
    }
    Ok(lines)
}

fn row(lab: &Lab, file: &Path) -> io::Result<Vec<Line>> {
    let text = fs::read_to_string(file)?.replace("{changes}", &lab.changes.to_string());
    let field = |name: &str| -> io::Result<&str> {
        let found = text.lines().find_map(|line| line.strip_prefix(name)?.strip_prefix(": "));
        found.ok_or_else(|| io::Error::new(io::ErrorKind::InvalidData, format!("{}: no `{name}: `", file.display())))
    };
    let contestant = |name: &str, folder: &Path| -> io::Result<Contestant> {
        let (program, words) = field(name)?.split_once(' ').unwrap_or((field(name)?, ""));
        Ok(Contestant::new(name, &folder.join(program), words))
    };
    let contestants = [contestant("lightning", &lab.root)?.product(), contestant("plain Rust", &lab.tools)?];
    let line = |name: &str| Ok::<_, io::Error>(format!("{}\n", field(name)?));
    let work = work(field("work")?, How::Session, line("setup")?, line("timed")?);
    Ok(race(lab, &Feed::default(), &[work], &contestants, &contestants[1]))
}
