//! Races: the contestants do the same work in turns, once their answers are the same.

use crate::contestant::Contestant;
use crate::feed::Feed;
use crate::process::{Cost, Process};
use crate::{Fault, Lab};
use std::fs::{self, File};
use std::io;
use std::path::Path;

/// What is measured of a work.
#[derive(Clone, Copy, PartialEq)]
pub enum How {
    /// A process over a fresh folder, from its start to its end.
    Whole,
    /// A process over what an earlier one left after the setup, from its start to its end.
    Cold,
    /// The timed lines alone, each time in a process that has just done the setup.
    Fresh,
    /// The timed lines alone, again and again in one process that did the setup.
    Session,
}

#[derive(Clone)]
pub struct Work {
    pub title: String,
    pub how: How,
    pub setup: String,
    pub timed: String,
    /// What is asked after it to compare, untimed; for `Fresh` alone.
    pub after: String,
    /// It asks below the last timestamp.
    pub past: bool,
}

/// A line of the table.
pub struct Line {
    pub work: String,
    pub contestant: String,
    pub product: bool,
    pub outcome: Result<Cost, Fault>,
}

struct Racer<'a> {
    lab: &'a Lab,
    feed: &'a Feed,
    contestant: &'a Contestant,
    session: Option<Process>,
    prepared: bool,
}

impl<'a> Racer<'a> {
    fn new(lab: &'a Lab, feed: &'a Feed, contestant: &'a Contestant) -> Racer<'a> {
        Racer { lab, feed, contestant, session: None, prepared: false }
    }

    /// Starts in a fresh folder, and does the setup.
    fn begin(&self, setup: &str) -> Result<Process, Fault> {
        let folder = self.contestant.fresh_folder(self.lab, self.feed)?;
        let mut process = self.contestant.start(&folder)?;
        let flush = if self.contestant.flushes && !setup.is_empty() { "flush 0\n" } else { "" };
        let replies = folder.join("setup");
        process.ask(&format!("{setup}{flush}"), File::create(&replies)?, self.lab.limit)?;
        match refusal(&replies)? {
            None => Ok(process),
            Some(fault) => Err(fault),
        }
    }

    /// Does the work once; `keep` gets the answer.
    fn run(&mut self, work: &Work, mut keep: impl io::Write) -> Result<Cost, Fault> {
        let limit = self.lab.limit;
        match work.how {
            How::Whole => {
                let mut process = self.begin("")?;
                process.ask(&work.timed, keep, limit)?;
                process.end()
            }
            How::Cold => {
                if !self.prepared {
                    self.begin(&work.setup)?.end()?;
                    self.prepared = true;
                }
                let mut process = self.contestant.start(&self.lab.folder(&self.contestant.name))?;
                process.ask(&work.timed, keep, limit)?;
                process.end()
            }
            How::Fresh => {
                let mut process = self.begin(&work.setup)?;
                let cost = process.ask(&work.timed, &mut keep, limit)?;
                process.ask(&work.after, keep, limit)?;
                process.end()?;
                Ok(cost)
            }
            How::Session => {
                let mut process = match self.session.take() {
                    Some(process) => process,
                    None => self.begin(&work.setup)?,
                };
                let cost = process.ask(&work.timed, keep, limit)?;
                self.session = Some(process);
                Ok(cost)
            }
        }
    }

    /// Does the work once, and compares the answer with the expected one, byte by byte.
    fn check(&mut self, work: &Work, expected: &Path) -> Result<Cost, Fault> {
        let answer = self.lab.work.join("answer");
        let cost = self.run(work, File::create(&answer)?)?;
        if let Some(fault) = refusal(&answer)? {
            return Err(fault);
        }
        match difference(&fs::read(&answer)?, &fs::read(expected)?) {
            None => Ok(cost),
            Some(text) => Err(Fault::Differs(text)),
        }
    }
}

/// The first refusal among replies.
fn refusal(replies: &Path) -> io::Result<Option<Fault>> {
    let bytes = fs::read(replies)?;
    let first = bytes.split(|b| *b == b'\n').find(|line| line.starts_with(b"refused"));
    Ok(first.map(|line| match line.starts_with(b"refused E1 ") {
        true => Fault::NotYet,
        false => Fault::Refused(String::from_utf8_lossy(line).into_owned()),
    }))
}

/// Where an answer first differs from the expected one.
fn difference(answer: &[u8], expected: &[u8]) -> Option<String> {
    if answer == expected {
        return None;
    }
    let (got, want) = (answer.split(|b| *b == b'\n'), expected.split(|b| *b == b'\n'));
    let at = got.zip(want).position(|(a, b)| a != b).unwrap_or(0);
    let show = |text: &[u8]| String::from_utf8_lossy(text.split(|b| *b == b'\n').nth(at).unwrap_or(b"")).into_owned();
    Some(format!("line {}: `{}` in place of `{}`", at + 1, show(answer), show(expected)))
}

/// Runs a race for each of the works over one feed. The reference says what is the right answer.
pub fn race(lab: &Lab, feed: &Feed, works: &[Work], contestants: &[Contestant], reference: &Contestant) -> Vec<Line> {
    let mut racers: Vec<Racer> = contestants.iter().map(|contestant| Racer::new(lab, feed, contestant)).collect();
    let judge = Contestant { name: "reference".to_string(), ..reference.clone() };
    let mut lines = Vec::new();
    for work in works {
        let expected = lab.work.join("expected");
        let mut judge = Racer::new(lab, feed, &judge);
        let asked = Work { how: if work.how == How::Whole { How::Whole } else { How::Fresh }, ..work.clone() };
        let told = File::create(&expected).map_err(Fault::from).and_then(|file| judge.run(&asked, file));
        if let Err(fault) = told {
            eprintln!("{}: left out, the reference says: {fault}", work.title);
            continue;
        }
        let mut going: Vec<&mut Racer> =
            racers.iter_mut().filter(|r| !(work.past && r.contestant.latest_only)).collect();
        lines.extend(rounds(lab, work, &mut going, &expected));
    }
    lines
}

/// Checks the answers, and then times the contestants in turns.
fn rounds(lab: &Lab, work: &Work, racers: &mut [&mut Racer], expected: &Path) -> Vec<Line> {
    let mut outcomes: Vec<Result<Cost, Fault>> = racers.iter_mut().map(|racer| racer.check(work, expected)).collect();
    let slow = |outcome: &Result<Cost, Fault>| matches!(outcome, Ok(cost) if cost.wall > lab.long);
    let runs: Vec<usize> =
        outcomes.iter().map(|outcome| if slow(outcome) { lab.runs.min(3) } else { lab.runs }).collect();
    for round in 0..lab.runs {
        for ((racer, outcome), runs) in racers.iter_mut().zip(&mut outcomes).zip(&runs) {
            let best = match outcome {
                Ok(best) if round < *runs => *best,
                _ => continue,
            };
            let cost = racer.run(work, io::sink());
            // The run that was compared does not count.
            *outcome = if round == 0 { cost } else { cost.map(|cost| cost.least(best)) };
        }
    }
    let line = |(racer, outcome): (&&mut Racer, _)| Line {
        work: work.title.clone(),
        contestant: racer.contestant.name.clone(),
        product: racer.contestant.product,
        outcome,
    };
    let lines: Vec<Line> = racers.iter().zip(outcomes).map(line).collect();
    lines.iter().for_each(|line| eprintln!("{line}"));
    lines
}
