//! A process that is asked line by line over its standard input, and what it took for that.
//!
//! Each line has one reply, which ends with a line that begins with `ok` or `refused`. A process ends where its input
//! does.

use crate::Fault;
use std::fs::{self, File};
use std::io::{self, Read, Write};
use std::path::Path;
use std::process::{ChildStdin, ChildStdout, Command, Stdio};
use std::sync::mpsc::{self, RecvTimeoutError};
use std::thread;
use std::time::{Duration, Instant};

/// Wall and processor seconds, and the greatest resident size in MB.
#[derive(Clone, Copy)]
pub struct Cost {
    pub wall: f64,
    pub processor: f64,
    pub peak: f64,
}

impl Cost {
    /// The least of each.
    pub fn least(self, other: Cost) -> Cost {
        Cost {
            wall: self.wall.min(other.wall),
            processor: self.processor.min(other.processor),
            peak: self.peak.min(other.peak),
        }
    }
}

#[repr(C)]
#[derive(Default)]
struct Usage {
    user: [i64; 2],
    system: [i64; 2],
    rest: [i64; 14],
}

extern "C" {
    fn wait4(pid: i32, status: *mut i32, options: i32, usage: *mut Usage) -> i32;
    fn kill(pid: i32, signal: i32) -> i32;
}

const SIGKILL: i32 = 9;

pub struct Process {
    pid: i32,
    input: Option<ChildStdin>,
    output: ChildStdout,
    started: Instant,
    running: bool,
}

impl Process {
    /// Starts the program in a folder, where the file `errors` gets what it says on standard error.
    pub fn start(program: &Path, words: &[String], folder: &Path) -> io::Result<Process> {
        let errors = File::create(folder.join("errors"))?;
        let started = Instant::now();
        let mut child = Command::new(program)
            .args(words)
            .current_dir(folder)
            .stdin(Stdio::piped())
            .stdout(Stdio::piped())
            .stderr(errors)
            .spawn()?;
        let (input, output) = (child.stdin.take(), child.stdout.take().expect("a pipe"));
        Ok(Process { pid: child.id() as i32, input, output, started, running: true })
    }

    /// Sends the lines and reads their replies, which `keep` gets. Takes the process down where they take longer than
    /// `limit`.
    pub fn ask(&mut self, lines: &str, mut keep: impl Write, limit: Duration) -> Result<Cost, Fault> {
        self.forget_peak();
        let (pid, before, started) = (self.pid, self.processor(), Instant::now());
        let mut input = self.input.as_ref().expect("an open input");
        let output = &mut self.output;
        let (done, watch) = mpsc::channel::<()>();
        let whole = thread::scope(|scope| {
            // A line that the process no longer takes shows in its replies.
            scope.spawn(move || input.write_all(lines.as_bytes()).is_ok());
            scope.spawn(move || {
                if watch.recv_timeout(limit) == Err(RecvTimeoutError::Timeout) {
                    unsafe { kill(pid, SIGKILL) };
                }
            });
            let whole = read_replies(output, lines.lines().count(), &mut keep);
            drop(done);
            whole
        })?;
        let wall = started.elapsed();
        match whole {
            true => Ok(Cost { wall: wall.as_secs_f64(), processor: self.processor() - before, peak: self.peak() }),
            false if wall >= limit => Err(Fault::Slow(limit.as_secs())),
            false => Err(Fault::Ended),
        }
    }

    /// Ends the input and waits for the end. What it gives counts from the start.
    pub fn end(mut self) -> Result<Cost, Fault> {
        let peak = self.peak();
        let (status, processor) = self.wait();
        let wall = self.started.elapsed().as_secs_f64();
        match status {
            0 => Ok(Cost { wall, processor, peak }),
            _ => Err(Fault::Ended),
        }
    }

    fn wait(&mut self) -> (i32, f64) {
        self.input = None;
        self.running = false;
        let (mut status, mut usage) = (0, Usage::default());
        unsafe { wait4(self.pid, &mut status, 0, &mut usage) };
        let seconds = |t: [i64; 2]| t[0] as f64 + t[1] as f64 / 1e6;
        (status, seconds(usage.user) + seconds(usage.system))
    }

    /// The processor seconds of all its threads so far.
    fn processor(&self) -> f64 {
        let nanoseconds = |path: &Path| -> Option<u64> {
            let text = fs::read_to_string(path.join("schedstat")).ok()?;
            text.split(' ').next()?.parse().ok()
        };
        let threads = fs::read_dir(format!("/proc/{}/task", self.pid)).into_iter().flatten().flatten();
        threads.filter_map(|thread| nanoseconds(&thread.path())).sum::<u64>() as f64 / 1e9
    }

    /// The greatest resident size since `forget_peak`.
    fn peak(&self) -> f64 {
        let status = fs::read_to_string(format!("/proc/{}/status", self.pid)).unwrap_or_default();
        let line = status.lines().find_map(|line| line.strip_prefix("VmHWM:"));
        let kilobytes = line.and_then(|line| line.trim().trim_end_matches(" kB").parse::<f64>().ok());
        kilobytes.unwrap_or(f64::NAN) * 1024.0 / 1e6
    }

    fn forget_peak(&self) {
        // Where the system does not allow it, the peak is that of the whole run.
        let _ = fs::write(format!("/proc/{}/clear_refs", self.pid), "5");
    }
}

impl Drop for Process {
    fn drop(&mut self) {
        if self.running {
            unsafe { kill(self.pid, SIGKILL) };
            self.wait();
        }
    }
}

/// Reads until so many replies have ended; false where the output ends first.
fn read_replies(output: &mut ChildStdout, count: usize, keep: &mut impl Write) -> io::Result<bool> {
    let mut piece = vec![0; 1 << 16];
    let (mut replies, mut head, mut length) = (0, [0; 2], 0);
    while replies < count {
        let n = output.read(&mut piece)?;
        if n == 0 {
            return Ok(false);
        }
        keep.write_all(&piece[..n])?;
        for byte in &piece[..n] {
            if *byte == b'\n' {
                replies += (&head == b"ok" || &head == b"re") as usize;
                length = 0;
            } else if length < 2 {
                head[length] = *byte;
                length += 1;
            }
        }
    }
    keep.flush()?;
    Ok(true)
}
