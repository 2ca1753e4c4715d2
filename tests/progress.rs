//! A line on standard error that says how far a long test is: one line that is
//! written over on a terminal, else a line for each quarter.

use std::io::{stderr, IsTerminal, Write};
use std::sync::atomic::{AtomicU64, Ordering};

pub struct Progress {
    what: &'static str,
    count: u64,
    done: AtomicU64,
    steps: u64,
}

impl Progress {
    pub fn new(what: &'static str, count: u64) -> Progress {
        Progress {
            what,
            count,
            done: AtomicU64::new(0),
            steps: if stderr().is_terminal() { 100 } else { 4 },
        }
    }

    /// One case more is done.
    pub fn step(&self) {
        let done = 1 + self.done.fetch_add(1, Ordering::Relaxed);
        let part = |done: u64| done * self.steps / self.count;
        if self.count < 1_000 || part(done) == part(done - 1) {
            return;
        }
        let line = format!("{}: {done} of {}", self.what, self.count);
        let line = match (self.steps == 4, done == self.count) {
            (true, _) => format!("{line}\n"),
            (false, false) => format!("\r{line}"),
            (false, true) => format!("\r{}\r", " ".repeat(line.len())),
        };
        // Progress that cannot be shown is no fault of the tests.
        let _ = stderr().write_all(line.as_bytes());
    }
}
