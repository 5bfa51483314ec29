//! How far the reading of many files is, for somebody who waits at a terminal: one line, which is written over and cleared at the end.

use std::io::{self, IsTerminal, Write};
use std::sync::atomic::{AtomicBool, Ordering};

/// So many files are found or read between two words.
const STEP: usize = 2000;

/// What is told, where standard error is a terminal and there are many files.
pub struct Progress {
    terminal: bool,
    told: AtomicBool,
}

impl Progress {
    pub fn new() -> Progress {
        Progress { terminal: io::stderr().is_terminal(), told: AtomicBool::new(false) }
    }

    /// So many files are found.
    pub fn found(&self, number: usize) {
        self.tell(number, || format!("{number} files found"));
    }

    /// So many files of all are read.
    pub fn read(&self, number: usize, all: usize) {
        self.tell(number, || format!("{number} of {all} files read"));
    }

    fn tell(&self, number: usize, words: impl Fn() -> String) {
        if self.terminal && number > 0 && number % STEP == 0 {
            self.told.store(true, Ordering::Relaxed);
            let _ = write!(io::stderr(), "\rsnp-cpuid: {}\x1b[K", words());
        }
    }
}

/// The line is cleared, also where the reading ends in a failure.
impl Drop for Progress {
    fn drop(&mut self) {
        if self.told.load(Ordering::Relaxed) {
            let _ = write!(io::stderr(), "\r\x1b[K");
        }
    }
}
