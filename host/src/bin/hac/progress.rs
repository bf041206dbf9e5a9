//! How far long work has come, on a terminal.

use std::io::{self, IsTerminal, Write};
use std::time::{Duration, Instant};

/// The least time between two lines.
pub const PAUSE: Duration = Duration::from_millis(100);

/// One line on standard error that is written over and over.
pub struct Progress {
    total: usize,
    /// What is done with the files.
    done: &'static str,
    shows: bool,
    last: Option<Instant>,
    /// The characters that stand there now.
    width: usize,
}

impl Progress {
    /// Progress over so many files, shown where there is a terminal and more than
    /// one file.
    pub fn over(total: usize, done: &'static str) -> Progress {
        Progress {
            total,
            done,
            shows: total > 1 && io::stderr().is_terminal(),
            last: None,
            width: 0,
        }
    }

    pub fn show(&mut self, count: usize) {
        if !self.shows || self.last.is_some_and(|last| last.elapsed() < PAUSE) {
            return;
        }
        let line = format!("{count} of {} files {}", self.total, self.done);
        print(&format!("\r{line}"));
        self.width = line.len();
        self.last = Some(Instant::now());
    }

    /// Takes the line away.
    pub fn hide(&mut self) {
        if self.width > 0 {
            print(&format!("\r{:1$}\r", "", self.width));
            self.width = 0;
        }
    }
}

impl Drop for Progress {
    fn drop(&mut self) {
        self.hide();
    }
}

/// Progress that can't be shown is no fault.
fn print(text: &str) {
    let _ = io::stderr().write_all(text.as_bytes());
}
