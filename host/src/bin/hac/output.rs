//! What the program says, on standard output and on standard error.

use crate::input::Input;
use crate::json::Object;
use crate::shown::shown;
use crate::verdict::{Status, Verdict};
use std::fmt::Display;
use std::io::{self, BufWriter, ErrorKind, StdoutLock, Write};

/// Says something on standard error. Where that fails nobody can be told.
pub fn say(message: impl Display) {
    let _ = writeln!(io::stderr(), "hac: {message}");
}

/// Says a verdict on standard error.
pub fn say_verdict(input: &Input, verdict: &Verdict) {
    say(format_args!("{}: {verdict}", shown(input.name())));
}

/// Why standard output can't be written any more.
pub struct Broken(io::Error);

impl Broken {
    /// The status that is left of the one reached so far. That nobody reads on is
    /// no fault.
    pub fn ends(self, so_far: Status) -> Status {
        if self.0.kind() == ErrorKind::BrokenPipe {
            return so_far;
        }
        say(format_args!("standard output: {}", self.0));
        Status::Unread
    }
}

/// Standard output, a line at a time: text, or objects. With it goes the status
/// that the program ends with, as far as it is known.
pub struct Output {
    to: BufWriter<StdoutLock<'static>>,
    pub json: bool,
    status: Status,
}

impl Output {
    pub fn new(json: bool) -> Output {
        Output {
            to: BufWriter::new(io::stdout().lock()),
            json,
            status: Status::Accepted,
        }
    }

    pub fn status(&self) -> Status {
        self.status
    }

    /// Takes in what came of a file: the worst of all counts.
    pub fn worsen(&mut self, status: Status) {
        self.status = self.status.max(status);
    }

    pub fn line(&mut self, line: impl Display) -> Result<(), Broken> {
        writeln!(self.to, "{line}").map_err(Broken)
    }

    /// A line of text, or the object that says the same.
    pub fn tell(
        &mut self,
        text: impl Display,
        object: impl FnOnce() -> Object,
    ) -> Result<(), Broken> {
        if self.json {
            self.line(object())
        } else {
            self.line(text)
        }
    }

    /// What is no text.
    pub fn bytes(&mut self, bytes: &[u8]) -> Result<(), Broken> {
        self.to.write_all(bytes).map_err(Broken)
    }

    pub fn flush(&mut self) -> Result<(), Broken> {
        self.to.flush().map_err(Broken)
    }
}
