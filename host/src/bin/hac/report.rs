//! What is told of many files, beside how far the work has come.

use crate::files::Entry;
use crate::input::Input;
use crate::json::Object;
use crate::output::{say_verdict, Broken, Output};
use crate::progress::Progress;
use crate::shown::shown;
use crate::spread::Spread;
use crate::summary::Summary;
use crate::verdict::{Status, Verdict};
use std::fmt::Display;
use std::io::{self, IsTerminal};

pub struct Report<'a> {
    pub output: &'a mut Output,
    pub progress: Progress,
    pub summary: Summary,
    /// Lines and progress may stand on the same terminal.
    on_terminal: bool,
}

impl<'a> Report<'a> {
    pub fn new(progress: Progress, output: &'a mut Output) -> Report<'a> {
        Report {
            output,
            progress,
            summary: Summary::default(),
            on_terminal: io::stdout().is_terminal(),
        }
    }

    /// Tells what is made of each file, in their order, while it is shown how far the work
    /// has come.
    pub fn follow<T: Send + 'static>(
        &mut self,
        entries: &[Entry],
        mut made: Spread<T>,
        mut tell: impl FnMut(&mut Self, &Input, T) -> Result<(), Broken>,
    ) -> Result<(), Broken> {
        let mut waiting = entries.iter();
        loop {
            self.progress.show(made.done());
            let Some(due) = made.due() else {
                return Ok(());
            };
            for (one, entry) in due.into_iter().zip(waiting.by_ref()) {
                tell(self, &entry.input, one)?;
            }
            self.output.flush()?;
        }
    }

    /// A line of text, or the object that says the same.
    pub fn line(
        &mut self,
        text: impl Display,
        object: impl FnOnce() -> Object,
    ) -> Result<(), Broken> {
        if self.on_terminal {
            self.progress.hide();
        }
        self.output.tell(text, object)
    }

    /// What came of a file, counted and told; the status is the caller's. One that couldn't be read is told on
    /// standard error; as an object on standard output too.
    pub fn verdict(&mut self, input: &Input, verdict: &Verdict) -> Result<(), Broken> {
        self.summary.count(verdict);
        if verdict.status() != Status::Unread {
            let name = shown(input.name());
            return self.line(format_args!("{name}: {verdict}"), || verdict.object(input));
        }
        self.aside(|| say_verdict(input, verdict), || verdict.object(input))
    }

    /// What is said on standard error; as an object on standard output too.
    pub fn aside(
        &mut self,
        say: impl FnOnce(),
        object: impl FnOnce() -> Object,
    ) -> Result<(), Broken> {
        self.progress.hide();
        // behind what was printed, where both go to one terminal
        let flushed = self.output.flush();
        say();
        flushed?;
        match self.output.json {
            true => self.output.line(object()),
            false => Ok(()),
        }
    }

    /// How many files came out how, and what else was counted.
    pub fn summarise(&mut self, others: &[(&str, usize)]) -> Result<(), Broken> {
        self.progress.hide();
        self.summary.tell(others, self.output)
    }
}
