//! `hac show`: what each deposit holds, on a page.

use crate::contents::Contents;
use crate::files::{self, Entry};
use crate::input::Input;
use crate::output::{Broken, Output};
use crate::page;
use crate::progress::Progress;
use crate::report::Report;
use crate::spread::Spread;
use crate::verdict::Verdict;
use std::sync::Arc;

/// No summary stands behind the pages: of objects each is a deposit's.
pub fn run(inputs: Vec<Input>, output: &mut Output) -> Result<(), Broken> {
    let entries = Arc::new(files::list(inputs).entries);
    let mut report = Report::new(Progress::over(entries.len(), "shown"), output);
    let shared = entries.clone();
    let found = Spread::over(entries.len(), move |at, bytes| look_at(&shared[at], bytes));
    report.follow(&entries, found, tell)
}

/// What came of a file, and what an accepted one holds.
struct Found {
    verdict: Verdict,
    contents: Option<Contents>,
}

impl From<Verdict> for Found {
    fn from(verdict: Verdict) -> Found {
        let contents = None;
        Found { verdict, contents }
    }
}

fn look_at(entry: &Entry, bytes: &mut Vec<u8>) -> Found {
    match entry.read(bytes) {
        Ok(()) => look(bytes),
        Err(verdict) => verdict.into(),
    }
}

/// What the check says of a file, and what it holds where it is accepted.
fn look(file: &[u8]) -> Found {
    let found = hac::check(file).and_then(|counts| Ok((counts, Contents::of(file)?)));
    match found {
        Ok((counts, contents)) => Found {
            verdict: Verdict::Accepted(counts),
            contents: Some(contents),
        },
        Err(refusal) => Verdict::refused(file, refusal).into(),
    }
}

/// A page, or the verdict on a file that has none.
fn tell(report: &mut Report, input: &Input, found: Found) -> Result<(), Broken> {
    let Found { verdict, contents } = found;
    report.output.worsen(verdict.status());
    let Some(contents) = contents else {
        return report.verdict(input, &verdict);
    };
    let lines = page::lines(input, &verdict, &contents).join("\n");
    report.line(lines, || page::object(input, &verdict, &contents))
}
