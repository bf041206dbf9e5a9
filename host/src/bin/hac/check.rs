//! `hac check`: many files judged on all cores, and told in their order.

use crate::files::{self, Entry};
use crate::input::Input;
use crate::output::{Broken, Output};
use crate::progress::Progress;
use crate::report::Report;
use crate::spread::Spread;
use crate::verdict::Verdict;
use std::sync::Arc;

pub fn run(inputs: Vec<Input>, output: &mut Output) -> Result<(), Broken> {
    let list = files::list(inputs);
    let entries = Arc::new(list.entries);
    let progress = Progress::over(entries.len(), "checked");
    let mut report = Report::new(progress, output);
    judge_all(&entries, &mut report)?;
    match list.many {
        true => report.summarise(&[]),
        false => Ok(()),
    }
}

/// Judges all files, each worker one at a time, while the report follows.
fn judge_all(entries: &Arc<Vec<Entry>>, report: &mut Report) -> Result<(), Broken> {
    let shared = entries.clone();
    let verdicts = Spread::over(entries.len(), move |at, bytes| judge(&shared[at], bytes));
    report.follow(entries, verdicts, |report, input, verdict| {
        report.output.worsen(verdict.status());
        report.verdict(input, &verdict)
    })
}

fn judge(entry: &Entry, bytes: &mut Vec<u8>) -> Verdict {
    match entry.read(bytes) {
        Ok(()) => Verdict::of(bytes),
        Err(verdict) => verdict,
    }
}
