//! `hac normal -d`: the normal forms of many files, each written to a folder under the
//! file's own name.

use crate::files::{self, Entry};
use crate::input::{Identity, Input};
use crate::json::Object;
use crate::normal::FORM;
use crate::out;
use crate::output::{say, Broken, Output};
use crate::progress::Progress;
use crate::report::Report;
use crate::shown::shown;
use crate::verdict::{Status, Verdict};
use crate::written::Written;
use std::collections::{HashMap, HashSet};
use std::fs;
use std::path::{Path, PathBuf};

pub fn run(inputs: Vec<Input>, folder: &Path, output: &mut Output) -> Result<(), Broken> {
    match plan(files::list(inputs).entries, folder) {
        Ok(jobs) => write_all(&jobs, output),
        Err(fault) => {
            output.worsen(Status::Unread);
            say(fault);
            Ok(())
        }
    }
}

/// A file, and where its normal form goes.
struct Job {
    entry: Entry,
    out: PathBuf,
}

/// What came of a job.
enum Outcome {
    /// Written, and so many bytes.
    Written(usize),
    /// Not written, and why.
    Unwritten(String),
    /// It has no normal form.
    Not(Verdict),
}

/// What is to be done, or why nothing is: all that can be known to fail is looked at before
/// anything is written.
fn plan(entries: Vec<Entry>, folder: &Path) -> Result<Vec<Job>, String> {
    must_be_folder(folder)?;
    let jobs = entries.into_iter().map(|entry| Job::of(entry, folder));
    let jobs = jobs.collect::<Result<Vec<Job>, String>>()?;
    let able = || jobs.iter().filter(|job| job.entry.fault.is_none());
    must_differ(able())?;
    let inputs: HashSet<Identity> = able().filter_map(Job::identity).collect();
    able().try_for_each(|job| out::must_be_free(&job.out, &inputs))?;
    Ok(jobs)
}

fn must_be_folder(folder: &Path) -> Result<(), String> {
    match fs::metadata(folder) {
        Ok(there) if there.is_dir() => Ok(()),
        Ok(_) => Err(out::fault(folder, "not a folder")),
        Err(error) => Err(out::fault(folder, error)),
    }
}

/// Sees to it that no two files have one name: the later would take the place of the
/// earlier.
fn must_differ<'a>(jobs: impl Iterator<Item = &'a Job>) -> Result<(), String> {
    let mut taken = HashMap::new();
    for Job { entry, out } in jobs {
        if let Some(earlier) = taken.insert(out, entry) {
            let [one, other] = [earlier, entry].map(|entry| shown(entry.input.name()));
            return Err(format!("{one} and {other}: two inputs of one file name"));
        }
    }
    Ok(())
}

fn write_all(jobs: &[Job], output: &mut Output) -> Result<(), Broken> {
    let mut report = Report::new(Progress::over(jobs.len(), "written"), output);
    let mut written = 0;
    let mut told = Ok(());
    for (nth, job) in jobs.iter().enumerate() {
        report.progress.show(nth);
        let outcome = job.perform();
        written += usize::from(matches!(outcome, Outcome::Written(_)));
        report.output.worsen(outcome.status());
        // the files were asked for, whether or not anybody reads what is told of them
        told = told.and(job.tell(&outcome, &mut report));
    }
    told?;
    report.summarise(&[("written", written)])
}

impl Outcome {
    fn status(&self) -> Status {
        match self {
            Outcome::Written(_) => Status::Accepted,
            Outcome::Unwritten(_) => Status::Unread,
            Outcome::Not(verdict) => verdict.status(),
        }
    }
}

impl Job {
    fn of(entry: Entry, folder: &Path) -> Result<Job, String> {
        let input = Path::new(entry.input.name());
        match input.file_name() {
            Some(name) => Ok(Job {
                out: folder.join(name),
                entry,
            }),
            None => Err(out::fault(input, "no file name")),
        }
    }

    /// None of a file that isn't there.
    fn identity(&self) -> Option<Identity> {
        let there = fs::metadata(self.entry.input.name()).ok()?;
        Some(Identity::of(&there))
    }

    fn perform(&self) -> Outcome {
        match self.entry.normal_form() {
            Err(verdict) => Outcome::Not(verdict),
            Ok(normal) => match out::write(&self.out, &normal) {
                Ok(()) => Outcome::Written(normal.len()),
                Err(fault) => Outcome::Unwritten(fault),
            },
        }
    }

    /// A line, as soon as it is known.
    fn tell(&self, outcome: &Outcome, report: &mut Report) -> Result<(), Broken> {
        let input = &self.entry.input;
        match outcome {
            Outcome::Not(verdict) => report.verdict(input, verdict)?,
            Outcome::Unwritten(fault) => {
                report.summary.accept(1);
                report.aside(|| say(fault), || unwritten(input, fault))?;
            }
            Outcome::Written(length) => {
                report.summary.accept(1);
                let (out, length) = (self.out.as_path(), *length);
                let written = Written {
                    input,
                    what: FORM,
                    out,
                    length,
                };
                report.line(&written, || written.object())?;
            }
        }
        report.output.flush()
    }
}

fn unwritten(input: &Input, fault: &str) -> Object {
    Object::default()
        .name("file", input.name())
        .text("outcome", "unwritten")
        .text("error", fault)
}
