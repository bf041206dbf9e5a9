//! The commands that take one input, and at most another one beside it.

use crate::arguments::Task;
use crate::input::{self, Input};
use crate::output::{say, say_verdict, Broken, Output};
use crate::stop::Stop;
use crate::verdict::{Status, Verdict};
use crate::{edits, normal, out, parents, picture, ping, readings};
use crate::{record, salvage, samples, settings, walk};
use hac::{Advice, Refusal, Walk};
use std::fs::File;
use std::io;

pub fn run(input: &Input, task: &Task, output: &mut Output) -> Result<(), Broken> {
    let mut bytes = Vec::new();
    match perform(input, task, &mut bytes, output) {
        Ok(()) => Ok(()),
        Err(Stop::Broken(broken)) => Err(broken),
        Err(Stop::Refused(refusal)) => tell(input, &refused(&bytes, task, refusal), output),
        Err(Stop::Judged(verdict)) => tell(input, &verdict, output),
        Err(Stop::Unread(error)) => tell(input, &error.into(), output),
        Err(Stop::Beside(verdict)) => tell(task.beside().unwrap_or(input), &verdict, output),
        Err(Stop::Fault(fault)) => {
            output.worsen(Status::Unread);
            say(fault);
            Ok(())
        }
    }
}

/// Tells of an input that was refused, or couldn't be read.
fn tell(input: &Input, verdict: &Verdict, output: &mut Output) -> Result<(), Broken> {
    output.worsen(verdict.status());
    if output.json {
        output.line(verdict.object(input))?;
    }
    // behind what was printed, where both go to one terminal
    output.flush()?;
    say_verdict(input, verdict);
    Ok(())
}

/// A task's refusal. A tuple's reader looks at its place alone, and a walk refuses steps:
/// neither is about the whole file.
fn refused(file: &[u8], task: &Task, refusal: Refusal) -> Verdict {
    match task {
        Task::Samples { place } | Task::Record { place } => {
            let wrong = hac::wrong_sample(file, Walk { at: *place }, refusal);
            Verdict::Refused(refusal, wrong.map(Advice::from))
        }
        Task::Readings { place, .. } => {
            Verdict::Refused(refusal, hac::ping_advice(file, *place, refusal))
        }
        Task::Walk { .. } => Verdict::Refused(refusal, None),
        Task::Normal { .. }
        | Task::Edit { .. }
        | Task::Salvage { .. }
        | Task::Parents { .. }
        | Task::Settings
        | Task::Picture { .. }
        | Task::Ping(_) => Verdict::refused(file, refusal),
    }
}

/// Sees to it that what a task writes takes no input's place.
fn must_spare(file: &File, task: &Task) -> Result<(), Stop> {
    if let Some(out) = task.out() {
        out::must_differ(file, out)?;
    }
    if task.is_streamed() {
        out::must_take_bytes(file)?;
    }
    Ok(())
}

/// Reads the input that a task takes beside its own.
fn read_beside(input: &Input, task: &Task) -> Result<Vec<u8>, Stop> {
    let unread = |error: io::Error| Stop::Beside(error.into());
    let file = input.open().map_err(unread)?;
    must_spare(&file, task)?;
    let mut bytes = Vec::new();
    input::read(&file, &mut bytes).map_err(unread)?;
    Ok(bytes)
}

/// Reads the input into memory and does the task.
fn perform(
    input: &Input,
    task: &Task,
    bytes: &mut Vec<u8>,
    output: &mut Output,
) -> Result<(), Stop> {
    let file = input.open()?;
    must_spare(&file, task)?;
    input::read(&file, bytes)?;
    let beside = task.beside().map(|input| read_beside(input, task));
    let beside = beside.transpose()?;
    match task {
        Task::Normal { out } => normal::run(input, bytes, out.as_deref(), output),
        Task::Edit { change, out } => {
            let edit = edits::edit_of(change, beside.as_deref());
            edits::run(input, bytes, edit, out.as_deref(), output)
        }
        Task::Salvage { out } => salvage::run(input, bytes, out, output),
        Task::Walk { back } => walk::run(bytes, *back, output),
        Task::Parents { place } => parents::run(bytes, *place, output),
        Task::Samples { place } => samples::run(bytes, *place, output),
        Task::Record { place } => record::run(bytes, *place, output),
        Task::Settings => settings::run(bytes, output),
        Task::Readings { place, window } => readings::run(bytes, *place, window, output),
        Task::Picture { channel, out } => {
            picture::run(input, bytes, *channel, out.as_deref(), output)
        }
        Task::Ping(wanted) => ping::run(input, bytes, beside.as_deref(), wanted, output),
    }
}
