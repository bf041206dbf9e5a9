//! OUT: the file that a command writes, or standard output.

use crate::input::Identity;
use crate::shown::shown;
use crate::stop::Stop;
use crate::whole;
use std::collections::HashSet;
use std::fmt::Display;
use std::fs::{self, File};
use std::io::{self, ErrorKind, IsTerminal};
use std::os::fd::AsFd;
use std::path::Path;

/// What is wrong where the file that would be written is read.
const IS_INPUT: &str = "OUT is an input itself";

/// Sees to it that OUT is neither the input, under whatever name, nor anything
/// else that a file can't take the place of.
pub fn must_differ(input: &File, out: &Path) -> Result<(), Stop> {
    let input = Identity::of(&input.metadata()?);
    Ok(must_be_free(out, &HashSet::from([input]))?)
}

/// The same, of many inputs.
pub fn must_be_free(out: &Path, inputs: &HashSet<Identity>) -> Result<(), String> {
    let there = match fs::metadata(out) {
        Ok(there) => there,
        Err(error) if error.kind() == ErrorKind::NotFound => return Ok(()),
        Err(error) => return Err(fault(out, error)),
    };
    if inputs.contains(&Identity::of(&there)) {
        return Err(fault(out, IS_INPUT));
    }
    if !there.is_file() {
        return Err(fault(out, "not a regular file"));
    }
    Ok(())
}

/// Sees to it that standard output can take a file's bytes: it is neither the input, as a
/// file that is written behind its end may be, nor a terminal, which they could steer.
pub fn must_take_bytes(input: &File) -> Result<(), Stop> {
    let standard = io::stdout();
    if standard.is_terminal() {
        return Err(Stop::Fault("standard output: a terminal, no file".into()));
    }
    let there = File::from(standard.as_fd().try_clone_to_owned()?).metadata()?;
    if there.is_file() && Identity::of(&there) == Identity::of(&input.metadata()?) {
        return Err(Stop::Fault(format!("standard output: {IS_INPUT}")));
    }
    Ok(())
}

/// What is wrong with OUT, by its name.
pub fn fault(out: &Path, why: impl Display) -> String {
    format!("{}: {why}", shown(out.as_os_str()))
}

/// Writes OUT, whole or not at all.
pub fn write(out: &Path, bytes: &[u8]) -> Result<(), String> {
    whole::write(out, bytes).map_err(|error| fault(out, error))
}
