//! The files that a command on many is over: those named, and those in folders named.

use crate::input::{self, Input};
use crate::verdict::Verdict;
use std::fs::{self, FileType};
use std::io;
use std::path::{Path, PathBuf};

/// A file to read.
pub struct Entry {
    pub input: Input,
    /// Why it can't be read, where that is known already.
    pub fault: Option<String>,
}

impl Entry {
    fn unfit(path: PathBuf, why: impl ToString) -> Entry {
        Entry {
            input: Input::Path(path),
            fault: Some(why.to_string()),
        }
    }

    /// Reads the file into memory, in the place of what is there, or tells why not.
    pub fn read(&self, bytes: &mut Vec<u8>) -> Result<(), Verdict> {
        if let Some(fault) = &self.fault {
            return Err(Verdict::Unread(fault.clone()));
        }
        Ok(input::read(&self.input.open()?, bytes)?)
    }

    /// The file's normal form, or why it has none.
    pub fn normal_form(&self) -> Result<Vec<u8>, Verdict> {
        let mut bytes = Vec::new();
        self.read(&mut bytes)?;
        hac::normal_form(&bytes).map_err(|refusal| Verdict::refused(&bytes, refusal))
    }
}

impl From<Input> for Entry {
    fn from(input: Input) -> Entry {
        Entry { input, fault: None }
    }
}

/// What was found in a folder.
struct Found {
    path: PathBuf,
    kind: FileType,
}

pub struct List {
    pub entries: Vec<Entry>,
    /// A folder, or more than one file, was named.
    pub many: bool,
}

/// The files of a list of inputs, in its order.
pub fn list(inputs: Vec<Input>) -> List {
    let mut many = inputs.len() > 1;
    let mut entries = Vec::new();
    for input in inputs {
        match input {
            Input::Path(folder) if folder.is_dir() => {
                many = true;
                add_folder(folder, &mut entries);
            }
            input => entries.push(input.into()),
        }
    }
    List { entries, many }
}

/// Adds all files in a folder and below, sorted. A link in a folder isn't followed:
/// what it leads to isn't below the folder. Like a pipe, it is no file.
fn add_folder(folder: PathBuf, entries: &mut Vec<Entry>) {
    // a stack of its own, for folders may be nested deeply
    let mut waiting = Vec::new();
    open_folder(folder, &mut waiting, entries);
    while let Some(Found { path, kind }) = waiting.pop() {
        if kind.is_dir() {
            open_folder(path, &mut waiting, entries);
        } else if kind.is_file() {
            entries.push(Input::Path(path).into());
        } else {
            entries.push(Entry::unfit(path, "neither a file nor a folder"));
        }
    }
}

/// Puts what is in a folder on top of what is waiting, the first topmost.
fn open_folder(folder: PathBuf, waiting: &mut Vec<Found>, entries: &mut Vec<Entry>) {
    match contents(&folder) {
        Ok(mut found) => {
            found.sort_by(|one, other| other.path.cmp(&one.path));
            waiting.append(&mut found);
        }
        Err(error) => entries.push(Entry::unfit(folder, error)),
    }
}

fn contents(folder: &Path) -> io::Result<Vec<Found>> {
    let found = fs::read_dir(folder)?.map(|entry| {
        let entry = entry?;
        Ok(Found {
            kind: entry.file_type()?,
            path: entry.path(),
        })
    });
    found.collect()
}
