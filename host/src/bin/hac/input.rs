//! Inputs: files, and standard input.

use std::ffi::{OsStr, OsString};
use std::fs::{File, Metadata};
use std::io::{self, Read};
use std::os::fd::AsFd;
use std::os::unix::fs::MetadataExt;
use std::path::PathBuf;

/// The name of standard input.
pub const STANDARD: &str = "-";

/// The most that is read of an input: one byte over the limit is enough to refuse
/// it.
const MOST: usize = hac::FILE_LIMIT + 1;

#[derive(PartialEq, Eq)]
pub enum Input {
    Standard,
    Path(PathBuf),
}

impl Input {
    pub fn of(word: OsString) -> Input {
        if word == STANDARD {
            Input::Standard
        } else {
            Input::Path(word.into())
        }
    }

    pub fn name(&self) -> &OsStr {
        match self {
            Input::Standard => OsStr::new(STANDARD),
            Input::Path(path) => path.as_os_str(),
        }
    }

    pub fn open(&self) -> io::Result<File> {
        match self {
            Input::Standard => Ok(io::stdin().as_fd().try_clone_to_owned()?.into()),
            Input::Path(path) => File::open(path),
        }
    }
}

/// Reads an input from where it stands into memory, in the place of what is there.
pub fn read(file: &File, bytes: &mut Vec<u8>) -> io::Result<()> {
    bytes.clear();
    let told = usize::try_from(file.metadata()?.len()).unwrap_or(MOST);
    bytes.reserve_exact(told.min(MOST));
    file.take(MOST as u64).read_to_end(bytes)?;
    Ok(())
}

/// What tells a file from all others, whatever it is called.
#[derive(PartialEq, Eq, Hash)]
pub struct Identity {
    device: u64,
    inode: u64,
}

impl Identity {
    pub fn of(metadata: &Metadata) -> Identity {
        Identity {
            device: metadata.dev(),
            inode: metadata.ino(),
        }
    }
}
