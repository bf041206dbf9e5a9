//! Files that appear whole or not at all.

use std::fs::{self, File};
use std::io::{self, ErrorKind, Write};
use std::path::{Path, PathBuf};
use std::process;

/// So many names are tried for a new file.
const ATTEMPTS: u32 = 100;

/// A new file beside the one that is meant. It is gone where it isn't kept.
struct Draft {
    path: PathBuf,
    file: File,
    kept: bool,
}

impl Draft {
    fn beside(path: &Path) -> io::Result<Draft> {
        let folder = path.parent().unwrap_or(Path::new(""));
        for attempt in 0..ATTEMPTS {
            let path = folder.join(format!(".hac-{}-{attempt}", process::id()));
            match File::create_new(&path) {
                Err(error) if error.kind() == ErrorKind::AlreadyExists => continue,
                created => {
                    return created.map(|file| Draft {
                        path,
                        file,
                        kept: false,
                    })
                }
            }
        }
        Err(ErrorKind::AlreadyExists.into())
    }
}

impl Drop for Draft {
    fn drop(&mut self) {
        if !self.kept {
            // where even this fails nothing more can be done
            let _ = fs::remove_file(&self.path);
        }
    }
}

/// Writes a file. Until all of it is there and safe, whatever stood under its name
/// stays.
pub fn write(path: &Path, bytes: &[u8]) -> io::Result<()> {
    let mut draft = Draft::beside(path)?;
    draft.file.write_all(bytes)?;
    draft.file.sync_all()?;
    fs::rename(&draft.path, path)?;
    draft.kept = true;
    Ok(())
}
