//! Makes from views/records.txt the files that say a record's fields again. Run in the root: `views/target/release/make` writes
//! them where they stand, with an argument DIR under that folder, so that they can be compared with what is committed.

mod edits;
mod header;
mod host;
mod listed;
mod proofs;
mod roundtrip;
mod source;
mod specs;
mod table;
mod template;
mod words;

use std::path::Path;
use std::{env, fs, io, process};

/// A file: its path from the root, and its text.
pub type File = (String, String);

const TABLE: &str = "views/records.txt";

fn main() {
    let folder = env::args().nth(1).unwrap_or_else(|| ".".into());
    if let Err(why) = make(Path::new(&folder)) {
        eprintln!("make: {why}");
        process::exit(1);
    }
}

fn make(folder: &Path) -> Result<(), String> {
    let text = fs::read_to_string(TABLE).map_err(|error| format!("{TABLE}: {error}"))?;
    let records = table::parse(&text).map_err(|why| format!("{TABLE}, {why}"))?;
    let listed = listed::files(&records)?;
    for file in files(&records).into_iter().chain(listed) {
        write(folder, file)?;
    }
    Ok(())
}

/// All that is made.
fn files(records: &[table::Record]) -> Vec<File> {
    let made = [
        header::files(records),
        host::files(records),
        source::files(records),
        specs::files(records),
        proofs::files(records),
        edits::files(records),
        roundtrip::files(records),
    ];
    made.concat()
}

/// Writes a file, and the folders that it needs.
fn write(folder: &Path, (path, text): File) -> Result<(), String> {
    let path = folder.join(path);
    let written = path
        .parent()
        .map_or(Ok(()), fs::create_dir_all)
        .and_then(|()| fs::write(&path, text));
    written.map_err(|error: io::Error| format!("{}: {error}", path.display()))
}

#[cfg(test)]
mod tests {
    use super::*;

    /// The widest line of what is made.
    const WIDEST: usize = 140;

    #[test]
    fn crates_say_where_they_come_from_in_lines_of_a_page() {
        let records = table::parse(include_str!("../records.txt")).unwrap();
        for (path, text) in files(&records) {
            if !path.starts_with("crates/") {
                continue;
            }
            let first = text.lines().next().unwrap();
            assert!(first.ends_with(template::MADE), "{path}");
            let wide = text.lines().find(|line| line.chars().count() > WIDEST);
            assert_eq!(wide, None, "{path}");
        }
    }
}
