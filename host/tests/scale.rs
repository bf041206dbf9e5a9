//! Many deposits over many processes, as docs/SCALE.md has it: lines and statuses of parts are
//! those of the whole.

use crate::many::thousand_paths;
use crate::room::{hac, run, Ran, Room};
use std::path::PathBuf;
use std::process::Stdio;

/// So many processes run at once, each on its part of the deposits.
const PROCESSES: usize = 5;

/// What a run on more than one file ends with.
const SUMMARY: &str = "{\"summary\":";

/// The lines of files, without a run's summary.
fn of_files(ran: &Ran) -> Vec<String> {
    let lines = ran.out.lines().filter(|line| !line.starts_with(SUMMARY));
    lines.map(String::from).collect()
}

/// `hac check --json` on parts of the files, all at once.
fn in_parts(paths: &[PathBuf]) -> Vec<Ran> {
    let parts = paths.chunks(paths.len().div_ceil(PROCESSES));
    let running: Vec<_> = parts
        .map(|part| {
            let mut command = hac(["check", "--json", "--"]);
            let command = command.args(part);
            let command = command.stdout(Stdio::piped()).stderr(Stdio::null());
            command.spawn().expect("a process starts")
        })
        .collect();
    let ended = running
        .into_iter()
        .map(|process| process.wait_with_output());
    ended
        .map(|output| output.expect("it ends").into())
        .collect()
}

/// 2 if any is 2, else 1 if any is 1.
fn worst(parts: &[Ran]) -> Option<i32> {
    parts.iter().map(|ran| ran.status).max()
}

#[test]
fn parts_are_the_whole() {
    let room = Room::new();
    let paths = thousand_paths(&room);
    let whole = run(hac(["check", "--json", "--"]).args(&paths));
    let parts = in_parts(&paths);
    assert_eq!(parts.len(), PROCESSES);
    let merged: Vec<String> = parts.iter().flat_map(of_files).collect();
    assert_eq!(merged, of_files(&whole));
    assert_eq!(merged.len(), paths.len());
    assert_eq!(worst(&parts), Some(whole.status));
}

#[test]
fn a_file_that_cannot_be_read_has_its_line_too() {
    let room = Room::new();
    let mut paths = thousand_paths(&room);
    paths.push(room.at("gone.hac"));
    let whole = run(hac(["check", "--json", "--"]).args(&paths));
    let parts = in_parts(&paths);
    let merged: Vec<String> = parts.iter().flat_map(of_files).collect();
    assert_eq!(merged, of_files(&whole));
    assert_eq!(merged.len(), paths.len());
    assert_eq!((worst(&parts), whole.status), (Some(2), 2));
}
