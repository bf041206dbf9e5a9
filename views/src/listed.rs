//! What lists the records among other things: crates.txt and the library's face. Each has two marks, and what stands between
//! them is made.

use crate::table::Record;
use crate::template::lines;
use crate::File;
use std::fs;

/// The crates that a view needs, and those that the two crates over all views need besides.
const NEEDS: &str = "content frame intake layout links order rows rules samples tuples turning";
const FACE: &str = "corrections edits energy frame intake layout normal ping_writers pings readings rows salvage settings tuples";
const ROUNDTRIP: &str =
    "content frame intake layout order ping_writers pings rows rules samples tuples turning";

pub fn files(records: &[Record]) -> Result<Vec<File>, String> {
    Ok(vec![
        between(
            "crates.txt",
            "# made by views/make",
            "# up to here",
            &crates(records),
        )?,
        between(
            "crates/hac/src/lib.rt",
            "// made by views/make",
            "// up to here",
            &face(records),
        )?,
    ])
}

/// The records by the names of their crates.
fn sorted(records: &[Record]) -> Vec<&Record> {
    let mut sorted: Vec<&Record> = records.iter().collect();
    sorted.sort_by(|a, b| a.module.cmp(&b.module));
    sorted
}

fn crates(records: &[Record]) -> String {
    let sorted = sorted(records);
    let modules: Vec<&str> = sorted.iter().map(|record| record.module.as_str()).collect();
    let modules = modules.join(" ");
    let views = lines(&sorted, |record| format!("{}: {NEEDS}", record.module));
    format!("hac: {FACE} {modules}\nroundtrip: {ROUNDTRIP} {modules}\n{views}\n")
}

fn face(records: &[Record]) -> String {
    let uses = lines(&sorted(records), |record| {
        let (module, name) = (&record.module, &record.name);
        format!("pub use {module}::{{{name}, {name}Read}};")
    });
    format!("{uses}\n")
}

/// A file of the root with what stands between its marks made anew.
fn between(path: &str, from: &str, to: &str, made: &str) -> Result<File, String> {
    let text = fs::read_to_string(path).map_err(|error| format!("{path}: {error}"))?;
    let parts = text
        .split_once(&format!("{from}\n"))
        .and_then(|(before, rest)| Some((before, rest.split_once(to)?.1)));
    let Some((before, behind)) = parts else {
        return Err(format!("{path} lacks '{from}' or '{to}'"));
    };
    Ok((path.into(), format!("{before}{from}\n{made}{to}{behind}")))
}
