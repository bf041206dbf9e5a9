//! Writes small refused files as lines into a folder: `refusals DIR`. For each
//! kind of damage made by rule and each byte order there is the shortest of many
//! generated files, and one with an unlisted type in MSB order. A name has the
//! check's code; the same bytes come at every run.

use second::gen::{fault, frames, sound_case, Case, Kind, Rng, FAULT_KINDS};
use second::programs::{program_one, BYTE_LIMIT};
use second::Order;
use std::path::Path;
use std::{env, fs, io, process};

/// How many files of a kind are made for the shortest to be picked from.
const TRIES: u64 = 3000;

fn lines(file: &[u8]) -> String {
    frames(file).join("\n") + "\n"
}

/// Whether program one refuses a file with this code.
fn is_refused(file: &[u8], code: u32) -> bool {
    let printed = program_one(lines(file).as_bytes());
    printed.starts_with(format!("refused {code} ").as_bytes())
}

/// The shortest file that gives the code, in this order where it has one.
fn shortest(make: impl Fn(&mut Rng) -> Case, code: u32, order: Option<Order>) -> Option<Vec<u8>> {
    (0..TRIES)
        .map(|index| make(&mut Rng::of_case(code.into(), index)).bytes)
        .filter(|file| Order::of(file) == order && file.len() <= BYTE_LIMIT)
        .filter(|file| is_refused(file, code))
        .min_by_key(Vec::len)
}

/// The code that a kind of damage gives, as its making tells.
fn code_of(kind: Kind) -> Option<u32> {
    let case = fault(&mut Rng::new(0), kind);
    case.expected.map(|(code, _)| code)
}

fn write(dir: &Path, name: String, file: Option<Vec<u8>>) -> io::Result<()> {
    match file {
        Some(file) => fs::write(dir.join(name), lines(&file)),
        None => Ok(()),
    }
}

/// A kind that no file short enough can have writes nothing.
fn write_kind(dir: &Path, kind: Kind) -> io::Result<()> {
    let Some(code) = code_of(kind) else {
        return Ok(());
    };
    let name = kind.name();
    for (order, of) in [
        ("lsb", Some(Order::Lsb)),
        ("msb", Some(Order::Msb)),
        ("none", None),
    ] {
        let file = shortest(|rng| fault(rng, kind), code, of);
        write(dir, format!("refused-{code}-{name}.{order}.txt"), file)?;
    }
    Ok(())
}

fn main() -> io::Result<()> {
    let arguments: Vec<String> = env::args().skip(1).collect();
    let [dir] = arguments.as_slice() else {
        eprintln!("usage: refusals DIR");
        process::exit(2)
    };
    let dir = Path::new(dir);
    fs::create_dir_all(dir)?;
    for kind in FAULT_KINDS.iter().copied() {
        write_kind(dir, kind)?;
    }
    let unlisted = shortest(sound_case, 18, Some(Order::Msb));
    write(dir, "refused-18-unlisted.msb.txt".to_string(), unlisted)
}
