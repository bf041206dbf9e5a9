//! Writes the cases of a seed into a folder: `generate DIR SEED COUNT
//! [files|lines]`. A name has the case's number, its class and, where its
//! making tells it, the check's code.

use second::gen::{file_case, line_case};
use std::path::Path;
use std::{env, fs, io, process};

fn write_files(dir: &Path, seed: u64, count: u64) -> io::Result<()> {
    for index in 0..count {
        for case in file_case(seed, index) {
            let code = case.expected.map(|(code, _)| format!("-code-{code}"));
            let name = format!("{index:06}-{}{}.hac", case.name, code.unwrap_or_default());
            fs::write(dir.join(name), case.bytes)?;
        }
    }
    Ok(())
}

fn write_lines(dir: &Path, seed: u64, count: u64) -> io::Result<()> {
    for index in 0..count {
        let case = line_case(seed, index);
        fs::write(dir.join(format!("{index:06}-{}.txt", case.name)), case.text)?;
    }
    Ok(())
}

fn main() -> io::Result<()> {
    let arguments: Vec<String> = env::args().skip(1).collect();
    let usage = || -> ! {
        eprintln!("usage: generate DIR SEED COUNT [files|lines]");
        process::exit(2)
    };
    let (dir, seed, count, kind) = match arguments.as_slice() {
        [dir, seed, count] => (dir, seed, count, "files"),
        [dir, seed, count, kind] => (dir, seed, count, kind.as_str()),
        _ => usage(),
    };
    let (Ok(seed), Ok(count)) = (seed.parse(), count.parse()) else {
        usage()
    };
    let dir = Path::new(dir);
    fs::create_dir_all(dir)?;
    match kind {
        "files" => write_files(dir, seed, count)?,
        "lines" => write_lines(dir, seed, count)?,
        _ => usage(),
    }
    println!("{count} cases of seed {seed}, {kind}");
    Ok(())
}
