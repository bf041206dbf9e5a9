//! The instructions of the calls that are timed, by valgrind's callgrind: the
//! same at every run, however busy the machine.

use crate::deposits;
use hac::{Refusal, FILE_LIMIT};
use std::fs;
use std::hint::black_box;
use std::path::Path;
use std::process::{Command, Stdio};

/// What is counted, in the order of the table.
const CALLS: [(&str, Call); 4] = [
    ("check", |file, _| hac::check(file).is_ok()),
    ("check-second", |file, _| second::check(file).is_accepted()),
    ("normal", |file, out| hac::normalise(file, out).is_ok()),
    ("normal-second", |file, out| {
        second::normalise(file, out).is_accepted()
    }),
];

/// A call on a file, with memory to write to: whether it accepts.
type Call = fn(&[u8], &mut [u8]) -> bool;

/// The one function whose instructions are counted.
const COUNTED: &str = "bench_counted";

#[no_mangle]
#[inline(never)]
fn bench_counted(call: Call, file: &[u8], out: &mut [u8]) -> bool {
    black_box(call(file, out))
}

/// Makes one call on the file at a path: what runs under valgrind.
pub fn once(name: &str, path: &str) -> Result<(), String> {
    let known = CALLS.iter().find(|(known, _)| *known == name);
    let (_, call) = known.ok_or_else(|| format!("no call {name}"))?;
    let file = fs::read(path).map_err(|error| error.to_string())?;
    let mut out = vec![0; FILE_LIMIT];
    black_box(bench_counted(*call, &file, &mut out));
    Ok(())
}

/// The instructions of one call on the file at a path.
fn counted(name: &str, path: &Path) -> Result<u64, String> {
    let said = path.with_extension("callgrind");
    let own = std::env::current_exe().map_err(|error| error.to_string())?;
    let status = Command::new("valgrind")
        .arg("--tool=callgrind")
        .arg(format!("--toggle-collect={COUNTED}"))
        .arg(format!("--callgrind-out-file={}", said.display()))
        .arg(own)
        .args(["once", name])
        .arg(path)
        .stderr(Stdio::null())
        .status()
        .map_err(|error| format!("valgrind: {error}"))?;
    if !status.success() {
        return Err(format!("valgrind: {status}"));
    }
    let text = fs::read_to_string(&said).map_err(|error| error.to_string())?;
    let total = text.lines().find_map(|line| line.strip_prefix("totals: "));
    let total = total.ok_or("callgrind told no total")?;
    total
        .trim()
        .parse()
        .map_err(|_| format!("{total} is no count"))
}

/// The instructions of all calls on a deposit, a byte of it each.
fn row(deposit: &deposits::Deposit, folder: &Path) -> Result<(), String> {
    let path = folder.join("deposit");
    fs::write(&path, &deposit.bytes).map_err(|error| error.to_string())?;
    print!("{:26}", deposit.name);
    for (name, _) in CALLS {
        let count = counted(name, &path)?;
        print!(" {:13.3}", count as f64 / deposit.bytes.len() as f64);
    }
    println!();
    Ok(())
}

pub fn show() -> Result<(), String> {
    println!("instructions a byte");
    print!("{:26}", "deposit");
    for (name, _) in CALLS {
        print!(" {name:>13}");
    }
    println!();
    let folder = std::env::temp_dir().join(format!("bench-{}", std::process::id()));
    fs::create_dir_all(&folder).map_err(|error| error.to_string())?;
    let said = |refusal: Refusal| refusal.to_string();
    let mut all = deposits::long().map_err(said)?;
    all.extend(deposits::silence().map_err(said)?);
    all.extend(deposits::encodings().map_err(said)?);
    all.extend(deposits::small().map_err(said)?);
    let rows = all.iter().try_for_each(|deposit| row(deposit, &folder));
    fs::remove_dir_all(&folder).map_err(|error| error.to_string())?;
    rows
}
