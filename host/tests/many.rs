//! `hac check` on folders: many deposits, told in order.

use crate::damage;
use crate::json::{self, Value};
use crate::known::{accepted, Known, NORMAL, SPELLINGS};
use crate::room::{hac, run, Room};
use hac::{Code, Counts};
use std::collections::BTreeMap;
use std::fs::{self, File};
use std::os::unix::fs::symlink;
use std::path::{Path, PathBuf};
use std::process::Command;

/// What is known of a deposit: its counts, or its refusal with what is said behind.
type Expected = Result<Counts, (u8, usize, &'static str)>;

/// A deposit that many copies are made of.
struct Master {
    bytes: Vec<u8>,
    expected: Expected,
}

/// Sound samples, and damaged ones but for the long ones.
fn masters() -> Vec<Master> {
    let sound = SPELLINGS.iter().chain([&NORMAL]).map(|name| {
        let known = Known::sample(name);
        Master {
            expected: Ok(known.counts()),
            bytes: known.bytes,
        }
    });
    let damaged = damage::all(&Known::sample("cruise-lsb")).into_iter();
    let damaged = damaged
        .filter(|copy| copy.bytes.len() < hac::TUPLE_LIMIT)
        .map(|copy| Master {
            expected: Err((copy.code, copy.place, copy.advice)),
            bytes: copy.bytes,
        });
    sound.chain(damaged).collect()
}

pub const DEPOSITS: usize = 1000;
const LEGS: usize = 7;

/// A thousand deposits in folders and folders below, and what is known of each, in
/// the order of their paths.
fn deposits(room: &Room) -> BTreeMap<PathBuf, Expected> {
    let masters = masters();
    let mut deposits = BTreeMap::new();
    for nth in 0..DEPOSITS {
        let folder = room
            .at(format!("leg-{}", nth % LEGS))
            .join(format!("day.{}", nth % 3));
        fs::create_dir_all(&folder).expect("a folder");
        let path = folder.join(format!("{}.hac", nth * 7919 % DEPOSITS));
        let master = &masters[nth % masters.len()];
        fs::write(&path, &master.bytes).expect("a deposit");
        deposits.insert(path, master.expected);
    }
    assert_eq!(deposits.len(), DEPOSITS);
    deposits
}

/// A thousand deposits' paths, in order.
pub fn thousand_paths(room: &Room) -> Vec<PathBuf> {
    deposits(room).into_keys().collect()
}

fn line(path: &Path, expected: &Expected) -> String {
    let path = path.display();
    match expected {
        Ok(counts) => format!("{path}: {}", accepted(*counts)),
        Err((code, place, advice)) => {
            let code = Code::of(*code).expect("a code");
            format!("{path}: refused, {code}, at {place}{advice}")
        }
    }
}

/// How many deposits are refused by each code.
fn by_code(deposits: &BTreeMap<PathBuf, Expected>) -> BTreeMap<u8, usize> {
    let mut codes = BTreeMap::new();
    for (code, ..) in deposits.values().filter_map(|expected| expected.err()) {
        *codes.entry(code).or_default() += 1;
    }
    codes
}

/// The lines that `hac check` prints for a thousand deposits in a folder.
pub fn thousand(room: &Room) -> Vec<String> {
    let deposits = deposits(room);
    let codes = by_code(&deposits);
    let refused: usize = codes.values().sum();
    let mut lines: Vec<String> = deposits
        .iter()
        .map(|(path, known)| line(path, known))
        .collect();
    let accepted = DEPOSITS - refused;
    lines.push(format!(
        "files {DEPOSITS}, accepted {accepted}, refused {refused}, not read 0"
    ));
    lines.extend(codes.iter().map(|(code, count)| {
        let code = Code::of(*code).expect("a code");
        format!("{count:>8}  {code}")
    }));
    lines
}

#[test]
fn a_thousand_lines() {
    let room = Room::new();
    let lines = thousand(&room);
    let ran = run(hac(["check"]).arg(room.path()));
    assert_eq!(ran.lines(), lines);
    assert_eq!((ran.status, ran.err.as_str()), (1, ""));
}

#[test]
fn a_thousand_objects() {
    let room = Room::new();
    let deposits = deposits(&room);
    let ran = run(hac(["check", "--json"]).arg(room.path()));
    let mut objects = json::objects(&ran.out);
    let summary = objects.pop().expect("a summary");
    assert_eq!(objects.len(), DEPOSITS);
    for (object, (path, expected)) in objects.iter().zip(&deposits) {
        assert_eq!(object.text("file"), path.to_str().expect("a plain name"));
        match expected {
            Ok(Counts { tuples, compared }) => {
                assert_eq!(object.number("tuples"), *tuples as i128);
                assert_eq!(object.number("compared"), *compared as i128);
            }
            Err((code, place, advice)) => {
                assert_eq!(object.number("code"), (*code).into());
                assert_eq!(object.number("place"), *place as i128);
                assert_eq!(format!(": {}", object.text("advice")), *advice);
            }
        }
    }
    let codes = by_code(&deposits).into_iter();
    let codes = codes.map(|(code, count)| (code.to_string(), Value::Number(count as i128)));
    assert_eq!(
        summary.get("summary").get("codes"),
        &Value::Object(codes.collect())
    );
}

/// A folder of one file is summed up too, and so is an empty one.
#[test]
fn small_folders() {
    let room = Room::new();
    let ran = run(hac(["check"]).arg(room.path()));
    assert_eq!(ran.lines(), ["files 0, accepted 0, refused 0, not read 0"]);
    assert_eq!(ran.status, 0);
    room.put("a.hac", &Known::sample("cruise-lsb").bytes);
    let ran = run(hac(["check"]).arg(room.path()));
    assert_eq!(ran.lines().len(), 2);
    assert_eq!(ran.lines()[1], "files 1, accepted 1, refused 0, not read 0");
    assert_eq!(ran.status, 0);
}

/// What is no file in a folder is said and never followed or waited for.
#[test]
fn links_and_pipes_in_a_folder() {
    let room = Room::new();
    let known = Known::sample("cruise-lsb");
    let folder = room.at("folder");
    fs::create_dir(&folder).expect("a folder");
    fs::write(folder.join("a.hac"), &known.bytes).expect("a deposit");
    symlink(&known.path, folder.join("link.hac")).expect("a link");
    symlink(&folder, folder.join("loop")).expect("a link");
    let pipe = folder.join("pipe");
    let made = Command::new("mkfifo").arg(&pipe).status().expect("mkfifo");
    assert!(made.success());
    let ran = run(hac(["check"]).arg(&folder));
    assert_eq!(ran.lines()[1], "files 4, accepted 1, refused 0, not read 3");
    for (said, name) in ran.err.lines().zip(["link.hac", "loop", "pipe"]) {
        let path = folder.join(name);
        let words = "neither a file nor a folder";
        assert_eq!(said, format!("hac: {}: {words}", path.display()));
    }
    assert_eq!(ran.status, 2);
}

/// Huge files are read no further than needed: all memory taken together is less
/// than one of them.
#[test]
fn bounded_memory() {
    const HUGE: u64 = 1 << 30;
    const KIBIBYTES: u64 = (HUGE - (HUGE >> 2)) >> 10;
    let room = Room::new();
    for nth in 0..4 {
        let file = File::create(room.at(format!("{nth}.hac"))).expect("a file");
        file.set_len(HUGE).expect("a sparse file");
    }
    let script = format!("ulimit -v {KIBIBYTES} && exec \"$0\" check \"$1\"");
    let mut shell = Command::new("sh");
    shell
        .args(["-c", &script, env!("CARGO_BIN_EXE_hac")])
        .arg(room.path());
    let ran = run(&mut shell);
    let over = format!("{:>8}  {}", 4, Code::OverLimit);
    assert_eq!(ran.lines().last(), Some(&over.as_str()), "{}", ran.err);
    assert_eq!(ran.status, 1);
}
