//! `hac same`: which deposits have the same content, however they are spelled.

use crate::damage::{self, long_ping, Draft};
use crate::json::{self, Value};
use crate::known::{four_bytes, repository, Known, NORMAL, SPELLINGS};
use crate::room::{hac, run, Ran, Room};
use crate::streams::fed;
use hac::types::{PING_C, POSITION};
use hac::{normal_form, Code, FILE_LIMIT, TUPLE_LIMIT, VALUE_LIMIT};
use std::ffi::OsStr;
use std::fs;
use std::io;
use std::os::unix::ffi::OsStrExt;
use std::path::{Path, PathBuf};
use std::process::{Command, Stdio};
use std::thread;

/// Runs `hac same`.
fn same(paths: &[&Path]) -> Ran {
    run(hac(["same"]).args(paths))
}

/// The line of a group.
fn line(paths: &[&Path]) -> String {
    let names: Vec<String> = paths
        .iter()
        .map(|path| path.display().to_string())
        .collect();
    format!("same: {}", names.join(" = "))
}

fn summary(files: usize, accepted: usize, groups: usize) -> String {
    let refused = files - accepted;
    format!("files {files}, accepted {accepted}, refused {refused}, not read 0, groups {groups}")
}

/// The host's paper shows what the command prints of the four spellings.
#[test]
fn the_paper() {
    let paper = fs::read_to_string(repository("host/README.md")).expect("the paper");
    let names = SPELLINGS.map(|name| format!("samples/{name}.hac"));
    let shown = format!("    $ hac same {}\n", names.join(" "));
    let (_, shown) = paper.split_once(&shown).expect("the command");
    let shown = shown.lines().map_while(|line| line.strip_prefix("    "));
    let ran = run(hac(["same"]).args(&names).current_dir(repository("")));
    assert_eq!(ran.lines(), shown.collect::<Vec<_>>());
    assert_eq!(ran.lines()[0], format!("same: {}", names.join(" = ")));
    assert_eq!((ran.status, ran.err.as_str()), (1, ""));
}

/// Groups stand in the order of their first members, and members in that of the inputs.
#[test]
fn in_order() {
    let names = [
        "encodings-msb",
        "cruise-msb-cut",
        "damaged-salvaged",
        "cruise-normal",
        "splitbeam-lsb",
        "cruise-lsb",
        "encodings-lsb",
    ];
    let known = names.map(Known::sample);
    let paths = known.each_ref().map(|known| known.path.as_path());
    let ran = same(&paths);
    let lines = [
        line(&[paths[0], paths[6]]),
        line(&[paths[1], paths[3], paths[5]]),
        summary(7, 7, 2),
    ];
    assert_eq!(ran.lines(), lines);
    assert_eq!((ran.status, ran.err.as_str()), (1, ""));
}

/// No two, and one alone; one that is named twice is the same as itself.
#[test]
fn no_two() {
    let names = ["cruise-lsb", "splitbeam-lsb", "encodings-lsb"];
    let known = names.map(Known::sample);
    let paths = known.each_ref().map(|known| known.path.as_path());
    for paths in [&paths[..], &paths[..1]] {
        let ran = same(paths);
        assert_eq!(ran.lines(), [summary(paths.len(), paths.len(), 0)]);
        assert_eq!((ran.status, ran.err.as_str()), (0, ""));
    }
    let ran = same(&[paths[0], paths[0]]);
    assert_eq!(ran.lines(), [line(&[paths[0], paths[0]]), summary(2, 2, 1)]);
    assert_eq!(ran.status, 1);
}

/// A deposit that is refused by the normaliser alone, at a place.
fn unturnable() -> (Vec<u8>, usize) {
    let known = Known::sample("cruise-msb");
    let mut draft = Draft::of(&known);
    let mut unlisted = known.tuples[1].bytes.clone();
    unlisted[4..6].copy_from_slice(&[0, 5]);
    draft.tuples.insert(1, unlisted);
    (draft.bytes(), known.tuples[1].place)
}

/// Refused ones stand behind the groups, by code and then in the order of the inputs. None
/// is the same as another, though their bytes are, and the status doesn't count them.
#[test]
fn refused() {
    let room = Room::new();
    let mut expected = Vec::new();
    let (bytes, place) = unturnable();
    let mut damaged = damage::all(&Known::sample("cruise-lsb"));
    damaged.retain(|copy| copy.bytes.len() < TUPLE_LIMIT);
    let copies = damaged.iter().rev();
    let copies = copies.map(|copy| (copy.code, copy.bytes.clone(), copy.place, copy.advice));
    let advice = ": nobody knows how to turn type 5: a deposit in LSB order would be taken";
    let unturnable = (Code::Unturnable.number(), bytes, place, advice);
    for (nth, (code, bytes, place, advice)) in [unturnable].into_iter().chain(copies).enumerate() {
        let path = room.put(format!("{nth:04}.hac"), &bytes);
        let words = Code::of(code).expect("a code");
        let line = format!("{}: refused, {words}, at {place}{advice}", path.display());
        expected.push((code, line));
    }
    let count = expected.len();
    // by code alone: those of one code stay as they are
    expected.sort_by_key(|(code, _)| *code);
    let mut lines: Vec<String> = expected.into_iter().map(|(_, line)| line).collect();
    lines.push(summary(count, 0, 0));
    let ran = same(&[room.path()]);
    assert_eq!(ran.lines()[..=count], lines);
    assert_eq!((ran.status, ran.err.as_str()), (0, ""));
    let twice = same(&[&room.at("0000.hac"), &room.at("0000.hac")]);
    assert_eq!((twice.status, twice.lines().len()), (0, 4));
}

/// What couldn't be read is said, and the others are compared all the same.
#[test]
fn unread() {
    let room = Room::new();
    let known = ["cruise-lsb", "cruise-msb"].map(Known::sample);
    let paths = known.each_ref().map(|known| known.path.as_path());
    let none = room.at("none.hac");
    let ran = same(&[paths[0], &none, paths[1]]);
    let last = "files 3, accepted 2, refused 0, not read 1, groups 1";
    assert_eq!(ran.lines(), [&line(&paths), last]);
    let start = format!("hac: {}: ", none.display());
    assert!(ran.err.starts_with(&start) && ran.err.lines().count() == 1);
    assert_eq!(ran.status, 2);
    let ran = run(hac(["same", "--json"]).args([&none, &none]));
    let objects = json::objects(&ran.out);
    assert_eq!(objects[0].text("outcome"), "unread");
    assert_eq!(objects[2].get("summary").number("unread"), 2);
    assert_eq!((ran.status, ran.err.lines().count()), (2, 2));
}

/// Nobody reads standard output: no complaint, and the status as if somebody did.
#[test]
fn closed_output() {
    let room = Room::new();
    let path = Known::sample("cruise-lsb").path;
    let none = room.at("none.hac");
    for (other, status) in [(&path, 1), (&none, 2)] {
        let (reader, writer) = io::pipe().expect("a pipe");
        drop(reader);
        let mut command = hac(["same"]);
        command.args([&path, &path, other]).stderr(Stdio::piped());
        let ran = run(command.stdout(writer));
        assert_eq!(ran.status, status);
        assert!(!ran.err.contains("standard output"), "{}", ran.err);
    }
}

/// Groups, then what is refused, then the summary; a name that is no UTF-8 exactly, too.
#[test]
fn objects() {
    let room = Room::new();
    let names: [&[u8]; 3] = [b"a\x1b.hac", b"b\xff.hac", b"c.hac"];
    let spelled = SPELLINGS.map(|name| Known::sample(name).bytes);
    let files = [&spelled[0], &spelled[2], &spelled[0][..4].to_vec()];
    for (name, bytes) in names.iter().zip(files) {
        room.put(OsStr::from_bytes(name), bytes);
    }
    let mut command = hac(["same", "--json"]);
    let names = names.map(OsStr::from_bytes);
    let ran = run(command.args(names).current_dir(room.path()));
    let objects = json::objects(&ran.out);
    assert_eq!(objects.len(), 3);
    let text = |text: &str| Value::Text(text.into());
    assert_eq!(objects[0].keys(), ["same", "same_bytes"]);
    assert_eq!(
        objects[0].list("same"),
        [text("a\x1b.hac"), text("b\u{fffd}.hac")]
    );
    assert_eq!(
        objects[0].list("same_bytes"),
        [Value::Null, text("62ff2e686163")]
    );
    assert_eq!(objects[1].text("file"), "c.hac");
    assert_eq!(
        (objects[1].number("code"), objects[1].number("place")),
        (4, 4)
    );
    let summary = objects[2].get("summary");
    let keys = ["files", "accepted", "refused", "unread", "groups", "codes"];
    assert_eq!(summary.keys(), keys);
    assert_eq!(
        (summary.number("accepted"), summary.number("groups")),
        (2, 1)
    );
    let ran = run(hac(["same"]).args(names).current_dir(room.path()));
    assert_eq!(ran.lines()[0], "same: a\\u{1b}.hac = b\\xff.hac");
}

/// Ten thousand deposits: each two are of one content and differ in their spelling; the
/// contents differ in one number, and their normal forms are equally long.
#[test]
fn ten_thousand() {
    const DEPOSITS: u32 = 10_000;
    let room = Room::new();
    let spellings = ["cruise-lsb-cut", "cruise-msb"].map(Known::sample);
    let mut paths: Vec<PathBuf> = Vec::new();
    for nth in 0..DEPOSITS {
        // far from each other
        let known = &spellings[usize::from(nth >= DEPOSITS / 2)];
        let mut bytes = known.bytes.clone();
        // the time, in seconds
        let place = known.first(POSITION).place + 8;
        let content = four_bytes(known.order, nth % (DEPOSITS / 2));
        bytes[place..place + 4].copy_from_slice(&content);
        paths.push(room.put(format!("{nth:05}.hac"), &bytes));
    }
    let (one, other) = paths.split_at(paths.len() / 2);
    let mut lines: Vec<String> = one.iter().zip(other).map(|(a, b)| line(&[a, b])).collect();
    lines.push(summary(paths.len(), paths.len(), one.len()));
    for _ in 0..2 {
        let ran = same(&[room.path()]);
        assert!(ran.lines() == lines, "{:?}", ran.lines().last());
        assert_eq!((ran.status, ran.err.as_str()), (1, ""));
    }
}

/// Half the memory that all normal forms take is enough, and more than is needed.
#[test]
fn bounded_memory() {
    let room = Room::new();
    let known = Known::sample("cruise-lsb");
    let ping = long_ping(known.first(PING_C), VALUE_LIMIT);
    let mut draft = Draft::of(&known);
    let end = draft.tuples.len() - 1;
    let pings = vec![ping; FILE_LIMIT / TUPLE_LIMIT - 1];
    draft.tuples.splice(end..end, pings);
    let form = normal_form(&draft.bytes()).expect("a normal form");
    let path = room.put("0.hac", &draft.bytes());
    // each worker may hold some
    let count = 16 * thread::available_parallelism().map_or(1, usize::from);
    for nth in 1..count {
        fs::hard_link(&path, room.at(format!("{nth}.hac"))).expect("a link");
    }
    let kibibytes = (count * form.len()) >> 11;
    let script = format!("ulimit -v {kibibytes} && exec \"$0\" same \"$1\"");
    let mut shell = Command::new("sh");
    shell.args(["-c", &script, env!("CARGO_BIN_EXE_hac")]);
    let ran = run(shell.arg(room.path()));
    assert_eq!(
        ran.lines().last(),
        Some(&summary(count, count, 1).as_str()),
        "{}",
        ran.err
    );
    assert_eq!(ran.status, 1);
}

/// What can be read but once is compared too: standard input, and pipes.
#[test]
fn read_once() {
    let room = Room::new();
    let known = ["cruise-lsb", "cruise-msb"].map(Known::sample);
    let paths = known
        .each_ref()
        .map(|known| known.path.to_str().expect("a plain name"));
    for inputs in [["-", paths[0]], [paths[0], "-"]] {
        let ran = fed(&["same", inputs[0], inputs[1]], &known[1].bytes);
        let group = format!("same: {} = {}", inputs[0], inputs[1]);
        assert_eq!(ran.lines(), [group, summary(2, 2, 1)]);
    }
    let pipe = room.at("pipe");
    let made = Command::new("mkfifo").arg(&pipe).status().expect("mkfifo");
    assert!(made.success());
    let (to, bytes) = (pipe.clone(), known[1].bytes.clone());
    let writer = thread::spawn(move || fs::write(to, bytes));
    let ran = same(&[&pipe, &known[0].path]);
    writer.join().expect("its end").expect("the pipe is read");
    assert_eq!(ran.lines()[0], line(&[&pipe, &known[0].path]));
    assert_eq!(ran.status, 1);
}

/// Folders stand for the files in them, as for the check.
#[test]
fn folders() {
    let room = Room::new();
    for (leg, name) in ["leg-1", "leg-2"].into_iter().zip(["cruise-lsb", NORMAL]) {
        fs::create_dir(room.at(leg)).expect("a folder");
        room.put(format!("{leg}/0417.hac"), &Known::sample(name).bytes);
    }
    let ran = same(&[&room.at("leg-1"), &room.at("leg-2")]);
    let paths = ["leg-1/0417.hac", "leg-2/0417.hac"].map(|name| room.at(name));
    assert_eq!(ran.lines()[0], line(&[&paths[0], &paths[1]]));
    let empty = Room::new();
    let ran = same(&[empty.path()]);
    assert_eq!(
        (ran.status, ran.lines()),
        (0, vec![summary(0, 0, 0).as_str()])
    );
}
