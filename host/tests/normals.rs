//! `hac normal -d`: the normal forms of many files in a folder, each whole or not at all.

use crate::json;
use crate::known::{Known, NORMAL, SPELLINGS};
use crate::room::{hac, run, Ran, Room};
use std::ffi::OsStr;
use std::fs;
use std::io;
use std::os::unix::ffi::OsStrExt;
use std::os::unix::fs::symlink;
use std::path::{Path, PathBuf};
use std::process::{Command, Stdio};

/// Runs `hac normal -d`.
fn normals(inputs: &[&Path], folder: &Path) -> Ran {
    run(hac(["normal"]).args(inputs).arg("-d").arg(folder))
}

/// A folder in a room.
fn folder(room: &Room, name: &str) -> PathBuf {
    let path = room.at(name);
    fs::create_dir(&path).expect("a folder");
    path
}

/// The names in a folder, sorted.
fn names(folder: &Path) -> Vec<PathBuf> {
    let entries = fs::read_dir(folder).expect("a folder");
    let mut names: Vec<PathBuf> = entries
        .map(|entry| entry.expect("an entry").file_name().into())
        .collect();
    names.sort();
    names
}

fn written(input: &Path, out: &Path) -> String {
    format!(
        "{}: accepted, normal form of {} bytes written to {}",
        input.display(),
        Known::sample(NORMAL).bytes.len(),
        out.display()
    )
}

fn summary(files: usize, written: usize) -> String {
    let refused = files - written;
    format!("files {files}, accepted {written}, refused {refused}, not read 0, written {written}")
}

/// Nothing was printed, standard error says something of a path, and nothing was written.
fn is_stopped(ran: &Ran, path: &Path) {
    assert_eq!((ran.status, ran.out.as_str()), (2, ""));
    let start = format!("hac: {}", path.display());
    assert!(
        ran.err.starts_with(&start) && ran.err.lines().count() == 1,
        "{}",
        ran.err
    );
}

#[test]
fn each_under_its_name() {
    let room = Room::new();
    let out = folder(&room, "out");
    // what stands there is replaced
    fs::write(out.join("cruise-lsb.hac"), b"older").expect("a file");
    fs::write(out.join("other.hac"), b"other").expect("a file");
    let known = SPELLINGS.map(Known::sample);
    let paths = known.each_ref().map(|known| known.path.as_path());
    let ran = normals(&paths, &out);
    let outs = SPELLINGS.map(|name| out.join(format!("{name}.hac")));
    let mut lines: Vec<String> = paths
        .iter()
        .zip(&outs)
        .map(|(a, b)| written(a, b))
        .collect();
    lines.push(summary(4, 4));
    assert_eq!(ran.lines(), lines);
    assert_eq!((ran.status, ran.err.as_str()), (0, ""));
    for path in &outs {
        let bytes = fs::read(path).expect("a normal form");
        assert_eq!(bytes, Known::sample(NORMAL).bytes);
    }
    assert_eq!(fs::read(out.join("other.hac")).expect("a file"), b"other");
    assert_eq!(names(&out).len(), 5);
}

/// A refused file is listed, and the others are written.
#[test]
fn refused() {
    let room = Room::new();
    let (from, out) = (folder(&room, "in"), folder(&room, "out"));
    let bytes = Known::sample("cruise-msb").bytes;
    for (name, length) in [("a.hac", 4), ("b.hac", bytes.len()), ("c.hac", 0)] {
        fs::write(from.join(name), &bytes[..length]).expect("a deposit");
    }
    let ran = normals(&[&from], &out);
    let line = written(&from.join("b.hac"), &out.join("b.hac"));
    assert_eq!(ran.lines()[1], line);
    assert_eq!(ran.lines()[3], summary(3, 1));
    assert!(ran.lines()[0].contains(", at 4: ") && ran.lines()[2].contains(", at 0: "));
    assert_eq!((ran.status, ran.err.as_str()), (1, ""));
    assert_eq!(names(&out), [Path::new("b.hac")]);
    let mut command = hac(["normal", "--json", "-d"]);
    let objects = json::objects(&run(command.arg(&out).arg(&from)).out);
    let outcomes = ["refused", "accepted", "refused"];
    for (object, outcome) in objects.iter().zip(outcomes) {
        assert_eq!(object.text("outcome"), outcome);
    }
    assert_eq!(objects[1].keys(), ["file", "outcome", "out", "length"]);
    assert_eq!(objects[3].get("summary").number("written"), 1);
}

/// What couldn't be read is said, and the others are written.
#[test]
fn unread() {
    let room = Room::new();
    let out = folder(&room, "out");
    let known = Known::sample("cruise-lsb");
    let ran = normals(&[&room.at("none.hac"), &known.path], &out);
    let last = "files 2, accepted 1, refused 0, not read 1, written 1";
    assert_eq!(ran.lines()[1], last);
    assert!(ran.err.starts_with("hac: ") && ran.err.lines().count() == 1);
    assert_eq!(ran.status, 2);
    assert_eq!(names(&out), [Path::new("cruise-lsb.hac")]);
}

/// Two inputs of one file name: nothing is written, of the others neither.
#[test]
fn one_name_twice() {
    let room = Room::new();
    let out = folder(&room, "out");
    let bytes = Known::sample("cruise-lsb").bytes;
    for leg in ["leg-1", "leg-2"] {
        fs::write(folder(&room, leg).join("0417.hac"), &bytes).expect("a deposit");
    }
    let [one, other] = ["leg-1", "leg-2"].map(|leg| room.at(leg).join("0417.hac"));
    let sample = Known::sample("cruise-msb").path;
    for inputs in [
        [&sample, &one, &other],
        [&sample, &room.at("leg-1"), &room.at("leg-2")],
    ] {
        let ran = normals(&inputs.map(PathBuf::as_path), &out);
        is_stopped(&ran, &one);
        assert!(ran.err.contains(&format!(" and {}: ", other.display())));
        assert_eq!(names(&out), Vec::<PathBuf>::new());
    }
    is_stopped(&normals(&[&one, &one], &out), &one);
    assert_eq!(names(&out), Vec::<PathBuf>::new());
}

/// No input is overwritten, whatever it is called: its own normal form, or another's.
#[test]
fn the_inputs_themselves() {
    let room = Room::new();
    let (from, out) = (folder(&room, "in"), folder(&room, "out"));
    let bytes = Known::sample("cruise-msb").bytes;
    let [a, b] = ["a.hac", "b.hac"].map(|name| from.join(name));
    fs::write(&a, &bytes).expect("a deposit");
    fs::write(&b, &bytes).expect("a deposit");
    symlink(&from, room.at("link")).expect("a link");
    for folder in [&from, &room.at("in/../in"), &room.at("link")] {
        let ran = normals(&[&b, &a], folder);
        is_stopped(&ran, &folder.join("b.hac"));
    }
    // the second one's name leads to the first
    fs::hard_link(&a, out.join("b.hac")).expect("a link");
    is_stopped(&normals(&[&a, &b], &out), &out.join("b.hac"));
    fs::remove_file(out.join("b.hac")).expect("a link");
    symlink(&a, out.join("b.hac")).expect("a link");
    is_stopped(&normals(&[&a, &b], &out), &out.join("b.hac"));
    for path in [&a, &b] {
        assert_eq!(fs::read(path).expect("the input"), bytes);
    }
    assert_eq!((names(&from).len(), names(&out).len()), (2, 1));
}

/// A folder that isn't there, or is none, and a name that no file can take: nothing is
/// written.
#[test]
fn places_that_take_no_file() {
    let room = Room::new();
    let file = room.put("file", b"older");
    let known = ["cruise-lsb", "cruise-msb"].map(Known::sample);
    let paths = known.each_ref().map(|known| known.path.as_path());
    for folder in [&file, &room.at("none")] {
        is_stopped(&normals(&paths, folder), folder);
    }
    let out = folder(&room, "out");
    let taken = out.join("cruise-msb.hac");
    fs::create_dir(&taken).expect("a folder");
    is_stopped(&normals(&paths, &out), &taken);
    assert_eq!(names(&out), [Path::new("cruise-msb.hac")]);
    is_stopped(
        &normals(&[Path::new("none/..")], &out),
        Path::new("none/.."),
    );
    assert_eq!(fs::read(&file).expect("a file"), b"older");
}

/// A folder that can't be written, for whoever runs this: a line for each.
#[test]
fn unwritable() {
    let known = ["cruise-lsb", "cruise-msb"].map(Known::sample);
    let paths = known.each_ref().map(|known| known.path.as_path());
    let ran = normals(&paths, Path::new("/proc"));
    let last = "files 2, accepted 2, refused 0, not read 0, written 0";
    assert_eq!(ran.lines(), [last]);
    for (line, name) in ran.err.lines().zip(["cruise-lsb", "cruise-msb"]) {
        assert!(line.starts_with(&format!("hac: /proc/{name}.hac: ")));
    }
    assert_eq!((ran.status, ran.err.lines().count()), (2, 2));
    let ran = run(hac(["normal", "-d", "/proc", "--json"]).args(paths));
    let objects = json::objects(&ran.out);
    assert_eq!(objects[0].keys(), ["file", "outcome", "error"]);
    assert_eq!(objects[0].text("outcome"), "unwritten");
    assert_eq!((ran.status, objects.len()), (2, 3));
}

/// Where writing breaks off half way, nothing is left of it.
#[test]
fn broken_off() {
    let room = Room::new();
    let out = folder(&room, "out");
    let path = out.join("cruise-lsb.hac");
    fs::write(&path, b"older").expect("a file");
    let known = ["cruise-lsb", "cruise-msb"].map(Known::sample);
    // files may grow to one block alone, which is less than the normal form has
    let script = "trap '' XFSZ; ulimit -f 1; exec \"$0\" normal \"$@\"";
    let mut shell = Command::new("sh");
    shell.args(["-c", script, env!("CARGO_BIN_EXE_hac"), "-d"]);
    shell.arg(&out).args(known.map(|known| known.path));
    let ran = run(&mut shell);
    assert_eq!((ran.status, ran.err.lines().count()), (2, 2));
    assert_eq!(fs::read(&path).expect("a file"), b"older");
    assert_eq!(names(&out), [Path::new("cruise-lsb.hac")]);
}

/// A name of any bytes stays as it is.
#[test]
fn any_name() {
    let room = Room::new();
    let (from, out) = (folder(&room, "in"), folder(&room, "out"));
    let chosen = [&b"-o"[..], b"b\x1b\n", b"c\xff"].map(OsStr::from_bytes);
    for name in chosen {
        fs::write(from.join(name), Known::sample("cruise-lsb").bytes).expect("a deposit");
    }
    let ran = normals(&[&from], &out);
    assert_eq!((ran.status, ran.lines().len()), (0, 4));
    assert!(ran.lines()[2].ends_with("/out/c\\xff"));
    assert_eq!(names(&out), chosen);
}

/// Nobody reads standard output: all is written, and the status is of all.
#[test]
fn closed_output() {
    let room = Room::new();
    let out = folder(&room, "out");
    let known = SPELLINGS.map(Known::sample);
    let mut command = hac(["normal", "-d"]);
    command.arg(&out).args(known.map(|known| known.path));
    for (none, status, lines) in [(None, 0, 0), (Some(room.at("none.hac")), 2, 1)] {
        let (reader, writer) = io::pipe().expect("a pipe");
        drop(reader);
        let ran = run(command.args(none).stdout(writer).stderr(Stdio::piped()));
        assert_eq!((ran.status, ran.err.lines().count()), (status, lines));
        assert_eq!(names(&out).len(), 4);
        fs::remove_file(out.join("cruise-msb.hac")).expect("a normal form");
    }
}
