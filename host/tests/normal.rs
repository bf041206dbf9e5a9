//! The normal form: by the library, and by `hac normal`, whose OUT appears whole
//! or not at all.

use crate::damage::{self, long_ping, Draft};
use crate::json;
use crate::known::{e3, e4, vector, Known, COMPARED, NORMAL, SPELLINGS};
use crate::progress::{sent, terminal};
use crate::room::{hac, run, Ran, Room};
use hac::*;
use std::fs::{self, File};
use std::os::unix::fs::{symlink, FileTypeExt};
use std::path::Path;
use std::process::{Command, Stdio};

pub fn refused<T>(code: Code, place: usize) -> Result<T, Refusal> {
    Err(Refusal { code, place })
}

#[test]
fn one_form_of_all_spellings() {
    let expected = Known::sample(NORMAL).bytes;
    for name in SPELLINGS.iter().chain([&NORMAL]) {
        let known = Known::sample(name);
        assert_eq!(normal_form(&known.bytes), Ok(expected.clone()), "{name}");
    }
    let small = vector("small.normal_file");
    for spelling in ["lsb", "lsb-other-cut", "msb", "msb-other-cut"] {
        let file = vector(&format!("small.{spelling}.txt"));
        assert_eq!(normal_form(&file), Ok(small.clone()), "{spelling}");
    }
}

/// Bytes past the normal form stay; memory one byte short is 19, and untouched.
#[test]
fn lent_memory() {
    let known = Known::sample("cruise-msb");
    let expected = Known::sample(NORMAL).bytes;
    let length = expected.len();
    let mut out = vec![7; length + 9];
    let normal = Normal {
        tuples: known.tuples.len(),
        length,
        compared: COMPARED,
    };
    assert_eq!(normalise(&known.bytes, &mut out), Ok(normal));
    assert_eq!(out[..length], expected[..]);
    assert_eq!(out[length..], [7; 9]);
    let mut short = vec![7; length - 1];
    assert_eq!(
        normalise(&known.bytes, &mut short),
        refused(Code::NoRoom, 0)
    );
    assert!(short.iter().all(|byte| *byte == 7));
}

/// The normaliser refuses as the check does.
#[test]
fn damaged_copies() {
    for copy in damage::all(&Known::sample("cruise-lsb")) {
        let code = Code::of(copy.code).expect("a code");
        assert_eq!(
            normal_form(&copy.bytes),
            refused(code, copy.place),
            "{}",
            copy.name
        );
    }
}

/// An unlisted tuple in MSB order: 18 at its place.
#[test]
fn unturnable() {
    let known = Known::sample("cruise-msb");
    let mut draft = Draft::of(&known);
    let mut unlisted = known.tuples[1].bytes.clone();
    unlisted[4..6].copy_from_slice(&[0, 5]);
    draft.tuples.insert(1, unlisted);
    let place = known.tuples[1].place;
    let tuples = known.tuples.len() + 1;
    let counts = Counts {
        tuples,
        compared: COMPARED,
    };
    assert_eq!(check(&draft.bytes()), Ok(counts));
    assert_eq!(
        normal_form(&draft.bytes()),
        refused(Code::Unturnable, place)
    );
}

/// Pings that double: a sound file whose normal form is over the limit.
#[test]
fn over_the_limit() {
    let known = Known::sample("cruise-lsb");
    let ping = long_ping(known.first(10010), VALUE_LIMIT);
    let mut draft = Draft::of(&known);
    let end = draft.tuples.len() - 1;
    let most = FILE_LIMIT / TUPLE_LIMIT;
    draft.tuples.splice(end..end, vec![ping; most]);
    // of the first channel, so that each compares one identifier
    let counts = Counts {
        tuples: known.tuples.len() + most,
        compared: COMPARED + most,
    };
    assert_eq!(check(&draft.bytes()), Ok(counts));
    assert_eq!(
        normal_form(&draft.bytes()),
        refused(Code::NormalOverLimit, 0)
    );
    // one such ping less has a normal form, and is longer by each of them
    draft.tuples.remove(end);
    let length = Known::sample(NORMAL).bytes.len() + (most - 1) * TUPLE_LIMIT;
    assert_eq!(
        normal_form(&draft.bytes()).map(|normal| normal.len()),
        Ok(length)
    );
}

/// One tuple's normal form: nothing is linked for it.
fn one_tuple(length: usize) -> Normal {
    Normal {
        tuples: 1,
        length,
        compared: 0,
    }
}

/// E3 and E4, an index tuple, bytes behind, and memory that is too short.
#[test]
fn tuples() {
    let mut out = vec![7; 100];
    for (file, printed) in [(e3(), "e3.normal_tuple"), (e4(), "e4.normal_tuple")] {
        let expected = vector(printed);
        let length = expected.len();
        let normal = one_tuple(length);
        assert_eq!(normalise_tuple(&file, &mut out), Ok(normal));
        assert_eq!(out[..length], expected[..]);
    }
    let index = vector("tuple-index-class.msb.txt");
    assert_eq!(
        normalise_tuple(&index, &mut out),
        Ok(one_tuple(FIRST_PLACE))
    );
    assert_eq!(out[..FIRST_PLACE], Order::Lsb.mark());
    let behind = [e3(), vec![0]].concat();
    assert_eq!(
        normalise_tuple(&behind, &mut out),
        refused(Code::BehindEnd, 32)
    );
    assert_eq!(
        normalise_tuple(&e3(), &mut [0; 31]),
        refused(Code::NoRoom, 0)
    );
}

/// Runs `hac normal`.
fn normal(input: &Path, out: &Path) -> Ran {
    run(hac(["normal"]).arg(input).arg("-o").arg(out))
}

/// Nothing was printed, and standard error says something of a path.
fn says_of(ran: &Ran, path: &Path) {
    assert_eq!(ran.out, "");
    let start = format!("hac: {}: ", path.display());
    assert!(
        ran.err.starts_with(&start) && ran.err.lines().count() == 1,
        "{}",
        ran.err
    );
}

#[test]
fn written() {
    let room = Room::new();
    let expected = Known::sample(NORMAL).bytes;
    // what stands there is replaced
    let out = room.put("out.hac", b"older");
    for name in SPELLINGS {
        let known = Known::sample(name);
        let ran = normal(&known.path, &out);
        let line = format!(
            "{}: accepted, normal form of {} bytes written to {}\n",
            known.path.display(),
            expected.len(),
            out.display()
        );
        assert_eq!((ran.status, ran.out, ran.err), (0, line, String::new()));
        assert_eq!(fs::read(&out).expect("OUT"), expected);
        assert_eq!(room.names(), ["out.hac"]);
    }
    let known = Known::sample("cruise-msb");
    let ran = run(hac(["normal", "--json", "-o"]).arg(&out).arg(&known.path));
    let object = &json::objects(&ran.out)[0];
    assert_eq!(object.keys(), ["file", "outcome", "out", "length"]);
    assert_eq!(object.text("outcome"), "accepted");
    assert_eq!(object.text("out"), out.to_str().expect("a plain name"));
    assert_eq!(object.number("length"), expected.len() as i128);
}

/// Beside the working folder, without a folder in its name.
#[test]
fn written_here() {
    let room = Room::new();
    let known = Known::sample("cruise-lsb");
    let mut command = hac(["normal", "-o", "out.hac"]);
    let input = fs::canonicalize(&known.path).expect("a path");
    let ran = run(command.arg(input).current_dir(room.path()));
    assert_eq!((ran.status, ran.err.as_str()), (0, ""));
    assert_eq!(
        fs::read(room.at("out.hac")).expect("OUT"),
        Known::sample(NORMAL).bytes
    );
}

/// A refused input leaves no OUT, and one that is there as it was.
#[test]
fn refused_inputs() {
    let room = Room::new();
    let input = room.put("in.hac", &Known::sample("cruise-lsb").bytes[..4]);
    let out = room.at("out.hac");
    let ran = normal(&input, &out);
    assert_eq!(ran.status, 1);
    says_of(&ran, &input);
    assert_eq!(room.names(), ["in.hac"]);
    room.put("out.hac", b"older");
    assert_eq!(normal(&input, &out).status, 1);
    assert_eq!(fs::read(&out).expect("OUT"), b"older");
    assert_eq!(room.names(), ["in.hac", "out.hac"]);
    let ran = run(hac(["normal", "--json"]).arg(&input).arg("-o").arg(&out));
    let object = &json::objects(&ran.out)[0];
    assert_eq!(
        (object.text("outcome"), object.number("code")),
        ("refused", 4)
    );
}

/// OUT is never the input, whatever it is called.
#[test]
fn the_input_itself() {
    let room = Room::new();
    let bytes = Known::sample("cruise-msb").bytes;
    let input = room.put("in.hac", &bytes);
    symlink(&input, room.at("soft")).expect("a link");
    symlink("soft", room.at("softer")).expect("a link");
    fs::hard_link(&input, room.at("hard")).expect("a link");
    let names = room.names();
    for name in ["in.hac", "./in.hac", "soft", "softer", "hard"] {
        let out = room.at(name);
        let ran = normal(&input, &out);
        assert_eq!(ran.status, 2, "{name}");
        says_of(&ran, &out);
        let ran = normal(&out, &input);
        assert_eq!(ran.status, 2, "{name}");
        let stdin = Stdio::from(fs::File::open(&input).expect("the input"));
        let ran = run(hac(["normal", "-", "-o"]).arg(&out).stdin(stdin));
        assert_eq!(ran.status, 2, "{name}");
        assert_eq!(fs::read(&input).expect("the input"), bytes);
        assert_eq!(room.names(), names);
    }
}

/// On standard output the form stands alone.
#[test]
fn to_standard_output() {
    let expected = Known::sample(NORMAL).bytes;
    for name in SPELLINGS {
        let known = Known::sample(name);
        let mut from_file = hac(["normal", "-o", "-"]);
        from_file.arg(&known.path);
        let mut from_standard = hac(["normal", "-", "-o", "-"]);
        from_standard.stdin(File::open(&known.path).expect("a sample"));
        for mut command in [from_file, from_standard] {
            let output = command.output().expect("the program runs");
            assert_eq!(output.stdout, expected, "{name}");
            assert_eq!((output.status.code(), output.stderr.len()), (Some(0), 0));
        }
    }
}

/// Of what is refused, or can't be read, nothing goes out.
#[test]
fn nothing_to_standard_output() {
    let room = Room::new();
    for copy in damage::all(&Known::sample("cruise-lsb")) {
        let path = room.put("in.hac", &copy.bytes);
        let ran = run(hac(["normal", "-o", "-"]).arg(&path));
        assert_eq!(ran.status, 1, "{}", copy.name);
        says_of(&ran, &path);
    }
    let none = room.at("none.hac");
    let ran = run(hac(["normal", "-o", "-"]).arg(&none));
    assert_eq!(ran.status, 2);
    says_of(&ran, &none);
}

/// Standard output isn't the input either, and no terminal: its bytes could steer it.
#[test]
fn standard_output_that_takes_no_file() {
    let room = Room::new();
    let bytes = Known::sample("cruise-lsb").bytes;
    let input = room.put("in.hac", &bytes);
    let behind = File::options().append(true).open(&input);
    let mut command = hac(["normal", "-o", "-"]);
    command.arg(&input).stderr(Stdio::piped());
    let ran = run(command.stdout(behind.expect("the input")));
    assert_eq!(ran.status, 2);
    assert!(ran.err.starts_with("hac: standard output: "), "{}", ran.err);
    assert_eq!(fs::read(&input).expect("the input"), bytes);
    spares_terminals(command);
}

/// A command whose standard error is piped: nothing is sent to a terminal.
pub fn spares_terminals(mut command: Command) {
    let (screen, end) = terminal();
    let ran = run(command.stdout(end));
    drop(command);
    assert_eq!(ran.status, 2);
    assert!(ran.err.starts_with("hac: standard output: "), "{}", ran.err);
    assert_eq!(sent(screen), "");
}

/// Folders that can't be written, for whoever runs this, and things that are no
/// file: nothing appears and nothing goes.
#[test]
fn places_that_take_no_file() {
    let room = Room::new();
    let input = Known::sample("cruise-lsb").path;
    fs::create_dir(room.at("folder")).expect("a folder");
    room.put("file", b"older");
    let pipe = room.at("pipe");
    let made = Command::new("mkfifo").arg(&pipe).status().expect("mkfifo");
    assert!(made.success());
    let proc = Path::new("/proc/hac-tests.hac");
    let inner = [
        "none/out.hac",
        "file/out.hac",
        "folder",
        "folder/new/",
        "pipe",
    ];
    let outs = inner.iter().map(|name| room.at(name));
    for out in outs.chain([proc.to_path_buf()]) {
        let ran = normal(&input, &out);
        assert_eq!(ran.status, 2, "{}", out.display());
        says_of(&ran, &out);
        assert_eq!(room.names(), ["file", "folder", "pipe"]);
    }
    assert!(!proc.exists());
    assert_eq!(fs::read(room.at("file")).expect("a file"), b"older");
    assert!(fs::metadata(&pipe).expect("a pipe").file_type().is_fifo());
    assert_eq!(
        fs::read_dir(room.at("folder")).expect("a folder").count(),
        0
    );
}

/// Where writing breaks off half way, nothing is left.
#[test]
fn broken_off() {
    let room = Room::new();
    let out = room.put("out.hac", b"older");
    let input = Known::sample("cruise-lsb").path;
    // files may grow to one block alone, which is less than the normal form has
    let script = "trap '' XFSZ; ulimit -f 1; exec \"$0\" normal \"$1\" -o \"$2\"";
    let mut shell = Command::new("sh");
    shell.args(["-c", script, env!("CARGO_BIN_EXE_hac")]);
    let ran = run(shell.arg(&input).arg(&out));
    assert_eq!(ran.status, 2);
    says_of(&ran, &out);
    assert_eq!(fs::read(&out).expect("OUT"), b"older");
    assert_eq!(room.names(), ["out.hac"]);
}
