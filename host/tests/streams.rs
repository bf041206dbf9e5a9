//! Standard input and output: read once and no further than needed; closed, or full.

use crate::known::{accepted, Known, NORMAL};
use crate::room::{hac, run, Ran, Room, PATIENCE};
use hac::Code;
use std::fs::{self, File};
use std::io::{self, BufRead, BufReader, Seek, Write};
use std::process::{Child, Stdio};
use std::sync::mpsc;
use std::thread;
use std::time::{Duration, Instant};

/// What is said of an empty input, and of one over the limit.
const EMPTY: &str = "0 bytes, the mark alone has 4: no HAC recording";
const OVER: &str = "more than 16777216 bytes: split the recording";

/// Runs the program with some bytes for its standard input.
pub fn fed(arguments: &[&str], bytes: &[u8]) -> Ran {
    let mut child: Child = hac(arguments)
        .stdin(Stdio::piped())
        .stdout(Stdio::piped())
        .stderr(Stdio::piped())
        .spawn()
        .expect("the program starts");
    let mut stdin = child.stdin.take().expect("an input");
    stdin.write_all(bytes).expect("the input is read");
    drop(stdin);
    child.wait_with_output().expect("the program ends").into()
}

#[test]
fn standard_input() {
    let room = Room::new();
    let known = Known::sample("cruise-msb");
    let ran = fed(&["check", "-"], &known.bytes);
    assert_eq!(ran.out, format!("-: {}\n", accepted(known.counts())));
    assert_eq!((ran.status, ran.err.as_str()), (0, ""));

    let ran = fed(&["walk", "-"], &known.bytes);
    assert_eq!(ran.lines().len(), known.tuples.len());
    let place = known.pings()[0].place.to_string();
    assert_eq!(fed(&["parents", "-", &place], &known.bytes).status, 0);
    assert_eq!(fed(&["samples", "-", &place], &known.bytes).status, 0);
    let ran = fed(&["settings", "-"], &known.bytes);
    assert_eq!((ran.status, ran.lines().len()), (0, known.pings().len()));
    let path = known.path.to_str().expect("a plain name");
    for arguments in [
        &["ping", "-", "1", "1"][..],
        &["ping", "-", "1", "1", "--corrections", path],
        &["ping", path, "1", "1", "--corrections", "-"],
    ] {
        let ran = fed(arguments, &known.bytes);
        assert_eq!((ran.status, ran.lines().len()), (0, 2), "{arguments:?}");
    }

    let out = room.at("out.hac");
    let path = out.to_str().expect("a plain name");
    assert_eq!(fed(&["normal", "-", "-o", path], &known.bytes).status, 0);
    assert_eq!(fs::read(&out).expect("OUT"), Known::sample(NORMAL).bytes);

    assert_eq!(fed(&["salvage", "-", "-o", path], &known.bytes).status, 0);
    assert_eq!(fs::read(&out).expect("OUT"), known.bytes);

    let ran = fed(&["check", "--", "-"], &[]);
    let line = format!("-: refused, {}, at 0: {EMPTY}\n", Code::NoMark);
    assert_eq!((ran.status, ran.out), (1, line));
}

/// A line comes as soon as its turn does, while a later input is still awaited.
#[test]
fn lines_as_they_become_ready() {
    let known = Known::sample("cruise-lsb");
    let mut child = hac(["check"])
        .arg(&known.path)
        .arg("-")
        .stdin(Stdio::piped())
        .stdout(Stdio::piped())
        .spawn()
        .expect("the program starts");
    let lines = BufReader::new(child.stdout.take().expect("an output")).lines();
    let (tell, told) = mpsc::channel();
    thread::spawn(move || {
        lines
            .map_while(Result::ok)
            .try_for_each(|line| tell.send(line))
    });
    let next = || told.recv_timeout(PATIENCE).expect("a line in time");
    let first = format!("{}: {}", known.path.display(), accepted(known.counts()));
    assert_eq!(next(), first);
    drop(child.stdin.take());
    let line = format!("-: refused, {}, at 0: {EMPTY}", Code::NoMark);
    assert_eq!(next(), line);
    assert_eq!(next(), "files 2, accepted 1, refused 1, not read 0");
    assert_eq!(child.wait().expect("its end").code(), Some(1));
}

/// An input without end is read one byte over the limit, and what the pipe holds.
#[test]
fn endless_input() {
    const PIPE: usize = 1 << 20;
    let mut child = hac(["check", "-"])
        .stdin(Stdio::piped())
        .stdout(Stdio::piped())
        .spawn()
        .expect("the program starts");
    let mut stdin = child.stdin.take().expect("an input");
    let block = [0; 4096];
    let mut written = 0;
    while stdin.write_all(&block).is_ok() {
        written += block.len();
        assert!(written <= hac::FILE_LIMIT + PIPE, "it reads on and on");
    }
    let ran: Ran = child.wait_with_output().expect("the program ends").into();
    let line = format!("-: refused, {}, at 0: {OVER}\n", Code::OverLimit);
    assert_eq!(ran.out, line);
    assert_eq!(ran.status, 1);
}

/// Of a long file just as much is read: the place that the program left it at tells.
#[test]
fn no_byte_more() {
    let room = Room::new();
    let path = room.put("long.hac", &[]);
    let file = File::options().read(true).write(true).open(path);
    let mut file = file.expect("a file");
    file.set_len(1 << 30).expect("a sparse file");
    let shared = file.try_clone().expect("the same file");
    assert_eq!(run(hac(["check", "-"]).stdin(shared)).status, 1);
    let place = file.stream_position().expect("a place");
    assert_eq!(place, hac::FILE_LIMIT as u64 + 1);
}

/// A file of the limit's length is judged whole; one byte more is 1.
#[test]
fn the_limit_itself() {
    let room = Room::new();
    let mut bytes = Known::sample("cruise-lsb").bytes;
    let length = bytes.len();
    bytes.resize(hac::FILE_LIMIT, 0);
    let path = room.put("most.hac", &bytes);
    let ran = run(hac(["check"]).arg(&path));
    let line = format!(
        "{}: refused, {}, at {length}: {} bytes behind the end of file tuple at 1356: \
         cut the file there\n",
        path.display(),
        Code::BehindEnd,
        hac::FILE_LIMIT - length
    );
    assert_eq!(ran.out, line);
    bytes.push(0);
    let path = room.put("over.hac", &bytes);
    let ran = run(hac(["check"]).arg(&path));
    let code = Code::OverLimit;
    let line = format!("{}: refused, {code}, at 0: {OVER}\n", path.display());
    assert_eq!(ran.out, line);
}

/// Nobody reads standard output: no complaint, and the status so far.
#[test]
fn closed_output() {
    let known = Known::sample("cruise-lsb");
    let path = known.path.to_str().expect("a plain name");
    let place = known.pings()[0].place.to_string();
    let commands: [&[&str]; 13] = [
        &["check", path],
        &["same", path],
        &["normal", path, "-o", "-"],
        &["check", "--json", path, path],
        &["show", path],
        &["show", "--json", path, path],
        &["walk", path],
        &["parents", path, &place],
        &["samples", path, &place],
        &["record", path, &place],
        &["settings", path],
        &["ping", path, "1", "1", "--samples"],
        &["--help"],
    ];
    for arguments in commands {
        let (reader, writer) = io::pipe().expect("a pipe");
        drop(reader);
        let ran = run(hac(arguments).stdout(writer).stderr(Stdio::piped()));
        assert_eq!((ran.status, ran.err.as_str()), (0, ""), "{arguments:?}");
    }
}

/// Many files are dropped with their reader.
#[test]
fn closed_amid_many() {
    let room = Room::new();
    room.put("a", b"no mark");
    for nth in 0..3000 {
        room.put(format!("b{nth}"), b"no mark");
    }
    let (reader, writer) = io::pipe().expect("a pipe");
    drop(reader);
    for command in ["check", "show"] {
        let writer = writer.try_clone().expect("the same pipe");
        let ran = run(hac([command])
            .arg(room.path())
            .stdout(writer)
            .stderr(Stdio::piped()));
        assert_eq!((ran.status, ran.err.as_str()), (1, ""));
    }
}

/// An input that keeps the program waiting keeps it no longer than its reader.
#[test]
fn closed_while_waiting() {
    let (reader, writer) = io::pipe().expect("a pipe");
    drop(reader);
    let mut command = hac(["check"]);
    command.arg(Known::sample("cruise-lsb").path).arg("-");
    let mut child = command
        .stdin(Stdio::piped())
        .stdout(writer)
        .spawn()
        .expect("the program starts");
    let began = Instant::now();
    while child.try_wait().expect("its end").is_none() {
        assert!(began.elapsed() < PATIENCE, "it waits for its input");
        thread::sleep(Duration::from_millis(5));
    }
}

/// Output that can't be written otherwise is said.
#[test]
fn full_output() {
    let path = Known::sample("cruise-lsb").path;
    for command in ["check", "show", "same", "normal", "walk", "settings"] {
        let options: &[&str] = match command {
            "normal" => &["-o", "-"],
            _ => &[],
        };
        let full = File::options()
            .write(true)
            .open("/dev/full")
            .expect("a full device");
        let ran = run(hac([command])
            .arg(&path)
            .args(options)
            .stdout(full)
            .stderr(Stdio::piped()));
        assert_eq!(ran.status, 2);
        assert!(ran.err.starts_with("hac: standard output: "), "{}", ran.err);
    }
}
