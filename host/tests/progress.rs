//! Progress, on a pseudo-terminal.

use crate::many::{thousand, DEPOSITS};
use crate::room::{hac, run, Room, PATIENCE};
use std::ffi::{c_char, c_int, CStr};
use std::fs::File;
use std::io::{ErrorKind, Read};
use std::os::fd::{AsRawFd, FromRawFd};
use std::process::Stdio;
use std::sync::mpsc;
use std::thread;
use std::time::{Duration, Instant};

extern "C" {
    fn posix_openpt(flags: c_int) -> c_int;
    fn grantpt(terminal: c_int) -> c_int;
    fn unlockpt(terminal: c_int) -> c_int;
    fn ptsname_r(terminal: c_int, name: *mut c_char, length: usize) -> c_int;
}

/// Linux's numbers: a file read and written; the error of a terminal that nobody
/// holds any more.
const READ_WRITE: c_int = 2;
const HUNG_UP: c_int = 5;

/// Both ends of a terminal: what stands on its screen is read from the first.
pub fn terminal() -> (File, File) {
    let mut name = [0; 64];
    // SAFETY: the descriptor is new and owned by the file alone; the name is
    // written into memory of the length told, and ended by a zero byte.
    let (screen, name) = unsafe {
        let screen = posix_openpt(READ_WRITE);
        assert!(screen >= 0, "no terminal");
        let screen = File::from_raw_fd(screen);
        let number = screen.as_raw_fd();
        assert_eq!((grantpt(number), unlockpt(number)), (0, 0));
        assert_eq!(ptsname_r(number, name.as_mut_ptr(), name.len()), 0);
        (screen, CStr::from_ptr(name.as_ptr()))
    };
    let path = name.to_str().expect("a plain name");
    let program = File::options().read(true).write(true).open(path);
    (screen, program.expect("the other end"))
}

/// All that a terminal is sent, until nobody holds its other end.
pub fn sent(screen: File) -> String {
    watched(screen, |_| ())
}

/// The same; what was sent so far is looked at again and again.
fn watched(mut screen: File, mut look: impl FnMut(&str)) -> String {
    let mut sent = String::new();
    let mut block = [0; 4096];
    loop {
        match screen.read(&mut block) {
            Ok(0) => break,
            Ok(count) => {
                sent.push_str(str::from_utf8(&block[..count]).expect("plain text"));
                look(&sent);
            }
            Err(error) if error.raw_os_error() == Some(HUNG_UP) => break,
            Err(error) if error.kind() == ErrorKind::Interrupted => continue,
            Err(error) => panic!("{error}"),
        }
    }
    sent
}

/// The lines that are left on a screen, without blanks at their ends.
fn left(sent: &str) -> Vec<String> {
    let mut lines = vec![Vec::new()];
    let mut column = 0;
    for c in sent.chars() {
        let line: &mut Vec<char> = lines.last_mut().expect("a line");
        match c {
            '\r' => column = 0,
            '\n' => lines.push(Vec::new()),
            c => {
                if line.len() <= column {
                    line.resize(column + 1, ' ');
                }
                line[column] = c;
                column += 1;
            }
        }
    }
    let lines = lines
        .into_iter()
        .map(|line| line.into_iter().collect::<String>());
    lines.map(|line| line.trim_end().to_owned()).collect()
}

fn shown(done: usize) -> String {
    format!("\r{done} of {DEPOSITS} files checked")
}

/// Standard error on a terminal alone: the line comes, and is gone in the end.
#[test]
fn beside_a_pipe() {
    let room = Room::new();
    let lines = thousand(&room);
    let (screen, end) = terminal();
    let mut command = hac(["check"]);
    let child = command
        .arg(room.path())
        .stdout(Stdio::piped())
        .stderr(end)
        .spawn();
    drop(command);
    let child = child.expect("the program starts");
    let sent = thread::spawn(|| sent(screen));
    let output = child.wait_with_output().expect("the program ends");
    let sent = sent.join().expect("what was sent");
    assert!(sent.starts_with(&shown(0)), "{sent:?}");
    assert_eq!(left(&sent), [""]);
    let out = String::from_utf8(output.stdout).expect("text");
    assert!(out.lines().eq(lines.iter()));
}

/// Lines and progress on one terminal: what is left are the lines.
#[test]
fn among_the_lines() {
    let room = Room::new();
    let mut lines = thousand(&room);
    let (screen, end) = terminal();
    let out = end.try_clone().expect("the same end");
    let mut command = hac(["check"]);
    let child = command.arg(room.path()).stdout(out).stderr(end).spawn();
    drop(command);
    let sent = sent(screen);
    let status = child.expect("the program starts").wait().expect("its end");
    assert!(sent.starts_with(&shown(0)), "{sent:?}");
    lines.push(String::new());
    assert_eq!(left(&sent), lines);
    assert_eq!(status.code(), Some(1));
}

/// Deposits that are sorted are read, and those that may be the same are compared.
#[test]
fn of_two_readings() {
    let room = Room::new();
    thousand(&room);
    let (screen, end) = terminal();
    let mut command = hac(["same"]);
    let child = command
        .arg(room.path())
        .stdout(Stdio::null())
        .stderr(end)
        .spawn();
    drop(command);
    let sent = sent(screen);
    let status = child.expect("the program starts").wait().expect("its end");
    assert!(sent.starts_with(&format!("\r0 of {DEPOSITS} files read")));
    assert!(sent.contains(" files compared"), "{sent:?}");
    assert_eq!(left(&sent), [""]);
    assert_eq!(status.code(), Some(1));
}

/// While one input keeps it waiting, the line is rewritten some ten times a second
/// at the most.
#[test]
fn no_more_than_ten_a_second() {
    const PAUSE: Duration = Duration::from_millis(100);
    let room = Room::new();
    thousand(&room);
    let (screen, end) = terminal();
    let mut command = hac(["check", "-"]);
    command
        .arg(room.path())
        .stdin(Stdio::piped())
        .stdout(Stdio::null());
    let began = Instant::now();
    let mut child = command.stderr(end).spawn().expect("the program starts");
    drop(command);
    let stdin = child.stdin.take();
    let (enough, told) = mpsc::channel();
    let held = thread::spawn(move || {
        let told = told.recv_timeout(PATIENCE);
        drop(stdin);
        told.expect("the line in time");
    });
    let all_but_one = format!("\r{DEPOSITS} of {} files checked", DEPOSITS + 1);
    // held back for some lines more than are needed
    let sent = watched(screen, |sent| {
        if sent.matches(&all_but_one).count() == 3 {
            // later looks find it too, when nobody waits for it any more
            let _ = enough.send(());
        }
    });
    held.join().expect("the input was held back");
    child.wait().expect("its end");
    let times = sent.matches(" files checked").count();
    let most = began.elapsed().as_millis() / PAUSE.as_millis() + 1;
    assert!(times as u128 <= most, "{times} times of {most}");
    assert_eq!(left(&sent), [""]);
}

/// Without a terminal nothing is shown; of one file neither.
#[test]
fn nothing_to_show() {
    let room = Room::new();
    let file = room.put("a", b"no mark");
    assert_eq!(run(hac(["check"]).arg(&file).arg(&file)).err, "");
    let (screen, end) = terminal();
    let mut command = hac(["check"]);
    let child = command.arg(&file).stdout(Stdio::null()).stderr(end).spawn();
    drop(command);
    child.expect("the program starts").wait().expect("its end");
    assert_eq!(sent(screen), "");
}
