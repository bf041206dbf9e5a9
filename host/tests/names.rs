//! Names that depositors chose: control characters, and what is no UTF-8.

use crate::json;
use crate::known::{accepted, Known};
use crate::room::{hac, run, Room};
use std::ffi::OsStr;
use std::os::unix::ffi::OsStrExt;

/// Names as bytes, as a line has them, and what JSON can tell of them.
const NAMES: [(&[u8], &str, &str); 5] = [
    (b"esc\x1b[2J", "esc\\u{1b}[2J", "esc\x1b[2J"),
    (b"feed\nhac: fine", "feed\\u{a}hac: fine", "feed\nhac: fine"),
    (
        b"back\\slash \"q\"",
        "back\\\\slash \"q\"",
        "back\\slash \"q\"",
    ),
    (b"latin\xe9", "latin\\xe9", "latin\u{fffd}"),
    (
        "d\u{e9}p\u{f4}t\u{202e}".as_bytes(),
        "d\u{e9}p\u{f4}t\\u{202e}",
        "d\u{e9}p\u{f4}t\u{202e}",
    ),
];

#[test]
fn shown_and_told() {
    let known = Known::sample("cruise-lsb");
    for (name, line, told) in NAMES {
        let room = Room::new();
        let path = room.put(OsStr::from_bytes(name), &known.bytes);
        let folder = room.path().display();
        let first = format!("{folder}/{line}: {}", accepted(known.counts()));
        let ran = run(hac(["check"]).arg(room.path()));
        assert_eq!(ran.lines()[0], first);
        assert_eq!(ran.status, 0);

        let ran = run(hac(["check", "--json"]).arg(&path));
        let object = &json::objects(&ran.out)[0];
        assert_eq!(object.text("file"), format!("{folder}/{told}"));
        assert!(!ran.out.trim_end().chars().any(char::is_control));
        assert!(!ran.out.contains('\u{202e}'));
        if std::str::from_utf8(name).is_err() {
            let bytes = path.as_os_str().as_bytes().iter();
            let digits: String = bytes.map(|byte| format!("{byte:02x}")).collect();
            assert_eq!(object.text("file_bytes"), digits);
        } else {
            assert!(!object.keys().contains(&"file_bytes"));
        }
    }
}

/// On standard error too, and in complaints about arguments.
#[test]
fn said() {
    let name = OsStr::from_bytes(b"\x1b]0;\xff");
    let ran = run(hac(["walk"]).arg(name));
    assert!(ran.err.starts_with("hac: \\u{1b}]0;\\xff: "), "{}", ran.err);
    let ran = run(&mut hac([OsStr::from_bytes(b"\x07")]));
    assert!(
        ran.err.starts_with("hac: \\u{7} is no command"),
        "{}",
        ran.err
    );
    let ran = run(&mut hac([OsStr::from_bytes(b"-\x07")]));
    assert!(
        ran.err.starts_with("hac: unknown option -\\u{7}"),
        "{}",
        ran.err
    );
}
