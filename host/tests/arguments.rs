//! Good and bad use.

use crate::known::{accepted, repository, Known};
use crate::room::{hac, run, Room};
use std::fs;

#[test]
fn help_and_version() {
    for arguments in [
        &["--help"][..],
        &["walk", "--help"],
        &["--json", "check", "--help"],
    ] {
        let ran = run(&mut hac(arguments));
        assert_eq!((ran.status, ran.err.as_str()), (0, ""));
        for command in [
            "check", "show", "same", "normal", "index", "append", "remove", "salvage", "walk",
            "parents", "samples", "record", "settings", "energy", "readings", "picture", "ping",
        ] {
            assert!(ran.out.contains(&format!("hac {command} ")), "{command}");
        }
    }
    let ran = run(&mut hac(["--version"]));
    let toolchain = fs::read_to_string(repository("target/archive/toolchain")).expect("its name");
    let version = concat!("hac ", env!("CARGO_PKG_VERSION"), ", proved and made by ");
    assert_eq!((ran.status, ran.out), (0, format!("{version}{toolchain}")));
}

/// Bad use: status 2, one line on standard error, and nothing is done.
fn is_bad_use(room: &Room, arguments: &[&str]) {
    let ran = run(hac(arguments).current_dir(room.path()));
    assert_eq!((ran.status, ran.out.as_str()), (2, ""), "{arguments:?}");
    assert!(ran.err.starts_with("hac: ") && ran.err.lines().count() == 1);
    assert_eq!(room.names(), Vec::<String>::new());
}

#[test]
fn bad_use() {
    let room = Room::new();
    let known = Known::sample("cruise-lsb");
    let file = known.path.to_str().expect("a plain name");
    let uses: [&[&str]; 35] = [
        &[],
        &["judge"],
        &["judge", file],
        &["check"],
        &["check", "-", "-"],
        &["check", "--fast", file],
        &["check", "--back", file],
        &["check", "-o", "out.hac", file],
        &["show"],
        &["show", "-", file, "-"],
        &["show", "--back", file],
        &["show", "-o", "out.hac", file],
        &["same"],
        &["same", "-", file, "-"],
        &["same", file, "-o", "out.hac"],
        &["walk"],
        &["walk", file, file],
        &["walk", "-x"],
        &["parents", file],
        &["parents", file, "here"],
        &["samples", file, "-1"],
        &["samples", file, "4", "4"],
        &["samples", file, "18446744073709551616"],
        &["record", file],
        &["record", file, "here"],
        &["record", file, "4", "4"],
        &["record", file, "4", "--samples"],
        &["settings"],
        &["settings", file, "4"],
        &["settings", file, "--back"],
        &["settings", file, "-o", "out.hac"],
        &["check", file, "--corrections", file],
        &["samples", file, "4", "--samples"],
        &["walk", file, "--corrections"],
        &["settings", file, "--samples"],
    ];
    for arguments in uses {
        is_bad_use(&room, arguments);
    }
}

/// The same of the commands that tell echoes.
#[test]
fn bad_use_of_echoes() {
    let room = Room::new();
    let known = Known::sample("cruise-lsb");
    let file = known.path.to_str().expect("a plain name");
    let uses: [&[&str]; 22] = [
        &["energy"],
        &["energy", "-", file, "-"],
        &["energy", file, "--from", "1"],
        &["energy", file, "-o", "out.png"],
        &["readings"],
        &["readings", file],
        &["readings", file, "here"],
        &["readings", file, "780", "780"],
        &["readings", file, "780", "--from"],
        &["readings", file, "780", "--from", "-1"],
        &["readings", file, "780", "--from", "4294967296"],
        &["readings", file, "780", "--count", "all"],
        &["readings", file, "780", "--count", "1", "--count", "1"],
        &["readings", file, "780", "-o", "out.png"],
        &["samples", file, "780", "--count", "1"],
        &["picture", file, "-o", "out.png"],
        &["picture", file, "1"],
        &["picture", file, "65536", "-o", "out.png"],
        &["picture", file, "one", "-o", "out.png"],
        &["picture", file, "1", "1", "-o", "out.png"],
        &["picture", file, "1", "-o", "out.png", "--from", "1"],
        &["picture", file, "1", "-o", "-", "--json"],
    ];
    for arguments in uses {
        is_bad_use(&room, arguments);
    }
}

/// The same of the command that may take two files.
#[test]
fn bad_use_of_ping() {
    let room = Room::new();
    let known = Known::sample("cruise-lsb");
    let file = known.path.to_str().expect("a plain name");
    let uses: [&[&str]; 17] = [
        &[],
        &[file],
        &[file, "1"],
        &[file, "1", "1", "1"],
        &[file, "65536", "1"],
        &[file, "-1", "1"],
        &[file, "one", "1"],
        &[file, "", "1"],
        &[file, "1", "4294967296"],
        &[file, "1", "1.5"],
        &[file, "1", "1", "--back"],
        &[file, "1", "1", "-o"],
        &[file, "1", "1", "-o", "-"],
        &[file, "1", "1", "--corrections"],
        &["1", "1", "--corrections", file],
        &[file, "1", "1", "--corrections", file, "--corrections", file],
        &["-", "1", "1", "--corrections", "-"],
    ];
    for arguments in uses {
        is_bad_use(&room, &[&["ping"], arguments].concat());
    }
}

/// The same of the commands that write a file.
#[test]
fn bad_use_of_out() {
    let room = Room::new();
    let known = Known::sample("cruise-lsb");
    let file = known.path.to_str().expect("a plain name");
    let out = room.at("out.hac");
    let out = out.to_str().expect("a plain name");
    let uses: [&[&str]; 6] = [
        &[file],
        &[file, "-o"],
        &[file, "-o", out, "-o", out],
        &["-o", out],
        &[file, file, "-o", out],
        &[file, "-o", out, "--back"],
    ];
    for command in ["normal", "salvage"] {
        for arguments in uses {
            is_bad_use(&room, &[&[command], arguments].concat());
        }
    }
    is_bad_use(&room, &["salvage", file, "-o", "-"]);
    is_bad_use(&room, &["normal", file, "-o", "-", "--json"]);
    is_bad_use(&room, &["normal", file, file, "-o", "-"]);
}

/// The same of the commands that edit a file.
#[test]
fn bad_use_of_edits() {
    let room = Room::new();
    let known = Known::sample("cruise-lsb");
    let file = known.path.to_str().expect("a plain name");
    let uses: [&[&str]; 16] = [
        &["index"],
        &["index", file],
        &["index", "-o", "out.hac"],
        &["index", file, "4", "-o", "out.hac"],
        &["index", file, "-d", "."],
        &["index", file, "-o", "-", "--json"],
        &["append", file, "-o", "out.hac"],
        &["append", file, file],
        &["append", file, file, file, "-o", "out.hac"],
        &["append", "-", "-", "-o", "out.hac"],
        &["append", file, file, "-o", "-", "--json"],
        &["remove", file, "-o", "out.hac"],
        &["remove", file, "4"],
        &["remove", file, "here", "-o", "out.hac"],
        &["remove", file, "-1", "-o", "out.hac"],
        &["remove", file, "4", "4", "-o", "out.hac"],
    ];
    for arguments in uses {
        is_bad_use(&room, arguments);
    }
}

/// The same of the command that writes many.
#[test]
fn bad_use_of_folder() {
    let room = Room::new();
    let known = Known::sample("cruise-lsb");
    let file = known.path.to_str().expect("a plain name");
    let uses: [&[&str]; 9] = [
        &["normal", "-d", "."],
        &["normal", file, "-d"],
        &["normal", file, "-d", ".", "-d", "."],
        &["normal", file, "-d", ".", "-o", "out.hac"],
        &["normal", file, "-d", ".", "-o", "-"],
        &["normal", "-", "-d", "."],
        &["salvage", file, "-d", "."],
        &["check", file, "-d", "."],
        &["same", file, "-d", "."],
    ];
    for arguments in uses {
        is_bad_use(&room, arguments);
    }
}

/// What is no file is said, with status 2.
#[test]
fn no_files() {
    let room = Room::new();
    let folder = room.path().to_str().expect("a plain name");
    let none = room.at("none.hac");
    let none = none.to_str().expect("a plain name");
    let uses: [&[&str]; 26] = [
        &["check", none],
        &["show", none],
        &["walk", folder],
        &["walk", none],
        &["parents", none, "4"],
        &["samples", folder, "4"],
        &["record", none, "4"],
        &["record", folder, "4"],
        &["settings", none],
        &["settings", folder],
        &["energy", none],
        &["readings", none, "4"],
        &["readings", folder, "4"],
        &["picture", none, "1", "-o", "out.png"],
        &["picture", folder, "1", "-o", "-"],
        &["ping", none, "1", "1"],
        &["ping", folder, "1", "1", "--corrections", none],
        &["ping", none, "1", "1", "-o", "out.hac"],
        &["normal", none, "-o", "out.hac"],
        &["normal", folder, "-o", "out.hac"],
        &["index", none, "-o", "out.hac"],
        &["index", folder, "-o", "-"],
        &["append", none, folder, "-o", "out.hac"],
        &["remove", none, "4", "-o", "out.hac"],
        &["salvage", none, "-o", "out.hac"],
        &["salvage", folder, "-o", "out.hac"],
    ];
    for arguments in uses {
        let ran = run(hac(arguments).current_dir(room.path()));
        assert_eq!((ran.status, ran.out.as_str()), (2, ""), "{arguments:?}");
        let start = format!("hac: {}: ", arguments[1]);
        assert!(ran.err.starts_with(&start) && ran.err.lines().count() == 1);
        assert_eq!(room.names(), Vec::<String>::new());
    }
}

/// Options stand anywhere; behind `--` are none.
#[test]
fn options_anywhere() {
    let room = Room::new();
    let known = Known::sample("cruise-lsb");
    let file = known.path.to_str().expect("a plain name");
    let plain = run(&mut hac(["walk", "--back", "--json", file]));
    for arguments in [
        ["--json", "--back", "walk", file],
        ["walk", file, "--json", "--back"],
    ] {
        let ran = run(&mut hac(arguments));
        assert_eq!((ran.status, &ran.out), (0, &plain.out));
    }
    room.put("--json", &known.bytes);
    let ran = run(hac(["check", "--", "--json"]).current_dir(room.path()));
    assert_eq!(ran.out, format!("--json: {}\n", accepted(known.counts())));
}
