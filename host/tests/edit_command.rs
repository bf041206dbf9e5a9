//! `hac index`, `hac append` and `hac remove`: OUT appears whole or not at all, and a refusal
//! says whose it is.

use crate::damage;
use crate::deposit::ORDERS;
use crate::edits::{framed, least, reindexed};
use crate::json;
use crate::known::{repository, Known};
use crate::normal::spares_terminals;
use crate::room::{hac, run, Ran, Room};
use hac::*;
use std::fs::{self, File};
use std::path::Path;
use std::process::{Command, Stdio};

/// The cruise of an order.
fn cruise(order: Order) -> Known {
    Known::sample(match order {
        Order::Lsb => "cruise-lsb",
        Order::Msb => "cruise-msb",
    })
}

/// Where a sample's end of file stands.
fn end_place(known: &Known) -> usize {
    known.tuples.last().expect("a tuple").place
}

/// The cruise with more tuples before its end of file, put together from its lines.
fn with_more(known: &Known, more: &[u8]) -> Vec<u8> {
    let (before, end) = known.bytes.split_at(end_place(known));
    reindexed(&[before, more, end].concat())
}

/// What each command is asked for behind its file, and the file that comes of it.
fn edits(known: &Known, room: &Room) -> Vec<(Vec<String>, Vec<u8>)> {
    let event = framed(known.order, 10110, 24);
    let tuples = room.put("tuples.bin", &event);
    let tuples = tuples.to_str().expect("a plain name").to_string();
    let navigation = known.first(30);
    let (place, length) = (navigation.place, navigation.bytes.len());
    let less = [&known.bytes[..place], &known.bytes[place + length..]].concat();
    vec![
        (vec!["index".into()], reindexed(&known.bytes)),
        (vec!["append".into(), tuples], with_more(known, &event)),
        (vec!["remove".into(), place.to_string()], reindexed(&less)),
    ]
}

/// The program with a command, its file, and what else it is asked for.
fn asked(words: &[String], file: &Path) -> Command {
    let mut command = hac([&words[0]]);
    command.arg(file).args(&words[1..]);
    command
}

/// Nothing was printed, and standard error has one line.
fn says(ran: &Ran, status: i32, line: &str) {
    assert_eq!((ran.status, ran.out.as_str()), (status, ""), "{}", ran.err);
    assert_eq!(ran.err, format!("hac: {line}\n"));
}

#[test]
fn written() {
    for order in ORDERS {
        let room = Room::new();
        let known = cruise(order);
        for (words, expected) in edits(&known, &room) {
            // what stands there is replaced
            let out = room.put("out.hac", b"older");
            let ran = run(asked(&words, &known.path).arg("-o").arg(&out));
            let line = format!(
                "{}: accepted, indexed file of {} bytes written to {}\n",
                known.path.display(),
                expected.len(),
                out.display()
            );
            assert_eq!((ran.status, ran.out, ran.err), (0, line, String::new()));
            assert_eq!(fs::read(&out).expect("OUT"), expected);
            assert_eq!(room.names(), ["out.hac", "tuples.bin"]);
            let ran = run(asked(&words, &known.path).args(["--json", "-o"]).arg(&out));
            let object = &json::objects(&ran.out)[0];
            assert_eq!(object.keys(), ["file", "outcome", "out", "length"]);
            assert_eq!(object.text("outcome"), "accepted");
            assert_eq!(object.number("length"), expected.len() as i128);
        }
    }
}

/// On standard output the file stands alone; either input may be standard input.
#[test]
fn streams() {
    for order in ORDERS {
        let room = Room::new();
        let known = cruise(order);
        for (words, expected) in edits(&known, &room) {
            let mut from_standard = asked(&words, Path::new("-"));
            from_standard.stdin(File::open(&known.path).expect("a sample"));
            for mut command in [asked(&words, &known.path), from_standard] {
                let output = command.args(["-o", "-"]).output().expect("it runs");
                assert_eq!(output.stdout, expected);
                assert_eq!((output.status.code(), output.stderr.len()), (Some(0), 0));
            }
        }
        let tuples = File::open(room.at("tuples.bin")).expect("tuples");
        let mut command = hac(["append"]);
        command
            .arg(&known.path)
            .args(["-", "-o", "-"])
            .stdin(tuples);
        let output = command.output().expect("it runs");
        assert_eq!(output.stdout, edits(&known, &room)[1].1);
    }
}

/// OUT is none of the inputs, under whatever name; nor is standard output, and that is no
/// terminal.
#[test]
fn inputs_are_spared() {
    let room = Room::new();
    let known = cruise(Order::Lsb);
    let file = room.put("in.hac", &known.bytes);
    let tuples = room.put("more.bin", &least(Order::Lsb, 5));
    for (name, original) in [("hard", &file), ("harder", &tuples)] {
        fs::hard_link(original, room.at(name)).expect("a link");
    }
    let names = room.names();
    let spared = |ran: &Ran| {
        assert_eq!((ran.status, ran.out.as_str()), (2, ""));
        assert!(ran.err.contains("OUT is an input itself"), "{}", ran.err);
        assert_eq!(fs::read(&file).expect("the input"), known.bytes);
        assert_eq!(fs::read(&tuples).expect("tuples"), least(Order::Lsb, 5));
        assert_eq!(room.names(), names);
    };
    let append = || {
        let mut command = hac(["append"]);
        command.arg(&file).arg(&tuples);
        command
    };
    for name in &names {
        spared(&run(append().arg("-o").arg(room.at(name))));
        let behind = File::options().append(true).open(room.at(name));
        let mut command = append();
        command.args(["-o", "-"]).stderr(Stdio::piped());
        spared(&run(command.stdout(behind.expect("an input"))));
    }
    let mut command = append();
    command.args(["-o", "-"]).stderr(Stdio::piped());
    spares_terminals(command);
}

/// A refused file is told as the check tells it, whatever is asked for.
#[test]
fn damaged_copies() {
    let room = Room::new();
    let tuples = room.put("more.bin", &[0]);
    let out = room.put("out.hac", b"older");
    for copy in damage::all(&cruise(Order::Lsb)) {
        let path = room.put("in.hac", &copy.bytes);
        let checked = run(hac(["check"]).arg(&path));
        let line = checked.out.trim_end();
        let checked = run(hac(["check", "--json"]).arg(&path)).out;
        for words in [
            &["index"][..],
            &["append", tuples.to_str().expect("a plain name")],
            &["remove", "5"],
        ] {
            let words: Vec<String> = words.iter().map(|word| word.to_string()).collect();
            for to in [out.as_path(), Path::new("-")] {
                let ran = run(asked(&words, &path).arg("-o").arg(to));
                says(&ran, 1, line);
            }
            let ran = run(asked(&words, &path).args(["--json", "-o"]).arg(&out));
            assert_eq!((ran.status, &ran.out), (1, &checked));
            assert_eq!(fs::read(&out).expect("OUT"), b"older");
        }
    }
    assert_eq!(room.names(), ["in.hac", "more.bin", "out.hac"]);
}

/// What is said of the file as it would be: the place is one in that.
#[test]
fn as_it_would_be() {
    let room = Room::new();
    let known = cruise(Order::Lsb);
    let name = known.path.display();
    let out = room.put("out.hac", b"older");
    let end = end_place(&known);
    // the index of the cruise, which goes, has 20 bytes
    let place = end - 20;
    let signature = room.put("more.bin", &known.tuples[0].bytes);
    let signature = signature.to_str().expect("a plain name");
    let cut = room.put("cut.bin", &framed(Order::Lsb, 10110, 24)[..17]);
    let cut = cut.to_str().expect("a plain name");
    let channel = known.first(1000);
    let ping = known.pings()[0];
    let orphan = ping.place - channel.bytes.len();
    let attitude = known.first(40);
    assert!(attitude.place > channel.place && attitude.two(12) == 65535);
    let threshold = known.first(10100);
    let orphan = orphan.min(threshold.place - channel.bytes.len());
    for (words, said) in [
        (
            vec!["append", signature],
            format!(
                "7: first is no signature, or a later one is, at {place}: \
                 a second signature: keep the one at 4 alone"
            ),
        ),
        (
            vec!["append", cut],
            format!(
                "3: fewer than 16 bytes left (but not 0), or the tuple passes the end, at {place}: \
                 byte 0 of what is appended: no tuple of the file's order"
            ),
        ),
        (
            vec!["remove", &channel.place.to_string()],
            format!(
                "13: parent not declared earlier, or of the other maker, at {orphan}: \
                 threshold names channel 1, which no tuple before it declares"
            ),
        ),
    ] {
        let words: Vec<String> = words.into_iter().map(String::from).collect();
        for to in [out.as_path(), Path::new("-")] {
            let ran = run(asked(&words, &known.path).arg("-o").arg(to));
            let line = format!("{name}: refused in the file as it would be, {said}");
            says(&ran, 1, &line);
        }
        let ran = run(asked(&words, &known.path).args(["--json", "-o"]).arg(&out));
        let object = &json::objects(&ran.out)[0];
        let keys = ["file", "outcome", "judged", "code", "words", "place"];
        assert_eq!(object.keys()[..6], keys);
        assert_eq!(object.text("judged"), "as it would be");
        let line = format!(
            "{}: {}, at {}: {}",
            object.number("code"),
            object.text("words"),
            object.number("place"),
            object.text("advice")
        );
        assert_eq!((ran.status, line), (1, said));
        assert_eq!(fs::read(&out).expect("OUT"), b"older");
    }
    assert_eq!(room.names(), ["cut.bin", "more.bin", "out.hac"]);
}

/// A place without a tuple, and tuples that no file could hold.
#[test]
fn what_is_handed_in() {
    let room = Room::new();
    let known = cruise(Order::Msb);
    let out = room.at("out.hac");
    let remove = ["remove".to_string(), "5".to_string()];
    let ran = run(asked(&remove, &known.path).arg("-o").arg(&out));
    let line = format!(
        "{}: refused, 3: fewer than 16 bytes left (but not 0), or the tuple passes the end, at 5: \
         no tuple starts there: hac walk tells where they do",
        known.path.display()
    );
    says(&ran, 1, &line);
    let huge = room.at("huge.bin");
    let file = File::create(&huge).expect("a file");
    file.set_len(FILE_LIMIT as u64 + 1).expect("its length");
    let ran = run(hac(["append"])
        .arg(&known.path)
        .arg(&huge)
        .arg("-o")
        .arg(&out));
    let line = format!(
        "{}: refused, 1: file over the limit, at 0: \
         more than 16777216 bytes: split the recording",
        huge.display()
    );
    says(&ran, 1, &line);
    let none = room.at("none.bin");
    let ran = run(hac(["append"])
        .arg(&known.path)
        .arg(&none)
        .arg("-o")
        .arg(&out));
    assert_eq!((ran.status, ran.out.as_str()), (2, ""));
    assert!(ran.err.starts_with(&format!("hac: {}: ", none.display())));
    assert_eq!(room.names(), ["huge.bin"]);
}

/// An index that is true becomes stale by what others do to a file, and `hac index` mends it.
#[test]
fn stale_and_true() {
    let room = Room::new();
    let known = cruise(Order::Lsb);
    let end = end_place(&known);
    let indexed = reindexed(&known.bytes);
    let stale = [&indexed[..28], &least(Order::Lsb, 5), &indexed[28..]].concat();
    let path = room.put("in.hac", &stale);
    let shown = |path: &Path| run(hac(["show"]).arg(path)).out;
    // the cruise's own index of 20 bytes is gone, and the tuple of 16 is there
    let place = end - 20 + 16;
    assert!(shown(&path).contains(&format!(
        "\n  index        at {place}, stale: 20 position, "
    )));
    let out = room.at("out.hac");
    let ran = run(hac(["index"]).arg(&path).arg("-o").arg(&out));
    assert_eq!(ran.status, 0);
    let line = format!("\n  index        at {place}, true: 5 unlisted, 20 position, ");
    assert!(shown(&out).contains(&line), "{}", shown(&out));
    assert_eq!(fs::read(&out).expect("OUT"), reindexed(&stale));
}

/// The host's paper shows what the commands print of the cruise.
#[test]
fn the_paper() {
    let paper = fs::read_to_string(repository("host/README.md")).expect("the paper");
    let room = Room::new();
    for line in [
        "index samples/cruise-lsb.hac",
        "remove samples/cruise-lsb.hac 4",
    ] {
        let (_, rest) = paper
            .split_once(&format!("    $ hac {line} -o indexed.hac\n"))
            .expect("the command");
        let shown = rest
            .lines()
            .next()
            .and_then(|line| line.strip_prefix("    "));
        let out = room.at("indexed.hac");
        let mut command = hac(line.split(' '));
        let ran = run(command.arg("-o").arg(&out).current_dir(repository("")));
        let said = [ran.out, ran.err].concat();
        let folder = format!("{}/", room.path().display());
        assert_eq!(Some(said.trim_end().replace(&folder, "").as_str()), shown);
    }
}
