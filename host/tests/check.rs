//! The check: by the library, and by `hac check` on single files.

use crate::damage;
use crate::json;
use crate::known::{self, e1, repository, vector, Known, NORMAL, SPELLINGS};
use crate::room::{hac, run, Room};
use hac::{check, Code, Refusal};
use std::collections::BTreeSet;
use std::fs;

fn refused(code: u8, place: usize) -> Refusal {
    Refusal {
        code: Code::of(code).expect("a code"),
        place,
    }
}

#[test]
fn samples_are_accepted() {
    for name in SPELLINGS.iter().chain([&NORMAL]) {
        let known = Known::sample(name);
        assert_eq!(check(&known.bytes), Ok(known.counts()), "{name}");
    }
}

/// E1 and E2.
#[test]
fn examples() {
    assert_eq!(check(&e1()), Err(refused(4, 28)));
    assert_eq!(check(&[0xAC, 0, 0, 0]), Err(refused(4, 4)));
    assert_eq!(check(&[]), Err(refused(2, 0)));
}

/// Every code of the check, at its place.
#[test]
fn damaged_copies_are_refused() {
    let damaged = damage::all(&Known::sample("cruise-lsb"));
    for copy in &damaged {
        let answer = check(&copy.bytes);
        assert_eq!(answer, Err(refused(copy.code, copy.place)), "{}", copy.name);
    }
    for code in (1..=9).chain(11..=17).chain(23..=25) {
        assert!(damaged.iter().any(|copy| copy.code == code), "{code}");
    }
}

/// The refused vectors have their code in their names.
#[test]
fn refused_vectors() {
    let mut seen = BTreeSet::new();
    for entry in fs::read_dir(repository("tests/vectors")).expect("the vectors") {
        let name = entry
            .expect("a vector")
            .file_name()
            .into_string()
            .expect("a name");
        let Some(rest) = name.strip_prefix("refused-") else {
            continue;
        };
        let code: u8 = rest
            .split('-')
            .next()
            .and_then(|code| code.parse().ok())
            .expect("a code");
        let file = vector(&name);
        let answer = match code {
            // the normaliser's alone
            18 => hac::normal_form(&file).map(drop),
            _ => check(&file).map(drop),
        };
        assert_eq!(
            answer.map_err(|refusal| refusal.code.number()),
            Err(code),
            "{name}"
        );
        seen.insert(code);
    }
    // the others need longer files than the vectors have, are a writer's, or are
    // no longer given
    let codes = (2..=9).chain(12..=18).chain(23..=25);
    assert_eq!(seen, codes.collect());
}

#[test]
fn one_accepted_file() {
    let known = Known::sample("cruise-msb");
    let ran = run(hac(["check"]).arg(&known.path));
    let verdict = known::accepted(known.counts());
    let line = format!("{}: {verdict}\n", known.path.display());
    assert_eq!((ran.status, ran.out, ran.err), (0, line, String::new()));
}

/// One refused file: its line has the code, its words and the place, then what the
/// refusal is about, and nothing stands behind it.
#[test]
fn one_refused_file() {
    let room = Room::new();
    for copy in damage::all(&Known::sample("cruise-lsb")) {
        let path = room.put(copy.name, &copy.bytes);
        let ran = run(hac(["check"]).arg(&path));
        let words = Code::of(copy.code).expect("a code").words();
        let line = format!(
            "{}: refused, {}: {words}, at {}{}\n",
            path.display(),
            copy.code,
            copy.place,
            copy.advice
        );
        assert_eq!((ran.status, ran.out, ran.err), (1, line, String::new()));
    }
}

#[test]
fn objects() {
    let room = Room::new();
    let known = Known::sample("cruise-lsb");
    let short = room.put("short.hac", &known.bytes[..4]);
    let arguments = ["--json", "check", "--"];
    let ran = run(hac(arguments)
        .arg(&known.path)
        .arg(&short)
        .arg(room.at("none")));
    let [accepted, refused, unread, summary] = &json::objects(&ran.out)[..] else {
        panic!("four objects: {}", ran.out);
    };
    assert_eq!(accepted.keys(), ["file", "outcome", "tuples", "compared"]);
    assert_eq!(
        accepted.text("file"),
        known.path.to_str().expect("a plain name")
    );
    assert_eq!(accepted.text("outcome"), "accepted");
    assert_eq!(accepted.number("tuples"), known.tuples.len() as i128);
    assert_eq!(accepted.number("compared"), known::COMPARED as i128);
    assert_eq!(
        refused.keys(),
        ["file", "outcome", "code", "words", "place", "advice"]
    );
    assert_eq!(refused.text("outcome"), "refused");
    assert_eq!(refused.number("code"), 4);
    assert_eq!(refused.number("place"), 4);
    assert_eq!(unread.keys(), ["file", "outcome", "error"]);
    assert_eq!(unread.text("outcome"), "unread");
    let summary = summary.get("summary");
    let counts = ["files", "accepted", "refused", "unread"].map(|key| summary.number(key));
    assert_eq!(counts, [3, 1, 1, 1]);
    assert_eq!(summary.get("codes").keys(), ["4"]);
    assert_eq!(summary.get("codes").number("4"), 1);
    assert_eq!(ran.status, 2);
}

/// Lines come in the order of the arguments; the worst file decides the status.
#[test]
fn order_and_status() {
    let room = Room::new();
    let known = Known::sample("cruise-lsb");
    let sound = room.put("z.hac", &known.bytes);
    let broken = room.put("a.hac", &known.bytes[..4]);
    let missing = room.at("m.hac");
    let ran = run(hac(["check"]).args([&sound, &broken]));
    let lines = [
        format!("{}: {}", sound.display(), known::accepted(known.counts())),
        format!(
            "{}: refused, {}: nothing but a mark: ask for the recording",
            broken.display(),
            refused(4, 4)
        ),
        "files 2, accepted 1, refused 1, not read 0".into(),
        format!("{:>8}  {}", 1, Code::NoEnd),
    ];
    assert_eq!(ran.lines(), lines);
    assert_eq!((ran.status, ran.err.as_str()), (1, ""));

    let ran = run(hac(["check"]).args([&broken, &missing, &sound]));
    assert_eq!(ran.lines().len(), 4);
    assert_eq!(ran.lines()[2], "files 3, accepted 1, refused 1, not read 1");
    assert_eq!(ran.status, 2);
    let start = format!("hac: {}: ", missing.display());
    assert!(
        ran.err.starts_with(&start) && ran.err.lines().count() == 1,
        "{}",
        ran.err
    );
}
