//! E1 to E8 of 01, through the two programs and through the functions below
//! them.

mod common;

use common::bytes;
use second::pings::{read_samples, Ping};
use second::programs::{program_one, program_two};
use second::records::Navigation;
use second::walk::{forward, Step};
use second::words::{read_word, Word};
use second::{check, normalise, Answer, Order, PingKind};
use std::io::Write;
use std::process::{Command, Stdio};

const E1: &str = "ac000000\n0e000000ffffacac64006400acac01df0000000018000000";
const E3: &str = "000000ac\n00000012001e13880000003c0001fc7714180000000000000000001c";
const E3_PRINTED: &str = "ac000000\n120000001e0088133c000000010077fc18140000000000001c000000\n";
const E4: &str = "ac000000\n260000001a2700003c0000000100000001000000ffffff7f020000000100ffff6400000090eefeff0000000030000000";
const E4_PRINTED: &str = "ac000000\n26000000102700003c0000000100000001000000ffffff7f02000000640000000300000090eefeff0000000030000000\n";

/// What a program's binary prints.
fn run(binary: &str, input: &str) -> String {
    let mut child = Command::new(binary)
        .stdin(Stdio::piped())
        .stdout(Stdio::piped())
        .spawn()
        .expect("the program starts");
    let mut stdin = child.stdin.take().expect("an input");
    stdin
        .write_all(input.as_bytes())
        .expect("the input is read");
    drop(stdin);
    let output = child.wait_with_output().expect("the program ends");
    assert!(output.status.success());
    String::from_utf8(output.stdout).expect("text")
}

fn one(input: &str, printed: &str) {
    assert_eq!(
        String::from_utf8_lossy(&program_one(input.as_bytes())),
        printed
    );
    assert_eq!(run(env!("CARGO_BIN_EXE_normal_file"), input), printed);
}

fn two(input: &str, printed: &str) {
    assert_eq!(
        String::from_utf8_lossy(&program_two(input.as_bytes())),
        printed
    );
    assert_eq!(run(env!("CARGO_BIN_EXE_normal_tuple"), input), printed);
}

#[test]
fn e1() {
    one(E1, "refused 4 28\n");
    one(&format!("{E1}\n"), "refused 4 28\n");
    assert_eq!(check(&bytes(E1)), Answer::refused(4, 28));
}

#[test]
fn e2() {
    one("ac000000", "refused 4 4\n");
    one("000000ac\n", "refused 4 4\n");
    one("", "refused 2 0\n");
    assert_eq!(check(&[0xAC, 0, 0, 0]), Answer::refused(4, 4));
    assert_eq!(check(&[]), Answer::refused(2, 0));
    assert_eq!(normalise(&[], &mut []), Answer::refused(2, 0));
}

#[test]
fn e3() {
    two(E3, E3_PRINTED);
    // Normal already, it stays.
    two(E3_PRINTED, E3_PRINTED);
    let (answer, navigation) = Navigation::read(&bytes(E3), 4).unwrap();
    assert_eq!(answer, Answer::accepted(1, 0));
    let expected = Navigation {
        time_fraction: 5000,
        time_cpu_ansi_c_standard_time: 60,
        navigation_system: 1,
        heading: -905,
        navigation_speed: 5144,
        tuple_attribute: 0,
    };
    assert_eq!(navigation, expected);
    let mut out = [0; 28];
    assert_eq!(
        navigation.write(Order::Msb, &mut out),
        Answer::accepted(1, 28)
    );
    assert_eq!(out, bytes(E3)[4..]);
    assert_eq!(
        navigation.write(Order::Lsb, &mut out),
        Answer::accepted(1, 28)
    );
    assert_eq!(out, bytes(E3_PRINTED)[4..]);
}

#[test]
fn e4() {
    two(E4, E4_PRINTED);
    for (text, kind) in [(E4, PingKind::C32), (E4_PRINTED, PingKind::U32)] {
        let file = bytes(text);
        let (mut numbers, mut values) = ([7; 3], [7; 3]);
        let answer = read_samples(&file, 4, &mut numbers, &mut values);
        assert_eq!(answer, Answer::accepted(1, 2));
        assert_eq!((numbers, values), ([2, 3, 7], [100, -70000, 7]));
        let (_, ping) = Ping::read(&file, 4).unwrap();
        assert_eq!((ping.kind, ping.values), (kind, 2));
        assert_eq!(ping.header.time_cpu_ansi_c_standard_time, 60);
        assert_eq!(ping.header.software_channel_identifier.0, 1);
        assert_eq!(ping.header.ping_number, 1);
        assert_eq!(ping.header.detected_bottom_range, i32::MAX);
    }
}

#[test]
fn e5() {
    assert_eq!(read_word(PingKind::C32, 0xFFFF_0000), Word::Run(1));
    assert_eq!(read_word(PingKind::C32, 0xFFFF_FFFF), Word::Run(65_536));
}

#[test]
fn e6() {
    assert_eq!(read_word(PingKind::C32, 0xFFFE_FFFF), Word::Value(-65_537));
}

/// A C-32 ping of one word behind a mark, as a line each.
fn one_word(word: &str) -> String {
    format!("ac000000\n1e0000001a2700000000000000000000000000000000000001000000{word}0000000028000000\n")
}

#[test]
fn e7() {
    for (word, value) in [("fffffe7f", 2_147_418_111), ("00000180", -2_147_418_112)] {
        let (mut number, mut values) = ([9], [9]);
        let file = bytes(&one_word(word));
        let answer = read_samples(&file, 4, &mut number, &mut values);
        assert_eq!(answer, Answer::accepted(1, 1));
        assert_eq!((number, values), ([0], [value]));
        let printed = format!(
            "ac000000\n1e000000102700000000000000000000000000000000000000000000{word}0000000028000000\n"
        );
        two(&one_word(word), &printed);
    }
    // by request c of 02 at the word, 28 bytes behind the tuple's start
    for word in ["0000ff7f", "ffff0080"] {
        two(&one_word(word), "refused 24 32\n");
        let file = bytes(&one_word(word));
        let answer = read_samples(&file, 4, &mut [0; 9], &mut [0; 9]);
        assert_eq!(answer, Answer::refused(24, 32));
        assert_eq!(Ping::read(&file, 4), Err(Answer::refused(24, 32)));
    }
}

#[test]
fn e8() {
    // A private tuple of 16 bytes, then the same with other sizes.
    two(
        "ac000000\n0600000078ff00000000000010000000",
        "ac000000\n0600000078ff00000000000010000000\n",
    );
    for (size, code) in [("06", 6), ("04", 5), ("02", 5)] {
        let file = bytes(&format!(
            "ac000000 {size}00000078ff0000000000001100000000000000"
        ));
        let Step::Refused(refusal) = forward(&file, 4) else {
            panic!("{size}")
        };
        assert_eq!(refusal, Answer::refused(code, 4));
        assert_eq!(check(&file), Answer::refused(code, 4));
    }
}
