//! The two programs on hand-made and generated lines.

mod common;

use common::{count, seed, tuples};
use second::gen::{file_case, frames, hex, line_case};
use second::programs::{decode, normalise_tuple, program_one, program_two, BYTE_LIMIT};
use second::walk::{forward, Step};
use second::{check, normalise, Answer, Order};

fn one(input: &str) -> String {
    String::from_utf8(program_one(input.as_bytes())).unwrap()
}

fn two(input: &str) -> String {
    String::from_utf8(program_two(input.as_bytes())).unwrap()
}

#[test]
fn lines() {
    for (input, printed) in [
        ("", "refused 2 0\n"),
        ("\n", "bad 1\n"),
        ("\n\n", "bad 1\n"),
        ("ac000000\n\n", "bad 2\n"),
        ("ac000000\n\nac\n", "bad 2\n"),
        ("\nac000000", "bad 1\n"),
        ("ac000000\n", "refused 4 4\n"),
        ("ac000000", "refused 4 4\n"),
        ("ac00000", "bad 1\n"),
        ("ac00000\n0", "bad 1\n"),
        ("ac\n000000\n", "refused 4 4\n"),
        ("ac\n00\n00\n00", "refused 4 4\n"),
        ("AC000000\n", "bad 1\n"),
        ("ac000000\n0F\n", "bad 2\n"),
        ("ac000000\r\n", "bad 1\n"),
        ("ac00000\r", "bad 1\n"),
        ("ac 00000\n", "bad 1\n"),
        ("ac000000\n0g\n0", "bad 2\n"),
        ("ac000000\n\u{e9}\n", "bad 2\n"),
        ("ac000000\n0:\n", "bad 2\n"),
        ("ac000000\n0/\n", "bad 2\n"),
        ("ac000000\n0`\n", "bad 2\n"),
        ("ac000000\n0@\n", "bad 2\n"),
        ("00\n", "refused 2 0\n"),
        ("ac000001\n", "refused 2 0\n"),
    ] {
        assert_eq!(one(input), printed, "{input:?}");
    }
    assert_eq!(program_one(b"ac000000\n\xff\xff\n"), b"bad 2\n");
    assert_eq!(program_two(b"ac000000\n\xff\xff\n"), b"bad 2\n");
}

/// The line that takes the decoded bytes past 65,536 is bad.
#[test]
fn byte_limit() {
    let at = "00".repeat(65_536);
    assert_eq!(one(&at), "refused 2 0\n");
    assert_eq!(one(&format!("{at}00\n")), "bad 1\n");
    assert_eq!(one(&format!("{at}\n00\nzz\n")), "bad 2\n");
    assert_eq!(one(&format!("{at}\n\n00\n")), "bad 2\n");
    assert_eq!(one(&format!("00\nzz\n{at}\n")), "bad 2\n");
    let lines = "00\n".repeat(65_536);
    assert_eq!(one(&lines), "refused 2 0\n");
    assert_eq!(one(&format!("{lines}00")), "bad 65537\n");
}

#[test]
fn second_program_alone() {
    let mark = "ac000000\n";
    for (tuple, printed) in [
        ("", "refused 3 4"),
        ("00", "refused 3 4"),
        ("060000007eff00000000000010000000", "ac000000"),
        ("060000007eff0000000000001000000000", "refused 15 20"),
        ("060000007eff00000000000011000000", "refused 6 4"),
        ("040000007eff00000000000010000000", "refused 5 4"),
        ("0a0000007eff00000000000010000000", "refused 3 4"),
        ("0600000014000000000000001000000000", "refused 9 4"),
        // 44203, without and with a byte behind; 44201, which is read, with one
        (
            "0e000000ffffabac64006400acac01df0000000018000000",
            "refused 8 4",
        ),
        (
            "0e000000ffffabac64006400acac01df000000001800000000",
            "refused 8 4",
        ),
        (
            "0e000000ffffa9ac64006400acac01df000000001800000000",
            "refused 15 28",
        ),
    ] {
        assert_eq!(
            two(&format!("{mark}{tuple}\n").replace("\n\n", "\n")),
            format!("{printed}\n")
        );
    }
    assert_eq!(two(""), "refused 2 0\n");
    assert_eq!(two("ac0000"), "refused 2 0\n");
    // end of file and signature are tuples like others here; 44201 becomes 44204
    let signature = "0e000000ffffacac64006400acac01df0000000018000000";
    for spelled in [signature, &signature.replacen("acac", "a9ac", 1)] {
        assert_eq!(
            two(&format!("{mark}{spelled}")),
            format!("{mark}{signature}\n")
        );
    }
    let end = "0e000000feff0000000000000000aabb0000000018000000";
    assert_eq!(two(&format!("{mark}{end}")), format!("{mark}{end}\n"));
    assert_eq!(two(&format!("{mark}{end}\n{end}")), "refused 15 28\n");
    // unlisted in MSB order: 18, but 15 before it; the index class has none
    let private = "00000006ff7800000000000000000010";
    assert_eq!(two(&format!("000000ac\n{private}")), "refused 18 4\n");
    assert_eq!(two(&format!("000000ac\n{private}00")), "refused 15 20\n");
    assert_eq!(
        two("000000ac\n00000006ff7e00000000000000000010"),
        "ac000000\n"
    );
    // a sounder's count and a ping's channel aren't judged
    let ping = "1e000000102700000000000009000000000000000000000000000000050000000000000028000000";
    assert_eq!(two(&format!("{mark}{ping}")), format!("{mark}{ping}\n"));
    // 11, 23, 24 and 25 come before 15: the second number, the word, the count
    for (tuple, printed) in [
        (
            "26000000102700000000000009000000000000000000000001000000050000000100000005000000000000003000000000",
            "refused 23 36\n",
        ),
        (
            "1e0000001a27000000000000090000000000000000000000070000000000ff7f000000002800000000",
            "refused 24 32\n",
        ),
        (
            "1e0000001a270000000000000900000000000000000000000700000001000000000000002800000000",
            "refused 25 28\n",
        ),
    ] {
        assert_eq!(two(&format!("{mark}{tuple}")), printed);
    }
}

/// A dense C-32 ping: 8,187 values are the most whose U-32 form, with the
/// mark, stays within 65,536 bytes.
#[test]
fn output_limit() {
    for (values, fits) in [(8187u32, true), (8188, false)] {
        let length = 36 + 4 * values;
        let mut tuple = Vec::new();
        tuple.extend((length - 10).to_le_bytes());
        tuple.extend(10010u16.to_le_bytes());
        tuple.extend([0; 18]);
        tuple.extend(values.to_le_bytes());
        tuple.extend([0; 4].repeat(values as usize));
        tuple.extend([0; 4]);
        tuple.extend(length.to_le_bytes());
        let printed = two(&format!("ac000000\n{}\n", hex(&tuple)));
        if fits {
            assert_eq!(printed.len(), 9 + 2 * (32 + 8 * 8187) + 1);
            assert_eq!(two(&printed), printed);
        } else {
            assert_eq!(printed, "refused 19 0\n");
        }
    }
}

/// Generated lines: known bad lines are named; else both programs print what
/// the functions below them give.
#[test]
fn generated_lines() {
    let seed = seed();
    let (mut bad, mut refused, mut printed) = (0, 0, 0);
    for index in 0..count(2400) {
        let case = line_case(seed, index);
        let name = format!("seed {seed} lines {index} {}", case.name);
        let decoded = decode(&case.text);
        assert_eq!(decoded.as_ref().err(), case.bad.as_ref(), "{name}");
        for (program, normal) in [
            (
                program_one as fn(&[u8]) -> Vec<u8>,
                normalise as fn(&[u8], &mut [u8]) -> Answer,
            ),
            (program_two, normalise_tuple),
        ] {
            let text = String::from_utf8(program(&case.text)).unwrap();
            let file = match &decoded {
                Ok(file) => file,
                Err(number) => {
                    assert_eq!(text, format!("bad {number}\n"), "{name}");
                    bad += 1;
                    continue;
                }
            };
            let mut out = vec![0; BYTE_LIMIT];
            let answer = normal(file, &mut out);
            if answer.code == 0 {
                let lines = frames(&out[..answer.length as usize]);
                assert_eq!(text, lines.join("\n") + "\n", "{name}");
                printed += 1;
            } else {
                let line = format!("refused {} {}\n", answer.code, answer.place);
                assert_eq!(text, line, "{name}");
                refused += 1;
            }
        }
    }
    assert!(
        bad > 100 && refused > 100 && printed > 100,
        "{bad} {refused} {printed}"
    );
}

/// Program two on each tuple of an accepted file prints that tuple's line in
/// program one's print, which has the index's line before the last.
#[test]
fn programs_agree_on_tuples() {
    let seed = seed();
    for index in (0..count(800)).filter(|index| index % 16 < 4) {
        for case in file_case(seed, index) {
            let name = format!("seed {seed} case {index}");
            let file = &case.bytes;
            if file.len() > 20_000 {
                continue;
            }
            let whole =
                String::from_utf8(program_one(&frames(file).join("\n").into_bytes())).unwrap();
            if whole.starts_with("refused 18") {
                assert_eq!(Order::of(file), Some(Order::Msb), "{name}");
                continue;
            }
            let mut lines: Vec<&str> = whole.lines().collect();
            let index = lines.remove(lines.len() - 2);
            assert_eq!(index.get(8..12), Some("7eff"), "{name}: {index:.40}");
            let mut lines = lines.into_iter();
            assert_eq!(lines.next(), Some("ac000000"), "{name}: {whole:.40}");
            for tuple in tuples(file) {
                let single = [&file[..4], tuple.bytes(file)].concat();
                let text = String::from_utf8(program_two(hex(&single).as_bytes())).unwrap();
                let mut printed = text.lines();
                assert_eq!(printed.next(), Some("ac000000"), "{name}");
                if let Some(line) = printed.next() {
                    assert_eq!(Some(line), lines.next(), "{name}");
                }
            }
            assert_eq!(lines.next(), None, "{name}");
        }
    }
}

/// `normalise_tuple` keeps to the rules of lent memory.
#[test]
fn tuples_and_lent_memory() {
    let seed = seed();
    for index in 0..count(800) {
        let Ok(file) = decode(&line_case(seed, index).text) else {
            continue;
        };
        let room = 2 * file.len() + 80;
        let mut out = common::lent(room);
        let answer = normalise_tuple(&file, &mut out);
        if answer.code != 0 {
            assert_eq!(out, common::lent(room));
            continue;
        }
        let length = answer.length as usize;
        assert_eq!(out[length..], common::lent(room)[length..]);
        let mut short = common::lent(length - 1);
        assert_eq!(normalise_tuple(&file, &mut short), Answer::refused(19, 0));
        assert_eq!(short, common::lent(length - 1));
        if length > 4 {
            assert!(matches!(forward(&out[..length], 4), Step::Tuple { .. }));
        }
    }
    assert_eq!(check(&[]).code, 2);
}
