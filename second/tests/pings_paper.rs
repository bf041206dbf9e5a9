//! Holds the examples of docs/PINGS.md to the program: what is read of each, and its normal
//! form.

use second::pings::{read_angles, read_samples, Ping};
use second::programs::normalise_tuple;
use second::Answer;
use std::fs;
use std::path::Path;

/// The mark, and where a ping stands behind it.
const MARK: [u8; 4] = [0xAC, 0, 0, 0];
const PLACE: u64 = 4;

/// From the time's fraction up to the samples: E4's.
const HEADER: &str = "0000 3c000000 0100 0000 01000000 ffffff7f";

/// One line of the paper.
struct Example {
    line: String,
    ping: Vec<u8>,
    read: String,
    /// None of a refused one.
    normal: Option<Vec<u8>>,
}

/// Hexadecimal, where `3*ffff` stands for three times ffff.
fn decode(text: &str) -> Vec<u8> {
    let mut bytes = Vec::new();
    for part in text.split_whitespace() {
        let (times, digits) = part.split_once('*').unwrap_or(("1", part));
        let times = times.parse().expect("a number");
        let piece: Vec<u8> = (0..digits.len())
            .step_by(2)
            .map(|at| u8::from_str_radix(&digits[at..at + 2], 16).expect("hexadecimal"))
            .collect();
        bytes.extend(piece.repeat(times));
    }
    bytes
}

/// A ping of a type, with what stands behind its header.
fn ping(code: &str, stored: &str) -> Vec<u8> {
    let code: u16 = code.parse().expect("a type");
    let inner = [decode(HEADER), decode(stored), vec![0; 4]].concat();
    let length = inner.len() as u32 + 10;
    let mut tuple = (length - 10).to_le_bytes().to_vec();
    tuple.extend(code.to_le_bytes());
    tuple.extend(inner);
    tuple.extend(length.to_le_bytes());
    tuple
}

/// The parts of a cell that stand between backquotes.
fn quoted(cell: &str) -> Vec<&str> {
    cell.split('`').skip(1).step_by(2).collect()
}

/// The lines of the tables whose first cell is a type in backquotes.
fn examples() -> Vec<Example> {
    let path = Path::new(env!("CARGO_MANIFEST_DIR")).join("../docs/PINGS.md");
    let paper = fs::read_to_string(path).expect("the paper");
    let lines = paper.lines().filter(|line| line.starts_with("| `100"));
    let examples = lines.map(|line| {
        let cells: Vec<&str> = line.split('|').map(str::trim).collect();
        let ["", code, stored, read, normal, ""] = cells[..] else {
            panic!("four cells: {line}");
        };
        let own = ping(quoted(code)[0], quoted(stored)[0]);
        let normal = match (normal, quoted(normal)[..].as_ref()) {
            ("", _) => None,
            ("the same", _) => Some(own.clone()),
            (_, [code, stored]) => Some(ping(code, stored)),
            _ => panic!("a normal form: {line}"),
        };
        Example {
            line: line.into(),
            ping: own,
            read: read.into(),
            normal,
        }
    });
    examples.collect()
}

/// What the paper says of a ping that is read so.
fn said(file: &[u8]) -> String {
    let ping = match Ping::read(file, PLACE) {
        Ok((_, ping)) => ping,
        Err(Answer { code, place, .. }) => return format!("{code} at {}", place - PLACE),
    };
    let count = ping.values as usize;
    let mut numbers = vec![0; count];
    let mut parts: Vec<String> = if ping.kind.row().has_angles() {
        let (mut along, mut athwart) = (vec![0; count], vec![0; count]);
        let answer = read_angles(file, PLACE, &mut numbers, &mut along, &mut athwart);
        assert!(answer.is_accepted());
        let angles = along.iter().zip(&athwart);
        let samples = numbers.iter().zip(angles);
        samples
            .map(|(number, (along, athwart))| format!("({number}, {along}, {athwart})"))
            .collect()
    } else {
        let mut values = vec![0; count];
        assert!(read_samples(file, PLACE, &mut numbers, &mut values).is_accepted());
        let samples = numbers.iter().zip(&values);
        samples
            .map(|(number, value)| format!("({number}, {value})"))
            .collect()
    };
    parts.extend(ping.length.map(|length| format!("length {length}")));
    parts.join(" ")
}

#[test]
fn examples_of_the_paper() {
    let examples = examples();
    assert!(examples.len() >= 40, "{}", examples.len());
    for Example {
        line,
        ping,
        read,
        normal,
    } in examples
    {
        let file = [&MARK[..], &ping].concat();
        assert_eq!(said(&file), read, "{line}");
        let mut out = vec![0; 4096];
        let answer = normalise_tuple(&file, &mut out);
        out.truncate(answer.length as usize);
        let written = answer.is_accepted().then_some(out);
        let normal = normal.map(|normal| [&MARK[..], &normal].concat());
        assert_eq!(written, normal, "{line}");
    }
}
