//! Text inputs for the two programs.

use super::draft::{render, Body, Draft, Piece, PingStyle, Rendered, Style};
use super::faults::{broken_ping, fault, random_damage, third_identifier, FAULT_KINDS};
use super::sound::*;
use super::vessels::short_vessel;
use super::Rng;
use crate::kinds::Family;
use crate::layout::LAYOUTS;
use crate::order::Order;

/// An input text; where the way of making it tells, the bad line's number.
#[derive(Clone, Debug)]
pub struct LineCase {
    pub name: String,
    /// For which program it is meant, 1 or 2; both take it.
    pub program: u32,
    pub text: Vec<u8>,
    pub bad: Option<u64>,
}

pub fn hex(bytes: &[u8]) -> String {
    let digit = |half: u8| char::from_digit(u32::from(half), 16).unwrap_or('0');
    let digits = |byte: &u8| [digit(byte >> 4), digit(byte & 15)];
    bytes.iter().flat_map(digits).collect()
}

/// Lines of a file, one frame a line, as far as its frames go.
pub fn frames(file: &[u8]) -> Vec<String> {
    let mut rest = file;
    let mut lines = Vec::new();
    let order = Order::of(file);
    let mut length = 4;
    while !rest.is_empty() {
        let (frame, behind) = rest.split_at(length.min(rest.len()));
        lines.push(hex(frame));
        rest = behind;
        let size = order.and_then(|order| order.read_four(rest, 0));
        length = size.map_or(rest.len(), |size| size as usize + 10);
    }
    lines
}

/// Each line with its line feed.
fn join(lines: &[String]) -> Vec<u8> {
    let ended = |line: &String| format!("{line}\n");
    lines.iter().map(ended).collect::<String>().into_bytes()
}

/// One tuple behind a mark, of any listed type or of none.
fn one_tuple(rng: &mut Rng) -> (Draft, Style) {
    let style = Style {
        index: false,
        ..Style::any(rng)
    };
    let drafts = sound_drafts(rng, &Wish::any());
    let draft = match rng.below(8) {
        0 => {
            let code = rng.pick(&[65406, 65515, 65450]);
            unlisted(rng, code)
        }
        1 => {
            let code = unlisted_code(rng);
            unlisted(rng, code)
        }
        2 | 3 => any_ping(rng, 9, true),
        4 => signature(rng),
        _ => drafts[rng.index(drafts.len())].clone(),
    };
    (draft, style)
}

fn tuple_file(rng: &mut Rng) -> Vec<u8> {
    let (draft, style) = one_tuple(rng);
    let bytes = render(&[draft], &style, rng).bytes;
    if bytes.len() > 65_536 {
        return tuple_file(rng);
    }
    bytes
}

/// One tuple with something wrong, or something behind it.
fn damaged_tuple_file(rng: &mut Rng) -> Vec<u8> {
    let mut bytes = tuple_file(rng);
    match rng.below(11) {
        0 => bytes.truncate(4),
        1 => bytes.truncate(rng.index(bytes.len())),
        2 => bytes.extend([0]),
        3 => {
            let more = rng.bytes(24);
            bytes.extend(more);
        }
        4 => {
            let again = bytes[4..].to_vec();
            bytes.extend(again);
        }
        5 => {
            // a listed type of any length
            let layout = &LAYOUTS[rng.index(LAYOUTS.len())];
            let data = 6 + 4 * rng.index(28);
            let data = rng.bytes(data);
            let draft = Draft::new(rng, layout.code, Body::Raw(data));
            let style = Style::any(rng);
            bytes = render(&[draft], &style, rng).bytes;
        }
        6 => {
            let mut draft = signature(rng);
            draft.pieces()[0] = Piece::Two(third_identifier(rng));
            let style = Style::any(rng);
            bytes = render(&[draft], &style, rng).bytes;
        }
        7 | 8 => {
            let draft = broken_ping(rng, 9);
            let style = Style::any(rng);
            bytes = render(&[draft], &style, rng).bytes;
        }
        _ => {
            let at = rng.index(bytes.len());
            bytes[at] ^= 1 << rng.below(8);
        }
    }
    if bytes.len() > 65_536 {
        return damaged_tuple_file(rng);
    }
    bytes
}

/// A C-32 ping whose U-32 form has mark and tuple just within the limit of 65,536 bytes,
/// or just past it, or a C-16 ping of twice as many values; at times with a length, so
/// that it has no such form.
fn dense_file(rng: &mut Rng, values: u32) -> Vec<u8> {
    let family = rng.pick(&[Family::Bits32, Family::Bits16]);
    let values = match family {
        Family::Bits16 => 2 * values - rng.below(2) as u32,
        _ => values,
    };
    let samples: Vec<(u32, i32)> = (0..values).map(|n| (n, n as i32)).collect();
    let silence = rng.pick(&[0, 0, 1, 65_537]);
    let length = length_with(family, &samples, silence);
    let draft = family_ping(rng, 3, family, samples, length);
    let style = Style {
        pings: PingStyle::Packed,
        ..Style::plain(rng.pick(&Order::BOTH))
    };
    render(&[draft], &style, rng).bytes
}

/// A sound file whose length is exactly some number of bytes.
fn file_of_length(rng: &mut Rng, length: usize) -> Vec<u8> {
    let mut drafts = vec![
        signature(rng),
        sounder(rng, 1, 1),
        channel(rng, 1, 1),
        position(rng),
        ping(rng, 1, vec![(0, 5)]),
        end_of_file(rng, 2),
    ];
    let style = Style::plain(Order::Lsb);
    let used = render(&drafts, &style, rng).bytes.len();
    drafts.insert(5, marker(rng, length - used - 20));
    render(&drafts, &style, rng).bytes
}

/// A sound file with full C-32 pings, short itself but long in U-32.
fn expanding_file(rng: &mut Rng) -> Vec<u8> {
    let mut drafts = vec![signature(rng), sounder(rng, 1, 1), channel(rng, 1, 1)];
    for _ in 0..2 {
        let samples = (0..5000).map(|n| (n, n as i32)).collect();
        drafts.push(ping(rng, 1, samples));
    }
    drafts.push(position(rng));
    drafts.push(end_of_file(rng, 2));
    let style = Style {
        pings: PingStyle::Packed,
        ..Style::any(rng)
    };
    render(&drafts, &style, rng).bytes
}

/// A file of many sounders and channels, at times with one sounder too many.
fn vessel_file(rng: &mut Rng) -> Vec<u8> {
    let drafts = short_vessel(rng);
    let style = Style {
        index: false,
        ..Style::any(rng)
    };
    render(&drafts, &style, rng).bytes
}

/// Breaks lines anew at any even place.
fn rebroken(rng: &mut Rng, file: &[u8]) -> Vec<String> {
    let digits = hex(file);
    let mut rest = digits.as_str();
    let mut lines = Vec::new();
    while !rest.is_empty() {
        let most = rest.len() / 2;
        let take = 2 * (1 + rng.index(most.min(70)));
        let (line, behind) = rest.split_at(take);
        lines.push(line.to_string());
        rest = behind;
    }
    lines
}

/// Spoils a line and gives its number.
fn spoil_line(rng: &mut Rng, lines: &mut Vec<String>) -> (&'static str, u64) {
    let at = rng.index(lines.len());
    let place = rng.index(lines[at].len());
    let name = match rng.below(7) {
        0 => {
            lines[at].replace_range(place..place + 1, rng.pick(&["A", "B", "C", "D", "E", "F"]));
            "upper"
        }
        1 => {
            lines[at].pop();
            "odd"
        }
        2 => {
            lines.insert(at, String::new());
            "empty"
        }
        3 => {
            lines[at].push('\r');
            "return"
        }
        4 => {
            lines[at].push_str("\r\r");
            "returns"
        }
        5 => {
            let wrong = rng.pick(&[" ", "g", "x", "/", ":", "`", "\t", "\0", "G"]);
            lines[at].replace_range(place..place + 1, wrong);
            "digit"
        }
        _ => {
            lines[at].insert_str(place, rng.pick(&[" ", "0x", "0", "é"]));
            "inserted"
        }
    };
    let bad = lines.iter().position(|line| is_bad(line));
    (name, bad.map_or(0, |at| at as u64 + 1))
}

/// Said once more, plainly, apart from the programs' own decoding.
fn is_bad(line: &str) -> bool {
    let odd = !line.len().is_multiple_of(2);
    line.is_empty() || odd || !line.chars().all(|c| "0123456789abcdef".contains(c))
}

fn sound_file(rng: &mut Rng) -> Vec<u8> {
    let drafts = sound_drafts(rng, &Wish::any());
    let style = Style::any(rng);
    let Rendered { bytes, .. } = render(&drafts, &style, rng);
    if bytes.len() > 65_536 {
        return sound_file(rng);
    }
    bytes
}

fn damaged_file(rng: &mut Rng) -> Vec<u8> {
    let case = if rng.chance(60) {
        let kind = rng.pick(&FAULT_KINDS);
        fault(rng, kind)
    } else {
        random_damage(rng)
    };
    if case.bytes.len() > 65_536 {
        return damaged_file(rng);
    }
    case.bytes
}

/// Two lines around the limit of decoded bytes, the second passing it by some
/// bytes, then others.
fn long_lines(rng: &mut Rng, past: usize) -> (Vec<String>, Option<u64>) {
    let first = 65_536 - 8 * rng.index(20);
    let file = file_of_length(rng, 65_536);
    let mut bytes = file;
    bytes.extend(vec![0x11; past]);
    let mut lines = vec![hex(&bytes[..first])];
    if first < bytes.len() {
        lines.push(hex(&bytes[first..]));
    }
    let bad = (past > 0).then_some(lines.len() as u64);
    if rng.chance(30) && past > 0 {
        lines.push("zz".to_string());
    }
    (lines, bad)
}

/// The line case of a number.
pub fn line_case(seed: u64, index: u64) -> LineCase {
    let mut rng = Rng::of_case(seed ^ 0x6C69_6E65, index);
    let rng = &mut rng;
    let (name, program, text, bad) = match index % 16 {
        0 | 1 => ("one-sound", 1, join(&frames(&sound_file(rng))), None),
        2 => {
            let mut text = join(&frames(&sound_file(rng)));
            text.pop();
            ("one-no-last-feed", 1, text, None)
        }
        3 => {
            let file = sound_file(rng);
            ("one-one-line", 1, join(&[hex(&file)]), None)
        }
        4 => {
            let file = sound_file(rng);
            ("one-rebroken", 1, join(&rebroken(rng, &file)), None)
        }
        5 | 6 => ("one-damaged", 1, join(&frames(&damaged_file(rng))), None),
        7 | 8 => {
            let mut lines = frames(&sound_file(rng));
            let (name, bad) = spoil_line(rng, &mut lines);
            let name = match name {
                "upper" => "one-bad-upper",
                "odd" => "one-bad-odd",
                "empty" => "one-bad-empty",
                "return" | "returns" => "one-bad-return",
                _ => "one-bad-digit",
            };
            (name, 1, join(&lines), Some(bad))
        }
        9 => edge_text(index / 16),
        10 => {
            let past = rng.pick(&[0, 1, 2, 4, 4000]);
            let (lines, bad) = long_lines(rng, past);
            ("one-long", 1, join(&lines), bad)
        }
        11 if rng.chance(30) => (
            "one-expanding",
            1,
            join(&frames(&expanding_file(rng))),
            None,
        ),
        11 if rng.chance(30) => ("one-vessel", 1, join(&frames(&vessel_file(rng))), None),
        11 => {
            let values = rng.pick(&[8186, 8187, 8188, 9000]);
            let file = dense_file(rng, values);
            ("two-dense", 2, join(&frames(&file)), None)
        }
        12 | 13 => ("two-tuple", 2, join(&frames(&tuple_file(rng))), None),
        14 => (
            "two-damaged",
            2,
            join(&frames(&damaged_tuple_file(rng))),
            None,
        ),
        _ => {
            let file = tuple_file(rng);
            let mut lines = rebroken(rng, &file);
            let bad = rng.chance(50).then(|| spoil_line(rng, &mut lines).1);
            ("two-rebroken", 2, join(&lines), bad)
        }
    };
    LineCase {
        name: name.to_string(),
        program,
        text,
        bad,
    }
}

/// Short inputs at the edges of the rules for lines.
fn edge_text(turn: u64) -> (&'static str, u32, Vec<u8>, Option<u64>) {
    const TEXTS: [(&str, Option<u64>); 16] = [
        ("", None),
        ("\n", Some(1)),
        ("\n\n", Some(1)),
        ("ac000000", None),
        ("ac000000\n", None),
        ("ac000000\n\n", Some(2)),
        ("\nac000000\n", Some(1)),
        ("000000ac\n", None),
        ("AC000000\n", Some(1)),
        ("ac00000\n", Some(1)),
        ("ac\n00\n00\n00\n", None),
        ("ac000000\r\n", Some(1)),
        ("ac0000", None),
        ("ac 000000\n", Some(1)),
        ("ac000000\n0\nzz\n", Some(2)),
        ("a\nc000000\n", Some(1)),
    ];
    let (text, bad) = TEXTS[(turn % 16) as usize];
    let program = 1 + (turn / 16 % 2) as u32;
    ("edge", program, text.as_bytes().to_vec(), bad)
}
