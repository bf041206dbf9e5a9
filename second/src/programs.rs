//! Chapter "Two programs": from input bytes to printed bytes.

use crate::answer::Answer;
use crate::check::judge_samples;
use crate::normal::{normal_shape, normalise, not_turnable, write_normal};
use crate::order::Order;
use crate::records::judge_fields;
use crate::walk::{forward, frame, mark, Step};

/// Decoded bytes, in and out.
pub const BYTE_LIMIT: usize = 65_536;

fn digit(character: u8) -> Option<u8> {
    match character {
        b'0'..=b'9' => Some(character - b'0'),
        b'a'..=b'f' => Some(character - b'a' + 10),
        _ => None,
    }
}

/// Appends a line's bytes; none where it is empty, odd, not hexadecimal or
/// passes the limit.
fn decode_line(line: &[u8], bytes: &mut Vec<u8>) -> Option<()> {
    if line.is_empty() || !line.len().is_multiple_of(2) || line.len() / 2 > BYTE_LIMIT - bytes.len()
    {
        return None;
    }
    for pair in line.chunks_exact(2) {
        bytes.push(digit(pair[0])? << 4 | digit(pair[1])?);
    }
    Some(())
}

/// The joined bytes of the lines, or the number of the first bad line.
pub fn decode(input: &[u8]) -> Result<Vec<u8>, u64> {
    let mut bytes = Vec::new();
    // A line feed at the very end ends the last line and starts none.
    let lines = input.strip_suffix(b"\n").unwrap_or(input);
    if input.is_empty() {
        return Ok(bytes);
    }
    for (line, number) in lines.split(|byte| *byte == b'\n').zip(1u64..) {
        decode_line(line, &mut bytes).ok_or(number)?;
    }
    Ok(bytes)
}

fn print_line(bytes: &[u8], printed: &mut Vec<u8>) {
    const DIGITS: &[u8; 16] = b"0123456789abcdef";
    for byte in bytes {
        printed.push(DIGITS[usize::from(byte >> 4)]);
        printed.push(DIGITS[usize::from(byte & 15)]);
    }
    printed.push(b'\n');
}

/// Prints a file: the mark's line, then a tuple a line.
fn print_file(file: &[u8]) -> Vec<u8> {
    let mut printed = Vec::with_capacity(2 * file.len() + 16);
    print_line(&file[..file.len().min(4)], &mut printed);
    let mut place = 4;
    while let Step::Tuple { tuple, next } = forward(file, place) {
        print_line(tuple.bytes(file), &mut printed);
        place = next;
    }
    printed
}

/// One program: decoding, an answer with an output of at most the limit, and
/// the printing of either.
fn program(input: &[u8], normal: impl Fn(&[u8], &mut [u8]) -> Answer) -> Vec<u8> {
    let file = match decode(input) {
        Ok(file) => file,
        Err(number) => return format!("bad {number}\n").into_bytes(),
    };
    let mut out = vec![0; BYTE_LIMIT];
    let answer = normal(&file, &mut out);
    if !answer.is_accepted() {
        return format!("refused {} {}\n", answer.code, answer.place).into_bytes();
    }
    print_file(&out[..answer.length as usize])
}

/// The first program: prints a file's normal form.
pub fn program_one(input: &[u8]) -> Vec<u8> {
    program(input, normalise)
}

/// The second program: prints the normal form of a mark and one tuple.
pub fn program_two(input: &[u8]) -> Vec<u8> {
    program(input, normalise_tuple)
}

/// The normal form of a mark and one tuple: 1, 2 at 0; 3, 5, 3, 6, 9, 8, 11 at
/// 4; 24 and 25, or 23, at their bytes; 15, 18, 19. Links, classes and signature
/// rules aren't judged.
pub fn normalise_tuple(file: &[u8], out: &mut [u8]) -> Answer {
    match try_tuple(file, out) {
        Ok(answer) | Err(answer) => answer,
    }
}

fn try_tuple(file: &[u8], out: &mut [u8]) -> Result<Answer, Answer> {
    let order = mark(file).map_err(|code| Answer::refused(code, 0))?;
    let at_tuple = |code| Answer::refused(code, 4);
    // With no tuple behind the mark, under 16 bytes are left: 3 at 4.
    let tuple = frame(file, order, 4).map_err(at_tuple)?;
    let bytes = tuple.bytes(file);
    judge_fields(bytes, tuple.code, order).map_err(at_tuple)?;
    judge_samples(bytes, tuple.code, order).map_err(|fault| fault.at(4))?;
    if tuple.end() < file.len() as u64 {
        return Err(Answer::refused(15, tuple.end()));
    }
    if not_turnable(tuple.code, order) {
        return Err(at_tuple(18));
    }
    let (_, normal_length) = normal_shape(bytes, tuple.code, order);
    let length = 4 + normal_length as usize;
    let out = out.get_mut(..length).ok_or(Answer::refused(19, 0))?;
    out[..4].copy_from_slice(&Order::Lsb.mark());
    write_normal(bytes, tuple.code, order, &mut out[4..]);
    Ok(Answer::accepted(1, length as u64))
}
