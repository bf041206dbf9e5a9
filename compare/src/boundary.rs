//! The two calls on records as the archive has them. The second program reads and
//! writes each record by itself; what the calls make of a type, of a slice of numbers
//! and of characters is said here, and nowhere else in the comparison.

use crate::answers::five;
use crate::kinds::{Kind, Text, KINDS};
use second::layout::TUPLE_LIMIT;
use second::walk::{forward, Step};
use second::{Answer, Order};

/// So far from its tuple's end the attribute starts.
const ATTRIBUTE: u64 = 8;

/// What stands before an end of file's data, how many of these the second program
/// writes, and what stands behind them.
const BEFORE_DATA: usize = 14;
const DATA: usize = 2;
const BEHIND_DATA: usize = 8;

/// A tuple's length is so much more than the size that stands in its head.
const BESIDE_SIZE: usize = 10;

/// The record of a type, if there is one.
pub fn kind_of(code: u16) -> Option<&'static Kind> {
    KINDS.iter().find(|kind| kind.code == code)
}

/// What hac_read_record tells, and leaves in the numbers lent: as the record's reader;
/// 9 where a tuple stands and the type is no record's; last 19 at 0 for too few.
pub fn read_record(file: &[u8], place: u64, code: u16, lent: &mut [u32]) -> Vec<u64> {
    let Some(kind) = kind_of(code) else {
        return five(match forward(file, place) {
            Step::Tuple { .. } => Answer::refused(9, place),
            Step::End => Answer::refused(3, place),
            Step::Refused(refusal) => refusal,
        });
    };
    let read = match (kind.read)(file, place) {
        Ok(read) => read,
        Err(refusal) => return five(refusal),
    };
    let Some(own) = lent.get_mut(..kind.numbers) else {
        return five(Answer::refused(19, 0));
    };
    own.copy_from_slice(&read.numbers);
    let text = read
        .text
        .unwrap_or_else(|| [attribute_place(file, place), 0]);
    [&five(Answer::accepted(1, 0))[..], &text].concat()
}

/// Where the attribute of the tuple at a place stands.
fn attribute_place(file: &[u8], place: u64) -> u64 {
    match forward(file, place) {
        Step::Tuple { tuple, .. } => tuple.end() - ATTRIBUTE,
        Step::End | Step::Refused(_) => unreachable!("a record was read there"),
    }
}

/// What hac_write_record tells and writes: 9 at 0 for a type that is no record's and
/// for too few numbers; then as the record's writer, but that a text for a record
/// without characters is 9 at 0, and that an end of file's data are handed over.
pub fn write_record(
    code: u16,
    numbers: &[u32],
    text: &[u8],
    order: Order,
    out: &mut [u8],
) -> Answer {
    let kind = match kind_of(code) {
        Some(kind) if numbers.len() >= kind.numbers => kind,
        _ => return Answer::refused(9, 0),
    };
    match kind.text {
        Text::None if !text.is_empty() => Answer::refused(9, 0),
        Text::Data => write_data(kind, numbers, text, order, out),
        Text::None | Text::Remarks | Text::Multiple => (kind.write)(numbers, text, order, out),
    }
}

/// The end of file with other data than the second program writes: the same tuple,
/// longer by these. 9 where they are not 2, 6, 10 ..; 11 where it would be too long.
fn write_data(kind: &Kind, numbers: &[u32], data: &[u8], order: Order, out: &mut [u8]) -> Answer {
    let length = BEFORE_DATA + data.len() + BEHIND_DATA;
    if data.len() % 4 != DATA {
        return Answer::refused(9, 0);
    }
    if length as u64 > TUPLE_LIMIT {
        return Answer::refused(11, 0);
    }
    let Some(tuple) = out.get_mut(..length) else {
        return Answer::refused(19, 0);
    };
    let mut short = [0; BEFORE_DATA + DATA + BEHIND_DATA];
    (kind.write)(numbers, &[], order, &mut short);
    let (before, behind) = (&short[..BEFORE_DATA], &short[BEFORE_DATA + DATA..]);
    tuple.copy_from_slice(&[before, data, behind].concat());
    tuple[..4].copy_from_slice(&order.from_four((length - BESIDE_SIZE) as u32));
    tuple[length - 4..].copy_from_slice(&order.from_four(length as u32));
    Answer::accepted(1, length as u64)
}
