//! Chapter "Content and normal form": the normaliser.

use crate::answer::Answer;
use crate::check::{survey_each, Survey};
use crate::index::Types;
use crate::kinds::{PingKind, COUNT_AT, HEADER_END, TAIL};
use crate::layout::{self, class, Class, Field, FILE_LIMIT, HAC_IDENTIFIER, ROW_START};
use crate::order::{four_at, put_four, put_two, two_at, Order};
use crate::samples::{normal_ping, normal_samples};
use crate::walk::{frame, Tuple};

/// What the normaliser has to know of a file before it writes anything.
struct Measure {
    /// The normal form's length, mark and all but its index.
    length: u64,
    /// The types that its tuples have.
    types: Types,
    /// Code 18: the first unlisted type outside the index class, in MSB order.
    not_turnable: Option<u64>,
}

impl Measure {
    /// The check's refusals, or what it found, and the measure.
    fn of(file: &[u8]) -> Result<(Survey, Measure), Answer> {
        let mut measure = Measure {
            length: 4,
            types: Types::none(),
            not_turnable: None,
        };
        let survey = survey_each(file, |tuple, bytes, order| {
            measure.take(tuple, bytes, order);
        })?;
        measure.length += measure.types.index_length() as u64;
        Ok((survey, measure))
    }

    fn take(&mut self, tuple: &Tuple, bytes: &[u8], order: Order) {
        let (code, length) = normal_shape(bytes, tuple.code, order);
        self.types.note(code);
        self.length += length;
        if self.not_turnable.is_none() && not_turnable(tuple.code, order) {
            self.not_turnable = Some(tuple.place);
        }
    }
}

/// Type and length of a judged tuple's normal form; the length is 0 for the index class. Of a
/// ping of words it takes another look at each of them.
pub(crate) fn normal_shape(bytes: &[u8], code: u16, order: Order) -> (u16, u64) {
    match PingKind::of(code) {
        Some(kind) => {
            let (normal, length) = normal_ping(bytes, kind, order);
            (normal.row().code, length)
        }
        None if class(code) == Some(Class::Index) => (code, 0),
        None => (code, bytes.len() as u64),
    }
}

/// Whether code 18 bars a type: its bytes can't be turned.
pub(crate) fn not_turnable(code: u16, order: Order) -> bool {
    order == Order::Msb && !layout::is_listed(code) && class(code) != Some(Class::Index)
}

/// Writes the normal form of a file: the tuples outside the index class, and just before the
/// end of file the index of those written. The check's refusals, then 18, 20, 19; a refusal
/// leaves every byte of `out`, success leaves those past the length written. Two passes: the
/// check, then the writing.
pub fn normalise(file: &[u8], out: &mut [u8]) -> Answer {
    let (survey, measure) = match Measure::of(file) {
        Ok(found) => found,
        Err(refusal) => return refusal,
    };
    if let Some(place) = measure.not_turnable {
        return Answer::refused(18, place);
    }
    if measure.length > FILE_LIMIT {
        return Answer::refused(20, 0);
    }
    let Some(out) = out.get_mut(..measure.length as usize) else {
        return Answer::refused(19, 0);
    };
    out[..4].copy_from_slice(&Order::Lsb.mark());
    let mut written = 4;
    let mut place = 4;
    while let Ok(tuple) = frame(file, survey.order, place) {
        let end = place + tuple.length as usize;
        if tuple.code == layout::END_OF_FILE {
            written += measure.types.put_index(Order::Lsb, &mut out[written..]);
        }
        written += write_normal(
            &file[place..end],
            tuple.code,
            survey.order,
            &mut out[written..],
        );
        place = end;
    }
    survey.accepted(written as u64)
}

/// Writes the normal form of one judged tuple at the start of `out`, which has
/// room for it, and gives its length.
pub(crate) fn write_normal(tuple: &[u8], code: u16, order: Order, out: &mut [u8]) -> usize {
    if class(code) == Some(Class::Index) {
        return 0;
    }
    if let Some(kind) = PingKind::of(code) {
        return write_ping(tuple, kind, order, out);
    }
    let out = &mut out[..tuple.len()];
    match order {
        Order::Lsb => copy_row(tuple, code, out),
        Order::Msb => turn_row(tuple, code, out),
    }
    out.len()
}

/// An LSB tuple: its bytes, with 0 in the spaces and 44204 in a signature.
fn copy_row(tuple: &[u8], code: u16, out: &mut [u8]) {
    out.copy_from_slice(tuple);
    let Some(layout) = layout::layout(code) else {
        return;
    };
    let mut at = ROW_START;
    for field in layout.row {
        match field {
            Field::Space(width) => out[at..at + width].fill(0),
            Field::Identifier => put_two(Order::Lsb, out, at, HAC_IDENTIFIER),
            _ => {}
        }
        at += field.width();
    }
}

/// An MSB tuple of a listed type, field by field.
fn turn_row(tuple: &[u8], code: u16, out: &mut [u8]) {
    turn_fours(&tuple[..4], &mut out[..4]);
    turn_two(tuple, out, 4);
    let tail = tuple.len() - TAIL;
    let mut at = ROW_START;
    for field in layout::layout(code).map_or(&[][..], |layout| layout.row) {
        let end = match field {
            Field::Text | Field::Samples => tail,
            _ => at + field.width(),
        };
        match field {
            Field::Two | Field::SignedTwo => turn_two(tuple, out, at),
            Field::Identifier => put_two(Order::Lsb, out, at, HAC_IDENTIFIER),
            Field::Chars(_) | Field::Text => out[at..end].copy_from_slice(&tuple[at..end]),
            Field::Space(_) => out[at..end].fill(0),
            _ => turn_fours(&tuple[at..end], &mut out[at..end]),
        }
        at = end;
    }
    turn_fours(&tuple[tail..], &mut out[tail..]);
}

fn turn_two(tuple: &[u8], out: &mut [u8], at: usize) {
    put_two(Order::Lsb, out, at, two_at(Order::Msb, tuple, at));
}

/// Turns numbers of four bytes, one or many.
fn turn_fours(from: &[u8], to: &mut [u8]) {
    for (from, to) in from.chunks_exact(4).zip(to.chunks_exact_mut(4)) {
        to.copy_from_slice(&[from[3], from[2], from[1], from[0]]);
    }
}

/// A ping, of its kind or of another of its family, and so of another length.
fn write_ping(tuple: &[u8], kind: PingKind, order: Order, out: &mut [u8]) -> usize {
    let (normal, length) = normal_samples(tuple, kind, order, out);
    let out = &mut out[..length];
    put_two(Order::Lsb, out, 4, normal.row().code);
    put_header(tuple, order, out);
    if normal.row().is_packed() {
        put_four(Order::Lsb, out, COUNT_AT, four_at(order, tuple, COUNT_AT));
    }
    length
}

/// Size, header fields, attribute and backlink of a ping of a new length.
fn put_header(tuple: &[u8], order: Order, out: &mut [u8]) {
    let length = out.len();
    put_four(Order::Lsb, out, 0, (length - 10) as u32);
    let attribute = &tuple[tuple.len() - TAIL..tuple.len() - 4];
    match order {
        Order::Lsb => {
            out[6..HEADER_END].copy_from_slice(&tuple[6..HEADER_END]);
            out[length - TAIL..length - 4].copy_from_slice(attribute);
        }
        Order::Msb => {
            for at in [6, 12, 14] {
                turn_two(tuple, out, at);
            }
            for at in [8, 16, 20] {
                turn_fours(&tuple[at..at + 4], &mut out[at..at + 4]);
            }
            turn_fours(attribute, &mut out[length - TAIL..length - 4]);
        }
    }
    put_four(Order::Lsb, out, length - 4, length as u32);
}
