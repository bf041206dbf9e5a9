//! The walk: one step forward or backward at any place of any file.

use crate::answer::Answer;
use crate::layout::{length_allowed, FILE_LIMIT, TUPLE_LEAST};
use crate::order::{four_at, two_at, Order};

/// A framed tuple: where it starts, its whole length and its type code.
#[derive(Clone, Copy, PartialEq, Eq, Debug)]
pub struct Tuple {
    pub place: u64,
    pub length: u64,
    pub code: u16,
}

impl Tuple {
    /// The first byte behind the tuple. Frames lie within the file limit, so
    /// this doesn't overflow for a tuple that a step gave.
    pub fn end(&self) -> u64 {
        self.place.saturating_add(self.length)
    }

    /// The tuple's own bytes; empty where it doesn't lie in the file.
    pub fn bytes<'a>(&self, file: &'a [u8]) -> &'a [u8] {
        let (Ok(start), Ok(end)) = (usize::try_from(self.place), usize::try_from(self.end()))
        else {
            return &[];
        };
        file.get(start..end).unwrap_or(&[])
    }
}

/// What one step yields.
#[derive(Clone, Copy, PartialEq, Eq, Debug)]
pub enum Step {
    /// A tuple, and the place for the next step in the same direction.
    Tuple {
        tuple: Tuple,
        next: u64,
    },
    End,
    /// The refusal, with its code and place.
    Refused(Answer),
}

/// Codes 1 and 2, without a place: each caller has its own.
pub(crate) fn mark(file: &[u8]) -> Result<Order, u32> {
    if file.len() as u64 > FILE_LIMIT {
        return Err(1);
    }
    Order::of(file).ok_or(2)
}

/// The tuple at a place not past the file: 3, 5, 3, 6.
pub(crate) fn frame(file: &[u8], order: Order, place: usize) -> Result<Tuple, u32> {
    let rest = &file[place..];
    let left = rest.len() as u64;
    if left < TUPLE_LEAST {
        return Err(3);
    }
    // data size + 10 can pass 32 bits
    let length = u64::from(four_at(order, rest, 0)) + 10;
    if !length_allowed(length) {
        return Err(5);
    }
    if length > left {
        return Err(3);
    }
    if u64::from(four_at(order, rest, length as usize - 4)) != length {
        return Err(6);
    }
    Ok(Tuple {
        place: place as u64,
        length,
        code: two_at(order, rest, 4),
    })
}

/// The tuple that ends before a place from 20 to the file's length: 5, 3, 6.
fn frame_before(file: &[u8], order: Order, place: usize) -> Result<Tuple, u32> {
    let length = u64::from(four_at(order, file, place - 4));
    if !length_allowed(length) {
        return Err(5);
    }
    if length > place as u64 - 4 {
        return Err(3);
    }
    let start = place - length as usize;
    if u64::from(four_at(order, file, start)) + 10 != length {
        return Err(6);
    }
    Ok(Tuple {
        place: start as u64,
        length,
        code: two_at(order, file, start + 4),
    })
}

fn step(place: u64, framed: Result<Tuple, u32>, next: impl Fn(&Tuple) -> u64) -> Step {
    match framed {
        Ok(tuple) => Step::Tuple {
            tuple,
            next: next(&tuple),
        },
        Err(code) => Step::Refused(Answer::refused(code, place)),
    }
}

/// The tuple that starts at a place. The file's length is the end.
pub fn forward(file: &[u8], place: u64) -> Step {
    let framed = mark(file).and_then(|order| {
        if place < 4 || place > file.len() as u64 {
            return Err(3);
        }
        if place == file.len() as u64 {
            return Ok(None);
        }
        frame(file, order, place as usize).map(Some)
    });
    match framed.transpose() {
        None => Step::End,
        Some(framed) => step(place, framed, Tuple::end),
    }
}

/// The tuple that ends just before a place. Place 4 is the end.
pub fn backward(file: &[u8], place: u64) -> Step {
    let framed = mark(file).and_then(|order| {
        if place == 4 {
            return Ok(None);
        }
        if place < 20 || place > file.len() as u64 {
            return Err(3);
        }
        frame_before(file, order, place as usize).map(Some)
    });
    match framed.transpose() {
        None => Step::End,
        Some(framed) => step(place, framed, |tuple| tuple.place),
    }
}
