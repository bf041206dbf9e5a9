//! What is compared of every writer: what it answers and leaves in lent memory.

use crate::answers::five;
use crate::batch::{Arg, Batch};
use crate::exports::Export;
use second::gen::Rng;
use second::layout::TUPLE_LIMIT;
use second::{Answer, Order};
use std::io;

/// A tuple's most bytes, and some more.
const ROOM: usize = TUPLE_LIMIT as usize + 64;

/// Lent memory is longer than needed by 1 to so many bytes; it has these
/// lengths where nothing is written.
const SPARE: usize = 9;
const REFUSED_LENGTHS: [usize; 3] = [0, 24, 200];

/// Where a tuple behind a mark starts.
pub const BEHIND_MARK: u64 = 4;

/// The lengths of lent memory that are tried of a written tuple.
fn lent_lengths(answer: Answer, rng: &mut Rng) -> [usize; 3] {
    let n = answer.length as usize;
    if answer.is_accepted() {
        [n - 1, n, n + 1 + rng.index(SPARE)]
    } else {
        REFUSED_LENGTHS
    }
}

/// Calls a writer with lent memory of the lengths that are to be tried; `write`
/// is the second program's. Gives mark and tuple, where one is written.
pub fn compare_writer(
    batch: &mut Batch,
    export: Export,
    order: Order,
    rng: &mut Rng,
    arguments: impl Fn(&mut Batch) -> Vec<Arg>,
    write: impl Fn(&mut [u8]) -> Answer,
) -> io::Result<Option<Vec<u8>>> {
    batch.scratch.resize(batch.scratch.len().max(ROOM), 0);
    let whole = write(&mut batch.scratch);
    let tuple = &batch.scratch[..whole.length as usize];
    let written = [&order.mark()[..], tuple].concat();
    for length in lent_lengths(whole, rng) {
        let mut arguments = arguments(batch);
        let out = batch.lend(length);
        let answer = write(batch.expected(&out));
        arguments.extend([u64::from(order == Order::Msb).into(), out.into()]);
        batch.call(export, &arguments, &five(answer));
        batch.rest()?;
    }
    Ok(whole.is_accepted().then_some(written))
}
