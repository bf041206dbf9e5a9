//! What is compared of salvage: what it answers, writes and leaves, lent just enough and
//! too little of either memory; what it makes of its own output; and what it met in a
//! file, so that nothing that can be is never there.

use crate::answers::reply_numbers;
use crate::batch::{Batch, File, ENTRY_FILLED};
use crate::exports::export;
use crate::tally::{Chapter, Given};
use second::kinds::KINDS;
use second::salvage::{kept_until, RANGE_NUMBERS};
use second::walk::{forward, Step, Tuple};
use second::{check, salvage, Answer, Order, PingKind, Reply, Salvaged};
use std::collections::BTreeSet;
use std::io;

/// What the export compared here can give.
pub const GIVEN: [Given; 1] = [Given::new("salvage", &[1, 2, 19, 27])];

/// The codes that a tuple is dropped for.
const DROPPED_FOR: [u32; 9] = [3, 5, 6, 8, 9, 11, 23, 24, 25];

/// The most bytes of a file in which it is looked at what was met.
const LARGE: usize = 1 << 20;

/// The place of the first tuple.
const FIRST: usize = 4;

/// So far apart lie the offsets of a dropped range.
const STEP: usize = 4;

/// Fewer bytes than these, a tuple's least and an offset's step, don't hold two ranges.
const TWO_RANGES: usize = 20;

/// Lent memory is longer than needed by so much: bytes, and entries.
const SPARE: usize = 9;
const SPARE_ENTRIES: usize = 5;

/// What is lent where nothing is written: up to so many bytes, and so many entries.
const REFUSED_LENGTHS: usize = 200;
const REFUSED_ENTRIES: usize = 7;

/// The bytes behind the mark in a row, as the table has them.
struct Range {
    kept: bool,
    from: usize,
    to: usize,
}

/// What the second program salvages of a file.
struct Whole {
    reply: Reply<Salvaged>,
    out: Vec<u8>,
    ranges: Vec<Range>,
}

impl Whole {
    fn of(file: &[u8]) -> Whole {
        let mut out = vec![0; file.len()];
        let mut table = vec![0; RANGE_NUMBERS * (2 * file.len() / TWO_RANGES + 2)];
        let reply = salvage(file, &mut out, &mut table);
        let (length, ranges) = match reply {
            Ok((answer, told)) => (answer.length as usize, told.ranges as usize),
            Err(_) => (0, 0),
        };
        out.truncate(length);
        let ranges = table.chunks_exact(RANGE_NUMBERS).take(ranges);
        let ranges = ranges.map(|range| Range {
            kept: range[0] == 1,
            from: range[1],
            to: range[2],
        });
        Whole {
            reply,
            out,
            ranges: ranges.collect(),
        }
    }

    /// The bytes and the entries that are lent, one after the other: just enough, more,
    /// one less of the one, of the other and of both, and none.
    fn lent(&self, file: &[u8]) -> Vec<(usize, usize)> {
        if self.reply.is_err() {
            let length = file.len() % REFUSED_LENGTHS;
            return vec![(length, REFUSED_ENTRIES), (0, 0)];
        }
        let (length, entries) = (self.out.len(), RANGE_NUMBERS * self.ranges.len());
        let mut lent = vec![
            (length, entries),
            (length + SPARE, entries + SPARE_ENTRIES),
            (length - 1, entries),
            (0, entries),
            (0, 0),
        ];
        if entries > 0 {
            lent.extend([(length, entries - 1), (length - 1, entries - 1)]);
        }
        lent
    }
}

/// Salvage of a file in lent memory of the lengths that are to be tried, and of what it
/// writes, where that is another file.
pub fn compare_salvage(batch: &mut Batch, file: &mut File) -> io::Result<()> {
    let whole = Whole::of(file.bytes);
    for (length, entries) in whole.lent(file.bytes) {
        salvage_into(batch, file, length, entries);
        batch.rest()?;
    }
    if let Ok((answer, told)) = whole.reply {
        hold(batch, file.bytes, &whole, (answer, told));
        if file.bytes.len() <= LARGE {
            note(batch, file.bytes, &whole.ranges);
        }
        if whole.out != file.bytes {
            again(batch, &whole.out, answer)?;
        }
    }
    Ok(())
}

fn salvage_into(batch: &mut Batch, file: &mut File, length: usize, entries: usize) {
    let given = batch.file(file);
    let out = batch.lend(length);
    let mut table = vec![ENTRY_FILLED; entries];
    let reply = salvage(file.bytes, batch.expected(&out), &mut table);
    let table = batch.lend_entries(&table);
    let numbers = reply_numbers(reply, |told| vec![told.ranges, told.tried]);
    batch.call(
        export("salvage"),
        &[given.into(), out.into(), table],
        &numbers,
    );
}

/// Never more offsets than a quarter of the file's bytes and one; an accepted file is
/// kept whole.
fn hold(batch: &mut Batch, file: &[u8], whole: &Whole, (answer, told): (Answer, Salvaged)) {
    if told.tried > file.len() as u64 / 4 + 1 {
        batch.differ("salvage tries more offsets than a quarter of the file's length and one");
    }
    let checked = check(file);
    if checked.is_accepted() && (checked.tuples != answer.tuples || whole.out != file) {
        batch.differ("salvage drops something of an accepted file");
    }
}

/// What was salvaged is kept whole, in one range or, of a mark alone, in none.
fn again(batch: &mut Batch, salvaged: &[u8], answer: Answer) -> io::Result<()> {
    let whole = Whole::of(salvaged);
    let kept = whole.reply.map(|(answer, _)| answer) == Ok(answer);
    if !kept || whole.ranges.len() > 1 || whole.out != salvaged {
        batch.differ("salvage drops something of what it kept");
    }
    let entries = RANGE_NUMBERS * whole.ranges.len();
    salvage_into(batch, &mut File::new(salvaged), salvaged.len(), entries);
    batch.rest()?;
    Ok(())
}

/// What a file's ranges can be as a whole.
const SHAPES: [&str; 6] = [
    "a mark alone",
    "a file kept whole",
    "a file of nothing to keep",
    "a dropped range first",
    "a dropped range between kept ones",
    "a dropped range last",
];

/// Pings one within another ask for much reading where they have so many times the file's
/// bytes and more.
const OFTEN: usize = 16;

/// A frame that agrees around something else that does.
const INSIDE: &str = "a tuple inside one that was dropped";

fn code_met(code: u32) -> String {
    format!("a range dropped for {code}")
}

fn left_over_met(bytes: usize) -> String {
    format!("{bytes} left over")
}

fn ping_met(kind: PingKind, order: Order, kept: bool) -> String {
    let what = if kept { "kept" } else { "dropped" };
    format!("{} {what} in order {order:?}", kind.row().name)
}

fn nested_met(kind: PingKind, order: Order) -> String {
    let name = kind.row().name;
    format!("{name} one within another, {OFTEN} times the file, in order {order:?}")
}

/// All that salvage has to meet.
pub fn wanted() -> Vec<String> {
    let shapes = SHAPES.iter().chain([&INSIDE]);
    let mut wanted: Vec<String> = shapes.map(ToString::to_string).collect();
    wanted.extend(DROPPED_FOR.map(code_met));
    wanted.extend((1..STEP).map(left_over_met));
    for row in &KINDS {
        for order in Order::BOTH {
            wanted.extend([true, false].map(|kept| ping_met(row.kind, order, kept)));
            wanted.push(nested_met(row.kind, order));
        }
    }
    wanted
}

/// Notes what salvage met in a file.
fn note(batch: &mut Batch, file: &[u8], ranges: &[Range]) {
    for shape in shapes(ranges) {
        batch.met_in(Chapter::Salvage, shape.to_string());
    }
    let left_over = file.len() % STEP;
    if left_over > 0 {
        batch.met_in(Chapter::Salvage, left_over_met(left_over));
    }
    note_nested(batch, file);
    // where the last tuple ends that is framed and yet dropped
    let mut framed = 0;
    for range in ranges {
        if !range.kept {
            framed = note_dropped(batch, file, range).max(framed);
            continue;
        }
        if range.from < framed {
            batch.met_in(Chapter::Salvage, INSIDE.to_string());
        }
        let mut at = range.from as u64;
        while at < range.to as u64 {
            let Some(tuple) = framed_at(file, at) else {
                break;
            };
            note_ping(batch, file, &tuple, true);
            at = tuple.end();
        }
    }
}

/// What the ranges are as a whole.
fn shapes(ranges: &[Range]) -> Vec<&'static str> {
    let [alone, kept, dropped, first, between, last] = SHAPES;
    match ranges {
        [] => vec![alone],
        [range] if range.kept => vec![kept],
        [_] => vec![dropped],
        [begin, inner @ .., end] => {
            let met = [
                (!begin.kept, first),
                (inner.iter().any(|range| !range.kept), between),
                (!end.kept, last),
            ];
            let met = met.into_iter().filter(|(met, _)| *met);
            met.map(|(_, shape)| shape).collect()
        }
    }
}

/// Notes what the tuples of a dropped range broke, each rule once. Gives where the last
/// framed one ends.
fn note_dropped(batch: &mut Batch, file: &[u8], range: &Range) -> usize {
    let mut framed = 0;
    let mut codes = BTreeSet::new();
    for at in (range.from..range.to).step_by(STEP) {
        let at = at as u64;
        if let Err(refusal) = kept_until(file, at) {
            codes.insert(refusal.code);
        }
        if let Some(tuple) = framed_at(file, at) {
            note_ping(batch, file, &tuple, false);
            framed = framed.max(tuple.end() as usize);
        }
    }
    for code in codes {
        batch.met_in(Chapter::Salvage, code_met(code));
    }
    framed
}

/// Notes the kinds of the pings that seem to start in a file, where they ask for much reading.
fn note_nested(batch: &mut Batch, file: &[u8]) {
    let Some(order) = Order::of(file) else {
        return;
    };
    let starts = (FIRST..file.len()).step_by(STEP);
    let pings = starts.filter_map(|at| {
        let tuple = framed_at(file, at as u64)?;
        let kind = PingKind::of(tuple.code)?;
        Some((kind, tuple.end() as usize - at))
    });
    let mut bytes = 0;
    let mut met = BTreeSet::new();
    for (kind, length) in pings {
        bytes += length;
        met.insert(nested_met(kind, order));
    }
    if OFTEN * file.len() < bytes {
        met.into_iter()
            .for_each(|what| batch.met_in(Chapter::Salvage, what));
    }
}

fn framed_at(file: &[u8], place: u64) -> Option<Tuple> {
    match forward(file, place) {
        Step::Tuple { tuple, .. } => Some(tuple),
        Step::End | Step::Refused(_) => None,
    }
}

fn note_ping(batch: &mut Batch, file: &[u8], tuple: &Tuple, kept: bool) {
    if let (Some(kind), Some(order)) = (PingKind::of(tuple.code), Order::of(file)) {
        batch.met_in(Chapter::Salvage, ping_met(kind, order, kept));
    }
}
