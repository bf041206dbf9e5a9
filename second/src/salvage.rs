//! Request g of 02: what a damaged recording still holds.

use crate::answer::{Answer, Reply};
use crate::check::judge_samples;
use crate::records::listed_tuple;
use crate::walk::mark;

/// What a range takes in the table: whether it is kept, its first byte, and the one
/// behind its last.
pub const RANGE_NUMBERS: usize = 3;

/// The first offset, which is behind the mark, and how far behind one that fails the
/// next is.
const FIRST: usize = 4;
const STEP: usize = 4;

/// What salvage tells besides its answer.
#[derive(Clone, Copy, PartialEq, Eq, Debug)]
pub struct Salvaged {
    /// How many ranges the table got.
    pub ranges: u64,
    /// At how many offsets a tuple was looked for.
    pub tried: u64,
}

/// Neighbouring bytes, all kept or all dropped.
#[derive(Clone, Copy)]
struct Range {
    kept: bool,
    from: usize,
    to: usize,
}

/// What was found in a file: its ranges in order, their kinds by turns.
#[derive(Default)]
struct Report {
    ranges: Vec<Range>,
    tuples: u64,
    tried: u64,
}

impl Report {
    /// Goes over the file once, from offset to offset.
    fn of(file: &[u8]) -> Report {
        let mut report = Report::default();
        let mut place = FIRST;
        while place < file.len() {
            report.tried += 1;
            let end = kept_until(file, place as u64).map(|end| end as usize);
            report.tuples += u64::from(end.is_ok());
            // Less than a step may be left; it belongs to what is dropped.
            let to = end.unwrap_or(file.len().min(place + STEP));
            report.add(Range {
                kept: end.is_ok(),
                from: place,
                to,
            });
            place = to;
        }
        report
    }

    /// Takes in what lies behind all ranges so far; joins it to the last where both are
    /// of one kind.
    fn add(&mut self, range: Range) {
        match self.ranges.last_mut() {
            Some(last) if last.kept == range.kept => last.to = range.to,
            _ => self.ranges.push(range),
        }
    }

    fn kept(&self) -> impl Iterator<Item = &Range> {
        self.ranges.iter().filter(|range| range.kept)
    }

    /// The output's bytes, the mark's among them.
    fn length(&self) -> usize {
        FIRST
            + self
                .kept()
                .map(|range| range.to - range.from)
                .sum::<usize>()
    }

    /// Writes the mark and what is kept, in memory of just that length.
    fn put_kept(&self, file: &[u8], out: &mut [u8]) {
        let (before, mut rest) = out.split_at_mut(FIRST);
        before.copy_from_slice(&file[..FIRST]);
        for range in self.kept() {
            let bytes = &file[range.from..range.to];
            let (here, behind) = rest.split_at_mut(bytes.len());
            here.copy_from_slice(bytes);
            rest = behind;
        }
    }

    /// Writes the ranges, in a table of just as many entries.
    fn put_ranges(&self, table: &mut [usize]) {
        for (entries, range) in table.chunks_exact_mut(RANGE_NUMBERS).zip(&self.ranges) {
            entries.copy_from_slice(&[usize::from(range.kept), range.from, range.to]);
        }
    }
}

/// Where the tuple at an offset ends, if it is kept: it keeps the rules of its frame and,
/// where its type is listed, its own. Else the first of them that it breaks: 3, 5, 3, 6,
/// 9, 8, 11, 23 to 25. What stands around it is nobody's concern.
pub fn kept_until(file: &[u8], place: u64) -> Result<u64, Answer> {
    let (tuple, code, order) = listed_tuple(file, place, |_| true)?;
    judge_samples(tuple, code, order).map_err(|fault| fault.at(place))?;
    Ok(place + tuple.len() as u64)
}

/// Keeps each sound tuple of a damaged file: writes the mark and these to `out`, and to
/// the table three numbers for each range of bytes behind the mark, kept (1) or dropped
/// (0), from, to.
///
/// Accepts with the tuples kept and the bytes written. Refuses by 1, 2, 27 where the
/// table is too short for all ranges and 19 where `out` is too short, each at 0; then
/// nothing is altered. Success leaves what lies past what is written, in both.
pub fn salvage(file: &[u8], out: &mut [u8], table: &mut [usize]) -> Reply<Salvaged> {
    mark(file).map_err(|code| Answer::refused(code, 0))?;
    let report = Report::of(file);
    let (ranges, length) = (report.ranges.len(), report.length());
    let table = table.get_mut(..RANGE_NUMBERS * ranges);
    let table = table.ok_or(Answer::refused(27, 0))?;
    let out = out.get_mut(..length).ok_or(Answer::refused(19, 0))?;
    report.put_kept(file, out);
    report.put_ranges(table);
    let salvaged = Salvaged {
        ranges: ranges as u64,
        tried: report.tried,
    };
    Ok((Answer::accepted(report.tuples, length as u64), salvaged))
}
