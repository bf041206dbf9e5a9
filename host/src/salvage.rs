//! Salvage: what is sound of a damaged file, and which of its bytes are lost.

use crate::answer::Refusal;
use crate::call::{self, HAC_LENGTH, HAC_RANGE_NUMBERS, HAC_TUPLES};
use crate::field::told;
use crate::file::FILE_LIMIT;

/// Bytes of a file that stand together, all of them kept or all of them dropped.
#[derive(Clone, Copy, Debug, PartialEq, Eq)]
pub struct Range {
    /// They are kept: whole tuples, one behind the other.
    pub kept: bool,
    /// Where the first of them stands.
    pub from: usize,
    /// The place behind the last of them.
    pub to: usize,
}

impl Range {
    /// How many entries of a table tell a range: 1 for kept or 0 for dropped, the place of
    /// its first byte, the place behind its last.
    pub const NUMBERS: usize = HAC_RANGE_NUMBERS;

    /// How many bytes they are.
    pub const fn bytes(self) -> usize {
        self.to - self.from
    }

    /// The ranges that the entries of a table tell.
    fn all_of(table: &[usize]) -> Vec<Range> {
        let rows = table.chunks_exact(Range::NUMBERS).map(|row| Range {
            kept: row[call::HAC_RANGE_KEPT] != 0,
            from: row[call::HAC_RANGE_FROM],
            to: row[call::HAC_RANGE_TO],
        });
        rows.collect()
    }
}

/// What a salvage wrote into lent memory.
#[derive(Clone, Copy, Debug, PartialEq, Eq)]
pub struct Salvaged {
    /// How many tuples are kept.
    pub tuples: usize,
    /// How many bytes were written.
    pub length: usize,
    /// How many ranges there are, each of them [`Range::NUMBERS`] entries of the table.
    pub ranges: usize,
    /// At how many places below the file's length a tuple was looked for: at most a
    /// quarter of that length, and one.
    pub tried: usize,
}

/// Writes what is sound of a file into lent memory: the mark and the tuples that keep the
/// rules of their frame (3, 5, 3, 6) and, if their type is listed, their own (9, 8, 11, 23,
/// 24, 25), byte for byte; and into a table the ranges of kept and of dropped bytes, in
/// file order. Refuses by 1, 2; by 27 where the table has less than [`Range::NUMBERS`]
/// entries for each range; by 19; all of them at 0.
///
/// A tuple is looked for behind the mark and behind each tuple that is kept; where there
/// is none, 4 bytes further on. Nothing between tuples is judged, so that
/// [`crate::check`] may refuse what is written; and bytes that happen to look like a tuple
/// are kept.
pub fn salvage_into(file: &[u8], out: &mut [u8], table: &mut [usize]) -> Result<Salvaged, Refusal> {
    let answer = call::salvage(file, out, table)?;
    Ok(Salvaged {
        tuples: told(&answer, HAC_TUPLES),
        length: told(&answer, HAC_LENGTH),
        ranges: told(&answer, call::HAC_SALVAGE_RANGES),
        tried: told(&answer, call::HAC_SALVAGE_TRIED),
    })
}

/// What is sound of a file, and which of its bytes are lost.
#[derive(Clone, Debug, PartialEq, Eq)]
pub struct Salvage {
    /// The mark and the kept tuples, as they stand in the file.
    pub bytes: Vec<u8>,
    /// The ranges of kept and of dropped bytes in file order, by turns. Together they
    /// cover the bytes behind the mark once each.
    pub ranges: Vec<Range>,
    /// How many tuples are kept.
    pub tuples: usize,
    /// At how many places a tuple was looked for, as [`Salvaged`] has it.
    pub tried: usize,
}

impl Salvage {
    /// The ranges of dropped bytes; none where everything is kept.
    pub fn lost(&self) -> impl Iterator<Item = Range> + '_ {
        self.ranges.iter().copied().filter(|range| !range.kept)
    }
}

/// A file has no more ranges than one for each so many bytes, and one: of two neighbours
/// one is kept, 16 bytes at least, and one is dropped, 4 at least, or fewer where it is the
/// file's last.
const BYTES_A_RANGE: usize = 10;

/// What is sound of a file, in new memory that is just enough for it. Refuses as
/// [`salvage_into`] does, but never by 27 or 19.
///
/// ```
/// // A mark, four bytes of no tuple, and a navigation.
/// let mut file = vec![0; 36];
/// file[0] = 0xAC;
/// (file[8], file[12], file[32]) = (18, 30, 28);
/// let salvage = hac::salvage(&file)?;
/// assert_eq!(salvage.bytes, [&file[..4], &file[8..]].concat());
/// let lost: Vec<hac::Range> = salvage.lost().collect();
/// assert_eq!(lost, [hac::Range { kept: false, from: 4, to: 8 }]);
/// assert_eq!((salvage.tuples, salvage.tried), (1, 2));
/// # Ok::<(), hac::Refusal>(())
/// ```
pub fn salvage(file: &[u8]) -> Result<Salvage, Refusal> {
    let length = file.len().min(FILE_LIMIT);
    let mut bytes = vec![0; length];
    let mut table = vec![0; Range::NUMBERS * (length / BYTES_A_RANGE + 1)];
    let salvaged = salvage_into(file, &mut bytes, &mut table)?;
    bytes.truncate(salvaged.length);
    bytes.shrink_to_fit();
    Ok(Salvage {
        bytes,
        ranges: Range::all_of(&table[..Range::NUMBERS * salvaged.ranges]),
        tuples: salvaged.tuples,
        tried: salvaged.tried,
    })
}
