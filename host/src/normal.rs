//! The normal form of a file, and of one tuple.

use crate::answer::Refusal;
use crate::call;
use crate::edits::INDEX_ROOM;
use crate::file::{written_anew, Written};

/// A normal form that was written.
pub type Normal = Written;

/// Writes a file's normal form into lent memory. Just before its end of file stands an index
/// over its own tuples, as [`crate::index_into`] writes it. Refuses as [`crate::check`]
/// does; then by 18; 20, which counts the index too; 19.
pub fn normalise(file: &[u8], out: &mut [u8]) -> Result<Normal, Refusal> {
    Ok(Normal::of(call::normalise(file, out)?))
}

/// Writes the normal form of a mark and one tuple into lent memory: the mark
/// alone for a tuple of the index class, and no index. Refuses by 1, 2; 3, 5, 3, 6, 9, 8,
/// 11 at 4; 23, 24, 25 at their bytes; 15 for bytes behind the tuple; 18; 19.
pub fn normalise_tuple(file: &[u8], out: &mut [u8]) -> Result<Normal, Refusal> {
    Ok(Normal::of(call::normalise_tuple(file, out)?))
}

/// A normal form is, but for its index, less than so many times as long as its file: at the
/// most a word of a C-32 or C-16 ping becomes a pair, which has twice its bytes. A ping that
/// stays in words has no more than it had.
const GROWTH: usize = 2;

/// A file's normal form, in new memory that is just enough for it. Refuses as
/// [`normalise`] does, but never by 19.
pub fn normal_form(file: &[u8]) -> Result<Vec<u8>, Refusal> {
    let enough = file.len().saturating_mul(GROWTH);
    written_anew(enough.saturating_add(INDEX_ROOM), |out| {
        normalise(file, out)
    })
}
