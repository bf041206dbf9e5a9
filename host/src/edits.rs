//! An index that stays true: it is written into a file, tuples are appended, one is
//! removed.

mod would_be;

use crate::answer::Refusal;
use crate::call;
use crate::file::{two_at, written_anew, Written};
use crate::types;
use crate::walk::Tuple;

pub use would_be::*;

/// More than any index has that is written: so many bytes are lent beside those of a file
/// and of what is appended.
pub const INDEX_ROOM: usize = 131_092;

/// Where the list of an index begins, from the tuple's first byte; and what stands behind
/// it, attribute and backlink.
const LIST: usize = call::HAC_INDEX_LIST;
const TAIL: usize = 8;

/// Writes a file with its index into lent memory: the mark; the tuples outside the index
/// class in their order, byte for byte; just before the end of file one Index 1 tuple (TR
/// Table 14) that holds each type of these once, ascending. Any other field of it is 0. It
/// is in the file's byte order, and no content. Refuses as [`crate::check`] does; then by 1
/// at 0 where the file to be written would be over the limit; then by 19 at 0.
/// [`INDEX_ROOM`] says how much to lend.
pub fn index_into(file: &[u8], out: &mut [u8]) -> Result<Written, Refusal> {
    Ok(Written::of(call::index(file, out)?))
}

/// Writes a file as [`index_into`] does, with more tuples before its end of file: framed,
/// in the file's byte order and without a mark. Those of the index class are dropped.
///
/// Refuses as [`crate::check`] refuses the file; by 1 at 0 for tuples that are over a
/// file's limit by themselves; then by the code and the place that the check would give the
/// file to be written, 1 at 0 where that would be over the limit; then by 19 at 0. An end of
/// file that is appended stands before the index, so that 15 stands behind it. Where bytes
/// are left that are no tuple they are judged behind those before them, with nothing behind
/// them.
pub fn append_into(file: &[u8], tuples: &[u8], out: &mut [u8]) -> Result<Written, Refusal> {
    Ok(Written::of(call::append(file, tuples, out)?))
}

/// Writes a file as [`index_into`] does, without the tuple that starts at a place; that may
/// be one of the index class.
///
/// Refuses as [`crate::check`] refuses the file; by 3 at the place where no tuple starts
/// there; then by the code and the place that the check would give the file to be written,
/// 4 at its length where that would have no end of file; then by 19 at 0.
pub fn remove_into(file: &[u8], place: usize, out: &mut [u8]) -> Result<Written, Refusal> {
    Ok(Written::of(call::remove(file, place, out)?))
}

/// What is done to a file before its index is written.
#[derive(Clone, Copy, Debug, PartialEq, Eq)]
pub enum Edit<'a> {
    /// Nothing else.
    Index,
    /// Framed tuples come before its end of file.
    Append(&'a [u8]),
    /// The tuple that starts at a place goes.
    Remove(usize),
}

impl Edit<'_> {
    /// The bytes that may come to those of the file.
    fn added(self) -> usize {
        match self {
            Edit::Index | Edit::Remove(_) => 0,
            Edit::Append(tuples) => tuples.len(),
        }
    }

    /// Writes the edited file into lent memory, as [`index_into`], [`append_into`] and
    /// [`remove_into`] do.
    pub fn edit_into(self, file: &[u8], out: &mut [u8]) -> Result<Written, Refusal> {
        match self {
            Edit::Index => index_into(file, out),
            Edit::Append(tuples) => append_into(file, tuples, out),
            Edit::Remove(place) => remove_into(file, place, out),
        }
    }

    /// The edited file, in new memory that is just enough for it. Refuses as the calls
    /// into lent memory do, but never by 19.
    pub fn edit(self, file: &[u8]) -> Result<Vec<u8>, Refusal> {
        let room = file.len().saturating_add(self.added());
        let room = room.saturating_add(INDEX_ROOM);
        written_anew(room, |out| self.edit_into(file, out))
    }
}

/// A file with its index, in new memory. Refuses as [`index_into`] does, but never by 19.
///
/// ```
/// // The sample cruise: the tuple before the end of file lists the types.
/// let indexed = hac::index(&std::fs::read("../samples/cruise-lsb.hac")?)?;
/// let last = hac::Walk::end(&indexed).backwards(&indexed).nth(1).unwrap()?;
/// let types = hac::indexed_types(&indexed, last).unwrap();
/// assert_eq!(types[..2], [hac::Position::CODE, hac::Navigation::CODE]);
/// assert_eq!(hac::index(&indexed)?, indexed);
/// # Ok::<(), Box<dyn std::error::Error>>(())
/// ```
pub fn index(file: &[u8]) -> Result<Vec<u8>, Refusal> {
    Edit::Index.edit(file)
}

/// A file with more tuples before its end of file, and its index, in new memory. Refuses as
/// [`append_into`] does, but never by 19.
///
/// ```
/// // One more navigation, and the same removed again.
/// let file = std::fs::read("../samples/cruise-lsb.hac")?;
/// let mut tuple = [0; 28];
/// hac::Navigation::default().write(hac::Order::Lsb, &mut tuple)?;
/// let appended = hac::append(&file, &tuple)?;
/// let index = hac::Walk::end(&appended).backwards(&appended).nth(1).unwrap()?;
/// let removed = hac::remove(&appended, index.place - tuple.len())?;
/// assert_eq!(removed, hac::index(&file)?);
/// # Ok::<(), Box<dyn std::error::Error>>(())
/// ```
pub fn append(file: &[u8], tuples: &[u8]) -> Result<Vec<u8>, Refusal> {
    Edit::Append(tuples).edit(file)
}

/// A file without the tuple at a place, and its index, in new memory. Refuses as
/// [`remove_into`] does, but never by 19.
pub fn remove(file: &[u8], place: usize) -> Result<Vec<u8>, Refusal> {
    Edit::Remove(place).edit(file)
}

/// The types that an Index 1 tuple of a file lists, as it has them; none of any other tuple.
/// A 0 behind them is the space that an odd number of types has: no list that rises ends in
/// it, but that of type 0 alone, which has the space too.
pub fn indexed_types(file: &[u8], tuple: Tuple) -> Option<Vec<u16>> {
    if tuple.kind != types::INDEX_1 {
        return None;
    }
    let list = tuple.place + LIST..(tuple.place + tuple.length).saturating_sub(TAIL);
    let mut listed: Vec<u16> = list
        .step_by(2)
        .map_while(|place| two_at(file, place))
        .collect();
    if listed.last() == Some(&0) {
        listed.pop();
    }
    Some(listed)
}
