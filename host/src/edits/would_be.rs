//! What a refusal of an edit is about. Nothing is written of a refused edit, so that the
//! file as it would be is put together here once more, for the words on it alone.

use super::{Edit, LIST, TAIL};
use crate::advice::{advice, Advice};
use crate::answer::{Code, Refusal};
use crate::file::{check, Order, AROUND, FILE_LIMIT, FIRST_PLACE};
use crate::types;
use crate::walk::{Tuple, Walk};
use std::collections::BTreeSet;

/// Which bytes a refusal of an edit is of.
#[derive(Clone, Copy, Debug, PartialEq, Eq)]
pub enum Judged {
    /// The file handed in; the place is one in it.
    File,
    /// The tuples handed in, which are over a file's limit by themselves.
    Tuples,
    /// The file as it would be; the place is one in that.
    WouldBe,
}

/// Whose a refusal of an edit is, by any code but 19, and what it is about.
pub fn edit_refused(file: &[u8], edit: Edit, refusal: Refusal) -> (Judged, Option<Advice>) {
    if check(file) == Err(refusal) {
        return (Judged::File, advice(file, refusal));
    }
    match edit {
        // a file that lacks a tuple divides into tuples all the same
        Edit::Remove(_) if refusal.code == Code::CutShort => (Judged::File, Some(no_tuple())),
        Edit::Append(tuples) if tuples.len() > FILE_LIMIT => {
            (Judged::Tuples, advice(tuples, refusal))
        }
        _ => (
            Judged::WouldBe,
            WouldBe::of(file, edit).advice(edit, refusal),
        ),
    }
}

fn no_tuple() -> Advice {
    Advice::of("no tuple starts there: hac walk tells where they do".into())
}

/// A file as an edit would leave it.
struct WouldBe {
    bytes: Vec<u8>,
    /// Which byte of what is appended the first is that belongs to no tuple, if one does.
    undivided: Option<usize>,
}

impl WouldBe {
    /// Of a file that the check accepts.
    fn of(file: &[u8], edit: Edit) -> WouldBe {
        let order = Order::of(file);
        let (mut tuples, _) = Framed::divided(file);
        match edit {
            Edit::Index => {}
            Edit::Remove(place) => tuples.retain(|tuple| tuple.place != place),
            Edit::Append(bytes) => {
                let appended = [&order.mark()[..], bytes].concat();
                return WouldBe::appended(order, tuples, &appended);
            }
        }
        WouldBe::whole(order, &tuples)
    }

    fn whole(order: Order, tuples: &[Framed]) -> WouldBe {
        WouldBe {
            bytes: with_index(order, &outside_index(tuples)),
            undivided: None,
        }
    }

    /// A mark and bytes: their tuples stand before the end of file. Where others are left
    /// nothing stands behind these.
    fn appended<'a>(order: Order, mut tuples: Vec<Framed<'a>>, appended: &'a [u8]) -> WouldBe {
        let end = tuples.len().saturating_sub(1);
        let (more, rest) = Framed::divided(appended);
        if rest == appended.len() {
            tuples.splice(end..end, more);
            return WouldBe::whole(order, &tuples);
        }
        tuples.truncate(end);
        tuples.extend(more);
        let divided = joined(order, &outside_index(&tuples));
        WouldBe {
            bytes: [&divided[..], &appended[rest..]].concat(),
            undivided: Some(rest - FIRST_PLACE),
        }
    }

    /// None where what was put together isn't refused so.
    fn advice(&self, edit: Edit, refusal: Refusal) -> Option<Advice> {
        if check(&self.bytes) != Err(refusal) {
            return None;
        }
        match (edit, refusal.code, self.undivided) {
            (Edit::Remove(_), Code::NoEnd, _) => Some(Advice::of(
                "a file keeps its end of file: remove another tuple".into(),
            )),
            (Edit::Append(_), Code::BehindEnd, _) => Some(Advice::of(
                "an end of file is appended, and the file has its own: leave it out".into(),
            )),
            (_, Code::CutShort | Code::BadLength | Code::BadBacklink, Some(at)) => {
                let words = format!("byte {at} of what is appended: no tuple of the file's order");
                Some(Advice::of(words).number("appended_place", at))
            }
            _ => advice(&self.bytes, refusal),
        }
    }
}

/// A tuple, and its bytes.
#[derive(Clone, Copy)]
struct Framed<'a> {
    place: usize,
    kind: u16,
    bytes: &'a [u8],
}

impl Framed<'_> {
    /// The tuples that bytes behind a mark divide into, and where the first byte stands that
    /// belongs to none.
    fn divided(file: &[u8]) -> (Vec<Framed<'_>>, usize) {
        let tuples = Walk::START.forwards(file).map_while(Result::ok);
        let mut rest = FIRST_PLACE;
        let tuples = tuples.map(
            |Tuple {
                 place,
                 length,
                 kind,
             }| {
                rest = place + length;
                let bytes = &file[place..rest];
                Framed { place, kind, bytes }
            },
        );
        (tuples.collect(), rest)
    }
}

fn outside_index<'a>(tuples: &[Framed<'a>]) -> Vec<Framed<'a>> {
    let is_outside = |tuple: &&Framed| !types::INDEX.contains(&tuple.kind);
    tuples.iter().filter(is_outside).copied().collect()
}

/// A mark and tuples.
fn joined(order: Order, tuples: &[Framed]) -> Vec<u8> {
    let bytes: Vec<&[u8]> = tuples.iter().map(|tuple| tuple.bytes).collect();
    [&order.mark()[..], &bytes.concat()].concat()
}

/// A mark and tuples, with their index just before the end of file, or behind them all.
fn with_index(order: Order, tuples: &[Framed]) -> Vec<u8> {
    let kinds: BTreeSet<u16> = tuples.iter().map(|tuple| tuple.kind).collect();
    let index = index_of(order, &kinds);
    let (last, before) = match tuples.split_last() {
        Some((last, before)) if last.kind == types::FILE_END => (last.bytes, before),
        _ => (&[][..], tuples),
    };
    [&joined(order, before)[..], &index, last].concat()
}

/// The Index 1 tuple of these types.
fn index_of(order: Order, kinds: &BTreeSet<u16>) -> Vec<u8> {
    let list = 2 * kinds.len().next_multiple_of(2);
    let length = (LIST + list + TAIL) as u32;
    let mut index = order.four_bytes(length - AROUND as u32).to_vec();
    index.extend(order.two_bytes(types::INDEX_1));
    index.resize(LIST, 0);
    index.extend(kinds.iter().flat_map(|kind| order.two_bytes(*kind)));
    // the space, where there is one, and the attribute
    index.resize(LIST + list + TAIL / 2, 0);
    index.extend(order.four_bytes(length));
    index
}
