//! The frame of a file and of its tuples: its length, its mark, the lengths that tuples
//! say, and where it ends.

use super::{step_at, Advice};
use crate::answer::Refusal;
use crate::file::{four_at, two_at, Order};
use crate::file::{AROUND, FILE_LIMIT, FIRST_PLACE, TUPLE_LEAST, TUPLE_LIMIT};
use crate::types;
use crate::walk::Step;

/// What is left to do where tuples are damaged.
const SALVAGE: &str = "hac salvage keeps what is sound";

/// In a tuple: its type; the bytes of its backlink.
const TYPE: usize = 4;
const BACKLINK: usize = 4;

/// How long it is isn't told, for whoever asks may have read no further than this.
pub fn over_limit(file: &[u8]) -> Option<Advice> {
    let words = format!("more than {FILE_LIMIT} bytes: split the recording");
    let is_over = file.len() > FILE_LIMIT;
    is_over.then(|| Advice::of(words).number("limit", FILE_LIMIT))
}

pub fn no_mark(file: &[u8], refusal: Refusal) -> Option<Advice> {
    let marks = [Order::Lsb, Order::Msb].map(Order::mark);
    let found = &file[..file.len().min(FIRST_PLACE)];
    if refusal.place != 0 || marks.iter().any(|mark| mark == found) {
        return None;
    }
    let words = match found.len() {
        FIRST_PLACE => {
            let [lsb, msb] = marks.map(|mark| digits(&mark));
            let found = digits(found);
            format!("begins with {found}, not with {lsb} or {msb}: no HAC recording")
        }
        few => format!(
            "{}, the mark alone has {FIRST_PLACE}: no HAC recording",
            bytes(few)
        ),
    };
    Some(Advice::of(words).text("found", digits(found)))
}

/// How many bytes something has.
fn bytes(count: usize) -> String {
    match count {
        1 => "1 byte".into(),
        _ => format!("{count} bytes"),
    }
}

/// Bytes in hexadecimal.
fn digits(bytes: &[u8]) -> String {
    let digits = bytes.iter().map(|byte| format!("{byte:02X}"));
    digits.collect::<Vec<_>>().join(" ")
}

/// Whether a walk comes to the place, and is refused there as it is said.
fn is_refused(file: &[u8], refusal: Refusal) -> bool {
    step_at(file, refusal.place, |_| ()) == Some(Step::Refused(refusal))
}

/// What the first bytes of a tuple say of it.
struct Said {
    kind: u16,
    length: usize,
}

impl Said {
    /// None where no walk is refused so.
    fn at(file: &[u8], refusal: Refusal) -> Option<Said> {
        if !is_refused(file, refusal) {
            return None;
        }
        let place = refusal.place;
        Some(Said {
            kind: two_at(file, place + TYPE)?,
            length: four_at(file, place)? as usize + AROUND,
        })
    }

    /// Words on it, with what it says.
    fn advice(&self, words: &str) -> Advice {
        let (name, length) = (types::called(self.kind), self.length);
        Advice::of(format!("{name} says {length} bytes, {words}"))
            .kind(self.kind)
            .number("length", length)
    }
}

pub fn cut_short(file: &[u8], refusal: Refusal) -> Option<Advice> {
    let left = file.len().checked_sub(refusal.place)?;
    if left < TUPLE_LEAST {
        let left_over = bytes(left);
        let words =
            format!("{left_over} left, a tuple has at least {TUPLE_LEAST}: cut short; {SALVAGE}");
        return is_refused(file, refusal).then(|| Advice::of(words).number("left", left));
    }
    let words = format!("{left} are left: cut short or damaged; {SALVAGE}");
    Some(Said::at(file, refusal)?.advice(&words).number("left", left))
}

/// Salvage would keep all of such a file, and help nobody.
pub fn no_end(file: &[u8], refusal: Refusal) -> Option<Advice> {
    let mut last = None;
    let step = step_at(file, refusal.place, |tuple| last = Some(tuple))?;
    match last {
        _ if step != Step::End => None,
        None => Some(Advice::of(
            "nothing but a mark: ask for the recording".into(),
        )),
        Some(last) if last.kind == types::FILE_END => None,
        Some(last) => {
            let (name, place) = (types::called(last.kind), last.place);
            let words = format!(
                "ends behind {name} at {place}, with no end of file: cut short, ask for all of it"
            );
            Some(
                Advice::of(words)
                    .kind(last.kind)
                    .number("last_place", place),
            )
        }
    }
}

pub fn bad_length(file: &[u8], refusal: Refusal) -> Option<Advice> {
    let allowed = format!("multiples of 4 from {TUPLE_LEAST} to {TUPLE_LIMIT}");
    let words = format!("allowed are {allowed}: damaged; {SALVAGE}");
    Some(Said::at(file, refusal)?.advice(&words))
}

pub fn bad_backlink(file: &[u8], refusal: Refusal) -> Option<Advice> {
    let said = Said::at(file, refusal)?;
    let backlink = four_at(file, refusal.place + said.length - BACKLINK)? as usize;
    let words = format!("its backlink {backlink}: damaged; {SALVAGE}");
    Some(said.advice(&words).number("backlink", backlink))
}

pub fn behind_end(file: &[u8], refusal: Refusal) -> Option<Advice> {
    let mut last = None;
    step_at(file, refusal.place, |tuple| last = Some(tuple))?;
    let end = last.filter(|last| last.kind == types::FILE_END)?.place;
    let behind = file.len() - refusal.place;
    let more = bytes(behind);
    let words = format!("{more} behind the end of file tuple at {end}: cut the file there");
    let is_more = behind > 0;
    is_more.then(|| {
        Advice::of(words)
            .number("end_place", end)
            .number("behind", behind)
    })
}
