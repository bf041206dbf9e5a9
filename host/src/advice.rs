//! What a refusal is about, in plain words, and what can be done about it.

mod echoes;
mod frames;
mod links;
mod tuples;

use crate::answer::{Code, Refusal};
use crate::types;
use crate::walk::{Step, Tuple, Walk};
use crate::wrong::{wrong_sample, SampleFault, WrongSample};
use std::fmt;

/// What a refusal is about.
#[derive(Clone, Debug, PartialEq, Eq)]
pub struct Advice {
    /// One line of plain words.
    pub words: String,
    /// What the words tell, by name and in their order.
    pub facts: Vec<(&'static str, Fact)>,
}

/// Something that is told of a file.
#[derive(Clone, Debug, PartialEq, Eq)]
pub enum Fact {
    /// A type, an identifier, a place, a length or a number of something.
    Number(usize),
    /// A name, or bytes.
    Text(String),
}

/// What a refusal of a whole file is about: one by [`crate::check`], by a call that refuses
/// as it does, or by 18. The file is walked once more, up to the place (for 17 to its end),
/// and everything told is read from it. None for refusals by other codes, and where what is
/// found there isn't what the refusal says.
///
/// ```
/// // A mark, and the first 20 bytes of a navigation tuple, which has 28.
/// let mut file = [0; 24];
/// (file[0], file[4], file[8]) = (0xAC, 18, 30);
/// let refusal = hac::check(&file).unwrap_err();
/// let advice = hac::advice(&file, refusal).unwrap();
/// assert!(advice.words.starts_with("navigation says 28 bytes, 20 are left: "));
/// assert_eq!(advice.facts[3], ("left", hac::Fact::Number(20)));
/// ```
pub fn advice(file: &[u8], refusal: Refusal) -> Option<Advice> {
    match refusal.code {
        Code::OverLimit => frames::over_limit(file),
        Code::NoMark => frames::no_mark(file, refusal),
        Code::CutShort => frames::cut_short(file, refusal),
        Code::NoEnd => frames::no_end(file, refusal),
        Code::BadLength => frames::bad_length(file, refusal),
        Code::BadBacklink => frames::bad_backlink(file, refusal),
        Code::BehindEnd => frames::behind_end(file, refusal),
        Code::MisplacedSignature => tuples::misplaced_signature(file, refusal),
        Code::UnknownIdentifier => tuples::unknown_identifier(file, refusal),
        Code::Unfit => tuples::unfit(file, refusal),
        Code::Overfull => tuples::overfull(file, refusal),
        Code::Unturnable => tuples::unturnable(file, refusal),
        Code::ClassAbsent => tuples::class_absent(file, refusal),
        Code::DeclaredTwice => links::declared_twice(file, refusal),
        Code::NoParent => links::no_parent(file, refusal),
        Code::TooMany => links::too_many(file, refusal),
        Code::WrongCount => links::wrong_count(file, refusal),
        Code::NotRising | Code::BadWord | Code::Miscounted => {
            wrong_sample(file, Walk::START, refusal).map(Advice::from)
        }
        _ => None,
    }
}

/// What a refusal is about that a call gives which is handed the place of a ping: of
/// [`crate::energy()`] by 28 and 29, of [`crate::readings()`] by 30; all others as [`advice`]
/// tells them. None where what is found there isn't what the refusal says.
///
/// ```
/// // The sample of all encodings: a ping of angles has no readings.
/// let file = std::fs::read("../samples/encodings-normal.hac")?;
/// let refusal = hac::readings(&file, 944, 0, 1).unwrap_err();
/// let advice = hac::ping_advice(&file, 944, refusal).unwrap();
/// assert_eq!(advice.words, "ping U-16-angles has angles, not volts, Sv or TS");
/// # Ok::<(), std::io::Error>(())
/// ```
pub fn ping_advice(file: &[u8], place: usize, refusal: Refusal) -> Option<Advice> {
    match refusal.code {
        Code::NotSv => echoes::not_sv(file, place, refusal),
        Code::OutsideLevels => echoes::outside_levels(file, place, refusal),
        Code::NoReading => echoes::no_reading(file, place, refusal),
        _ => advice(file, refusal),
    }
}

/// Walks a file up to a place, past the tuples before it, and steps there; none where the
/// walk doesn't come to it.
fn step_at(file: &[u8], place: usize, mut pass: impl FnMut(Tuple)) -> Option<Step> {
    let mut walk = Walk::START;
    loop {
        let step = walk.forward(file);
        if walk.at == place {
            return Some(step);
        }
        match step {
            Step::Tuple { tuple, next } if next.at <= place => {
                pass(tuple);
                walk = next;
            }
            _ => return None,
        }
    }
}

/// The tuple at a place that a walk comes to, past those before it.
fn tuple_at(file: &[u8], place: usize, pass: impl FnMut(Tuple)) -> Option<Tuple> {
    match step_at(file, place, pass)? {
        Step::Tuple { tuple, .. } => Some(tuple),
        Step::End | Step::Refused(_) => None,
    }
}

impl Advice {
    pub(crate) fn of(words: String) -> Advice {
        Advice {
            words,
            facts: Vec::new(),
        }
    }

    pub(crate) fn number(mut self, name: &'static str, number: usize) -> Advice {
        self.facts.push((name, Fact::Number(number)));
        self
    }

    fn text(mut self, name: &'static str, text: impl Into<String>) -> Advice {
        self.facts.push((name, Fact::Text(text.into())));
        self
    }

    /// The type that a tuple has, and its name.
    fn kind(self, kind: u16) -> Advice {
        self.number("type", kind.into())
            .text("name", types::name(kind))
    }
}

impl From<WrongSample> for Advice {
    fn from(wrong: WrongSample) -> Advice {
        let advice = Advice::of(wrong.to_string()).number("ping_place", wrong.ping_place);
        match wrong.fault {
            SampleFault::NotRising {
                pair,
                number,
                before,
            } => advice
                .number("pair", pair)
                .number("number", number as usize)
                .number("before", before as usize),
            SampleFault::BadWord {
                word,
                number,
                pattern,
                bytes: _,
            } => advice
                .number("word", word)
                .number("number", number as usize)
                .number("pattern", pattern as usize),
            SampleFault::Miscounted { said, found } => {
                advice.number("said", said as usize).number("found", found)
            }
        }
    }
}

impl fmt::Display for Advice {
    fn fmt(&self, to: &mut fmt::Formatter<'_>) -> fmt::Result {
        to.write_str(&self.words)
    }
}
