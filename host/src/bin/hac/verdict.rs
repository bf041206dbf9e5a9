//! What is said of a file, and how the program ends by it.

use crate::input::Input;
use crate::json::Object;
use hac::{Advice, Counts, Fact, Refusal};
use std::fmt;
use std::io;

/// The exit status. Of many files the worst counts; what is salvaged is one.
#[derive(Clone, Copy, Debug, PartialEq, Eq, PartialOrd, Ord)]
pub enum Status {
    Accepted = 0,
    /// Refused; of `hac same`, two that are the same.
    Refused = 1,
    /// Not a file, or bad use.
    Unread = 2,
    /// Salvaged, but not all of it.
    Lost = 3,
}

pub enum Verdict {
    /// Accepted, with what was counted in it.
    Accepted(Counts),
    /// Refused, and what the refusal is about, where more can be told of it.
    Refused(Refusal, Option<Advice>),
    /// An edit of it refused: the file as it would be is judged, and the place is one in
    /// that.
    WouldBe(Refusal, Option<Advice>),
    /// Not read, and why.
    Unread(String),
}

impl Verdict {
    /// What the check says of a file.
    pub fn of(file: &[u8]) -> Verdict {
        hac::check(file).map_or_else(|refusal| Verdict::refused(file, refusal), Verdict::Accepted)
    }

    /// The refusal of a whole file, which is walked once more to tell what it is about.
    pub fn refused(file: &[u8], refusal: Refusal) -> Verdict {
        Verdict::Refused(refusal, hac::advice(file, refusal))
    }

    pub fn status(&self) -> Status {
        match self {
            Verdict::Accepted(_) => Status::Accepted,
            Verdict::Refused(..) | Verdict::WouldBe(..) => Status::Refused,
            Verdict::Unread(_) => Status::Unread,
        }
    }

    /// The verdict on an input, as an object.
    pub fn object(&self, input: &Input) -> Object {
        self.told(Object::default().name("file", input.name()))
    }

    /// An object that also tells the verdict.
    pub fn told(&self, object: Object) -> Object {
        match self {
            Verdict::Accepted(Counts { tuples, compared }) => object
                .text("outcome", "accepted")
                .number("tuples", *tuples)
                .number("compared", *compared),
            Verdict::Refused(refusal, advice) => {
                with_refusal(object.text("outcome", "refused"), *refusal, advice)
            }
            Verdict::WouldBe(refusal, advice) => {
                let object = object.text("outcome", "refused");
                with_refusal(object.text("judged", "as it would be"), *refusal, advice)
            }
            Verdict::Unread(why) => object.text("outcome", "unread").text("error", why),
        }
    }
}

/// An object that also tells a refusal.
fn with_refusal(
    object: Object,
    Refusal { code, place }: Refusal,
    advice: &Option<Advice>,
) -> Object {
    let object = object
        .number("code", code.number())
        .text("words", code.words())
        .number("place", place);
    match advice {
        Some(advice) => with_advice(object, advice),
        None => object,
    }
}

/// An object that also tells what a refusal is about: each thing by its name, then in words.
pub fn with_advice(object: Object, advice: &Advice) -> Object {
    let facts = advice.facts.iter();
    let object = facts.fold(object, |object, (name, fact)| match fact {
        Fact::Number(number) => object.number(name, *number),
        Fact::Text(text) => object.text(name, text),
    });
    object.text("advice", &advice.words)
}

impl fmt::Display for Verdict {
    fn fmt(&self, to: &mut fmt::Formatter<'_>) -> fmt::Result {
        match self {
            Verdict::Accepted(Counts { tuples, compared }) => write!(
                to,
                "accepted, {tuples} tuples, {compared} identifiers compared"
            ),
            Verdict::Refused(refusal, advice) => write!(to, "refused, {}", Told(refusal, advice)),
            Verdict::WouldBe(refusal, advice) => write!(
                to,
                "refused in the file as it would be, {}",
                Told(refusal, advice)
            ),
            Verdict::Unread(why) => to.write_str(why),
        }
    }
}

/// A refusal, and what it is about.
struct Told<'a>(&'a Refusal, &'a Option<Advice>);

impl fmt::Display for Told<'_> {
    fn fmt(&self, to: &mut fmt::Formatter<'_>) -> fmt::Result {
        let Told(refusal, advice) = self;
        refusal.fmt(to)?;
        match advice {
            Some(advice) => write!(to, ": {advice}"),
            None => Ok(()),
        }
    }
}

impl From<io::Error> for Verdict {
    fn from(error: io::Error) -> Verdict {
        Verdict::Unread(error.to_string())
    }
}
