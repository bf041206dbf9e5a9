//! The archive's calls made safe: slices in the place of pointers and lengths, and a
//! result in the place of a code. They are made from the declarations of
//! include/hac.h when this crate is built, each under its name there without the
//! prefix, and so are the numbers that its enums name. All unsafe code is in what is
//! made.
//!
//! Why it is sound. What include/hac.h asks of a caller holds for every call: a
//! slice's pointer is never null and has so many elements behind it as the slice is
//! long; what is lent to be written is borrowed for this call alone, so it overlaps
//! nothing else that is handed over, and the answer is an array that nobody else
//! has; and the archive keeps no pointer. Numbers may have any value.

use crate::answer::{Code, Refusal};

// Places and lengths are entries of an answer too, 64-bit numbers.
const _: () = assert!(usize::BITS == u64::BITS);

/// The entries that an accepted call answers with, or its refusal.
pub(crate) type Answer<const ENTRIES: usize> = Result<[u64; ENTRIES], Refused>;

/// A refusal, and the mark that a call which takes two files tells with it; 0 of all others.
pub(crate) struct Refused {
    pub refusal: Refusal,
    pub mark: u64,
}

impl From<Refused> for Refusal {
    fn from(refused: Refused) -> Refusal {
        refused.refusal
    }
}

/// Lends a call its answer and tells what it says.
fn answered<const ENTRIES: usize>(call: impl FnOnce(*mut u64, usize) -> u8) -> Answer<ENTRIES> {
    let mut answer = [0; ENTRIES];
    match call(answer.as_mut_ptr(), ENTRIES) {
        0 => Ok(answer),
        number => {
            let code = Code::of(number).expect("the archive gives the codes of 01 and 02 alone");
            let place = answer[HAC_PLACE] as usize;
            Err(Refused {
                refusal: Refusal { code, place },
                mark: answer.get(HAC_FOUND_MARK).copied().unwrap_or_default(),
            })
        }
    }
}

/// What is made: the declarations, a call each, and the numbers. A call that this crate
/// doesn't offer is an error.
#[deny(dead_code)]
mod made {
    use super::{answered, Answer};

    include!(concat!(env!("OUT_DIR"), "/calls.rs"));
}

pub(crate) use made::*;
