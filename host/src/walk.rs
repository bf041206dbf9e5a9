//! The walk: a state that a step takes and hands back, and iterators over it.

use crate::answer::{Code, Refusal};
use crate::call::{self, HAC_TUPLES};
use crate::field::told;
use crate::file::FIRST_PLACE;
use std::iter::FusedIterator;

/// Where a walk stands: any place of any file.
#[derive(Clone, Copy, Debug, PartialEq, Eq)]
pub struct Walk {
    /// The place.
    pub at: usize,
}

/// A tuple that a step found.
#[derive(Clone, Copy, Debug, PartialEq, Eq)]
pub struct Tuple {
    /// Where it starts.
    pub place: usize,
    /// Its whole length.
    pub length: usize,
    /// Its type code; [`crate::types`] has those of the listed types.
    pub kind: u16,
}

/// What one step yields.
#[derive(Clone, Copy, Debug, PartialEq, Eq)]
pub enum Step {
    /// A tuple, and the walk past it.
    Tuple {
        /// The tuple.
        tuple: Tuple,
        /// Where the walk goes on.
        next: Walk,
    },
    /// The end.
    End,
    /// A refusal at the step's place: 1, 2, 3, 5, 3, 6.
    Refused(Refusal),
}

impl Walk {
    /// Before a file's first tuple.
    pub const START: Walk = Walk { at: FIRST_PLACE };

    /// Behind a file's last tuple.
    pub const fn end(file: &[u8]) -> Walk {
        Walk { at: file.len() }
    }

    /// Steps over the tuple that starts here. The file's length is the end.
    pub fn forward(self, file: &[u8]) -> Step {
        step(call::forward(file, self.at))
    }

    /// Steps back over the tuple that ends here. Place 4 is the end.
    pub fn backward(self, file: &[u8]) -> Step {
        step(call::backward(file, self.at))
    }

    /// The tuples from here on. A refusal is the last item.
    pub fn forwards(self, file: &[u8]) -> Tuples<'_> {
        Tuples {
            file,
            step: Walk::forward,
            walk: Some(self),
        }
    }

    /// The tuples before here, the nearest first. A refusal is the last item.
    pub fn backwards(self, file: &[u8]) -> Tuples<'_> {
        Tuples {
            file,
            step: Walk::backward,
            walk: Some(self),
        }
    }
}

/// The tuple that starts at a place of a file. The end is refused by 3, as the readers refuse
/// it.
pub fn tuple_at(file: &[u8], place: usize) -> Result<Tuple, Refusal> {
    match (Walk { at: place }).forward(file) {
        Step::Tuple { tuple, .. } => Ok(tuple),
        Step::End => Err(Refusal {
            code: Code::CutShort,
            place,
        }),
        Step::Refused(refusal) => Err(refusal),
    }
}

fn step<const ENTRIES: usize>(answer: call::Answer<ENTRIES>) -> Step {
    let answer = match answer {
        Ok(answer) => answer,
        Err(refused) => return Step::Refused(refused.into()),
    };
    if answer[HAC_TUPLES] == 0 {
        return Step::End;
    }
    Step::Tuple {
        tuple: Tuple {
            place: told(&answer, call::HAC_STEP_PLACE),
            length: told(&answer, call::HAC_STEP_LENGTH),
            kind: told(&answer, call::HAC_STEP_TYPE),
        },
        next: Walk {
            at: told(&answer, call::HAC_STEP_NEXT),
        },
    }
}

/// The tuples of a walk; made by [`Walk::forwards`] and [`Walk::backwards`].
#[derive(Clone, Debug)]
pub struct Tuples<'a> {
    file: &'a [u8],
    step: fn(Walk, &[u8]) -> Step,
    /// None where the walk has ended.
    walk: Option<Walk>,
}

impl Iterator for Tuples<'_> {
    type Item = Result<Tuple, Refusal>;

    fn next(&mut self) -> Option<Self::Item> {
        match (self.step)(self.walk.take()?, self.file) {
            Step::Tuple { tuple, next } => {
                self.walk = Some(next);
                Some(Ok(tuple))
            }
            Step::End => None,
            Step::Refused(refusal) => Some(Err(refusal)),
        }
    }
}

impl FusedIterator for Tuples<'_> {}
