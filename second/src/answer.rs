//! Chapter "What intake says": the answer.

/// A code, a place, a number of tuples, a length written and, by request m of
/// 02, a number of identifiers compared.
#[derive(Clone, Copy, PartialEq, Eq, Debug)]
pub struct Answer {
    pub code: u32,
    pub place: u64,
    pub tuples: u64,
    pub length: u64,
    /// While linking the file handed in, where the call checks a whole file.
    pub compared: u64,
}

impl Answer {
    /// Acceptance by a call that checks no whole file: code 0 and place 0.
    pub const fn accepted(tuples: u64, length: u64) -> Answer {
        Answer::checked(tuples, length, 0)
    }

    /// Acceptance by a call that checks a whole file.
    pub const fn checked(tuples: u64, length: u64, compared: u64) -> Answer {
        Answer {
            code: 0,
            place: 0,
            tuples,
            length,
            compared,
        }
    }

    /// A refusal: no tuples, no length and nothing compared.
    pub const fn refused(code: u32, place: u64) -> Answer {
        Answer {
            code,
            place,
            tuples: 0,
            length: 0,
            compared: 0,
        }
    }

    pub const fn is_accepted(&self) -> bool {
        self.code == 0
    }
}

/// What a tuple is refused for: a code, and how far behind the tuple's first
/// byte the place lies.
#[derive(Clone, Copy, PartialEq, Eq, Debug)]
pub(crate) struct Fault {
    code: u32,
    offset: usize,
}

impl Fault {
    pub fn new(code: u32, offset: usize) -> Fault {
        Fault { code, offset }
    }

    /// The refusal, where the tuple lies in a file at this place.
    pub fn at(self, tuple: u64) -> Answer {
        Answer::refused(self.code, tuple + self.offset as u64)
    }
}

/// All but 23, 24 and 25 have the tuple's own place.
impl From<u32> for Fault {
    fn from(code: u32) -> Fault {
        Fault::new(code, 0)
    }
}

/// What a reader gives: the acceptance with what was read, or the refusal.
pub type Reply<T> = Result<(Answer, T), Answer>;
