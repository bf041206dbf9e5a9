//! Why a command ends before its end.

use crate::output::Broken;
use crate::verdict::Verdict;
use hac::Refusal;
use std::io;

pub enum Stop {
    Broken(Broken),
    /// Its input was refused.
    Refused(Refusal),
    /// What came of its input, where more than a refusal is known of it.
    Judged(Verdict),
    /// Its input couldn't be read.
    Unread(io::Error),
    /// What came of the input beside it.
    Beside(Verdict),
    /// Something else, in words.
    Fault(String),
}

impl From<Broken> for Stop {
    fn from(broken: Broken) -> Stop {
        Stop::Broken(broken)
    }
}

impl From<Refusal> for Stop {
    fn from(refusal: Refusal) -> Stop {
        Stop::Refused(refusal)
    }
}

impl From<String> for Stop {
    fn from(fault: String) -> Stop {
        Stop::Fault(fault)
    }
}

/// An error in reading the input; other errors are told in words.
impl From<io::Error> for Stop {
    fn from(error: io::Error) -> Stop {
        Stop::Unread(error)
    }
}
