//! Corrections beside the deposit: a ping of either file, told by its channel and number.

use crate::answer::Refusal;
use crate::call::{self, Refused, HAC_LENGTH};
use crate::field::{told, SoftwareChannel};
use std::error::Error;
use std::fmt;

/// One of the two files.
#[derive(Clone, Copy, Debug, PartialEq, Eq, Hash)]
pub enum Source {
    /// The deposit.
    Deposit,
    /// The corrections beside it.
    Corrections,
}

impl Source {
    /// What the file is called.
    pub const fn name(self) -> &'static str {
        match self {
            Source::Deposit => "deposit",
            Source::Corrections => "corrections",
        }
    }

    /// The file of a mark; none of the mark of neither.
    fn of_mark(mark: u64) -> Option<Source> {
        match mark as usize {
            call::HAC_MARK_DEPOSIT => Some(Source::Deposit),
            call::HAC_MARK_CORRECTIONS => Some(Source::Corrections),
            _ => None,
        }
    }
}

impl fmt::Display for Source {
    fn fmt(&self, to: &mut fmt::Formatter<'_>) -> fmt::Result {
        to.write_str(self.name())
    }
}

/// A ping as it lies in one of the two files.
#[derive(Clone, Copy, Debug, PartialEq, Eq)]
pub struct Corrected<'a> {
    /// The file that it is from.
    pub from: Source,
    /// Where its tuple starts in that file.
    pub place: usize,
    /// The tuple's own bytes there, from its data size to its backlink.
    pub bytes: &'a [u8],
}

/// Why two files don't give a ping.
#[derive(Clone, Copy, Debug, PartialEq, Eq)]
pub struct NotFound {
    /// The file that is refused; none where both are accepted and neither holds the ping.
    pub whose: Option<Source>,
    /// That file's own refusal, as [`crate::check`] gives it; else 31 at 0.
    pub refusal: Refusal,
}

impl fmt::Display for NotFound {
    fn fmt(&self, to: &mut fmt::Formatter<'_>) -> fmt::Result {
        match self.whose {
            Some(source) => write!(to, "{source}: {}", self.refusal),
            None => self.refusal.fmt(to),
        }
    }
}

impl Error for NotFound {}

impl From<Refused> for NotFound {
    fn from(refused: Refused) -> NotFound {
        NotFound {
            whose: Source::of_mark(refused.mark),
            refusal: refused.refusal,
        }
    }
}

/// A file for [`corrected`] that corrects nothing, so that a deposit can be asked alone: the
/// check accepts it and there is no listed ping in it. Of each class that a file needs it
/// has the shortest tuple, of a type that isn't listed.
#[rustfmt::skip]
pub const NO_CORRECTIONS: &[u8] = &[
    // the mark of LSB order; signature, identifier 44204
    0xAC, 0, 0, 0,
    14, 0, 0, 0, 0xFF, 0xFF, 0xAC, 0xAC, 0, 0, 0, 0, 0, 0, 0, 0, 0, 0, 0, 0, 24, 0, 0, 0,
    // types 29, 999, 9999 and 10099: a position, a sounder, a channel and a ping by class
    6, 0, 0, 0, 0x1D, 0, 0, 0, 0, 0, 0, 0, 16, 0, 0, 0,
    6, 0, 0, 0, 0xE7, 0x03, 0, 0, 0, 0, 0, 0, 16, 0, 0, 0,
    6, 0, 0, 0, 0x0F, 0x27, 0, 0, 0, 0, 0, 0, 16, 0, 0, 0,
    6, 0, 0, 0, 0x73, 0x27, 0, 0, 0, 0, 0, 0, 16, 0, 0, 0,
    // end of file
    14, 0, 0, 0, 0xFE, 0xFF, 0, 0, 0, 0, 0, 0, 0, 0, 0, 0, 0, 0, 0, 0, 24, 0, 0, 0,
];

/// The ping of a channel and a ping number: the first listed ping of the corrections, in
/// file order, with this channel, this number and attribute 1; where they have none, the
/// first of the deposit with this channel and this number, whatever its attribute. Nothing
/// is copied: its bytes are handed back as they lie in the file that it is from.
///
/// Refuses as [`crate::check`] refuses the deposit, then as it refuses the corrections; then
/// by 31 at 0 where neither holds the ping. With [`NO_CORRECTIONS`] the deposit is asked
/// alone.
///
/// ```
/// use hac::{SoftwareChannel, Source};
///
/// // The sample cruise, and a copy in which the second ping of channel 3 is an edited one.
/// let deposit = std::fs::read("../samples/cruise-lsb.hac")?;
/// let channel = SoftwareChannel(3);
/// let ping = hac::corrected(&deposit, hac::NO_CORRECTIONS, channel, 2)?;
/// assert_eq!((ping.from, ping.place), (Source::Deposit, 1172));
/// let attribute = ping.place + ping.bytes.len() - 8;
/// let mut corrections = deposit.clone();
/// corrections[attribute] = 1;
///
/// let ping = hac::corrected(&deposit, &corrections, channel, 2)?;
/// assert_eq!(ping.from, Source::Corrections);
/// assert_eq!(hac::read_ping(&corrections, ping.place)?.attribute, 1);
/// assert_eq!(hac::corrected(&deposit, &corrections, channel, 1)?.from, Source::Deposit);
///
/// // No ping has the number 3, and neither file is refused for that.
/// let none = hac::corrected(&deposit, &corrections, channel, 3).unwrap_err();
/// assert_eq!(none.whose, None);
/// assert_eq!(none.to_string(), "31: neither file holds the ping, at 0");
/// # Ok::<(), Box<dyn std::error::Error>>(())
/// ```
pub fn corrected<'a>(
    deposit: &'a [u8],
    corrections: &'a [u8],
    channel: SoftwareChannel,
    number: u32,
) -> Result<Corrected<'a>, NotFound> {
    let answer = call::find_ping(deposit, corrections, channel.0, number)?;
    let mark = answer[call::HAC_FOUND_MARK];
    let from = Source::of_mark(mark).expect("the archive tells which file a ping is from");
    let file = match from {
        Source::Deposit => deposit,
        Source::Corrections => corrections,
    };
    let place = told(&answer, call::HAC_FOUND_PLACE);
    let length: usize = told(&answer, HAC_LENGTH);
    Ok(Corrected {
        from,
        place,
        bytes: &file[place..place + length],
    })
}
