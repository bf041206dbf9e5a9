//! Which sample of a ping a refusal is about.

use crate::answer::{Code, Refusal};
use crate::file::{four_at, two_at};
use crate::ping::{read_ping, PingKind};
use crate::walk::{Tuple, Walk};
use std::fmt;

/// What is wrong with the samples of a ping.
#[derive(Clone, Copy, Debug, PartialEq, Eq)]
pub struct WrongSample {
    /// Where the ping starts.
    pub ping_place: usize,
    /// What is wrong, and with which of them.
    pub fault: SampleFault,
}

/// What is wrong with a ping's samples: the first offender, its place in the ping
/// counted from 0.
#[derive(Clone, Copy, Debug, PartialEq, Eq)]
pub enum SampleFault {
    /// 23: the number of a pair isn't above the one before it. A pair is a sample number
    /// with its value, or with its two angles.
    NotRising {
        /// The pair's place among the pairs.
        pair: usize,
        /// Its sample number.
        number: u32,
        /// The sample number of the pair before it.
        before: u32,
    },
    /// 24: a word is outside the limits.
    BadWord {
        /// The word's place among the words.
        word: usize,
        /// The number of the sample that it is, runs counted.
        number: u32,
        /// Its bits.
        pattern: u32,
        /// How many bytes they are: 4 of C-32, 2 of C-16 and CE-16.
        bytes: usize,
    },
    /// 25: the number of samples isn't that of the values.
    Miscounted {
        /// The number of samples, as the ping has it.
        said: u32,
        /// How many of its words are no runs.
        found: usize,
    },
}

/// Places in a ping: its pairs, or its words, and what stands behind them, which
/// is the attribute and the backlink.
const PAIRS: usize = 24;
const WORDS: usize = 28;
const BEHIND: usize = 8;

/// How a ping stores its samples.
#[derive(Clone, Copy)]
struct Stored<'a> {
    file: &'a [u8],
    ping: Tuple,
    /// The bytes of a sample number, or of a word.
    width: usize,
    /// The bytes from one to the next.
    step: usize,
}

/// Which sample of a file a refusal by 23, 24 or 25 is about. Its ping is looked
/// for by steps forward: from [`Walk::START`] for a refusal of the whole file,
/// from the ping's own place for a reader's. None for refusals by other codes, and
/// for one that a ping found there isn't given.
///
/// ```
/// use hac::{SampleFault, Walk};
///
/// // A mark and a U-32 ping whose sample numbers are 2 and 2.
/// let mut file = vec![0; 60];
/// file[0] = 0xAC;
/// file[4..10].copy_from_slice(&[0x2E, 0, 0, 0, 0x10, 0x27]);
/// (file[28], file[36], file[56]) = (2, 2, 0x38);
/// let refusal = hac::read_ping(&file, 4).unwrap_err();
/// assert_eq!(refusal.to_string(), "23: sample number not rising, at 36");
/// let wrong = hac::wrong_sample(&file, Walk::START, refusal).unwrap();
/// assert_eq!(wrong.fault, SampleFault::NotRising { pair: 1, number: 2, before: 2 });
/// assert_eq!(wrong.to_string(), "ping at 4, pair 1 has number 2 behind 2");
/// ```
pub fn wrong_sample(file: &[u8], from: Walk, refusal: Refusal) -> Option<WrongSample> {
    let fault: fn(Stored<'_>, usize) -> SampleFault = match refusal.code {
        Code::NotRising => |stored, place| stored.not_rising(place),
        Code::BadWord => |stored, place| stored.bad_word(place),
        Code::Miscounted => |stored, place| stored.miscounted(place),
        _ => return None,
    };
    let mut tuples = from.forwards(file).map_while(Result::ok);
    let ping = tuples.find(|tuple| refusal.place < tuple.place + tuple.length)?;
    // the library's word that this is such a ping, and this the first offender in it
    if read_ping(file, ping.place) != Err(refusal) {
        return None;
    }
    Some(WrongSample {
        ping_place: ping.place,
        fault: fault(Stored::of(file, ping)?, refusal.place),
    })
}

/// How many values, or samples, a ping of a fitting length has; none of a tuple that is no
/// listed ping.
pub(crate) fn values(file: &[u8], ping: Tuple) -> Option<usize> {
    Some(Stored::of(file, ping)?.values())
}

impl<'a> Stored<'a> {
    /// None of a tuple that is no listed ping.
    fn of(file: &'a [u8], ping: Tuple) -> Option<Stored<'a>> {
        let (width, step) = match PingKind::of_type(ping.kind)? {
            PingKind::U32 | PingKind::U32_16Angles => (4, 8),
            PingKind::U16 => (2, 4),
            PingKind::U16Angles => (2, 6),
            PingKind::C32 => (4, 4),
            PingKind::C16 | PingKind::Ce16 => (2, 2),
        };
        Some(Stored {
            file,
            ping,
            width,
            step,
        })
    }

    fn not_rising(self, place: usize) -> SampleFault {
        SampleFault::NotRising {
            pair: (place - self.ping.place - PAIRS) / self.step,
            number: self.number(place),
            before: self.number(place - self.step),
        }
    }

    fn bad_word(self, place: usize) -> SampleFault {
        let before = self.words_up_to(place);
        SampleFault::BadWord {
            word: (place - self.ping.place - WORDS) / self.step,
            number: before.map(|word| self.samples_of(word)).sum(),
            pattern: self.number(place),
            bytes: self.width,
        }
    }

    /// A count that is wrong with the last two bytes of a C-16 or CE-16 ping and without
    /// them leaves these a word.
    fn miscounted(self, place: usize) -> SampleFault {
        SampleFault::Miscounted {
            said: four(self.file, place),
            found: self.values_up_to(self.end()),
        }
    }

    /// Where the ping's pairs or words end.
    fn end(self) -> usize {
        self.ping.place + self.ping.length - BEHIND
    }

    /// How many pairs it has, or words that are no runs. The last two bytes of a C-16 or
    /// CE-16 ping are a space where the number of samples is right without them alone.
    fn values(self) -> usize {
        let all = self.values_up_to(self.end());
        match PingKind::of_type(self.ping.kind) {
            Some(PingKind::C32) => all,
            Some(PingKind::C16 | PingKind::Ce16) => {
                let said = four(self.file, self.ping.place + PAIRS);
                let unspaced = self.values_up_to(self.end() - self.width);
                match said as usize == unspaced {
                    true => unspaced,
                    false => all,
                }
            }
            _ => (self.end() - self.ping.place - PAIRS) / self.step,
        }
    }

    /// How many words before a place are no runs.
    fn values_up_to(self, place: usize) -> usize {
        let words = self.words_up_to(place);
        words.filter(|word| !self.is_run(*word)).count()
    }

    /// The sample number or the word at a place.
    fn number(self, place: usize) -> u32 {
        match self.width {
            2 => two_at(self.file, place).expect("two bytes").into(),
            _ => four(self.file, place),
        }
    }

    /// The words before a place.
    fn words_up_to(self, place: usize) -> impl Iterator<Item = u32> + 'a {
        let places = (self.ping.place + WORDS..place).step_by(self.step);
        places.map(move |place| self.number(place))
    }

    /// Ones in the upper half make a word a run.
    fn is_run(self, word: u32) -> bool {
        let half = 4 * self.width as u32;
        word >> half == (1 << half) - 1
    }

    /// How many samples a word stands for: a run for its lower half and one more. Those
    /// of all words that a ping can have are fewer than 32 bits count.
    fn samples_of(self, word: u32) -> u32 {
        if self.is_run(word) {
            (word & ((1 << (4 * self.width)) - 1)) + 1
        } else {
            1
        }
    }
}

/// The number of four bytes at a place of a ping.
fn four(file: &[u8], place: usize) -> u32 {
    four_at(file, place).expect("four bytes")
}

impl fmt::Display for WrongSample {
    fn fmt(&self, to: &mut fmt::Formatter<'_>) -> fmt::Result {
        write!(to, "ping at {}, {}", self.ping_place, self.fault)
    }
}

impl fmt::Display for SampleFault {
    fn fmt(&self, to: &mut fmt::Formatter<'_>) -> fmt::Result {
        match self {
            SampleFault::NotRising {
                pair,
                number,
                before,
            } => write!(to, "pair {pair} has number {number} behind {before}"),
            SampleFault::BadWord {
                word,
                number,
                pattern,
                bytes,
            } => {
                let digits = 2 * bytes;
                write!(to, "word {word} is {pattern:0digits$X} for sample {number}")
            }
            SampleFault::Miscounted { said, found } => write!(to, "{said} said and {found} found"),
        }
    }
}
