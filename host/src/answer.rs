//! What a refused call says.

use std::error::Error;
use std::fmt;

/// The codes, each with the words of document 01, or of 02 where it has others.
macro_rules! codes {
    ($($number:literal $code:ident $words:literal)*) => {
        /// The rule that was broken. Document 01 has them in a table; 02 put 23, 24 and
        /// 25 in the place of 10, which is no longer given, and added those from 26 on.
        #[derive(Clone, Copy, Debug, PartialEq, Eq, PartialOrd, Ord, Hash)]
        pub enum Code {
            $(#[doc = concat!(stringify!($number), ": ", $words, ".")] $code = $number,)*
        }

        impl Code {
            /// Every code, in the order of their numbers.
            pub const ALL: &'static [Code] = &[$(Code::$code),*];

            /// The code of a number; none of 0 and of numbers that stand for no rule.
            pub const fn of(number: u8) -> Option<Code> {
                match number {
                    $($number => Some(Code::$code),)*
                    _ => None,
                }
            }

            /// When the code is given.
            pub const fn words(self) -> &'static str {
                match self {
                    $(Code::$code => $words,)*
                }
            }
        }
    };
}

codes! {
    1 OverLimit "file over the limit"
    2 NoMark "under 4 bytes, or neither mark"
    3 CutShort "fewer than 16 bytes left (but not 0), or the tuple passes the end"
    4 NoEnd "0 bytes left and no end of file tuple seen"
    5 BadLength "length not allowed"
    6 BadBacklink "backlink disagrees"
    7 MisplacedSignature "first is no signature, or a later one is"
    8 UnknownIdentifier "identifier is neither 44204 nor 44201"
    9 Unfit "length unfit for a listed type"
    11 Overfull "ping over 32,764 values, or writer's tuple over 262,144"
    12 DeclaredTwice "identifier declared twice"
    13 NoParent "parent not declared earlier, or of the other maker"
    14 TooMany "65th sounder or 1,025th channel"
    15 BehindEnd "bytes after end of file"
    16 ClassAbsent "a required class is absent"
    17 WrongCount "sounder's channel count wrong"
    18 Unturnable "unlisted, non-index type in an MSB file"
    19 NoRoom "lent output too short"
    20 NormalOverLimit "normal form over 16,777,216"
    21 NoWord "writer of words: a value that has no word"
    22 NoSamples "writer: ping without samples, and, of words, without a length"
    23 NotRising "sample number not rising"
    24 BadWord "word outside the limits"
    25 Miscounted "number of samples wrong"
    26 ShortLength "writer of words: a ping's length under its last sample number plus 2, or 0 where it has no samples"
    27 ShortTable "table of ranges too short"
    28 NotSv "energy: a ping with angles, or of a channel that isn't Sv"
    29 OutsideLevels "energy: a value outside -150 to 0 dB; its place is that in the ping's list of samples"
    30 NoReading "readings: a ping with angles, or of a channel that is neither volts nor Sv nor TS"
    31 NotHeld "neither file holds the ping"
}

impl Code {
    /// The number of documents 01 and 02.
    pub const fn number(self) -> u8 {
        self as u8
    }
}

impl fmt::Display for Code {
    fn fmt(&self, to: &mut fmt::Formatter<'_>) -> fmt::Result {
        write!(to, "{}: {}", self.number(), self.words())
    }
}

/// A refusal: the first rule broken, and where.
#[derive(Clone, Copy, Debug, PartialEq, Eq)]
pub struct Refusal {
    /// The rule.
    pub code: Code,
    /// The byte offset that documents 01 and 02 give with the code; 29, and a ping writer's
    /// 23 and 21, have a place in the list of samples.
    pub place: usize,
}

impl fmt::Display for Refusal {
    fn fmt(&self, to: &mut fmt::Formatter<'_>) -> fmt::Result {
        write!(to, "{}, at {}", self.code, self.place)
    }
}

impl Error for Refusal {}

#[cfg(test)]
mod tests {
    use super::*;

    #[test]
    fn numbers_run_from_1_to_31_without_10() {
        let numbers: Vec<u8> = Code::ALL.iter().map(|code| code.number()).collect();
        assert_eq!(numbers, (1..=9).chain(11..=31).collect::<Vec<u8>>());
        for &code in Code::ALL {
            assert_eq!(Code::of(code.number()), Some(code));
        }
        for number in [0, 10, 32] {
            assert_eq!(Code::of(number), None);
        }
    }

    #[test]
    fn a_refusal_in_words() {
        let refusal = Refusal {
            code: Code::NoParent,
            place: 4711,
        };
        let words = "13: parent not declared earlier, or of the other maker, at 4711";
        assert_eq!(refusal.to_string(), words);
    }
}
