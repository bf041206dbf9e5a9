//! Kinds, classes, lengths and rows of the listed types.

use self::Field::*;
use crate::kinds::PingKind;
pub use crate::kinds::{
    PING_C16, PING_C32, PING_CE16, PING_U16, PING_U16_ANGLES, PING_U32, PING_U32_16_ANGLES,
};

pub const SIGNATURE: u16 = 65535;
pub const SOUNDER: u16 = 100;
pub const EK500_SOUNDER: u16 = 200;
pub const CHANNEL: u16 = 1000;
pub const EK500_CHANNEL: u16 = 2000;
pub const POSITION: u16 = 20;
pub const NAVIGATION: u16 = 30;
pub const ATTITUDE: u16 = 40;
pub const THRESHOLD: u16 = 10100;
pub const EVENT_MARKER: u16 = 10110;
pub const START_OF_RUN: u16 = 65516;
pub const END_OF_RUN: u16 = 65517;
pub const END_OF_FILE: u16 = 65534;

/// A signature's identifier, 0xACAC, which decides over TR's printed 44201: the
/// one that is written.
pub const HAC_IDENTIFIER: u16 = 44204;
/// The decimal number that TR's table prints beside 0xACAC. Two institutes wrote
/// their recorders from it, and their files are sound otherwise: so it is read as
/// well, says nothing more than the other, and is never written.
pub const PRINTED_IDENTIFIER: u16 = 44201;

pub const FILE_LIMIT: u64 = 16_777_216;
pub const TUPLE_LEAST: u64 = 16;
pub const TUPLE_LIMIT: u64 = 262_144;
/// Values in one ping, of any kind.
pub const VALUE_LIMIT: u64 = 32_764;
/// Sounders and channels in one file, those of both makers together.
pub const SOUNDER_LIMIT: usize = 64;
pub const CHANNEL_LIMIT: usize = 1024;

/// A width of a row. Attribute and backlink, which end every row, aren't
/// written out.
#[derive(Clone, Copy, PartialEq, Eq, Debug)]
pub enum Field {
    Two,
    SignedTwo,
    Four,
    SignedFour,
    /// A signature's identifier: either known number when read, 44204 when
    /// written, and so no content.
    Identifier,
    /// Characters, never turned.
    Chars(usize),
    /// A space: anything when read, 0 when written.
    Space(usize),
    /// As many characters or bytes of data as the length leaves.
    Text,
    /// Samples or words of a ping, by its kind, and the space behind them.
    Samples,
}

impl Field {
    /// The width where it doesn't hang on the tuple's length, else 0.
    pub const fn width(self) -> usize {
        match self {
            Two | SignedTwo | Identifier => 2,
            Four | SignedFour => 4,
            Chars(n) | Space(n) => n,
            Text | Samples => 0,
        }
    }

    pub const fn is_signed(self) -> bool {
        matches!(self, SignedTwo | SignedFour)
    }
}

/// The lengths that a listed type may have; all are multiples of 4 anyway.
#[derive(Clone, Copy, PartialEq, Eq, Debug)]
pub enum Lengths {
    Exactly(u64),
    /// `least`, or more by a multiple of `step`.
    From {
        least: u64,
        step: u64,
    },
    /// Those of a kind of ping.
    Ping(PingKind),
}

pub struct Layout {
    pub code: u16,
    pub name: &'static str,
    pub lengths: Lengths,
    pub row: &'static [Field],
}

const fn fixed(code: u16, name: &'static str, length: u64, row: &'static [Field]) -> Layout {
    Layout {
        code,
        name,
        lengths: Lengths::Exactly(length),
        row,
    }
}

const fn open(
    code: u16,
    name: &'static str,
    least: u64,
    step: u64,
    row: &'static [Field],
) -> Layout {
    Layout {
        code,
        name,
        lengths: Lengths::From { least, step },
        row,
    }
}

const fn ping(kind: PingKind) -> Layout {
    Layout {
        code: kind.row().code,
        name: kind.row().name,
        lengths: Lengths::Ping(kind),
        row: if kind.row().is_packed() {
            &[Two, Four, Two, Two, Four, SignedFour, Four, Samples]
        } else {
            &[Two, Four, Two, Two, Four, SignedFour, Samples]
        },
    }
}

/// The twenty listed types, one row each.
#[rustfmt::skip]
pub static LAYOUTS: [Layout; 20] = [
    fixed(SIGNATURE, "signature", 24, &[Identifier, Two, Two, Four]),
    fixed(SOUNDER, "echosounder", 72, &[
        Two, Four, Two, Two, SignedTwo, Two, SignedTwo, Two, Two, SignedTwo, Two, Two,
        Chars(30), Space(2),
    ]),
    fixed(CHANNEL, "channel", 108, &[
        Two, Four, Four, Two, Two, Two, Space(2), Four, Four,
        SignedTwo, SignedTwo, SignedTwo, SignedTwo,
        Two, Two, Two, Two, Two, Two, Two,
        SignedTwo, SignedTwo, SignedTwo, Four, Four, Chars(30), Space(2),
    ]),
    // Nothing is aligned: the SignedFour, "Super layer: Start", is at 30.
    fixed(EK500_SOUNDER, "EK-500 echosounder", 80, &[
        Two, Four, Two, Two, Two, Two, Two, Two, Two, Two, Two, SignedFour, Two, SignedTwo, Four,
        Chars(30),
    ]),
    fixed(EK500_CHANNEL, "EK-500 channel", 108, &[
        Two, Four, Four, Two, Two, Four, Four,
        SignedTwo, SignedTwo, SignedTwo, SignedTwo,
        Two, Two, Two, Two, Two, Two, Two, Two,
        SignedTwo, Two, SignedTwo, Space(2), Four, Four, Chars(30), Space(2),
    ]),
    fixed(POSITION, "position", 36, &[
        SignedTwo, Four, Four, Two, Space(2), SignedFour, SignedFour,
    ]),
    fixed(NAVIGATION, "navigation", 28, &[Two, Four, Two, SignedTwo, Two, Space(2)]),
    fixed(ATTITUDE, "attitude", 36, &[
        Two, Four, Two, Two, SignedTwo, SignedTwo, SignedTwo, SignedTwo, SignedTwo, Space(2),
    ]),
    fixed(THRESHOLD, "threshold", 44, &[
        Two, Four, Two, Two, Two, Two, Two, Two, Four, Four, Four,
    ]),
    open(EVENT_MARKER, "event marker", 24, 4, &[Two, Four, Text]),
    ping(PingKind::U32),
    ping(PingKind::C32),
    ping(PingKind::U32_16Angles),
    ping(PingKind::U16),
    ping(PingKind::U16Angles),
    ping(PingKind::C16),
    ping(PingKind::Ce16),
    fixed(START_OF_RUN, "start of run", 20, &[Two, Four]),
    fixed(END_OF_RUN, "end of run", 20, &[Two, Four]),
    open(END_OF_FILE, "end of file", 24, 4, &[Two, Four, Two, Text]),
];

/// The row of the first kind of ping; the others follow in the order of kinds.
const FIRST_PING: usize = 10;

/// The layout of a listed type.
pub fn layout(code: u16) -> Option<&'static Layout> {
    let row = match code {
        SIGNATURE => 0,
        SOUNDER => 1,
        CHANNEL => 2,
        EK500_SOUNDER => 3,
        EK500_CHANNEL => 4,
        POSITION => 5,
        NAVIGATION => 6,
        ATTITUDE => 7,
        THRESHOLD => 8,
        EVENT_MARKER => 9,
        START_OF_RUN => 17,
        END_OF_RUN => 18,
        END_OF_FILE => 19,
        _ => FIRST_PING + PingKind::of(code)? as usize,
    };
    Some(&LAYOUTS[row])
}

pub fn is_listed(code: u16) -> bool {
    layout(code).is_some()
}

/// Whether a number is read as a signature's identifier; every other gives 8.
pub fn is_identifier(number: u16) -> bool {
    matches!(number, HAC_IDENTIFIER | PRINTED_IDENTIFIER)
}

impl Layout {
    /// Whether a whole length suits this type.
    pub fn fits(&self, length: u64) -> bool {
        match self.lengths {
            Lengths::Exactly(exact) => length == exact,
            Lengths::From { least, step } => {
                length >= least && (length - least).is_multiple_of(step)
            }
            Lengths::Ping(kind) => kind.row().fits(length),
        }
    }
}

/// The lengths that any tuple may have.
pub fn length_allowed(length: u64) -> bool {
    length.is_multiple_of(4) && (TUPLE_LEAST..=TUPLE_LIMIT).contains(&length)
}

#[derive(Clone, Copy, PartialEq, Eq, Debug)]
pub enum Class {
    Position,
    Sounder,
    Channel,
    Ping,
    Index,
}

/// The class of a type code, listed or not.
pub fn class(code: u16) -> Option<Class> {
    match code {
        20..=29 => Some(Class::Position),
        100..=999 => Some(Class::Sounder),
        1000..=9999 => Some(Class::Channel),
        10000..=10099 => Some(Class::Ping),
        65406..=65515 => Some(Class::Index),
        _ => None,
    }
}

/// First byte behind size and type, where every row starts.
pub(crate) const ROW_START: usize = 6;

#[cfg(test)]
mod tests {
    use super::*;

    /// Size, type, row, attribute and backlink make up the listed length.
    #[test]
    fn rows_add_up() {
        for layout in &LAYOUTS {
            let sum: usize = layout.row.iter().map(|field| field.width()).sum();
            let whole = (6 + sum + 8) as u64;
            match layout.lengths {
                Lengths::Exactly(length) => assert_eq!(whole, length, "{}", layout.name),
                Lengths::From { least, .. } => {
                    let smallest = if layout.code == EVENT_MARKER { 4 } else { 2 };
                    assert_eq!(whole + smallest, least, "{}", layout.name);
                }
                Lengths::Ping(kind) => {
                    let start = kind.row().start();
                    assert_eq!(whole, start as u64 + 8, "{}", layout.name);
                }
            }
        }
    }

    #[test]
    fn every_row_is_found_under_its_code() {
        for row in &LAYOUTS {
            assert_eq!(layout(row.code).map(|l| l.code), Some(row.code));
        }
        let listed = (0..=u16::MAX).filter(|code| is_listed(*code)).count();
        assert_eq!(listed, LAYOUTS.len());
    }

    #[test]
    fn two_identifiers() {
        assert_eq!(HAC_IDENTIFIER, 0xACAC);
        let known: Vec<u16> = (0..=u16::MAX).filter(|n| is_identifier(*n)).collect();
        assert_eq!(known, [44201, 44204]);
    }

    #[test]
    fn class_bounds() {
        use Class::*;
        for (code, expected) in [
            (19, None),
            (20, Some(Position)),
            (29, Some(Position)),
            (30, None),
            (99, None),
            (100, Some(Sounder)),
            (999, Some(Sounder)),
            (1000, Some(Channel)),
            (9999, Some(Channel)),
            (10000, Some(Ping)),
            (10099, Some(Ping)),
            (10100, None),
            (65405, None),
            (65406, Some(Index)),
            (65515, Some(Index)),
            (65516, None),
        ] {
            assert_eq!(class(code), expected, "{code}");
        }
    }

    #[test]
    fn lengths_of_any_tuple() {
        for (length, allowed) in [
            (0, false),
            (12, false),
            (14, false),
            (16, true),
            (18, false),
            (20, true),
            (262_140, true),
            (262_144, true),
            (262_146, false),
            (262_148, false),
            (u64::MAX, false),
        ] {
            assert_eq!(length_allowed(length), allowed, "{length}");
        }
    }
}
