//! The seven kinds of ping: TR's Tables 6 and 19 to 24, one row each.

/// Type codes of the pings.
pub const PING_U32: u16 = 10000;
pub const PING_U32_16_ANGLES: u16 = 10001;
pub const PING_C32: u16 = 10010;
pub const PING_U16: u16 = 10030;
pub const PING_U16_ANGLES: u16 = 10031;
pub const PING_C16: u16 = 10040;
pub const PING_CE16: u16 = 10050;

/// A kind of ping; its row in `KINDS` has the same number.
#[derive(Clone, Copy, PartialEq, Eq, Debug)]
pub enum PingKind {
    U32,
    C32,
    U32_16Angles,
    U16,
    U16Angles,
    C16,
    Ce16,
}

/// What a ping's kind leaves of itself in its content: kinds of one family are
/// spellings of one another, and a ping never changes its family.
#[derive(Clone, Copy, PartialEq, Eq, Debug)]
pub enum Family {
    Bits32,
    Bits16,
    Ce16,
    U32_16Angles,
    U16Angles,
}

impl Family {
    /// The family's kind that numbers its samples, if it has one.
    pub const fn listed(self) -> Option<PingKind> {
        match self {
            Family::Bits32 => Some(PingKind::U32),
            Family::Bits16 => Some(PingKind::U16),
            Family::U32_16Angles => Some(PingKind::U32_16Angles),
            Family::U16Angles => Some(PingKind::U16Angles),
            Family::Ce16 => None,
        }
    }

    /// How many of its values' units are 1 volt, where the channel's samples are in volts;
    /// none where its values are angles.
    pub const fn per_volt(self) -> Option<i32> {
        match self {
            Family::Bits32 => Some(1_000_000),
            Family::Bits16 => Some(1_000),
            Family::Ce16 => Some(10_000),
            Family::U32_16Angles | Family::U16Angles => None,
        }
    }

    /// The same of 1 dB, where they are in dB.
    pub const fn per_db(self) -> Option<i32> {
        match self {
            Family::Bits32 => Some(1_000_000),
            Family::Bits16 => Some(100),
            Family::Ce16 => Some(1_000),
            Family::U32_16Angles | Family::U16Angles => None,
        }
    }
}

/// How a kind of ping stores its samples. A listed kind stores of each its number and
/// its values; a packed one stores words, each a value or a run of samples below
/// threshold, and before them how many are values.
#[derive(Clone, Copy)]
pub struct Kind {
    pub kind: PingKind,
    pub code: u16,
    pub name: &'static str,
    pub family: Family,
    /// Bytes of a sample number; 0 where the kind is packed.
    pub number: usize,
    /// Bytes of a value, or of a word.
    pub value: usize,
    /// Values of a sample: one, or two angles.
    pub values: usize,
    /// The least and the greatest value.
    pub limits: (i32, i32),
    /// Between which numbers the upper two bytes of the words lie that are outside the
    /// limits, where the kind is packed. It follows from the limits; a test shows it.
    pub outside: (u16, u16),
}

const ANY_TWO: (i32, i32) = (i16::MIN as i32, i16::MAX as i32);
const ANY_FOUR: (i32, i32) = (i32::MIN, i32::MAX);
const NEVER: (u16, u16) = (0, 0);

#[rustfmt::skip]
pub const KINDS: [Kind; 7] = [
    Kind { kind: PingKind::U32, code: PING_U32, name: "ping U-32", family: Family::Bits32,
        number: 4, value: 4, values: 1, limits: ANY_FOUR, outside: NEVER },
    Kind { kind: PingKind::C32, code: PING_C32, name: "ping C-32", family: Family::Bits32,
        number: 0, value: 4, values: 1, limits: (-2_147_418_112, 2_147_418_111), outside: (0x7FFF, 0x8000) },
    Kind { kind: PingKind::U32_16Angles, code: PING_U32_16_ANGLES, name: "ping U-32-16-angles", family: Family::U32_16Angles,
        number: 4, value: 2, values: 2, limits: ANY_TWO, outside: NEVER },
    Kind { kind: PingKind::U16, code: PING_U16, name: "ping U-16", family: Family::Bits16,
        number: 2, value: 2, values: 1, limits: ANY_TWO, outside: NEVER },
    Kind { kind: PingKind::U16Angles, code: PING_U16_ANGLES, name: "ping U-16-angles", family: Family::U16Angles,
        number: 2, value: 2, values: 2, limits: ANY_TWO, outside: NEVER },
    Kind { kind: PingKind::C16, code: PING_C16, name: "ping C-16", family: Family::Bits16,
        number: 0, value: 2, values: 1, limits: (-32_511, 32_511), outside: (0x7F00, 0x8100) },
    Kind { kind: PingKind::Ce16, code: PING_CE16, name: "ping CE-16", family: Family::Ce16,
        number: 0, value: 2, values: 1, limits: (-507_840, 507_840), outside: (0x7F00, 0x7FFF) },
];

/// Bytes from a ping's start to its samples, or to the number of samples that a packed
/// one states.
pub(crate) const HEADER_END: usize = 24;
pub(crate) const COUNT_AT: usize = HEADER_END;
/// Attribute and backlink.
pub(crate) const TAIL: usize = 8;

impl PingKind {
    pub const fn row(self) -> &'static Kind {
        const ROWS: &[Kind; 7] = &KINDS;
        &ROWS[self as usize]
    }

    /// The kind of a type code, if that is a listed ping's.
    pub fn of(code: u16) -> Option<PingKind> {
        match code {
            PING_U32 => Some(PingKind::U32),
            PING_C32 => Some(PingKind::C32),
            PING_U32_16_ANGLES => Some(PingKind::U32_16Angles),
            PING_U16 => Some(PingKind::U16),
            PING_U16_ANGLES => Some(PingKind::U16Angles),
            PING_C16 => Some(PingKind::C16),
            PING_CE16 => Some(PingKind::Ce16),
            _ => None,
        }
    }
}

impl Kind {
    pub const fn is_packed(&self) -> bool {
        self.number == 0
    }

    pub const fn has_angles(&self) -> bool {
        self.values == 2
    }

    /// Bytes of a sample, or of a word.
    pub const fn stride(&self) -> usize {
        self.number + self.values * self.value
    }

    /// Bytes from the ping's start to its first sample or word.
    pub const fn start(&self) -> usize {
        if self.is_packed() {
            COUNT_AT + 4
        } else {
            HEADER_END
        }
    }

    /// The length of a ping of so many samples or words, with a space where a multiple
    /// of four needs one.
    pub const fn length(&self, count: u64) -> u64 {
        let end = self.start() as u64 + count * self.stride() as u64;
        end.next_multiple_of(4) + TAIL as u64
    }

    /// The most samples or words that so many bytes have room for.
    pub const fn room(&self, length: u64) -> u64 {
        let beside = (self.start() + TAIL) as u64;
        length.saturating_sub(beside) / self.stride() as u64
    }

    /// Whether a whole length suits: that of one sample or word, or of more.
    pub const fn fits(&self, length: u64) -> bool {
        let count = self.room(length);
        count > 0 && self.length(count) == length
    }

    /// How many samples the longest run has: as many as half of a word's bits tell.
    pub const fn radix(&self) -> u32 {
        1 << (4 * self.value)
    }
}

/// What stands in a ping's tuple between its header, or its count, and its attribute.
pub(crate) fn bytes_of<'a>(tuple: &'a [u8], row: &Kind) -> &'a [u8] {
    &tuple[row.start()..tuple.len() - TAIL]
}

#[cfg(test)]
mod tests {
    use super::*;

    #[test]
    fn every_row_is_found() {
        for (nth, row) in KINDS.iter().enumerate() {
            assert_eq!(row.kind as usize, nth);
            assert_eq!(row.kind.row().code, row.code);
            assert_eq!(PingKind::of(row.code), Some(row.kind));
        }
        let pings = (0..=u16::MAX).filter(|code| PingKind::of(*code).is_some());
        assert_eq!(pings.count(), KINDS.len());
    }

    /// Lengths by the table of readings.
    #[test]
    fn lengths() {
        for length in 0..400u64 {
            let samples = length.checked_sub(32).filter(|bytes| *bytes > 0);
            let of = |each| samples.is_some_and(|bytes| bytes % each == 0);
            let words = length >= 40 && length % 4 == 0;
            let odd_angles = samples.is_some_and(|bytes| bytes % 12 == 8);
            for (kind, fits) in [
                (PingKind::U32, of(8)),
                (PingKind::C32, words),
                (PingKind::U32_16Angles, of(8)),
                (PingKind::U16, of(4)),
                (PingKind::U16Angles, of(12) || odd_angles),
                (PingKind::C16, words),
                (PingKind::Ce16, words),
            ] {
                assert_eq!(kind.row().fits(length), fits, "{kind:?} {length}");
            }
        }
    }

    /// The kind with numbers has them as wide as the words of the packed kind.
    #[test]
    fn pairs_are_two_words() {
        for row in KINDS.iter().filter(|row| row.is_packed()) {
            if let Some(listed) = row.family.listed() {
                let listed = listed.row();
                assert_eq!((listed.number, listed.value), (row.value, row.value));
                assert_eq!(listed.family, row.family);
            }
        }
    }
}
