//! Words of the packed kinds of ping, over the kind: what one says, and the fewest for
//! what a ping says.
//!
//! `Packed` has what the loops need of a kind and of a byte order, both fixed when
//! compiled.

use crate::kinds::{Kind, PingKind, KINDS};
use crate::order::{number, put_number};
use std::slice::ChunksExactMut;

/// What a word says.
#[derive(Clone, Copy, PartialEq, Eq, Debug)]
pub enum Word {
    /// So many samples below threshold: from 1 up to the kind's radix.
    Run(u32),
    Value(i32),
    /// No run, yet outside the limits of a value.
    Bad,
}

/// The definition; the loops below use quicker forms of it.
pub fn read_word(kind: PingKind, word: u32) -> Word {
    let row = kind.row();
    let bits = 8 * row.value as u32;
    if (word << (32 - bits)).leading_ones() >= bits / 2 {
        return Word::Run(word % row.radix() + 1);
    }
    let value = value_of(kind, word);
    if (row.limits.0..=row.limits.1).contains(&value) {
        Word::Value(value)
    } else {
        Word::Bad
    }
}

/// The word of a value, if it has one.
pub fn word_of(kind: PingKind, value: i32) -> Option<u32> {
    let word = match (kind, kind.row().value) {
        (PingKind::Ce16, _) => encoded(value)?,
        (_, 2) => u32::from(value as u16),
        _ => value as u32,
    };
    (read_word(kind, word) == Word::Value(value)).then_some(word)
}

/// What a word that is no run says, inside the limits or not.
#[inline(always)]
fn value_of(kind: PingKind, word: u32) -> i32 {
    match (kind, kind.row().value) {
        (PingKind::Ce16, _) => counts(word),
        (_, 2) => i32::from(word as i16),
        _ => word as i32,
    }
}

/// The parts of a CE-16 word: its sign, three bits of exponent, twelve of mantissa.
const SIGN: u32 = 0x8000;
const EXPONENT_BITS: u32 = 3;
const MANTISSA_BITS: u32 = 12;
/// The bit above the mantissa, which an exponent above 0 stands for.
const HIDDEN: u32 = 1 << MANTISSA_BITS;

/// Table 24: the counts of a CE-16 word.
#[inline(always)]
fn counts(word: u32) -> i32 {
    let exponent = (word & !SIGN) >> MANTISSA_BITS;
    let mantissa = word % HIDDEN;
    let counts = if exponent > 0 {
        (HIDDEN + mantissa) << (exponent - 1)
    } else {
        mantissa
    };
    if word & SIGN != 0 {
        -(counts as i32)
    } else {
        counts as i32
    }
}

/// The CE-16 word nearest to counts from below, by amount; none where three bits are too
/// few for the exponent.
fn encoded(value: i32) -> Option<u32> {
    let counts = value.unsigned_abs();
    let bits = u32::BITS - counts.leading_zeros();
    let exponent = bits.saturating_sub(MANTISSA_BITS);
    if exponent >> EXPONENT_BITS != 0 {
        return None;
    }
    let mantissa = (counts >> exponent.saturating_sub(1)) % HIDDEN;
    let sign = if value < 0 { SIGN } else { 0 };
    Some(sign | exponent << MANTISSA_BITS | mantissa)
}

/// A packed kind, by its number, and a byte order.
pub(crate) struct Packed<const K: usize, const MSB: bool>;

/// The numbers of the packed kinds.
pub(crate) const C32: usize = PingKind::C32 as usize;
pub(crate) const C16: usize = PingKind::C16 as usize;
pub(crate) const CE16: usize = PingKind::Ce16 as usize;

/// Calls a function of `Packed` for a kind and an order known only now.
macro_rules! packed {
    ($kind:expr, $order:expr, $function:ident($($given:expr),*)) => {{
        use crate::order::Order;
        use crate::words::{Packed, C16, C32, CE16};
        match ($kind, $order) {
            (PingKind::C16, Order::Lsb) => Packed::<C16, false>::$function($($given),*),
            (PingKind::C16, Order::Msb) => Packed::<C16, true>::$function($($given),*),
            (PingKind::Ce16, Order::Lsb) => Packed::<CE16, false>::$function($($given),*),
            (PingKind::Ce16, Order::Msb) => Packed::<CE16, true>::$function($($given),*),
            (_, Order::Lsb) => Packed::<C32, false>::$function($($given),*),
            (_, Order::Msb) => Packed::<C32, true>::$function($($given),*),
        }
    }};
}
pub(crate) use packed;

impl<const K: usize, const MSB: bool> Packed<K, MSB> {
    pub const ROW: Kind = KINDS[K];
    /// Bytes of a word.
    pub const BYTES: usize = Self::ROW.value;
    /// Samples of the longest run.
    const RADIX: u32 = Self::ROW.radix();
    /// The words of the shortest run, of 1, and of the longest: half of their bits are
    /// ones, or all.
    const SHORTEST_RUN: u32 = (Self::RADIX - 1) * Self::RADIX;
    const FULL_RUN: u32 = Self::SHORTEST_RUN + (Self::RADIX - 1);
    /// The upper two bytes of the shortest run.
    const UPPER_RUN: u16 = (Self::SHORTEST_RUN >> (8 * (Self::BYTES - 2))) as u16;

    fn is_run(word: u32) -> bool {
        word >= Self::SHORTEST_RUN
    }

    /// The samples of a run.
    fn run_samples(run: u32) -> u32 {
        run % Self::RADIX + 1
    }

    /// The word of a run of 1 to the most samples.
    fn run_word(samples: u32) -> u32 {
        Self::SHORTEST_RUN | (samples.wrapping_sub(1) % Self::RADIX)
    }

    /// The samples that any word stands for.
    fn samples_of(word: u32) -> u32 {
        if Self::is_run(word) {
            Self::run_samples(word)
        } else {
            1
        }
    }

    /// The one spelling of a value: CE-16 has a second 0, with a sign.
    fn spelling(word: u32) -> u32 {
        if K == CE16 && word == SIGN {
            0
        } else {
            word
        }
    }

    fn words(bytes: &[u8]) -> impl Iterator<Item = u32> + '_ {
        bytes.chunks_exact(Self::BYTES).map(number::<MSB>)
    }

    /// The upper two bytes of a word. They alone tell whether it is a run, and whether it
    /// is outside the limits.
    fn upper(word: &[u8]) -> u16 {
        let at = if MSB { 0 } else { Self::BYTES - 2 };
        number::<MSB>(&word[at..at + 2]) as u16
    }

    /// Whether the last of some words, which aren't none, is a run.
    pub fn ends_in_run(words: &[u8]) -> bool {
        Self::upper(&words[words.len() - Self::BYTES..]) >= Self::UPPER_RUN
    }

    /// Counts the words that are no run, and tells whether one of them is bad.
    pub fn count(words: &[u8]) -> (u32, bool) {
        let (from, to) = Self::ROW.outside;
        let mut no_runs = 0u32; // a tuple has at most 131,054 words
        let mut bad = 0u32;
        for word in words.chunks_exact(Self::BYTES) {
            let upper = Self::upper(word);
            no_runs += u32::from(upper < Self::UPPER_RUN);
            bad |= u32::from(upper.wrapping_sub(from) <= to - from);
        }
        (no_runs, bad != 0)
    }

    /// The first word outside the limits.
    pub fn first_bad(words: &[u8]) -> Option<usize> {
        Self::words(words).position(|word| read_word(Self::ROW.kind, word) == Word::Bad)
    }

    /// All samples that words stand for. The most words of a tuple, each a full run,
    /// stay below 2^32 of them.
    pub fn samples(words: &[u8]) -> u32 {
        Self::words(words).map(Self::samples_of).sum()
    }

    /// Takes the values of words; the slices have exactly their number of entries.
    pub fn take(words: &[u8], numbers: &mut [u32], values: &mut [i32]) {
        let mut at = 0u32;
        let mut taken = 0;
        for word in Self::words(words) {
            // An entry is filled for every word, and one filled for a run is
            // filled again: so the loop has no branch on the kind of word.
            let (Some(number), Some(value)) = (numbers.get_mut(taken), values.get_mut(taken))
            else {
                return;
            };
            *number = at;
            *value = value_of(Self::ROW.kind, word);
            taken += usize::from(!Self::is_run(word));
            at += Self::samples_of(word);
        }
    }

    /// Writes two words in LSB order, the first of them lower, where there is room for both.
    /// At times that is one more than is due, to be written over.
    fn put_both(out: &mut [u8], at: usize, both: u64) -> Option<()> {
        let slot = out.get_mut(at..at + 2 * Self::BYTES)?;
        slot.copy_from_slice(&both.to_le_bytes()[..2 * Self::BYTES]);
        Some(())
    }

    fn both(first: u32, second: u32) -> u64 {
        u64::from(first) | u64::from(second) << (8 * Self::BYTES)
    }

    /// Writes the pairs that words stand for in LSB order; a number has as many bytes as
    /// a word. `pairs` has exactly the room of all values.
    pub fn to_pairs(words: &[u8], pairs: &mut [u8]) {
        let mut number = 0u32;
        let mut at = 0;
        for word in Self::words(words) {
            // As above: a pair written for a run is written over by the next.
            if Self::put_both(pairs, at, Self::both(number, word)).is_none() {
                return;
            }
            at += if Self::is_run(word) {
                0
            } else {
                2 * Self::BYTES
            };
            number += Self::samples_of(word);
        }
    }

    /// The fewest words that say what words say.
    pub fn fewest(words: &[u8]) -> u64 {
        let mut taken = Fewest::<K>::default();
        let mut fewest = 0;
        for word in Self::words(words) {
            let Brought { runs, values, .. } = taken.take(word);
            fewest += runs + values;
        }
        u64::from(fewest + taken.rest())
    }

    /// Writes these in LSB order, and gives how many they are. `out` has room for them
    /// and for eight bytes behind them, which are written over.
    pub fn to_fewest(words: &[u8], out: &mut [u8]) -> u64 {
        let mut taken = Fewest::<K>::default();
        let mut written = 0;
        for word in Self::words(words) {
            let Brought { run, runs, values } = taken.take(word);
            // Two words each time: what isn't due is written over by the next, or by what
            // comes behind all.
            let both = Self::both(run, Self::spelling(word));
            let due = both >> (8 * Self::BYTES as u32 * (1 - runs));
            Self::put_both(out, Self::BYTES * written, due);
            written += (runs + values) as usize;
        }
        let last = Self::run_word(taken.gap).into();
        Self::put_both(out, Self::BYTES * written, last);
        written as u64 + u64::from(taken.rest())
    }

    /// Writes the words of a list of samples and of a length, if there is one, in memory
    /// that has just the room for them. The numbers rise, and every value has a word.
    pub fn put<V>(numbers: &[u32], values: &[V], length: Option<u32>, out: &mut [u8])
    where
        V: Copy + Into<i32>,
    {
        let mut pen = Pen::<K, MSB>::new(out);
        let mut next = 0u64;
        for (number, value) in numbers.iter().zip(values) {
            pen.gap(u64::from(*number) - next);
            pen.word(word_of(Self::ROW.kind, (*value).into()).unwrap_or(0));
            next = u64::from(*number) + 1;
        }
        pen.gap(last_gap(numbers, length));
    }
}

/// A ping's words taken one by one, to be said in the fewest: neighbouring runs are one
/// gap, whose full runs are due as they fill up.
#[derive(Default)]
struct Fewest<const K: usize> {
    /// What is left of the gap at hand, under a full run.
    gap: u32,
}

/// What one more word brings.
struct Brought {
    /// The run that stands before it, if one does: a full one that a run fills up, or
    /// the remainder before a value.
    run: u32,
    /// How many these are, 0 or 1.
    runs: u32,
    /// Whether it stays itself, being a value: 0 or 1.
    values: u32,
}

impl<const K: usize> Fewest<K> {
    /// Masks in place of a branch on the kind of word, which no processor foresees.
    fn take(&mut self, word: u32) -> Brought {
        let radix = Packed::<K, false>::RADIX;
        let values = u32::from(!Packed::<K, false>::is_run(word));
        let if_run = values.wrapping_sub(1); // all ones or 0
        let longer = self.gap + Packed::<K, false>::run_samples(word);
        let full = Packed::<K, false>::FULL_RUN;
        let brought = Brought {
            run: Packed::<K, false>::run_word(self.gap) | (if_run & full),
            runs: if_run & (longer / radix) | !if_run & self.rest(),
            values,
        };
        self.gap = if_run & (longer % radix);
        brought
    }

    /// How many words the gap at hand still takes, 0 or 1.
    fn rest(&self) -> u32 {
        u32::from(self.gap > 0)
    }
}

/// The fewest words for a gap of so many samples: full runs, and a remainder if they
/// leave one.
fn gap_words(kind: &Kind, gap: u64) -> u64 {
    gap.div_ceil(u64::from(kind.radix()))
}

/// The sample behind the last of rising numbers, past 32 bits where that is the
/// greatest; 0 where there is none.
fn behind_last(numbers: &[u32]) -> u64 {
    numbers.last().map_or(0, |number| u64::from(*number) + 1)
}

/// The least length that a ping of these numbers can have: its last word is a run,
/// of one sample at least.
pub(crate) fn least_length(numbers: &[u32]) -> u64 {
    behind_last(numbers) + 1
}

/// The gap behind the last of rising numbers that a length leaves; none without one.
fn last_gap(numbers: &[u32], length: Option<u32>) -> u64 {
    length.map_or(0, |length| {
        u64::from(length).saturating_sub(behind_last(numbers))
    })
}

/// The fewest words of a packed kind that hold a list of rising numbers and a length, if
/// there is one: every value one word, every gap its full runs and, if it leaves one, a
/// remainder.
pub fn fewest_words(kind: PingKind, numbers: &[u32], length: Option<u32>) -> u64 {
    let row = kind.row();
    let mut words = numbers.len() as u64;
    let mut next = 0u64;
    for number in numbers {
        words += gap_words(row, u64::from(*number).saturating_sub(next));
        next = u64::from(*number) + 1;
    }
    words + gap_words(row, last_gap(numbers, length))
}

/// Words under way into lent memory that has room for them.
struct Pen<'a, const K: usize, const MSB: bool> {
    slots: ChunksExactMut<'a, u8>,
}

impl<const K: usize, const MSB: bool> Pen<'_, K, MSB> {
    fn new(words: &mut [u8]) -> Pen<'_, K, MSB> {
        Pen {
            slots: words.chunks_exact_mut(Packed::<K, MSB>::BYTES),
        }
    }

    fn word(&mut self, word: u32) {
        if let Some(slot) = self.slots.next() {
            put_number::<MSB>(slot, word);
        }
    }

    /// A gap in its fewest words: full runs first, the remainder last.
    fn gap(&mut self, mut gap: u64) {
        let full = u64::from(Packed::<K, MSB>::RADIX);
        while gap >= full {
            self.word(Packed::<K, MSB>::FULL_RUN);
            gap -= full;
        }
        if gap > 0 {
            self.word(Packed::<K, MSB>::run_word(gap as u32));
        }
    }
}

#[cfg(test)]
mod tests {
    use super::*;

    /// The quick forms of one kind say what the definition says, in both orders.
    fn agrees<const K: usize>(word: u32) {
        let kind = KINDS[K].kind;
        let bytes = KINDS[K].value;
        let said = read_word(kind, word);
        let no_run = !matches!(said, Word::Run(_));
        assert_eq!(Packed::<K, false>::is_run(word), !no_run, "{word:08X}");
        if let Word::Run(samples) = said {
            assert_eq!(Packed::<K, false>::run_samples(word), samples);
            assert_eq!(Packed::<K, false>::run_word(samples), word);
        }
        let lsb = &word.to_le_bytes()[..bytes];
        let msb = &word.to_be_bytes()[4 - bytes..];
        let expected = (u32::from(no_run), said == Word::Bad);
        assert_eq!(Packed::<K, false>::count(lsb), expected, "{word:08X}");
        assert_eq!(Packed::<K, true>::count(msb), expected, "{word:08X}");
        assert_eq!(Packed::<K, false>::ends_in_run(lsb), !no_run);
        assert_eq!(Packed::<K, true>::ends_in_run(msb), !no_run);
    }

    #[test]
    fn quick_forms_agree_with_the_definition() {
        for upper in 0..=0xFFFFu32 {
            for lower in [0u32, 1, 0x7FFF, 0x8000, 0xFFFE, 0xFFFF] {
                agrees::<C32>(upper << 16 | lower);
            }
            agrees::<C16>(upper);
            agrees::<CE16>(upper);
        }
    }

    #[test]
    fn words_at_the_limits() {
        use Word::{Bad, Run, Value};
        for (kind, word, said) in [
            (PingKind::C32, 0xFFFF_0000, Run(1)),
            (PingKind::C32, 0xFFFF_FFFF, Run(65_536)),
            (PingKind::C32, 0xFFFE_FFFF, Value(-65_537)),
            (PingKind::C32, 0x7FFE_FFFF, Value(2_147_418_111)),
            (PingKind::C32, 0x8001_0000, Value(-2_147_418_112)),
            (PingKind::C32, 0x7FFF_0000, Bad),
            (PingKind::C32, 0x8000_FFFF, Bad),
            (PingKind::C32, 0, Value(0)),
            (PingKind::C16, 0xFF00, Run(1)),
            (PingKind::C16, 0xFFFF, Run(256)),
            (PingKind::C16, 0xFEFF, Value(-257)),
            (PingKind::C16, 0x7EFF, Value(32_511)),
            (PingKind::C16, 0x7F00, Bad),
            (PingKind::C16, 0x7FFF, Bad),
            (PingKind::C16, 0x8000, Bad),
            (PingKind::C16, 0x80FF, Bad),
            (PingKind::C16, 0x8100, Bad),
            (PingKind::C16, 0x8101, Value(-32_511)),
            (PingKind::C16, 0, Value(0)),
            (PingKind::Ce16, 0xFF00, Run(1)),
            (PingKind::Ce16, 0xFFFF, Run(256)),
            (PingKind::Ce16, 0xFEFF, Value(-507_840)),
            (PingKind::Ce16, 0x7EFF, Value(507_840)),
            (PingKind::Ce16, 0x7F00, Bad),
            (PingKind::Ce16, 0x7FFF, Bad),
            (PingKind::Ce16, 0, Value(0)),
            (PingKind::Ce16, 0x8000, Value(0)),
            (PingKind::Ce16, 0x8001, Value(-1)),
            (PingKind::Ce16, 0x80FF, Value(-255)),
            (PingKind::Ce16, 0x8100, Value(-256)),
            (PingKind::Ce16, 0x0FFF, Value(4095)),
            (PingKind::Ce16, 0x1000, Value(4096)),
            (PingKind::Ce16, 0x1FFF, Value(8191)),
            (PingKind::Ce16, 0x2000, Value(8192)),
            (PingKind::Ce16, 0x2001, Value(8194)),
            (PingKind::Ce16, 0xF000, Value(-262_144)),
        ] {
            assert_eq!(read_word(kind, word), said, "{kind:?} {word:X}");
        }
    }

    #[test]
    fn values_without_a_word() {
        for (kind, values) in [
            (
                PingKind::C32,
                &[-1, -65_536, i32::MIN, i32::MAX, -2_147_418_113][..],
            ),
            (
                PingKind::C16,
                &[
                    -1, -256, 32_512, -32_512, -32_768, 32_767, 65_536, 65_541, -65_000,
                ],
            ),
            (
                PingKind::Ce16,
                &[
                    8193,
                    -8193,
                    507_841,
                    507_839,
                    507_904,
                    -507_904,
                    -507_841,
                    1 << 19,
                    1 << 30,
                    i32::MIN,
                    i32::MAX,
                ],
            ),
        ] {
            for value in values {
                assert_eq!(word_of(kind, *value), None, "{kind:?} {value}");
            }
        }
        assert_eq!(word_of(PingKind::C32, -65_537), Some(0xFFFE_FFFF));
        assert_eq!(word_of(PingKind::C16, -257), Some(0xFEFF));
        assert_eq!(word_of(PingKind::Ce16, 0), Some(0));
        assert_eq!(word_of(PingKind::Ce16, -507_840), Some(0xFEFF));
    }

    /// Every value word of two bytes is the word of its value, but for CE-16's second 0.
    #[test]
    fn words_and_values_are_one_to_one() {
        for kind in [PingKind::C16, PingKind::Ce16] {
            let mut values = std::collections::HashSet::new();
            for word in 0..=0xFFFF {
                let Word::Value(value) = read_word(kind, word) else {
                    continue;
                };
                if (kind, word) == (PingKind::Ce16, 0x8000) {
                    assert_eq!(Packed::<CE16, false>::spelling(word), 0);
                    continue;
                }
                assert_eq!(word_of(kind, value), Some(word), "{kind:?} {word:04X}");
                assert!(values.insert(value), "{kind:?} {value}");
            }
            // no other value has one
            let had = (-600_000..=600_000).filter(|value| word_of(kind, *value).is_some());
            assert_eq!(had.count(), values.len(), "{kind:?}");
        }
        assert_eq!(Packed::<C16, false>::spelling(0x8000), 0x8000);
    }
}
