//! Samples of the listed kinds of ping, over the kind: each a number and its values, as
//! the tuple holds them.
//!
//! `Listed` has what the loops need of a kind and of a byte order, both fixed when
//! compiled.

use crate::answer::Fault;
use crate::kinds::{bytes_of, Kind, PingKind, KINDS};
use crate::layout::VALUE_LIMIT;
use crate::order::{number, put_number, signed};

/// A listed kind, by its number, and a byte order.
pub(crate) struct Listed<const K: usize, const MSB: bool>;

/// The numbers of the listed kinds.
pub(crate) const U32: usize = PingKind::U32 as usize;
pub(crate) const U32_16_ANGLES: usize = PingKind::U32_16Angles as usize;
pub(crate) const U16: usize = PingKind::U16 as usize;
pub(crate) const U16_ANGLES: usize = PingKind::U16Angles as usize;

/// Calls a function of `Listed` for a kind and an order known only now.
macro_rules! listed {
    ($kind:expr, $order:expr, $function:ident($($given:expr),*)) => {{
        use crate::listed::{Listed, U16, U16_ANGLES, U32, U32_16_ANGLES as BOTH};
        use crate::order::Order;
        match ($kind, $order) {
            (PingKind::U16, Order::Lsb) => Listed::<U16, false>::$function($($given),*),
            (PingKind::U16, Order::Msb) => Listed::<U16, true>::$function($($given),*),
            (PingKind::U16Angles, Order::Lsb) => Listed::<U16_ANGLES, false>::$function($($given),*),
            (PingKind::U16Angles, Order::Msb) => Listed::<U16_ANGLES, true>::$function($($given),*),
            (PingKind::U32_16Angles, Order::Lsb) => Listed::<BOTH, false>::$function($($given),*),
            (PingKind::U32_16Angles, Order::Msb) => Listed::<BOTH, true>::$function($($given),*),
            (_, Order::Lsb) => Listed::<U32, false>::$function($($given),*),
            (_, Order::Msb) => Listed::<U32, true>::$function($($given),*),
        }
    }};
}
pub(crate) use listed;

impl<const K: usize, const MSB: bool> Listed<K, MSB> {
    const ROW: Kind = KINDS[K];
    /// Bytes of a sample, of its number and of each of its values.
    const STRIDE: usize = Self::ROW.stride();
    const NUMBER: usize = Self::ROW.number;
    const VALUE: usize = Self::ROW.value;

    /// The samples of a ping, two bytes behind them left out where these are a space.
    fn samples(tuple: &[u8]) -> &[u8] {
        let bytes = bytes_of(tuple, &Self::ROW);
        &bytes[..bytes.len() / Self::STRIDE * Self::STRIDE]
    }

    fn number(sample: &[u8]) -> u32 {
        number::<MSB>(&sample[..Self::NUMBER])
    }

    /// A sample's value of a number: 0, or of two angles 0 or 1.
    fn value(sample: &[u8], nth: usize) -> i32 {
        let start = Self::NUMBER + nth * Self::VALUE;
        signed::<MSB>(&sample[start..start + Self::VALUE])
    }

    /// Whether the numbers strictly rise.
    fn rises(samples: &[u8]) -> bool {
        let Some(later) = samples.get(Self::STRIDE..) else {
            return true;
        };
        let earlier = samples.chunks_exact(Self::STRIDE);
        let mut bad = false;
        for (before, after) in earlier.zip(later.chunks_exact(Self::STRIDE)) {
            bad |= Self::number(after) <= Self::number(before);
        }
        !bad
    }

    pub fn judge(tuple: &[u8]) -> Result<u32, Fault> {
        let samples = Self::samples(tuple);
        let count = samples.len() / Self::STRIDE;
        if count as u64 > VALUE_LIMIT {
            return Err(11.into());
        }
        if !Self::rises(samples) {
            let numbers = samples.chunks_exact(Self::STRIDE).map(Self::number);
            if let Some(nth) = first_not_rising(numbers) {
                let place = Self::ROW.start() + Self::STRIDE * nth;
                return Err(Fault::new(23, place));
            }
        }
        Ok(count as u32)
    }

    /// Takes the samples of a ping; the slices have exactly as many entries.
    pub fn take(tuple: &[u8], numbers: &mut [u32], values: &mut [i32]) {
        let slots = numbers.iter_mut().zip(values);
        let samples = Self::samples(tuple).chunks_exact(Self::STRIDE);
        for ((number, value), sample) in slots.zip(samples) {
            *number = Self::number(sample);
            *value = Self::value(sample, 0);
        }
    }

    /// The same where a sample's values are two angles, which have two bytes each.
    pub fn take_angles(tuple: &[u8], numbers: &mut [u32], [first, second]: [&mut [i16]; 2]) {
        let slots = numbers.iter_mut().zip(first).zip(second);
        let samples = Self::samples(tuple).chunks_exact(Self::STRIDE);
        for (((number, first), second), sample) in slots.zip(samples) {
            *number = Self::number(sample);
            *first = Self::value(sample, 0) as i16;
            *second = Self::value(sample, 1) as i16;
        }
    }

    /// Writes the samples once more in LSB order, where they stand in `out`, and gives
    /// how many they are.
    pub fn to_normal(tuple: &[u8], out: &mut [u8]) -> u64 {
        let samples = Self::samples(tuple);
        let start = Self::ROW.start();
        let out = &mut out[start..start + samples.len()];
        if MSB {
            Self::turn(samples, out);
        } else {
            out.copy_from_slice(samples);
        }
        (samples.len() / Self::STRIDE) as u64
    }

    /// Turns samples from MSB to LSB order.
    fn turn(from: &[u8], to: &mut [u8]) {
        if Self::NUMBER == Self::VALUE {
            return turn_numbers(from, to, Self::VALUE);
        }
        let samples = from.chunks_exact(Self::STRIDE);
        for (from, to) in samples.zip(to.chunks_exact_mut(Self::STRIDE)) {
            let (number, values) = from.split_at(Self::NUMBER);
            let (to_number, to_values) = to.split_at_mut(Self::NUMBER);
            turn_numbers(number, to_number, Self::NUMBER);
            turn_numbers(values, to_values, Self::VALUE);
        }
    }

    /// Writes a list of samples, each with its values, in memory that has just the room
    /// for them.
    pub fn put<N, V, const VALUES: usize>(numbers: &[N], values: [&[V]; VALUES], out: &mut [u8])
    where
        N: Copy + Into<u32>,
        V: Copy + Into<i32>,
    {
        let samples = out.chunks_exact_mut(Self::STRIDE);
        for (nth, (sample, number)) in samples.zip(numbers).enumerate() {
            put_number::<MSB>(&mut sample[..Self::NUMBER], (*number).into());
            let slots = sample[Self::NUMBER..].chunks_exact_mut(Self::VALUE);
            for (slot, list) in slots.zip(values) {
                let value: i32 = list[nth].into();
                put_number::<MSB>(slot, value as u32);
            }
        }
    }
}

/// Turns numbers of one width from MSB to LSB order.
#[inline(always)]
fn turn_numbers(from: &[u8], to: &mut [u8], width: usize) {
    for (from, to) in from.chunks_exact(width).zip(to.chunks_exact_mut(width)) {
        put_number::<false>(to, number::<true>(from));
    }
}

/// The first number not above the one before it.
pub(crate) fn first_not_rising(numbers: impl Iterator<Item = u32> + Clone) -> Option<usize> {
    let later = numbers.clone().skip(1);
    let before = numbers.zip(later).position(|(a, b)| b <= a)?;
    Some(before + 1)
}
