//! Chapter "Samples": the samples of a ping as its tuple holds them, judged, taken and
//! brought to their normal form.

use crate::answer::Fault;
use crate::kinds::{bytes_of, PingKind, COUNT_AT, HEADER_END, TAIL};
use crate::layout::VALUE_LIMIT;
use crate::listed::listed;
use crate::order::{number, Order};
use crate::words::{packed, Packed};

/// Judges a framed ping whose length suits its kind: 11, then 23 of a listed kind, 24 and
/// 25 of a packed one. Gives how many of its samples have values.
///
/// 11 has the tuple's place, 23 and 24 that of the first offending number or word, 25 that
/// of the count. An offender is looked for only where there is known to be one, so that a
/// sound ping takes no longer.
pub(crate) fn judge_ping(tuple: &[u8], kind: PingKind, order: Order) -> Result<u32, Fault> {
    if kind.row().is_packed() {
        packed!(kind, order, judge(tuple))
    } else {
        listed!(kind, order, judge(tuple))
    }
}

/// The length of a judged ping, if it has one: all its samples, runs counted.
pub(crate) fn ping_length(tuple: &[u8], kind: PingKind, order: Order) -> Option<u32> {
    if kind.row().is_packed() {
        packed!(kind, order, length(tuple))
    } else {
        None
    }
}

/// Takes the samples of a judged ping that has no angles; the slices have exactly as many
/// entries.
pub(crate) fn take_samples(
    tuple: &[u8],
    kind: PingKind,
    order: Order,
    numbers: &mut [u32],
    values: &mut [i32],
) {
    if kind.row().is_packed() {
        packed!(
            kind,
            order,
            take(bytes_of(tuple, kind.row()), numbers, values)
        )
    } else {
        listed!(kind, order, take(tuple, numbers, values))
    }
}

/// The same in lists of their own.
pub(crate) fn sample_lists(tuple: &[u8], kind: PingKind, order: Order) -> (Vec<u32>, Vec<i32>) {
    let count = judge_ping(tuple, kind, order).unwrap_or(0) as usize;
    let (mut numbers, mut values) = (vec![0; count], vec![0; count]);
    take_samples(tuple, kind, order, &mut numbers, &mut values);
    (numbers, values)
}

/// Takes the samples of a judged ping that has angles.
pub(crate) fn take_angles(
    tuple: &[u8],
    kind: PingKind,
    order: Order,
    numbers: &mut [u32],
    angles: [&mut [i16]; 2],
) {
    listed!(kind, order, take_angles(tuple, numbers, angles))
}

/// The kind and the length of a judged ping's normal form.
pub(crate) fn normal_ping(tuple: &[u8], kind: PingKind, order: Order) -> (PingKind, u64) {
    if kind.row().is_packed() {
        packed!(kind, order, normal(tuple))
    } else {
        (kind, tuple.len() as u64)
    }
}

/// Writes the samples of a judged ping's normal form, in LSB order, where they stand in
/// `out`, which has room for the whole tuple; tells its kind and length.
pub(crate) fn normal_samples(
    tuple: &[u8],
    kind: PingKind,
    order: Order,
    out: &mut [u8],
) -> (PingKind, usize) {
    let (normal, count) = if kind.row().is_packed() {
        packed!(kind, order, to_normal(tuple, out))
    } else {
        (kind, listed!(kind, order, to_normal(tuple, out)))
    };
    let row = normal.row();
    let length = row.length(count) as usize;
    // the space, if there is one
    let end = row.start() + count as usize * row.stride();
    out[end..length - TAIL].fill(0);
    (normal, length)
}

/// The number of samples that a packed ping states.
fn stated<const MSB: bool>(tuple: &[u8]) -> u32 {
    number::<MSB>(&tuple[COUNT_AT..COUNT_AT + 4])
}

impl<const K: usize, const MSB: bool> Packed<K, MSB> {
    /// The words among the bytes before the attribute, of which so many are no runs, and
    /// how many of the words are none.
    ///
    /// These are all the bytes, but for the last two where they are a space: words of
    /// two bytes may have one behind them. The number of samples that is stated decides.
    /// They are a space where it is right without them and wrong with them. So a run is
    /// never taken for a space, and a space of 0 never for a value.
    fn without_space(bytes: &[u8], no_runs: u32, stated: u32) -> (&[u8], u32) {
        let may_be = Self::BYTES < 4 && !Self::ends_in_run(bytes);
        if may_be && no_runs - 1 == stated {
            (&bytes[..bytes.len() - Self::BYTES], no_runs - 1)
        } else {
            (bytes, no_runs)
        }
    }

    /// The words of a judged ping.
    fn words_of(tuple: &[u8]) -> &[u8] {
        let bytes = bytes_of(tuple, &Self::ROW);
        if Self::BYTES == 4 || Self::ends_in_run(bytes) {
            return bytes;
        }
        let (no_runs, _) = Self::count(bytes);
        Self::without_space(bytes, no_runs, stated::<MSB>(tuple)).0
    }

    fn judge(tuple: &[u8]) -> Result<u32, Fault> {
        let bytes = bytes_of(tuple, &Self::ROW);
        let (no_runs, bad) = Self::count(bytes);
        let stated = stated::<MSB>(tuple);
        let (words, values) = Self::without_space(bytes, no_runs, stated);
        if u64::from(values) > VALUE_LIMIT {
            return Err(11.into());
        }
        if bad {
            if let Some(nth) = Self::first_bad(words) {
                let place = Self::ROW.start() + Self::BYTES * nth;
                return Err(Fault::new(24, place));
            }
        }
        if stated != values {
            return Err(Fault::new(25, COUNT_AT));
        }
        Ok(values)
    }

    fn length(tuple: &[u8]) -> Option<u32> {
        let words = Self::words_of(tuple);
        Self::ends_in_run(words).then(|| Self::samples(words))
    }

    /// Whether words stay words in the normal form: where they give a length, where the
    /// family has no kind that numbers samples, and where that one's numbers don't reach
    /// the last value.
    fn stay(words: &[u8]) -> bool {
        let Some(listed) = Self::ROW.family.listed() else {
            return true;
        };
        let reach = 1u64 << (8 * listed.row().number);
        let most = (words.len() / Self::BYTES) as u64 * u64::from(Self::ROW.radix());
        Self::ends_in_run(words) || most > reach && u64::from(Self::samples(words)) > reach
    }

    fn normal(tuple: &[u8]) -> (PingKind, u64) {
        let words = Self::words_of(tuple);
        match Self::ROW.family.listed() {
            Some(listed) if !Self::stay(words) => {
                let count = stated::<MSB>(tuple);
                (listed, listed.row().length(count.into()))
            }
            _ => (Self::ROW.kind, Self::ROW.length(Self::fewest(words))),
        }
    }

    /// Gives the kind, and how many samples or words it has.
    fn to_normal(tuple: &[u8], out: &mut [u8]) -> (PingKind, u64) {
        let words = Self::words_of(tuple);
        match Self::ROW.family.listed() {
            Some(listed) if !Self::stay(words) => {
                // Judged before, the stated number of samples is that of values.
                let count = u64::from(stated::<MSB>(tuple));
                let end = listed.row().length(count) as usize - TAIL;
                Self::to_pairs(words, &mut out[HEADER_END..end]);
                (listed, count)
            }
            _ => {
                let words = Self::to_fewest(words, &mut out[Self::ROW.start()..]);
                (Self::ROW.kind, words)
            }
        }
    }
}
