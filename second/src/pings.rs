//! Pings: their fields and samples read, and a writer for each kind.

use crate::answer::{Answer, Reply};
use crate::kinds::{PingKind, COUNT_AT, TAIL};
use crate::layout::{TUPLE_LIMIT, VALUE_LIMIT};
use crate::links::SoftwareChannel;
use crate::listed::{first_not_rising, listed};
use crate::order::{four_at, put_four, put_two, two_at, Order};
use crate::records::{lend, listed_tuple, write_frame};
use crate::samples::{judge_ping, ping_length, take_angles, take_samples};
use crate::words::{fewest_words, least_length, packed, word_of};

/// The header fields that all kinds of ping share: Tables 6 and 19 to 24.
#[derive(Clone, Copy, PartialEq, Eq, Debug)]
pub struct PingHeader {
    pub time_fraction: u16,
    pub time_cpu_ansi_c_standard_time: u32,
    pub software_channel_identifier: SoftwareChannel,
    pub transmitter_mode: u16,
    pub ping_number: u32,
    pub detected_bottom_range: i32,
}

impl PingHeader {
    pub(crate) fn take(tuple: &[u8], order: Order) -> PingHeader {
        PingHeader {
            time_fraction: two_at(order, tuple, 6),
            time_cpu_ansi_c_standard_time: four_at(order, tuple, 8),
            software_channel_identifier: SoftwareChannel(two_at(order, tuple, 12)),
            transmitter_mode: two_at(order, tuple, 14),
            ping_number: four_at(order, tuple, 16),
            detected_bottom_range: four_at(order, tuple, 20) as i32,
        }
    }

    fn put(&self, order: Order, tuple: &mut [u8]) {
        put_two(order, tuple, 6, self.time_fraction);
        put_four(order, tuple, 8, self.time_cpu_ansi_c_standard_time);
        put_two(order, tuple, 12, self.software_channel_identifier.0);
        put_two(order, tuple, 14, self.transmitter_mode);
        put_four(order, tuple, 16, self.ping_number);
        put_four(order, tuple, 20, self.detected_bottom_range as u32);
    }
}

/// A ping's attribute, which is signed and stands just before the backlink.
pub(crate) fn attribute(tuple: &[u8], order: Order) -> i32 {
    four_at(order, tuple, tuple.len() - TAIL) as i32
}

/// What a ping says besides its samples.
#[derive(Clone, Copy, PartialEq, Eq, Debug)]
pub struct Ping {
    pub header: PingHeader,
    pub tuple_attribute: i32,
    pub kind: PingKind,
    /// The number of samples that have values, as counted.
    pub values: u32,
    /// All its samples, runs counted, where it is of a packed kind and its last word is a
    /// run.
    pub length: Option<u32>,
}

impl Ping {
    /// Reads the ping, of any kind, at a place of a file; gives 11 and 23 to 25 as the
    /// sample readers do.
    pub fn read(file: &[u8], place: u64) -> Reply<Ping> {
        let found = Found::at(file, place, |_| true)?;
        let Found { tuple, order, kind } = found;
        let ping = Ping {
            header: PingHeader::take(tuple, order),
            tuple_attribute: attribute(tuple, order),
            kind,
            values: found.values(place)?,
            length: ping_length(tuple, kind, order),
        };
        Ok((Answer::accepted(1, 0), ping))
    }
}

/// The ping that a reader asks for.
struct Found<'a> {
    tuple: &'a [u8],
    order: Order,
    kind: PingKind,
}

impl Found<'_> {
    /// The ping at a place: the step's refusals, 9 where it is of no kind asked for, 9
    /// for an unfit length.
    fn at(file: &[u8], place: u64, asked: fn(PingKind) -> bool) -> Result<Found<'_>, Answer> {
        let is_asked = |code| PingKind::of(code).is_some_and(asked);
        let (tuple, code, order) = listed_tuple(file, place, is_asked)?;
        let kind = PingKind::of(code).ok_or(Answer::refused(9, place))?;
        Ok(Found { tuple, order, kind })
    }

    /// The samples that have values: 11 and 23 to 25.
    fn values(&self, place: u64) -> Result<u32, Answer> {
        let judged = judge_ping(self.tuple, self.kind, self.order);
        judged.map_err(|fault| fault.at(place))
    }
}

/// The answer, whichever it is.
fn either(answer: Result<Answer, Answer>) -> Answer {
    answer.unwrap_or_else(|refusal| refusal)
}

/// The first entries of a lent slice: 19.
fn first<T>(lent: &mut [T], count: u32) -> Result<&mut [T], Answer> {
    lent.get_mut(..count as usize).ok_or(Answer::refused(19, 0))
}

/// Reads the samples of the ping at a place of a file, of any kind without angles; of
/// CE-16 the values are counts.
///
/// Accepts with 1 tuple and the number of samples as length; that many entries of both
/// slices change, and none past them.
pub fn read_samples(file: &[u8], place: u64, numbers: &mut [u32], values: &mut [i32]) -> Answer {
    either((|| {
        let found = Found::at(file, place, |kind| !kind.row().has_angles())?;
        let count = found.values(place)?;
        let (numbers, values) = (first(numbers, count)?, first(values, count)?);
        take_samples(found.tuple, found.kind, found.order, numbers, values);
        Ok(Answer::accepted(1, count.into()))
    })())
}

/// Reads the samples of the ping at a place of a file, of either kind with angles; all
/// else as `read_samples`.
pub fn read_angles(
    file: &[u8],
    place: u64,
    numbers: &mut [u32],
    alongship: &mut [i16],
    athwartship: &mut [i16],
) -> Answer {
    either((|| {
        let found = Found::at(file, place, |kind| kind.row().has_angles())?;
        let count = found.values(place)?;
        let numbers = first(numbers, count)?;
        let angles = [first(alongship, count)?, first(athwartship, count)?];
        take_angles(found.tuple, found.kind, found.order, numbers, angles);
        Ok(Answer::accepted(1, count.into()))
    })())
}

/// What all ping writers refuse first: unequal lists, then 11 (count), 22 without samples
/// where these are needed, and 23.
fn judge_lists<N: Copy + Into<u32>>(
    numbers: &[N],
    values: &[usize],
    samples_needed: bool,
) -> Result<(), Answer> {
    let count = numbers.len();
    if values.iter().any(|other| *other != count) {
        let smallest = values.iter().fold(count, |least, other| least.min(*other));
        return Err(Answer::refused(23, smallest as u64));
    }
    if count as u64 > VALUE_LIMIT {
        return Err(Answer::refused(11, 0));
    }
    if count == 0 && samples_needed {
        return Err(Answer::refused(22, 0));
    }
    let numbers = numbers.iter().map(|number| (*number).into());
    match first_not_rising(numbers) {
        Some(place) => Err(Answer::refused(23, place as u64)),
        None => Ok(()),
    }
}

/// A ping to be written: all but its samples.
struct Sheet<'a> {
    kind: PingKind,
    header: &'a PingHeader,
    attribute: i32,
    order: Order,
    out: &'a mut [u8],
}

impl<'a> Sheet<'a> {
    /// Writes frame and header of a ping of so many samples or words: 19. Gives the tuple,
    /// with 0 everywhere else.
    fn begin(self, count: u64) -> Result<&'a mut [u8], Answer> {
        let row = self.kind.row();
        let tuple = lend(self.out, row.length(count))?;
        write_frame(tuple, row.code, self.attribute, self.order);
        self.header.put(self.order, tuple);
        Ok(tuple)
    }

    /// Writes a ping of a listed kind, every list of values of which has one for each
    /// number. 32,764 samples have room in every kind.
    fn listed<N, V, const VALUES: usize>(
        self,
        numbers: &[N],
        values: [&[V]; VALUES],
    ) -> Result<Answer, Answer>
    where
        N: Copy + Into<u32>,
        V: Copy + Into<i32>,
    {
        judge_lists(numbers, &values.map(<[V]>::len), true)?;
        let (kind, order) = (self.kind, self.order);
        let tuple = self.begin(numbers.len() as u64)?;
        listed!(kind, order, put(numbers, values, bytes_mut(tuple, kind)));
        Ok(Answer::accepted(1, tuple.len() as u64))
    }

    /// Writes a ping of a packed kind.
    fn packed<V>(self, numbers: &[u32], values: &[V], length: Option<u32>) -> Result<Answer, Answer>
    where
        V: Copy + Into<i32>,
    {
        let (kind, order) = (self.kind, self.order);
        judge_lists(numbers, &[values.len()], length.is_none())?;
        let wordless = |value: &V| word_of(kind, (*value).into()).is_none();
        if let Some(place) = values.iter().position(wordless) {
            return Err(Answer::refused(21, place as u64));
        }
        if length.is_some_and(|length| u64::from(length) < least_length(numbers)) {
            return Err(Answer::refused(26, 0));
        }
        // 32,764 gaps of at most 2^24 words each: far inside 64 bits
        let words = fewest_words(kind, numbers, length);
        if kind.row().length(words) > TUPLE_LIMIT {
            return Err(Answer::refused(11, 0));
        }
        let tuple = self.begin(words)?;
        put_four(order, tuple, COUNT_AT, numbers.len() as u32);
        packed!(
            kind,
            order,
            put(numbers, values, length, bytes_mut(tuple, kind))
        );
        Ok(Answer::accepted(1, tuple.len() as u64))
    }
}

/// Where samples or words stand in a ping's tuple, with the space behind them.
fn bytes_mut(tuple: &mut [u8], kind: PingKind) -> &mut [u8] {
    let end = tuple.len() - TAIL;
    &mut tuple[kind.row().start()..end]
}

/// Makes the writer of a listed kind. It refuses by 23 (unequal lists), 11 (count), 22,
/// 23, 19.
macro_rules! listed_writer {
    ($(#[$doc:meta])* $name:ident, $kind:ident, $number:ty, $value:ty, $($list:ident)+) => {
        $(#[$doc])*
        pub fn $name(
            header: &PingHeader,
            attribute: i32,
            numbers: &[$number],
            $($list: &[$value],)+
            order: Order,
            out: &mut [u8],
        ) -> Answer {
            let kind = PingKind::$kind;
            let sheet = Sheet { kind, header, attribute, order, out };
            either(sheet.listed(numbers, [$($list),+]))
        }
    };
}

/// Makes the writer of a packed kind, in the fewest words, with a run behind the last
/// value where there is a length. It refuses by 23 (unequal lists), 11 (count), 22
/// (neither samples nor a length), 23, 21, 26, 11 (length), 19.
macro_rules! packed_writer {
    ($(#[$doc:meta])* $name:ident, $kind:ident, $value:ty) => {
        $(#[$doc])*
        pub fn $name(
            header: &PingHeader,
            attribute: i32,
            numbers: &[u32],
            values: &[$value],
            length: Option<u32>,
            order: Order,
            out: &mut [u8],
        ) -> Answer {
            let kind = PingKind::$kind;
            let sheet = Sheet { kind, header, attribute, order, out };
            either(sheet.packed(numbers, values, length))
        }
    };
}

listed_writer!(
    /// Writes a U-32 ping.
    write_u32, U32, u32, i32, values
);
listed_writer!(
    /// Writes a U-32-16-angles ping.
    write_u32_16_angles, U32_16Angles, u32, i16, alongship athwartship
);
listed_writer!(
    /// Writes a U-16 ping.
    write_u16, U16, u16, i16, values
);
listed_writer!(
    /// Writes a U-16-angles ping.
    write_u16_angles, U16Angles, u16, i16, alongship athwartship
);
packed_writer!(
    /// Writes a C-32 ping.
    write_c32, C32, i32
);
packed_writer!(
    /// Writes a C-16 ping.
    write_c16, C16, i16
);
packed_writer!(
    /// Writes a CE-16 ping, whose values are counts.
    write_ce16, Ce16, i32
);
