//! Pings: their fields and samples read, and pings written.

use crate::answer::Refusal;
use crate::call::{self, HAC_LENGTH};
use crate::field::{told, Field, SoftwareChannel};
use crate::file::Order;
use crate::types;
use std::fmt;

/// The fields before a ping's samples, under the names of TR Tables 6 and 19 to 24.
#[allow(missing_docs)]
#[derive(Clone, Copy, Debug, Default, PartialEq, Eq)]
pub struct PingHeader {
    pub time_fraction: u16,
    pub time_cpu: u32,
    pub software_channel_identifier: SoftwareChannel,
    pub transmitter_mode: u16,
    pub ping_number: u32,
    pub detected_bottom_range: i32,
}

/// The kinds: the archive's number, the type and TR's name of each.
macro_rules! kinds {
    ($($(#[$about:meta])* $kind:ident $number:ident $code:ident $name:literal)*) => {
        /// The seven ways in which a ping's samples are stored, by the archive's numbers.
        /// U-32 and C-32 are one family, U-16 and C-16 another, each other kind one of its
        /// own. A ping's family is content, and which kind of it a ping has isn't.
        #[derive(Clone, Copy, Debug, PartialEq, Eq, Hash)]
        pub enum PingKind {
            $($(#[$about])* $kind = call::$number as isize,)*
        }

        impl PingKind {
            /// Every kind, in the order of the archive's numbers.
            pub const ALL: &'static [PingKind] = &[$(PingKind::$kind),*];

            /// The name that TR gives the kind.
            pub const fn name(self) -> &'static str {
                match self {
                    $(PingKind::$kind => $name,)*
                }
            }

            /// The type of its tuples.
            pub const fn code(self) -> u16 {
                match self {
                    $(PingKind::$kind => types::$code,)*
                }
            }
        }
    };
}

kinds! {
    /// Type 10000, pairs of sample number and value.
    U32 HAC_KIND_U32 PING_U "U-32"
    /// Type 10010, values and runs of silence.
    C32 HAC_KIND_C32 PING_C "C-32"
    /// Type 10001, a sample number of 32 bits and two angles each.
    U32_16Angles HAC_KIND_U32_16_ANGLES PING_U32_16_ANGLES "U-32-16-angles"
    /// Type 10030, pairs of sample number and value, both of 16 bits.
    U16 HAC_KIND_U16 PING_U16 "U-16"
    /// Type 10031, a sample number of 16 bits and two angles each.
    U16Angles HAC_KIND_U16_ANGLES PING_U16_ANGLES "U-16-angles"
    /// Type 10040, values and runs of silence, words of 16 bits.
    C16 HAC_KIND_C16 PING_C16 "C-16"
    /// Type 10050, the same with values of an exponent and a mantissa. They are told as
    /// the counts that these stand for, from -507,840 to 507,840.
    Ce16 HAC_KIND_CE16 PING_CE16 "CE-16"
}

impl PingKind {
    /// The kind of a type; none of a type that is no listed ping's.
    pub fn of_type(code: u16) -> Option<PingKind> {
        let mut kinds = PingKind::ALL.iter().copied();
        kinds.find(|kind| kind.code() == code)
    }

    /// Whether its samples are angles, which [`read_angles`] reads, or values.
    pub const fn has_angles(self) -> bool {
        matches!(self, PingKind::U32_16Angles | PingKind::U16Angles)
    }
}

impl fmt::Display for PingKind {
    fn fmt(&self, to: &mut fmt::Formatter<'_>) -> fmt::Result {
        to.write_str(self.name())
    }
}

impl Field for PingKind {
    fn of(pattern: u64) -> PingKind {
        let mut kinds = PingKind::ALL.iter().copied();
        kinds
            .find(|kind| *kind as u64 == pattern)
            .expect("the archive tells the seven kinds alone")
    }
}

/// A ping but for its samples.
#[derive(Clone, Copy, Debug, PartialEq, Eq)]
pub struct Ping {
    /// The fields before the samples.
    pub header: PingHeader,
    /// The attribute.
    pub attribute: i32,
    /// How the samples are stored.
    pub kind: PingKind,
    /// The number of samples that have values, or angles.
    pub values: usize,
    /// The length: the number of all samples, runs counted. A C-32, C-16 or CE-16 ping
    /// has one where its last word is a run, so one without samples always has, at least
    /// 1; the other kinds never have. It is content: silent pings of different lengths
    /// differ.
    pub length: Option<u32>,
}

/// Reads the ping at a place. Refuses as a forward step is refused, by 3 at the
/// end; by 9 for another type; then by 9, 11, all at the place; by 23, 24, 25 at
/// the byte of the first number or word that is wrong, or of the number of samples.
pub fn read_ping(file: &[u8], place: usize) -> Result<Ping, Refusal> {
    let answer = call::read_ping(file, place)?;
    Ok(Ping {
        header: PingHeader {
            time_fraction: told(&answer, call::HAC_PING_TIME_FRACTION),
            time_cpu: told(&answer, call::HAC_PING_TIME_CPU),
            software_channel_identifier: told(&answer, call::HAC_PING_SOFTWARE_CHANNEL_IDENTIFIER),
            transmitter_mode: told(&answer, call::HAC_PING_TRANSMITTER_MODE),
            ping_number: told(&answer, call::HAC_PING_PING_NUMBER),
            detected_bottom_range: told(&answer, call::HAC_PING_DETECTED_BOTTOM_RANGE),
        },
        attribute: told(&answer, call::HAC_PING_TUPLE_ATTRIBUTE),
        kind: told(&answer, call::HAC_PING_KIND),
        values: told(&answer, call::HAC_PING_VALUES),
        length: length_of(&answer),
    })
}

/// The length of the ping that an answer tells of.
fn length_of(answer: &[u64]) -> Option<u32> {
    let has_length: bool = told(answer, call::HAC_PING_HAS_LENGTH);
    has_length.then(|| told(answer, call::HAC_PING_LENGTH))
}

/// Reads the samples of the ping at a place into lent slices, an entry of both
/// for each, and gives how many they are. A ping of angles is another type: 9 at the
/// place. Else refuses as [`read_ping`] does; then by 19 at 0 where either slice is too
/// short.
pub fn read_samples(
    file: &[u8],
    place: usize,
    numbers: &mut [u32],
    values: &mut [i32],
) -> Result<usize, Refusal> {
    let answer = call::read_samples(file, place, numbers, values)?;
    Ok(told(&answer, HAC_LENGTH))
}

/// Reads the samples of the ping of angles at a place into lent slices, an entry of all
/// three for each, and gives how many they are. Any other ping is another type: 9 at the
/// place. Else refuses as [`read_ping`] does; then by 19 at 0 where one of the slices is
/// too short.
pub fn read_angles(
    file: &[u8],
    place: usize,
    numbers: &mut [u32],
    alongship: &mut [i16],
    athwartship: &mut [i16],
) -> Result<usize, Refusal> {
    let answer = call::read_angles(file, place, numbers, alongship, athwartship)?;
    Ok(told(&answer, HAC_LENGTH))
}

/// A ping's samples that have values: the number of each, and its value.
#[derive(Clone, Debug, PartialEq, Eq)]
pub struct Samples {
    /// The sample numbers, which rise strictly.
    pub numbers: Vec<u32>,
    /// A value for each: of CE-16 the counts, else as it is stored.
    pub values: Vec<i32>,
}

/// The samples of a ping of angles: the number of each, and its two angles in tenths of a
/// degree.
#[derive(Clone, Debug, PartialEq, Eq)]
pub struct Angles {
    /// The sample numbers, which rise strictly.
    pub numbers: Vec<u32>,
    /// An alongship angle for each, positive in the fore direction.
    pub alongship: Vec<i16>,
    /// An athwartship angle for each, positive to starboard.
    pub athwartship: Vec<i16>,
}

/// How many samples the ping at a place has. None where it is refused: its readers then
/// need no room to refuse it, each in its own order.
fn count(file: &[u8], place: usize) -> usize {
    read_ping(file, place).map_or(0, |ping| ping.values)
}

/// Reads the samples of the ping at a place into new memory, just enough for
/// them. Refuses as [`read_samples`] does, but never by 19.
pub fn samples(file: &[u8], place: usize) -> Result<Samples, Refusal> {
    let count = count(file, place);
    let mut samples = Samples {
        numbers: vec![0; count],
        values: vec![0; count],
    };
    read_samples(file, place, &mut samples.numbers, &mut samples.values)?;
    Ok(samples)
}

/// Reads the samples of the ping of angles at a place into new memory, just enough for
/// them. Refuses as [`read_angles`] does, but never by 19.
///
/// ```
/// use hac::{Order, PingHeader};
///
/// // A mark, and a ping of two samples.
/// let mut file = [0; hac::FIRST_PLACE + 44];
/// let (mark, tuple) = file.split_at_mut(hac::FIRST_PLACE);
/// mark.copy_from_slice(&Order::Msb.mark());
/// let (alongship, athwartship) = ([-15, 1800], [7, -1800]);
/// let header = PingHeader::default();
/// hac::write_u16_angles(&header, 0, &[615, 616], &alongship, &athwartship, Order::Msb, tuple)?;
/// let read = hac::angles(&file, hac::FIRST_PLACE)?;
/// assert_eq!((read.numbers, read.alongship), (vec![615, 616], alongship.to_vec()));
/// # Ok::<(), hac::Refusal>(())
/// ```
pub fn angles(file: &[u8], place: usize) -> Result<Angles, Refusal> {
    let count = count(file, place);
    let mut angles = Angles {
        numbers: vec![0; count],
        alongship: vec![0; count],
        athwartship: vec![0; count],
    };
    read_angles(
        file,
        place,
        &mut angles.numbers,
        &mut angles.alongship,
        &mut angles.athwartship,
    )?;
    Ok(angles)
}

/// The writers: the lists that each takes, and whether it takes a length. Where there is
/// none, its number isn't looked at.
macro_rules! writers {
    ($($(#[$about:meta])* $write:ident($($list:ident: $element:ty),*; $($length:ident)?))*) => {$(
        $(#[$about])*
        pub fn $write(
            header: &PingHeader,
            attribute: i32,
            $($list: &[$element],)*
            $($length: Option<u32>,)?
            order: Order,
            out: &mut [u8],
        ) -> Result<usize, Refusal> {
            let answer = call::$write(
                header.time_fraction,
                header.time_cpu,
                header.software_channel_identifier.0,
                header.transmitter_mode,
                header.ping_number,
                header.detected_bottom_range,
                attribute,
                $($list,)*
                $($length.is_some(), $length.unwrap_or_default(),)?
                order.is_msb(),
                out,
            )?;
            Ok(told(&answer, HAC_LENGTH))
        }
    )*};
}

writers! {
    /// Writes a U-32 ping, and gives how many bytes it has. Refuses by 23 at the smallest
    /// of unequal counts; 11 (count); 22 without samples; 23 at the first number not above
    /// the one before it; 19.
    write_u32(numbers: u32, values: i32;)

    /// Writes a U-32-16-angles ping; all else as [`write_u32`].
    write_u32_16_angles(numbers: u32, alongship: i16, athwartship: i16;)

    /// Writes a U-16 ping; all else as [`write_u32`]. It numbers samples up to 65,535.
    write_u16(numbers: u16, values: i16;)

    /// Writes a U-16-angles ping; all else as [`write_u32`]. It numbers samples up to
    /// 65,535.
    write_u16_angles(numbers: u16, alongship: i16, athwartship: i16;)

    /// Writes a C-32 ping in the fewest words, and gives how many bytes it has. With a
    /// length it ends in the runs that fill it, and is read with this length; without
    /// one no run stands behind its last value. Refuses by 23 at the smaller of
    /// unequal counts; 11 (count); 22 with neither samples nor a length; 23 at the
    /// first number not above the one before it; 21 at the first value that has no
    /// word; 26 for a length under the last number plus 2, or of 0 without samples;
    /// 11 (the tuple's bytes); 19. The values from -2,147,418,112 to -65,537 and from 0
    /// to 2,147,418,111 have a word.
    ///
    /// ```
    /// use hac::{Code, Order, PingHeader};
    ///
    /// // A mark, and a silent ping of 1,200 samples.
    /// let mut file = [0; hac::FIRST_PLACE + 40];
    /// let (mark, tuple) = file.split_at_mut(hac::FIRST_PLACE);
    /// mark.copy_from_slice(&Order::Lsb.mark());
    /// let header = PingHeader::default();
    /// hac::write_c32(&header, 0, &[], &[], Some(1200), Order::Lsb, tuple)?;
    /// assert_eq!(hac::read_ping(&file, hac::FIRST_PLACE)?.length, Some(1200));
    ///
    /// // A value at 7 and a length of 8: no silence would stand behind the value.
    /// let short = hac::write_c32(&header, 0, &[7], &[5], Some(8), Order::Lsb, &mut []);
    /// assert_eq!(short.unwrap_err().code, Code::ShortLength);
    /// # Ok::<(), hac::Refusal>(())
    /// ```
    write_c32(numbers: u32, values: i32; length)

    /// Writes a C-16 ping; all else as [`write_c32`]. The values from -32,511 to -257 and
    /// from 0 to 32,511 have a word.
    write_c16(numbers: u32, values: i16; length)

    /// Writes a CE-16 ping, whose values are counts; all else as [`write_c32`]. The counts
    /// from -507,840 to 507,840 that an exponent gives exactly have a word: up to 8,191
    /// each, from 8,192 on every second, from 16,384 on every fourth, and so on, up to
    /// every 64th from 262,144 on.
    ///
    /// ```
    /// use hac::{Code, Order, PingHeader};
    ///
    /// let write = |counts| {
    ///     let mut out = [0; 40];
    ///     hac::write_ce16(&PingHeader::default(), 0, &[0], &[counts], None, Order::Lsb, &mut out)
    /// };
    /// assert_eq!(write(-8194), Ok(40));
    /// assert_eq!(write(-8193).unwrap_err().code, Code::NoWord);
    /// ```
    write_ce16(numbers: u32, values: i32; length)
}
