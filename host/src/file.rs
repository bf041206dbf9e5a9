//! A whole file: its limits, its byte order, its check, what is told of one that is
//! written and of slices that are filled, a ping's parents, and their maker.

use crate::answer::Refusal;
use crate::call::{self, HAC_COMPARED, HAC_LENGTH, HAC_TUPLES};
use crate::field::{told, DocumentId, SoftwareChannel};
use crate::types::{self, Maker};
use crate::walk::tuple_at;

/// The most bytes of a file, and of a normal form.
pub const FILE_LIMIT: usize = 16_777_216;

/// The least bytes of a tuple.
pub const TUPLE_LEAST: usize = 16;

/// The most bytes of a tuple.
pub const TUPLE_LIMIT: usize = 262_144;

/// The most values of a ping.
pub const VALUE_LIMIT: usize = 32_764;

/// The most sounders of a file, of both makers together.
pub const SOUNDER_LIMIT: usize = 64;

/// The most channels of a file, of both makers together.
pub const CHANNEL_LIMIT: usize = 1024;

/// The place of a file's first tuple, behind the mark.
pub const FIRST_PLACE: usize = 4;

/// The bytes of a tuple that its data size doesn't count.
pub(crate) const AROUND: usize = 10;

/// The byte order of a file.
#[derive(Clone, Copy, Debug, PartialEq, Eq)]
pub enum Order {
    /// Least significant byte first.
    Lsb,
    /// Most significant byte first.
    Msb,
}

impl Order {
    /// The four bytes that a file of this order begins with.
    pub const fn mark(self) -> [u8; FIRST_PLACE] {
        match self {
            Order::Lsb => [0xAC, 0, 0, 0],
            Order::Msb => [0, 0, 0, 0xAC],
        }
    }

    pub(crate) fn is_msb(self) -> bool {
        self == Order::Msb
    }

    /// The order of a file that begins with a mark, as every accepted one does.
    pub fn of(file: &[u8]) -> Order {
        if file.starts_with(&Order::Msb.mark()) {
            Order::Msb
        } else {
            Order::Lsb
        }
    }

    /// The number that two bytes stand for.
    pub(crate) fn two(self, bytes: [u8; 2]) -> u16 {
        match self {
            Order::Lsb => u16::from_le_bytes(bytes),
            Order::Msb => u16::from_be_bytes(bytes),
        }
    }

    /// The number that four bytes stand for.
    pub(crate) fn four(self, bytes: [u8; 4]) -> u32 {
        match self {
            Order::Lsb => u32::from_le_bytes(bytes),
            Order::Msb => u32::from_be_bytes(bytes),
        }
    }

    /// The two bytes of a number, and the four.
    pub(crate) fn two_bytes(self, number: u16) -> [u8; 2] {
        match self {
            Order::Lsb => number.to_le_bytes(),
            Order::Msb => number.to_be_bytes(),
        }
    }

    pub(crate) fn four_bytes(self, number: u32) -> [u8; 4] {
        match self {
            Order::Lsb => number.to_le_bytes(),
            Order::Msb => number.to_be_bytes(),
        }
    }
}

/// The number of two bytes at a place of a file, and that of four; none past its end.
pub(crate) fn two_at(file: &[u8], place: usize) -> Option<u16> {
    let bytes = file.get(place..)?.first_chunk()?;
    Some(Order::of(file).two(*bytes))
}

pub(crate) fn four_at(file: &[u8], place: usize) -> Option<u32> {
    let bytes = file.get(place..)?.first_chunk()?;
    Some(Order::of(file).four(*bytes))
}

/// What is counted in a file that the check accepts.
#[derive(Clone, Copy, Debug, PartialEq, Eq)]
pub struct Counts {
    /// How many tuples it has.
    pub tuples: usize,
    /// How many identifiers are compared while it is linked: while a channel's
    /// sounder is looked for among the sounders, and the channel of a ping, a
    /// threshold or an attitude among the channels, both makers' alike. Each search
    /// goes in declaration order and stops at its match; an attitude for all channels
    /// compares none. At most [`CHANNEL_LIMIT`] times the tuples.
    pub compared: usize,
}

/// Checks a whole file and counts in it. Refuses by 1, 2; tuple by tuple 4, 3, 5,
/// 3, 6, 7, 9, 8, 12, 14, 13, 11, 23, 24, 25; behind the end of file 15, 16, 17.
/// [`crate::advice()`] tells more of each.
pub fn check(file: &[u8]) -> Result<Counts, Refusal> {
    let answer = call::check(file)?;
    Ok(Counts {
        tuples: told(&answer, HAC_TUPLES),
        compared: told(&answer, HAC_COMPARED),
    })
}

/// A file that was written, made from one that was handed in.
#[derive(Clone, Copy, Debug, PartialEq, Eq)]
pub struct Written {
    /// How many tuples the file handed in has.
    pub tuples: usize,
    /// How many bytes were written.
    pub length: usize,
    /// How many identifiers are compared while the file handed in is linked, as
    /// [`Counts`] has it; 0 for one tuple.
    pub compared: usize,
}

impl Written {
    pub(crate) fn of<const ENTRIES: usize>(answer: [u64; ENTRIES]) -> Written {
        Written {
            tuples: told(&answer, HAC_TUPLES),
            length: told(&answer, HAC_LENGTH),
            compared: told(&answer, HAC_COMPARED),
        }
    }
}

/// A file written to new memory, which is lent as much as is enough, or as a file may have
/// where that is less, and left just enough.
pub(crate) fn written_anew(
    enough: usize,
    write: impl FnOnce(&mut [u8]) -> Result<Written, Refusal>,
) -> Result<Vec<u8>, Refusal> {
    let mut out = vec![0; enough.min(FILE_LIMIT)];
    let written = write(&mut out)?;
    out.truncate(written.length);
    out.shrink_to_fit();
    Ok(out)
}

/// What was told of a file into lent slices.
#[derive(Clone, Copy, Debug, PartialEq, Eq)]
pub struct Filled {
    /// How many tuples the file has.
    pub tuples: usize,
    /// How many entries of each slice were written.
    pub entries: usize,
    /// How many identifiers are compared while the file is linked, as [`Counts`] has it.
    pub compared: usize,
}

impl Filled {
    pub(crate) fn of<const ENTRIES: usize>(answer: [u64; ENTRIES]) -> Filled {
        Filled {
            tuples: told(&answer, HAC_TUPLES),
            entries: told(&answer, HAC_LENGTH),
            compared: told(&answer, HAC_COMPARED),
        }
    }
}

/// The bytes of the shortest listed ping, a U-16 ping of one sample.
const SHORTEST_PING: usize = 36;

/// So many listed pings a file has at the most: slices of as many entries hold one for each.
pub(crate) fn most_pings(file: &[u8]) -> usize {
    file.len().min(FILE_LIMIT) / SHORTEST_PING
}

/// The channel and the sounder of a ping. Both are of one maker, whom [`maker_at`] tells
/// of either place.
#[derive(Clone, Copy, Debug, PartialEq, Eq)]
pub struct Parents {
    /// The channel that the ping names.
    pub channel: SoftwareChannel,
    /// Where the channel's tuple starts.
    pub channel_place: usize,
    /// The channel's sampling rate.
    pub sampling_rate: u32,
    /// The channel's type of data sample. What a number stands for is the maker's: TR
    /// Table 4 has it for Biosonics, Table 5 for the EK-500.
    pub type_of_data_sample: u16,
    /// The sounder that the channel names.
    pub sounder: DocumentId,
    /// Where the sounder's tuple starts.
    pub sounder_place: usize,
    /// How many tuples the file has.
    pub tuples: usize,
    /// How many identifiers are compared while the file is linked, as [`Counts`] has
    /// it.
    pub compared: usize,
}

/// The parents of the ping at a place. Refuses as [`check`] does; then by 9 where
/// no listed ping starts.
pub fn ask(file: &[u8], place: usize) -> Result<Parents, Refusal> {
    let answer = call::ask(file, place)?;
    Ok(Parents {
        channel: told(&answer, call::HAC_ASK_CHANNEL),
        channel_place: told(&answer, call::HAC_ASK_CHANNEL_PLACE),
        sampling_rate: told(&answer, call::HAC_ASK_SAMPLING_RATE),
        type_of_data_sample: told(&answer, call::HAC_ASK_TYPE_OF_DATA_SAMPLE),
        sounder: told(&answer, call::HAC_ASK_SOUNDER),
        sounder_place: told(&answer, call::HAC_ASK_SOUNDER_PLACE),
        tuples: told(&answer, HAC_TUPLES),
        compared: told(&answer, HAC_COMPARED),
    })
}

/// Whose the sounder or the channel is that starts at a place of a file, told by the
/// type of the tuple there; none where no listed one starts.
pub fn maker_at(file: &[u8], place: usize) -> Option<Maker> {
    types::maker(tuple_at(file, place).ok()?.kind)
}
