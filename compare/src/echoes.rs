//! The pings of a file and what their samples are, and where a file is asked for one: for
//! energies and for readings.

use crate::slices::Tries;
use crate::walked::{walked, FIRST};
use second::layout::{CHANNEL, EK500_CHANNEL};
use second::pings::{read_samples, Ping};
use second::records::{Channel, Ek500Channel};
use second::walk::Tuple;
use second::{Maker, PingKind};
use std::collections::HashMap;

/// Asking looks at about so many bytes of one file, or asks so many times.
const ASKED_BYTES: usize = 1 << 19;
const ASKED_LEAST: usize = 3;

/// Where a ping has its channel.
const CHANNEL_AT: usize = 12;

/// What the samples of a channel with readings are called.
pub const VOLTS: &str = "volts";
pub const SV: &str = "Sv";
pub const TS: &str = "TS";

/// A type of data sample in a maker's table.
pub struct SampleType {
    pub maker: Maker,
    /// None for all numbers that the table doesn't define.
    number: Option<u16>,
    pub samples: &'static str,
}

/// TR's Tables 4 and 5, and what they don't define.
pub static TYPES: [SampleType; 10] = [
    SampleType::new(Maker::Biosonics, Some(0), VOLTS),
    SampleType::new(Maker::Biosonics, Some(1), SV),
    SampleType::new(Maker::Biosonics, Some(2), TS),
    SampleType::new(Maker::Biosonics, Some(3), "mechanical angles"),
    SampleType::new(Maker::Biosonics, None, "an undefined type"),
    SampleType::new(Maker::Simrad, Some(0), "phase angles"),
    SampleType::new(Maker::Simrad, Some(1), "power"),
    SampleType::new(Maker::Simrad, Some(2), SV),
    SampleType::new(Maker::Simrad, Some(3), TS),
    SampleType::new(Maker::Simrad, None, "an undefined type"),
];

impl SampleType {
    const fn new(maker: Maker, number: Option<u16>, samples: &'static str) -> SampleType {
        SampleType {
            maker,
            number,
            samples,
        }
    }

    /// By its number: the row of what isn't defined comes behind the others.
    fn of(maker: Maker, number: u16) -> Option<&'static SampleType> {
        let mut rows = TYPES.iter().filter(|row| row.maker == maker);
        rows.find(|row| row.number.is_none_or(|defined| defined == number))
    }

    pub fn name(&self) -> String {
        format!("{} of {:?}", self.samples, self.maker)
    }
}

/// A listed ping, and what its channel says of its samples.
pub struct Echo {
    pub place: u64,
    pub kind: PingKind,
    pub of: &'static SampleType,
}

impl Echo {
    /// Why it has no energy, or no readings: by its kind where that has angles, else by its
    /// channel.
    pub fn cause(&self) -> String {
        match self.kind.row().has_angles() {
            true => self.kind.row().name.to_string(),
            false => self.of.name(),
        }
    }
}

/// The listed pings of a file, in order, as far as it can be walked and declares their
/// channels.
pub fn echoes(file: &[u8]) -> Vec<Echo> {
    let mut channels = HashMap::new();
    let mut echoes = Vec::new();
    for (order, tuple) in walked(file) {
        if let Some((channel, of)) = declared(file, &tuple) {
            channels.insert(channel, of);
        } else if let Some(kind) = PingKind::of(tuple.code) {
            let named = order.read_two(tuple.bytes(file), CHANNEL_AT);
            let of = named.and_then(|channel| channels.get(&channel).copied());
            let place = tuple.place;
            echoes.extend(of.map(|of| Echo { place, kind, of }));
        }
    }
    echoes
}

/// The channel that a tuple declares, of either maker, and what its samples are.
fn declared(file: &[u8], tuple: &Tuple) -> Option<(u16, &'static SampleType)> {
    let (id, maker, number) = match tuple.code {
        CHANNEL => {
            let (_, read) = Channel::read(file, tuple.place).ok()?;
            let id = read.software_channel_identifier;
            (id, Maker::Biosonics, read.type_of_data_sample)
        }
        EK500_CHANNEL => {
            let (_, read) = Ek500Channel::read(file, tuple.place).ok()?;
            let id = read.software_channel_identifier;
            (id, Maker::Simrad, read.type_of_data_sample)
        }
        _ => return None,
    };
    Some((id.0, SampleType::of(maker, number)?))
}

/// The samples at a place, numbers and values; none where no ping with values is.
pub fn samples_at(file: &[u8], place: u64) -> (Vec<u32>, Vec<i32>) {
    let entries = match Ping::read(file, place) {
        Ok((_, ping)) if !ping.kind.row().has_angles() => ping.values as usize,
        _ => 0,
    };
    let (mut numbers, mut values) = (vec![0; entries], vec![0; entries]);
    read_samples(file, place, &mut numbers, &mut values);
    (numbers, values)
}

/// The ping that starts at a place, if one of these does.
pub fn echo_at(echoes: &[Echo], place: u64) -> Option<&Echo> {
    let nth = echoes.binary_search_by_key(&place, |echo| echo.place);
    nth.ok().map(|nth| &echoes[nth])
}

/// Where a file is asked for a ping: at its pings, and where none starts; all or some of these
/// places, by the file's length.
pub fn asked(file: &[u8], echoes: &[Echo], tries: Tries) -> Vec<u64> {
    let mut places: Vec<u64> = echoes.iter().map(|echo| echo.place).collect();
    places.extend(tries.of(beside(file), file));
    few_enough(places, file)
}

/// All of some places to ask at, or some of them, by the file's length, for asking checks the
/// whole file each time.
pub fn few_enough(places: Vec<u64>, file: &[u8]) -> Vec<u64> {
    let most = (ASKED_BYTES / file.len().max(1)).max(ASKED_LEAST);
    let apart = places.len().div_ceil(most).max(1);
    places.into_iter().rev().step_by(apart).collect()
}

/// Places of a file where no listed ping starts, as far as it has tuples there.
fn beside(file: &[u8]) -> Vec<u64> {
    let end = file.len() as u64;
    let mut beside = vec![0, 1, FIRST, FIRST + 1, end, end + 1, u64::MAX];
    let others = walked(file).filter(|(_, tuple)| PingKind::of(tuple.code).is_none());
    beside.extend(others.last().map(|(_, tuple)| tuple.place));
    beside
}

/// Where no listed ping starts.
pub const SPOTS: [&str; 4] = [
    "in the mark",
    "at another tuple",
    "within a tuple",
    "behind",
];

pub fn spot(file: &[u8], place: u64) -> &'static str {
    let [mark, other, within, behind] = SPOTS;
    match place {
        ..FIRST => mark,
        _ if place >= file.len() as u64 => behind,
        _ if walked(file).any(|(_, tuple)| tuple.place == place) => other,
        _ => within,
    }
}
