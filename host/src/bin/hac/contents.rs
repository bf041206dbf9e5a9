//! What an accepted file holds, gathered in one walk that reads each tuple once.

use crate::moment::Moment;
use hac::types::{self, Maker};
use hac::{Ek500Channel, Ek500Sounder, Order, PingKind, Position, Refusal, Tuple, Walk};
use std::collections::BTreeMap;

/// The least and the most of what was taken in; none of nothing.
pub struct Span<T>(pub Option<(T, T)>);

impl<T: Copy + Ord> Span<T> {
    const EMPTY: Span<T> = Span(None);

    fn take(&mut self, one: T) {
        let (least, most) = self.0.unwrap_or((one, one));
        self.0 = Some((least.min(one), most.max(one)));
    }
}

/// How many pings of a kind a channel has, and how many samples they have together.
#[derive(Default)]
pub struct Tally {
    pub pings: usize,
    pub samples: usize,
}

pub struct Channel {
    pub sounder: u32,
    pub maker: Maker,
    pub acoustic_frequency: u32,
    pub sampling_rate: u32,
    pub type_of_data_sample: u16,
    /// By the kinds' types.
    pub pings: BTreeMap<u16, Tally>,
}

/// An Index 1 tuple.
pub struct Index {
    pub place: usize,
    /// The types that it lists.
    pub types: Vec<u16>,
}

/// The identifier of a channel's record, and what is kept of it: fields that both makers'
/// records have under the same names.
macro_rules! channel {
    ($record:expr, $maker:expr) => {{
        let record = $record;
        let channel = Channel {
            sounder: record.echosounder_document_identifier.0,
            maker: $maker,
            acoustic_frequency: record.acoustic_frequency,
            sampling_rate: record.sampling_rate,
            type_of_data_sample: record.type_of_data_sample,
            pings: BTreeMap::new(),
        };
        (record.software_channel_identifier.0, channel)
    }};
}

pub struct Contents {
    pub order: Order,
    pub bytes: usize,
    /// By their document identifiers, which no two have in common, whoever made them.
    pub sounders: BTreeMap<u32, Maker>,
    /// By their software channel identifiers, which no two have in common either.
    pub channels: BTreeMap<u16, Channel>,
    /// When pings and positions were taken, by the recorder's clock.
    pub time: Span<Moment>,
    /// Where positions are, as they are stored.
    pub latitude: Span<i32>,
    pub longitude: Span<i32>,
    /// Those that list types, in file order; other tuples of the index class are counted
    /// alone.
    pub indexes: Vec<Index>,
    /// How many tuples each type has.
    kinds: BTreeMap<u16, usize>,
}

impl Contents {
    /// What a file holds that the check accepts.
    pub fn of(file: &[u8]) -> Result<Contents, Refusal> {
        let mut contents = Contents {
            order: Order::of(file),
            bytes: file.len(),
            sounders: BTreeMap::new(),
            channels: BTreeMap::new(),
            time: Span::EMPTY,
            latitude: Span::EMPTY,
            longitude: Span::EMPTY,
            indexes: Vec::new(),
            kinds: BTreeMap::new(),
        };
        for tuple in Walk::START.forwards(file) {
            contents.take(file, tuple?)?;
        }
        Ok(contents)
    }

    fn take(&mut self, file: &[u8], tuple: Tuple) -> Result<(), Refusal> {
        *self.kinds.entry(tuple.kind).or_default() += 1;
        if let Some(types) = hac::indexed_types(file, tuple) {
            let place = tuple.place;
            self.indexes.push(Index { place, types });
        }
        match tuple.kind {
            types::SOUNDER | types::EK500_SOUNDER => self.take_sounder(file, tuple),
            types::CHANNEL | types::EK500_CHANNEL => self.take_channel(file, tuple),
            types::POSITION => self.take_position(file, tuple.place),
            kind if PingKind::of_type(kind).is_some() => self.take_ping(file, tuple.place),
            _ => Ok(()),
        }
    }

    fn take_sounder(&mut self, file: &[u8], tuple: Tuple) -> Result<(), Refusal> {
        let (document, maker) = if tuple.kind == types::EK500_SOUNDER {
            let sounder = Ek500Sounder::read(file, tuple.place)?.0;
            (sounder.echosounder_document_identifier, Maker::Simrad)
        } else {
            let sounder = hac::Sounder::read(file, tuple.place)?.0;
            (sounder.echosounder_document_identifier, Maker::Biosonics)
        };
        self.sounders.insert(document.0, maker);
        Ok(())
    }

    fn take_channel(&mut self, file: &[u8], tuple: Tuple) -> Result<(), Refusal> {
        let (identifier, channel) = if tuple.kind == types::EK500_CHANNEL {
            channel!(Ek500Channel::read(file, tuple.place)?.0, Maker::Simrad)
        } else {
            channel!(hac::Channel::read(file, tuple.place)?.0, Maker::Biosonics)
        };
        self.channels.insert(identifier, channel);
        Ok(())
    }

    fn take_position(&mut self, file: &[u8], place: usize) -> Result<(), Refusal> {
        let position = Position::read(file, place)?;
        let moment = Moment::of(position.time_cpu, position.time_fraction);
        self.time.take(moment);
        self.latitude.take(position.latitude);
        self.longitude.take(position.longitude);
        Ok(())
    }

    fn take_ping(&mut self, file: &[u8], place: usize) -> Result<(), Refusal> {
        let ping = hac::read_ping(file, place)?;
        let header = ping.header;
        let moment = Moment::of(header.time_cpu, header.time_fraction);
        self.time.take(moment);
        let channel = header.software_channel_identifier.0;
        // an accepted file has no ping before its channel
        let channel = self.channels.get_mut(&channel).expect("its channel");
        let tally = channel.pings.entry(ping.kind.code()).or_default();
        tally.pings += 1;
        tally.samples += ping.values;
        Ok(())
    }

    /// Whether an index lists what it has to: each type outside the index class once,
    /// ascending.
    pub fn is_true(&self, index: &Index) -> bool {
        let kinds = self.kinds.keys();
        let outside = kinds.filter(|kind| !types::INDEX.contains(kind));
        outside.eq(&index.types)
    }

    /// How many tuples have a name, `index` and `unlisted` too.
    pub fn count(&self, name: &str) -> usize {
        let kinds = self.kinds.iter();
        let named = kinds.filter(|(kind, _)| types::name(**kind) == name);
        named.map(|(_, count)| count).sum()
    }
}
