//! Files put together tuple by tuple, of either maker's sounders and channels.

use crate::known::two_bytes;
use crate::settings::told;
use hac::*;

/// 02's limits.
pub const SOUNDERS: u32 = 64;
pub const CHANNELS: u16 = 1024;

pub const ORDERS: [Order; 2] = [Order::Lsb, Order::Msb];

/// The bytes of a channel's tuple, either maker's, the longest that is written here.
const LONGEST: usize = 108;

/// The kinds of ping that have values, and in how many of its units each has 1 volt and 1 dB:
/// TR's Tables 6, 20 and 21 to 24.
pub const VALUED: [(PingKind, i32, i32); 5] = [
    (PingKind::U32, 1_000_000, 1_000_000),
    (PingKind::C32, 1_000_000, 1_000_000),
    (PingKind::U16, 1000, 100),
    (PingKind::C16, 1000, 100),
    (PingKind::Ce16, 10_000, 1000),
];

/// The sounder and the channel of a deposit of samples.
pub const SOUNDER: DocumentId = DocumentId(7);
pub const CHANNEL: SoftwareChannel = SoftwareChannel(1);

const REMARKS: [u8; REMARK] = [b' '; REMARK];

/// A file that tuples are put to, each behind the others. What puts one gives its
/// place.
#[derive(Clone)]
pub struct Deposit {
    order: Order,
    pub bytes: Vec<u8>,
    pub tuples: usize,
}

impl Deposit {
    /// Mark, signature and a position.
    pub fn begun(order: Order) -> Deposit {
        let mut deposit = Deposit {
            order,
            bytes: order.mark().to_vec(),
            tuples: 0,
        };
        deposit.put(|order, out| Signature::default().write(order, out));
        deposit.put(|order, out| Position::default().write(order, out));
        deposit
    }

    pub fn put(&mut self, write: impl FnOnce(Order, &mut [u8]) -> Result<usize, Refusal>) -> usize {
        let mut tuple = [0; LONGEST];
        let length = write(self.order, &mut tuple).expect("a tuple");
        self.put_bytes(&tuple[..length])
    }

    /// A tuple that is written already.
    pub fn put_bytes(&mut self, tuple: &[u8]) -> usize {
        let place = self.bytes.len();
        self.bytes.extend(tuple);
        self.tuples += 1;
        place
    }

    /// Another type for the tuple at a place.
    pub fn retype(&mut self, place: usize, kind: u16) {
        self.bytes[place + 4..place + 6].copy_from_slice(&two_bytes(self.order, kind));
    }

    /// A sounder, of Biosonics where nothing else is said.
    pub fn sounder(&mut self, document: u32, channels: u16) -> usize {
        self.sounder_by(Maker::Biosonics, document, channels)
    }

    pub fn sounder_by(&mut self, maker: Maker, document: u32, channels: u16) -> usize {
        let number_of_software_channels = channels;
        let echosounder_document_identifier = DocumentId(document);
        self.put(|order, out| match maker {
            Maker::Biosonics => Sounder {
                number_of_software_channels,
                echosounder_document_identifier,
                ..Sounder::default()
            }
            .write(&REMARKS, order, out),
            Maker::Simrad => Ek500Sounder {
                number_of_software_channels,
                echosounder_document_identifier,
                ..Ek500Sounder::default()
            }
            .write(&REMARKS, order, out),
        })
    }

    /// A channel, of Biosonics where nothing else is said.
    pub fn channel(&mut self, number: u16, document: u32) -> usize {
        self.channel_by(Maker::Biosonics, number, document)
    }

    pub fn channel_by(&mut self, maker: Maker, number: u16, document: u32) -> usize {
        let software_channel_identifier = SoftwareChannel(number);
        let echosounder_document_identifier = DocumentId(document);
        match maker {
            Maker::Biosonics => self.channel_of(Channel {
                software_channel_identifier,
                echosounder_document_identifier,
                ..Channel::default()
            }),
            Maker::Simrad => self.ek500_channel_of(Ek500Channel {
                software_channel_identifier,
                echosounder_document_identifier,
                ..Ek500Channel::default()
            }),
        }
    }

    /// A deposit with a sounder and its channel 1, both a maker's, whose samples are of a type.
    pub fn of_samples(order: Order, maker: Maker, type_of_data_sample: u16) -> Deposit {
        let mut deposit = Deposit::begun(order);
        deposit.sounder_by(maker, SOUNDER.0, 1);
        match maker {
            Maker::Biosonics => deposit.channel_of(Channel {
                software_channel_identifier: CHANNEL,
                echosounder_document_identifier: SOUNDER,
                type_of_data_sample,
                ..Channel::default()
            }),
            Maker::Simrad => deposit.ek500_channel_of(Ek500Channel {
                software_channel_identifier: CHANNEL,
                echosounder_document_identifier: SOUNDER,
                type_of_data_sample,
                ..Ek500Channel::default()
            }),
        };
        deposit
    }

    /// A ping of channel 1, of a kind that has values.
    pub fn ping_of(&mut self, kind: PingKind, numbers: &[u32], values: &[i32]) -> usize {
        let header = header(CHANNEL.0);
        let short_numbers: Vec<u16> = numbers.iter().map(|number| *number as u16).collect();
        let short_values: Vec<i16> = values.iter().map(|value| *value as i16).collect();
        self.put(|order, out| match kind {
            PingKind::U32 => write_u32(&header, 0, numbers, values, order, out),
            PingKind::C32 => write_c32(&header, 0, numbers, values, None, order, out),
            PingKind::U16 => write_u16(&header, 0, &short_numbers, &short_values, order, out),
            PingKind::C16 => write_c16(&header, 0, numbers, &short_values, None, order, out),
            PingKind::Ce16 => write_ce16(&header, 0, numbers, values, None, order, out),
            PingKind::U32_16Angles | PingKind::U16Angles => panic!("{kind} has no values"),
        })
    }

    /// A silent ping of channel 1, of so many samples.
    pub fn silent_ping(&mut self, length: u32) -> usize {
        let header = header(CHANNEL.0);
        self.put(|order, out| write_c32(&header, 0, &[], &[], Some(length), order, out))
    }

    /// A ping of channel 1 that has angles.
    pub fn ping_of_angles(&mut self) -> usize {
        let header = header(CHANNEL.0);
        self.put(|order, out| write_u16_angles(&header, 0, &[3], &[5], &[6], order, out))
    }

    pub fn channel_of(&mut self, channel: Channel) -> usize {
        self.put(|order, out| channel.write(&REMARKS, order, out))
    }

    pub fn ek500_channel_of(&mut self, channel: Ek500Channel) -> usize {
        self.put(|order, out| channel.write(&REMARKS, order, out))
    }

    pub fn ping_u32(&mut self, channel: u16) -> usize {
        self.put(|order, out| write_u32(&header(channel), 0, &[0], &[5], order, out))
    }

    pub fn ping_c32(&mut self, channel: u16) -> usize {
        self.put(|order, out| write_c32(&header(channel), 0, &[0], &[5], None, order, out))
    }

    /// The shortest ping that there is.
    pub fn ping_u16(&mut self, channel: u16) -> usize {
        self.put(|order, out| write_u16(&header(channel), 0, &[0], &[5], order, out))
    }

    pub fn threshold(&mut self, channel: u16) -> usize {
        let threshold = Threshold {
            software_channel_identifier: SoftwareChannel(channel),
            ..Threshold::default()
        };
        self.put(|order, out| threshold.write(order, out))
    }

    pub fn attitude(&mut self, channel: u16) -> usize {
        let attitude = Attitude {
            software_channel_identifier: SoftwareChannel(channel),
            ..Attitude::default()
        };
        self.put(|order, out| attitude.write(order, out))
    }

    /// The end of file behind all.
    pub fn ended(&mut self) -> &[u8] {
        self.put(|order, out| FileEnd::default().write(order, out));
        &self.bytes
    }

    /// Accepted, with so many identifiers compared: by the check, by the normaliser, by
    /// the settings, by the energies, and by a question about the ping at a place.
    pub fn compares(mut self, ping: usize, compared: usize) {
        self.ended();
        let (file, tuples) = (&self.bytes, self.tuples);
        assert_eq!(check(file), Ok(Counts { tuples, compared }));
        let mut out = vec![0; file.len() + INDEX_ROOM];
        let normal = normalise(file, &mut out).expect("a normal form");
        assert_eq!((normal.tuples, normal.compared), (tuples, compared));
        let told = told(file).expect("its settings");
        assert_eq!((told.tuples, told.compared), (tuples, compared));
        let told = energies(file).expect("its energies");
        assert_eq!(told.counts, Counts { tuples, compared });
        let parents = ask(file, ping).expect("its parents");
        assert_eq!((parents.tuples, parents.compared), (tuples, compared));
        assert!(compared <= usize::from(CHANNELS) * tuples);
    }

    /// Refused by the check, the normaliser, the settings, the energies and questions alike.
    pub fn refused(mut self, code: Code, place: usize) {
        let file = self.ended();
        let refusal = Refusal { code, place };
        assert_eq!(check(file), Err(refusal));
        assert_eq!(normalise(file, &mut []), Err(refusal));
        assert_eq!(settings(file), Err(refusal));
        assert_eq!(energies(file), Err(refusal));
        assert_eq!(ask(file, place), Err(refusal));
    }
}

/// What a ping of a channel has before its samples, all else 0.
pub fn header(channel: u16) -> PingHeader {
    PingHeader {
        software_channel_identifier: SoftwareChannel(channel),
        ..PingHeader::default()
    }
}
