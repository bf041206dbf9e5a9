//! The deposits that are timed: most just below the limit of a file, and some small.

use hac::{
    write_u32, Attitude, Channel, DocumentId, FileEnd, Navigation, Order, PingHeader, Position,
    Refusal, Signature, SoftwareChannel, Sounder, Threshold, Transceiver, Walk, CHANNEL_LIMIT,
    FILE_LIMIT, REMARK, TUPLE_LIMIT,
};

/// The most pings that a file has: the shortest has 36 bytes.
pub const MOST_PINGS: usize = FILE_LIMIT / 36;

/// The one sounder of a deposit, and the first of its channels.
const SOUNDER: DocumentId = DocumentId(7);
const CHANNEL: SoftwareChannel = SoftwareChannel(3);

/// The channels of a mixed cruise; its pings come in turn over them, after each
/// round a tuple of another kind.
const CRUISE_CHANNELS: u16 = 3;

/// The bytes of a deposit whose normal form is longer than it is, for its pings of words
/// become U-32 or U-16, and has to stay within the limit of a file: a mixed cruise, and
/// pings that end in a value.
const GROWING_LIMIT: usize = FILE_LIMIT / 4 * 3;

/// Those of any other deposit that is normalised: its normal form has its index besides.
const INDEXED_LIMIT: usize = FILE_LIMIT - 64;

/// The channels of a deposit with some, and of one with as many as may be.
const SOME_CHANNELS: u16 = 64;
const MOST_CHANNELS: u16 = CHANNEL_LIMIT as u16;

/// Of so many tuples in a row one is a threshold and one an attitude, and one of so many
/// attitudes is for all channels.
const SET_EVERY: u32 = 7;
const ALL_EVERY: u32 = 10;

/// The blocks of disks, of which one in so many is damaged.
const BLOCKS: [usize; 2] = [512, 4096];
const SOUND_BLOCKS: u32 = 50;

/// Small deposits are told in these bytes.
pub const KIB: usize = 1 << 10;

/// The types of data sample of a Biosonics channel whose samples are volts, and Sv.
const VOLTS: u16 = 0;
const SV: u16 = 1;

/// Samples of a U-32 ping, and of one of the other kinds that number them: an odd number,
/// so that those of U-16-angles have a space behind them.
const SAMPLES: u32 = 1000;
const ODD_SAMPLES: u32 = 1001;

/// Words of a ping, and of a short one.
const WORDS: u32 = 2000;
const FEW_WORDS: u32 = 20;

/// Where in a ping its type stands and its header ends; the bytes behind its samples, and
/// of a tuple's frame.
pub const TYPE_AT: usize = 4;
const HEADER_END: usize = 24;
pub const TAIL: usize = 8;
pub const FRAME: usize = 10;

/// The bytes of the two widths of numbers.
pub const TWO: usize = 2;
pub const FOUR: usize = 4;

/// Values to draw from, as their patterns in the width of a value or a word: so many from a
/// first one on.
#[derive(Clone, Copy)]
struct Values {
    first: u32,
    count: u32,
}

impl Values {
    fn draw(self, number: u32) -> u32 {
        self.first + number % self.count
    }
}

/// Any pattern of two bytes, and any of four but the last.
const ANY: Values = Values {
    first: 0,
    count: u32::MAX,
};

/// Levels of Sv that both kinds of their family have: of 32 bits and of 16 bits from -150 dB
/// to just below the words of runs, of CE-16 those of the six least exponents, from 0 to
/// -131.056 dB.
const LEVELS_32: Values = Values {
    first: -150_000_000_i32 as u32,
    count: 150_000_000 - 65_536,
};
const LEVELS_16: Values = Values {
    first: -15_000_i16 as u16 as u32,
    count: 15_000 - 256,
};
const LEVELS_CE16: Values = Values {
    first: 0x8000,
    count: 0x6000,
};

/// A kind of ping that numbers its samples: its type, the widths of a sample's number and of
/// its value, or of its two angles, and what these are drawn from.
#[derive(Clone, Copy)]
struct Listed {
    code: u16,
    widths: &'static [usize],
    values: Values,
}

const U32: Listed = Listed {
    code: 10000,
    widths: &[FOUR, FOUR],
    values: ANY,
};
const U32_16_ANGLES: Listed = Listed {
    code: 10001,
    widths: &[FOUR, TWO, TWO],
    ..U32
};
const U16: Listed = Listed {
    code: 10030,
    widths: &[TWO, TWO],
    ..U32
};
const U16_ANGLES: Listed = Listed {
    code: 10031,
    widths: &[TWO, TWO, TWO],
    ..U32
};

/// A kind of ping of words: its type, the width of a word, the word of a run of 1, and
/// the values that are drawn.
#[derive(Clone, Copy)]
pub struct Packed {
    pub code: u16,
    pub width: usize,
    pub shortest_run: u32,
    values: Values,
}

pub const C32: Packed = Packed {
    code: 10010,
    width: FOUR,
    shortest_run: 0xFFFF_0000,
    values: Values {
        first: 0,
        count: 1 << 28,
    },
};
pub const C16: Packed = Packed {
    code: 10040,
    width: TWO,
    shortest_run: 0xFF00,
    values: Values {
        first: 0,
        count: 0x7F00,
    },
};
pub const CE16: Packed = Packed { code: 10050, ..C16 };

/// A deposit: what it is of, its bytes, and whether it is taken.
pub struct Deposit {
    pub name: &'static str,
    pub bytes: Vec<u8>,
    pub taken: bool,
}

impl Deposit {
    pub fn tuples(&self) -> usize {
        Walk::START.forwards(&self.bytes).count()
    }
}

/// Numbers that look like chance and are the same at every run.
struct Chance(u32);

impl Chance {
    fn next(&mut self) -> u32 {
        self.0 ^= self.0 << 13;
        self.0 ^= self.0 >> 17;
        self.0 ^= self.0 << 5;
        self.0
    }
}

/// A deposit while tuples are put to it.
pub struct Draft {
    order: Order,
    bytes: Vec<u8>,
    tuple: Vec<u8>,
}

impl Draft {
    /// Mark and signature.
    pub fn begun(order: Order) -> Result<Draft, Refusal> {
        let bytes = order.mark().to_vec();
        let tuple = vec![0; TUPLE_LIMIT];
        let mut draft = Draft {
            order,
            bytes,
            tuple,
        };
        let signature = Signature::default();
        draft.put(|tuple| signature.write(order, tuple))?;
        Ok(draft)
    }

    /// The end of file behind all.
    pub fn ended(mut self) -> Result<Vec<u8>, Refusal> {
        let order = self.order;
        self.put(|tuple| FileEnd::default().write(order, tuple))?;
        Ok(self.bytes)
    }

    /// Mark, signature, sounder, channels, position and a ping, so that the
    /// deposit is accepted whatever follows.
    fn new(order: Order, channels: u16) -> Result<Draft, Refusal> {
        Draft::of(order, channels, VOLTS)
    }

    /// The same, the channels' samples of some type. That of the ping is 0: 0 volts or 0 dB.
    fn of(order: Order, channels: u16, type_of_data_sample: u16) -> Result<Draft, Refusal> {
        let mut draft = Draft::begun(order)?;
        let remarks = [b' '; REMARK];
        let sounder = Sounder {
            number_of_software_channels: channels,
            echosounder_document_identifier: SOUNDER,
            ..Sounder::default()
        };
        draft.put(|tuple| sounder.write(&remarks, order, tuple))?;
        for number in 0..channels {
            let channel = Channel {
                software_channel_identifier: nth_channel(number),
                echosounder_document_identifier: SOUNDER,
                transceiver_channel_number: Transceiver(number),
                type_of_data_sample,
                ..Channel::default()
            };
            draft.put(|tuple| channel.write(&remarks, order, tuple))?;
        }
        draft.put(|tuple| Position::default().write(order, tuple))?;
        draft.put(|tuple| write_u32(&header(CHANNEL, 0), 0, &[0], &[0], order, tuple))?;
        Ok(draft)
    }

    /// Puts a tuple behind the others.
    pub fn put(
        &mut self,
        write: impl FnOnce(&mut [u8]) -> Result<usize, Refusal>,
    ) -> Result<(), Refusal> {
        let length = write(&mut self.tuple)?;
        self.bytes.extend_from_slice(&self.tuple[..length]);
        Ok(())
    }

    /// Puts tuples until the next would leave no room for the end of file
    /// within so many bytes.
    fn fill(
        mut self,
        limit: usize,
        mut write: impl FnMut(Order, u32, &mut [u8]) -> Result<usize, Refusal>,
    ) -> Result<Vec<u8>, Refusal> {
        let order = self.order;
        let room = limit - FileEnd::default().write(order, &mut self.tuple)?;
        for count in 0.. {
            let length = write(order, count, &mut self.tuple)?;
            if self.bytes.len() + length > room {
                break;
            }
            self.bytes.extend_from_slice(&self.tuple[..length]);
        }
        self.ended()
    }
}

/// The channel of a number from 0.
fn nth_channel(number: u16) -> SoftwareChannel {
    SoftwareChannel(CHANNEL.0 + number)
}

fn header(channel: SoftwareChannel, ping_number: u32) -> PingHeader {
    PingHeader {
        time_cpu: ping_number,
        software_channel_identifier: channel,
        ping_number,
        ..PingHeader::default()
    }
}

fn navigation(order: Order, count: u32, tuple: &mut [u8]) -> Result<usize, Refusal> {
    let told = Navigation {
        time_cpu: count,
        heading: 123,
        ..Navigation::default()
    };
    told.write(order, tuple)
}

/// The bytes of a number of some width.
fn number_bytes(order: Order, width: usize, number: u32) -> Vec<u8> {
    match order {
        Order::Lsb => number.to_le_bytes()[..width].to_vec(),
        Order::Msb => number.to_be_bytes()[FOUR - width..].to_vec(),
    }
}

/// A number, put at a place.
pub fn put(order: Order, tuple: &mut [u8], at: usize, width: usize, number: u32) {
    tuple[at..at + width].copy_from_slice(&number_bytes(order, width, number));
}

/// A ping of a type whose header these bytes follow, and a space where they need one. They
/// come between what a U-32 ping has around its one pair: recorders cut silence as they
/// like, and the writers don't.
fn raw_ping(
    header: &PingHeader,
    code: u16,
    mut samples: Vec<u8>,
    order: Order,
    tuple: &mut [u8],
) -> Result<usize, Refusal> {
    samples.resize(samples.len().next_multiple_of(FOUR), 0);
    let single = write_u32(header, 0, &[0], &[0], order, tuple)?;
    let end = HEADER_END + samples.len();
    let length = end + TAIL;
    tuple.copy_within(single - TAIL..single, end);
    tuple[HEADER_END..end].copy_from_slice(&samples);
    put(order, tuple, TYPE_AT, TWO, code.into());
    put(order, tuple, 0, FOUR, (length - FRAME) as u32);
    put(order, tuple, length - FOUR, FOUR, length as u32);
    Ok(length)
}

/// A ping of these words.
fn words_ping(
    header: &PingHeader,
    kind: Packed,
    words: &[u32],
    order: Order,
    tuple: &mut [u8],
) -> Result<usize, Refusal> {
    let values = words.iter().filter(|word| **word < kind.shortest_run);
    let mut samples = number_bytes(order, FOUR, values.count() as u32);
    for word in words {
        samples.extend(number_bytes(order, kind.width, *word));
    }
    raw_ping(header, kind.code, samples, order, tuple)
}

impl Listed {
    /// A deposit of pings of this kind.
    fn pings(self, order: Order) -> Result<Vec<u8>, Refusal> {
        self.fill(Draft::new(order, 1)?, INDEXED_LIMIT)
    }

    fn fill(self, draft: Draft, limit: usize) -> Result<Vec<u8>, Refusal> {
        let mut chance = Chance(54321);
        draft.fill(limit, |order, count, tuple| {
            let mut samples = Vec::new();
            for number in 0..ODD_SAMPLES {
                for (nth, width) in self.widths.iter().enumerate() {
                    let number = match nth {
                        0 => 3 * number,
                        _ => self.values.draw(chance.next()),
                    };
                    samples.extend(number_bytes(order, *width, number));
                }
            }
            raw_ping(&header(CHANNEL, count), self.code, samples, order, tuple)
        })
    }
}

/// The last word of a ping: what comes by chance, or what is wanted there.
#[derive(Clone, Copy)]
enum Last {
    Any,
    Run,
    Value,
}

/// Pings whose words are runs and values by chance: so many words, of which so many in
/// sixteen are runs, each shorter than `longest`. A run may follow a run.
#[derive(Clone, Copy)]
struct Words {
    kind: Packed,
    count: u32,
    runs: u32,
    longest: u32,
    last: Last,
}

/// As many runs as values, short ones; and few values between long ones.
const SHORT_RUNS: Words = Words {
    kind: C32,
    count: WORDS,
    runs: 8,
    longest: 8,
    last: Last::Any,
};
const LONG_RUNS: Words = Words {
    runs: 15,
    longest: 60_000,
    ..SHORT_RUNS
};

impl Words {
    fn draw(self, chance: &mut Chance) -> Vec<u32> {
        let mut words: Vec<u32> = (0..self.count)
            .map(|_| {
                let number = chance.next() >> 4;
                if chance.next() % 16 < self.runs {
                    self.kind.shortest_run + number % self.longest
                } else {
                    self.kind.values.draw(number)
                }
            })
            .collect();
        let number = words.last().copied().unwrap_or_default() % self.longest;
        words.extend(match self.last {
            Last::Any => None,
            Last::Run => Some(self.kind.shortest_run + number),
            Last::Value => Some(number),
        });
        words
    }

    /// A deposit of such pings.
    fn pings(self, order: Order) -> Result<Vec<u8>, Refusal> {
        let limit = match self.last {
            Last::Value => GROWING_LIMIT,
            Last::Any | Last::Run => INDEXED_LIMIT,
        };
        self.fill(Draft::new(order, 1)?, limit)
    }

    fn fill(self, draft: Draft, limit: usize) -> Result<Vec<u8>, Refusal> {
        let mut chance = Chance(12345);
        draft.fill(limit, |order, count, tuple| {
            let words = self.draw(&mut chance);
            words_ping(&header(CHANNEL, count), self.kind, &words, order, tuple)
        })
    }
}

fn pairs(order: Order) -> Result<Vec<u8>, Refusal> {
    let mut chance = Chance(54321);
    Draft::new(order, 1)?.fill(INDEXED_LIMIT, |order, count, tuple| {
        let numbers: Vec<u32> = (0..SAMPLES).map(|i| 3 * i).collect();
        let values: Vec<i32> = numbers.iter().map(|_| chance.next() as i32).collect();
        write_u32(&header(CHANNEL, count), 0, &numbers, &values, order, tuple)
    })
}

/// The fewest words of samples whose gaps one run can hold.
fn words_of(numbers: &[u32], values: &[i32]) -> Vec<u32> {
    let mut words = Vec::new();
    let mut next = 0;
    for (number, value) in numbers.iter().zip(values) {
        if *number > next {
            words.push(C32.shortest_run + (number - next - 1));
        }
        words.push(*value as u32);
        next = number + 1;
    }
    words
}

/// Samples as an echogram has them: layers of some tens of neighbours with
/// quiet water between them, 200 to 455 samples in all.
fn layers(chance: &mut Chance) -> (Vec<u32>, Vec<i32>) {
    let mut number = 0;
    (0..200 + chance.next() % 256)
        .map(|_| {
            number += 1;
            if chance.next().is_multiple_of(32) {
                number += chance.next() % 200;
            }
            (number, (chance.next() >> 4) as i32)
        })
        .unzip()
}

/// A cruise as deposits look: pings in turn over three channels, U-32 and C-32
/// by turns, and behind each round a position, a navigation or an attitude.
fn cruise(order: Order, limit: usize) -> Result<Vec<u8>, Refusal> {
    let mut chance = Chance(98765);
    let round = u32::from(CRUISE_CHANNELS) + 1;
    Draft::new(order, CRUISE_CHANNELS)?.fill(limit, |order, count, tuple| {
        let turn = (count % round) as u16;
        if turn < CRUISE_CHANNELS {
            let (numbers, values) = layers(&mut chance);
            let header = header(nth_channel(turn), count / round);
            return if count.is_multiple_of(2) {
                write_u32(&header, 0, &numbers, &values, order, tuple)
            } else {
                words_ping(&header, C32, &words_of(&numbers, &values), order, tuple)
            };
        }
        match count / round % 3 {
            0 => Position::default().write(order, tuple),
            1 => navigation(order, count, tuple),
            _ => attitude(order, CHANNEL, tuple),
        }
    })
}

/// A sound cruise of some length, for salvage, in either order.
pub fn sound_lsb(limit: usize) -> Result<Vec<u8>, Refusal> {
    cruise(Order::Lsb, limit)
}

pub fn sound_msb(limit: usize) -> Result<Vec<u8>, Refusal> {
    cruise(Order::Msb, limit)
}

/// The cruise from a disk that lost one block in some tens, of either size.
pub fn zeroed(limit: usize) -> Result<Vec<u8>, Refusal> {
    let mut bytes = cruise(Order::Lsb, limit)?;
    let mut chance = Chance(13579);
    for size in BLOCKS {
        // the first block has the mark
        for block in bytes.chunks_mut(size).skip(1) {
            if chance.next().is_multiple_of(SOUND_BLOCKS) {
                block.fill(0);
            }
        }
    }
    Ok(bytes)
}

/// A mark, and anything behind it.
pub fn rubbish(limit: usize) -> Vec<u8> {
    let mut chance = Chance(97531);
    let words = (1..limit / FOUR).flat_map(|_| chance.next().to_le_bytes());
    Order::Lsb.mark().into_iter().chain(words).collect()
}

/// Pings of one sample, the shortest there are, so that linking them weighs the
/// most. `named` gives the number of the channel that a ping names.
fn short_pings(channels: u16, mut named: impl FnMut(u32) -> u16) -> Result<Vec<u8>, Refusal> {
    Draft::new(Order::Lsb, channels)?.fill(INDEXED_LIMIT, |order, count, tuple| {
        let header = header(nth_channel(named(count)), count);
        write_u32(&header, 0, &[0], &[5], order, tuple)
    })
}

fn in_turn(channels: u16) -> Result<Vec<u8>, Refusal> {
    short_pings(channels, |count| (count % u32::from(channels)) as u16)
}

fn by_chance(channels: u16) -> Result<Vec<u8>, Refusal> {
    let mut chance = Chance(24680);
    short_pings(channels, |_| (chance.next() % u32::from(channels)) as u16)
}

/// Short pings with settings between them: of seven tuples in a row, all of channels that
/// `named` gives, one is a threshold and one an attitude, every tenth of these for all.
fn set_pings(
    order: Order,
    channels: u16,
    mut named: impl FnMut(u32) -> u16,
) -> Result<Vec<u8>, Refusal> {
    Draft::new(order, channels)?.fill(FILE_LIMIT, |order, count, tuple| {
        let channel = nth_channel(named(count));
        match (count % SET_EVERY, count / SET_EVERY % ALL_EVERY) {
            (0, _) => threshold(order, channel, tuple),
            (1, 0) => attitude(order, SoftwareChannel::ALL, tuple),
            (1, _) => attitude(order, channel, tuple),
            _ => write_u32(&header(channel, count), 0, &[0], &[5], order, tuple),
        }
    })
}

fn threshold(
    order: Order,
    software_channel_identifier: SoftwareChannel,
    tuple: &mut [u8],
) -> Result<usize, Refusal> {
    let told = Threshold {
        software_channel_identifier,
        ..Threshold::default()
    };
    told.write(order, tuple)
}

fn attitude(
    order: Order,
    software_channel_identifier: SoftwareChannel,
    tuple: &mut [u8],
) -> Result<usize, Refusal> {
    let told = Attitude {
        software_channel_identifier,
        ..Attitude::default()
    };
    told.write(order, tuple)
}

fn set_in_turn(order: Order, channels: u16) -> Result<Vec<u8>, Refusal> {
    let channels_in_turn = |count| (count % u32::from(channels)) as u16;
    set_pings(order, channels, channels_in_turn)
}

fn set_by_chance(order: Order, channels: u16) -> Result<Vec<u8>, Refusal> {
    let mut chance = Chance(86420);
    set_pings(order, channels, |_| {
        (chance.next() % u32::from(channels)) as u16
    })
}

/// The small tuples again, the last one's backlink altered.
fn refused_at_last(accepted: &[u8]) -> Vec<u8> {
    let mut bytes = accepted.to_vec();
    if let Some(last) = bytes.last_mut() {
        *last ^= 1;
    }
    bytes
}

/// Deposits that are taken.
fn taken<const COUNT: usize>(named: [(&'static str, Vec<u8>); COUNT]) -> Vec<Deposit> {
    named
        .map(|(name, bytes)| Deposit {
            name,
            bytes,
            taken: true,
        })
        .into()
}

/// Those that show what linking costs: 40-byte pings on few and on many channels.
pub fn linked() -> Result<Vec<Deposit>, Refusal> {
    Ok(taken([
        ("1 channel", in_turn(1)?),
        ("64 channels in turn", in_turn(SOME_CHANNELS)?),
        ("64 channels by chance", by_chance(SOME_CHANNELS)?),
        ("1,024 channels in turn", in_turn(MOST_CHANNELS)?),
        ("1,024 channels by chance", by_chance(MOST_CHANNELS)?),
        (
            "1,024 channels, the last",
            short_pings(MOST_CHANNELS, |_| MOST_CHANNELS - 1)?,
        ),
    ]))
}

/// Those that show what settings cost: short pings with thresholds and attitudes between
/// them, on few and on many channels.
pub fn set() -> Result<Vec<Deposit>, Refusal> {
    let [lsb, msb] = [Order::Lsb, Order::Msb];
    Ok(taken([
        ("1 channel", set_in_turn(lsb, 1)?),
        ("64 channels in turn", set_in_turn(lsb, SOME_CHANNELS)?),
        ("64 channels by chance", set_by_chance(lsb, SOME_CHANNELS)?),
        ("1,024 channels in turn", set_in_turn(lsb, MOST_CHANNELS)?),
        (
            "1,024 channels by chance",
            set_by_chance(lsb, MOST_CHANNELS)?,
        ),
        ("1,024 by chance, MSB", set_by_chance(msb, MOST_CHANNELS)?),
    ]))
}

/// Those that show what energies and readings cost, of some length: pings of each kind with
/// values, of a channel whose samples are Sv, in both orders.
pub fn echoes(limit: usize) -> Result<Vec<Deposit>, Refusal> {
    let listed = |kind: Listed, values, order| {
        let kind = Listed { values, ..kind };
        kind.fill(Draft::of(order, 1, SV)?, limit)
    };
    let packed = |kind: Packed, values, order| {
        let kind = Packed { values, ..kind };
        let words = Words { kind, ..SHORT_RUNS };
        words.fill(Draft::of(order, 1, SV)?, limit)
    };
    let [lsb, msb] = [Order::Lsb, Order::Msb];
    Ok(taken([
        ("U-32, LSB", listed(U32, LEVELS_32, lsb)?),
        ("U-32, MSB", listed(U32, LEVELS_32, msb)?),
        ("C-32, LSB", packed(C32, LEVELS_32, lsb)?),
        ("C-32, MSB", packed(C32, LEVELS_32, msb)?),
        ("U-16, LSB", listed(U16, LEVELS_16, lsb)?),
        ("U-16, MSB", listed(U16, LEVELS_16, msb)?),
        ("C-16, LSB", packed(C16, LEVELS_16, lsb)?),
        ("C-16, MSB", packed(C16, LEVELS_16, msb)?),
        ("CE-16, LSB", packed(CE16, LEVELS_CE16, lsb)?),
        ("CE-16, MSB", packed(CE16, LEVELS_CE16, msb)?),
    ]))
}

/// Those that show what a call costs whatever its file's length: 28-byte tuples.
pub fn small() -> Result<Vec<Deposit>, Refusal> {
    let within = |limit| Draft::new(Order::Lsb, 1)?.fill(limit, navigation);
    Ok(taken([
        ("4 KiB", within(4 * KIB)?),
        ("64 KiB", within(64 * KIB)?),
    ]))
}

/// Those that show what silence costs: C-32 pings that end in a run keep to C-32, so that
/// the normal form's words have to be counted before they are written; beside them the
/// same that end in a value. Dense and sparse ones, short ones, and silent ones of one
/// run and of many.
pub fn silence() -> Result<Vec<Deposit>, Refusal> {
    let to_value = Words {
        last: Last::Value,
        ..SHORT_RUNS
    };
    let dense = Words {
        runs: 1,
        last: Last::Run,
        ..SHORT_RUNS
    };
    let even = Words { runs: 8, ..dense };
    let sparse = Words {
        last: Last::Run,
        ..LONG_RUNS
    };
    let short = Words {
        count: FEW_WORDS,
        ..even
    };
    let silent = Words { runs: 16, ..sparse };
    let one_run = Words { count: 0, ..silent };
    let [lsb, msb] = [Order::Lsb, Order::Msb];
    Ok(taken([
        ("C-32 to a value, LSB", to_value.pings(lsb)?),
        ("C-32 to a value, MSB", to_value.pings(msb)?),
        ("C-32 to a run, LSB", even.pings(lsb)?),
        ("C-32 to a run, MSB", even.pings(msb)?),
        ("C-32 to a run, dense, LSB", dense.pings(lsb)?),
        ("C-32 to a run, dense, MSB", dense.pings(msb)?),
        ("C-32 to a run, sparse, LSB", sparse.pings(lsb)?),
        ("C-32 to a run, sparse, MSB", sparse.pings(msb)?),
        ("C-32 to a run, short, LSB", short.pings(lsb)?),
        ("C-32 to a run, short, MSB", short.pings(msb)?),
        ("C-32 silent, LSB", silent.pings(lsb)?),
        ("C-32 silent, MSB", silent.pings(msb)?),
        ("C-32 silent, one run, LSB", one_run.pings(lsb)?),
        ("C-32 silent, one run, MSB", one_run.pings(msb)?),
    ]))
}

/// Those of the other ping encodings. C-16 to a value becomes U-16, but where a value is
/// past sample 65,535; else words stay words, and are counted before they are written.
pub fn encodings() -> Result<Vec<Deposit>, Refusal> {
    let to_value = Words {
        kind: C16,
        last: Last::Value,
        ..SHORT_RUNS
    };
    let to_run = Words {
        last: Last::Run,
        ..to_value
    };
    let past = Words {
        longest: 250,
        ..to_value
    };
    let silent = Words {
        runs: 16,
        longest: 250,
        ..to_run
    };
    let ce_to_value = Words {
        kind: CE16,
        ..to_value
    };
    let ce_to_run = Words {
        kind: CE16,
        ..to_run
    };
    let [lsb, msb] = [Order::Lsb, Order::Msb];
    Ok(taken([
        ("U-16, LSB", U16.pings(lsb)?),
        ("U-16, MSB", U16.pings(msb)?),
        ("U-16-angles, LSB", U16_ANGLES.pings(lsb)?),
        ("U-16-angles, MSB", U16_ANGLES.pings(msb)?),
        ("U-32-16-angles, LSB", U32_16_ANGLES.pings(lsb)?),
        ("U-32-16-angles, MSB", U32_16_ANGLES.pings(msb)?),
        ("C-16 to a value, LSB", to_value.pings(lsb)?),
        ("C-16 to a value, MSB", to_value.pings(msb)?),
        ("C-16 to a run, LSB", to_run.pings(lsb)?),
        ("C-16 to a run, MSB", to_run.pings(msb)?),
        ("C-16 past 65,535, LSB", past.pings(lsb)?),
        ("C-16 past 65,535, MSB", past.pings(msb)?),
        ("C-16 silent, LSB", silent.pings(lsb)?),
        ("C-16 silent, MSB", silent.pings(msb)?),
        ("CE-16 to a value, LSB", ce_to_value.pings(lsb)?),
        ("CE-16 to a value, MSB", ce_to_value.pings(msb)?),
        ("CE-16 to a run, LSB", ce_to_run.pings(lsb)?),
        ("CE-16 to a run, MSB", ce_to_run.pings(msb)?),
    ]))
}

/// Those of every kind, each as long as may be.
pub fn long() -> Result<Vec<Deposit>, Refusal> {
    let small = Draft::new(Order::Lsb, 1)?.fill(INDEXED_LIMIT, navigation)?;
    let refused = refused_at_last(&small);
    let mut long = taken([
        ("28-byte tuples, LSB", small),
        (
            "28-byte tuples, MSB",
            Draft::new(Order::Msb, 1)?.fill(INDEXED_LIMIT, navigation)?,
        ),
        ("C-32 pings, short runs", SHORT_RUNS.pings(Order::Lsb)?),
        ("C-32 pings, long runs", LONG_RUNS.pings(Order::Lsb)?),
        ("U-32 pings, LSB", pairs(Order::Lsb)?),
        ("U-32 pings, MSB", pairs(Order::Msb)?),
        ("mixed cruise, LSB", cruise(Order::Lsb, GROWING_LIMIT)?),
        ("mixed cruise, MSB", cruise(Order::Msb, GROWING_LIMIT)?),
    ]);
    long.push(Deposit {
        name: "refused at the last tuple",
        bytes: refused,
        taken: false,
    });
    Ok(long)
}
