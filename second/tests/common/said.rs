//! Files of tuples that declare and name, said in a line each.

use super::indexed::indexed;
use super::{lent, word_width, Bytes};
use second::{check, normalise, parents, Answer, Order};
use Said::*;

/// A tuple that declares or names.
#[derive(Clone, Copy, Debug)]
pub enum Said {
    /// A document identifier, and how many channels the sounder states: 100, and
    /// that of the EK-500, 200.
    Sounder(u32, u16),
    EkSounder(u32, u16),
    /// A software channel, and the document identifier that it names: 1000, and that
    /// of the EK-500, 2000.
    Channel(u16, u32),
    EkChannel(u16, u32),
    /// U-32, of one sample, and C-32, without any.
    Ping(u16),
    Silent(u16),
    /// Of a type, and of a channel: of one sample, or of all the words that it has room for.
    PingOf(u16, u16),
    Threshold(u16),
    Attitude(u16),
    /// Of a type that isn't listed, as long as a ping.
    Unlisted(u16),
}

/// In an attitude.
pub const ALL: u16 = 65535;

/// The sampling rate and the type of data sample of a channel.
pub fn rate(channel: u16) -> u32 {
    70_000 + u32::from(channel)
}

pub fn sample_type(channel: u16) -> u16 {
    channel ^ 0x0102
}

impl Said {
    pub fn length(self) -> usize {
        match self {
            Sounder(..) => 72,
            EkSounder(..) => 80,
            Channel(..) | EkChannel(..) => 108,
            PingOf(10030, _) => 36,
            Ping(_) | Silent(_) | PingOf(..) | Unlisted(_) => 40,
            Threshold(_) => 44,
            Attitude(_) => 36,
        }
    }

    fn code(self) -> u16 {
        match self {
            Sounder(..) => 100,
            EkSounder(..) => 200,
            Channel(..) => 1000,
            EkChannel(..) => 2000,
            Ping(_) => 10000,
            Silent(_) => 10010,
            PingOf(code, _) => code,
            Threshold(_) => 10100,
            Attitude(_) => 40,
            Unlisted(code) => code,
        }
    }

    fn put(self, bytes: &mut Bytes) {
        match self {
            Sounder(id, stated) | EkSounder(id, stated) => {
                bytes.two(stated);
                bytes.four(id);
            }
            Channel(id, parent) | EkChannel(id, parent) => {
                bytes.two(id);
                bytes.four(parent);
                bytes.four(rate(id));
                bytes.two(sample_type(id));
            }
            Ping(id) | Silent(id) | PingOf(_, id) | Threshold(id) | Attitude(id) => {
                bytes.two(0);
                bytes.four(0);
                bytes.two(id);
            }
            Unlisted(_) => {}
        }
        match self {
            Silent(_) => {
                bytes.bytes.extend([0; 14]); // the rest of the header, the count
                bytes.four(0xFFFF_0000);
            }
            PingOf(code @ (10010 | 10040 | 10050), _) => {
                bytes.bytes.extend([0; 10]); // the rest of the header
                bytes.four(4 / word_width(code.into()) as u32);
            }
            _ => {}
        }
    }
}

/// Where the first of the tuples said starts: behind mark and signature.
const FIRST: usize = 4 + 24;

/// A file of these tuples, a position and an end of file behind them.
pub fn file(order: Order, said: &[Said]) -> Vec<u8> {
    let mut file = Bytes::new(order);
    file.four(0xAC);
    file.tuple(65535, 24, |bytes| bytes.two(0xACAC));
    for said in said {
        file.tuple(said.code(), said.length(), |bytes| said.put(bytes));
    }
    file.tuple(20, 36, |_| {});
    file.tuple(65534, 24, |_| {});
    file.bytes
}

/// Where the nth of the tuples said starts, from 0.
pub fn place(said: &[Said], nth: usize) -> u64 {
    let before: usize = said[..nth].iter().map(|said| said.length()).sum();
    (FIRST + before) as u64
}

/// What the calls that check a whole file answer, in both orders: the signature,
/// the position and the end of file are tuples, too.
pub fn accepted(name: &str, said: &[Said], compared: u64) {
    for order in Order::BOTH {
        let name = format!("{name}, {order:?}");
        let file = file(order, said);
        let checked = Answer::checked(said.len() as u64 + 3, 0, compared);
        assert_eq!(check(&file), checked, "{name}");
        for nth in 0..said.len() {
            if let Ping(_) | Silent(_) = said[nth] {
                let asked = parents(&file, place(said, nth));
                assert_eq!(asked.map(|(answer, _)| answer), Ok(checked), "{name}");
            }
        }
        // the normal form is as long as the file with its index, which is one tuple more
        let mut out = indexed(&file);
        let normal = normalise(&file, &mut out);
        let length = out.len() as u64;
        assert_eq!(normal, Answer { length, ..checked }, "{name}");
        let tuples = checked.tuples + 1;
        assert_eq!(check(&out), Answer { tuples, ..checked }, "{name}");
    }
}

/// The check's refusal, in both orders, at one of the tuples said: 0 compared,
/// however many were before it.
pub fn refused(name: &str, said: &[Said], code: u32, nth: usize) {
    for order in Order::BOTH {
        let name = format!("{name}, {order:?}");
        let file = file(order, said);
        let refusal = Answer {
            code,
            place: place(said, nth),
            tuples: 0,
            length: 0,
            compared: 0,
        };
        assert_eq!(check(&file), refusal, "{name}");
        assert_eq!(normalise(&file, &mut lent(file.len())), refusal, "{name}");
        assert_eq!(parents(&file, 4), Err(refusal), "{name}");
    }
}
