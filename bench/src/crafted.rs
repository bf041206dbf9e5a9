//! Files made so that salvage takes long: many offsets look like the start of a long ping,
//! with a backlink that agrees, and only the end of its samples or words tells that it is
//! none. They overlap: what one ping has for words are frames of others.

use crate::deposits::{put, Packed, C16, C32, CE16, FOUR, FRAME, TAIL, TWO, TYPE_AT};
use hac::{Order, FIRST_PLACE, TUPLE_LIMIT};

/// Where a ping's number of samples stands, and its first word.
const COUNT_AT: usize = 24;
const WORDS_AT: usize = 28;

/// The type codes of the pings that number their samples.
const U32: u16 = 10000;
const U32_16_ANGLES: u16 = 10001;
const U16: u16 = 10030;
const U16_ANGLES: u16 = 10031;

/// The closest starts but for those of one word: size, type, number of samples and
/// another's backlink have a word each.
const APART: usize = 16;

/// Starts that have no word for the number of samples.
const CLOSE: usize = 12;

/// The longest pings whose words, all of them values, are no more than a ping may have, of
/// lengths divisible by `APART`; of words of two bytes it is less, for the number of
/// samples is two such words too, which must be inside the limits.
const FULL_32: usize = 131_072;
const FULL_16: usize = 61_440;

/// The starts of a cluster have so many bytes, and their values are no more than a ping
/// may have; what is behind them is silent.
const CLUSTER_32: usize = 130_816;
const CLUSTER_16: usize = 57_344;

/// Words of either width that are outside the limits of all three kinds.
const OUTSIDE: usize = 0x7FFF_7FFF;

/// The upper half of a size whose lower half is a type.
const LARGE_SIZE: usize = 3 << 16;

/// The longest pings with numbers of two bytes that have no more samples than a ping may
/// have, of lengths divisible by `APART`.
const LONGEST_U16: usize = 131_088;
const LONGEST_U16_ANGLES: usize = 196_592;

/// A file under way.
struct Sheet {
    order: Order,
    bytes: Vec<u8>,
}

impl Sheet {
    /// The mark, and zeros.
    fn new(order: Order, limit: usize) -> Sheet {
        let mut bytes = order.mark().to_vec();
        bytes.resize(limit, 0);
        Sheet { order, bytes }
    }

    fn four(&mut self, at: usize, number: usize) {
        put(self.order, &mut self.bytes, at, FOUR, number as u32);
    }

    fn two(&mut self, at: usize, number: usize) {
        put(self.order, &mut self.bytes, at, TWO, number as u32);
    }

    /// The frame of a ping.
    fn frame(&mut self, at: usize, code: u16, length: usize) {
        self.four(at, length - FRAME);
        self.two(at + TYPE_AT, code.into());
        self.four(at + length - FOUR, length);
    }

    /// The places where pings of a length can start, so far apart.
    fn starts(&self, apart: usize, length: usize) -> impl Iterator<Item = usize> {
        let end = (self.bytes.len() + 1).saturating_sub(length);
        (FIRST_PLACE..end).step_by(apart)
    }

    /// Before each word of a kind how many are values.
    fn values(&self, kind: Packed) -> Vec<u32> {
        let number = |number: u32, byte: &u8| number << 8 | u32::from(*byte);
        let mut values = vec![0];
        let mut before = 0;
        for word in self.bytes[FIRST_PLACE..].chunks_exact(kind.width) {
            let word = match self.order {
                Order::Lsb => word.iter().rev().fold(0, number),
                Order::Msb => word.iter().fold(0, number),
            };
            before += u32::from(word < kind.shortest_run);
            values.push(before);
        }
        values
    }

    /// Puts the number of values, and so many more, into each ping of words. No count is
    /// a run, so that it is a value whatever it is.
    fn count(&mut self, kind: Packed, pings: &[usize], length: usize, more: u32) {
        let values = self.values(kind);
        let nth = |place: usize| (place - FIRST_PLACE) / kind.width;
        for at in pings {
            let (from, to) = (nth(at + WORDS_AT), nth(at + length - TAIL));
            let count = values[to] - values[from] + more;
            self.four(at + COUNT_AT, count as usize);
        }
    }
}

/// Pings of one length everywhere. Where they are no longer than `FULL_..` they state one
/// sample more than they have values, so that the last word alone tells; else they have
/// too many values. The closest have no word for their number of samples.
fn dense(mut sheet: Sheet, kind: Packed, apart: usize, length: usize) -> Vec<u8> {
    let starts: Vec<usize> = sheet.starts(apart, length).collect();
    for at in &starts {
        sheet.frame(*at, kind.code, length);
    }
    if apart > CLOSE {
        sheet.count(kind, &starts, length, 1);
    }
    sheet.bytes
}

/// Clusters of starts, whose pings are of the longest and reach over silence into the
/// next cluster. The last word of the first of them is outside the limits, and so late in
/// the others; all else is right.
fn bad_word(mut sheet: Sheet, kind: Packed, cluster: usize) -> Vec<u8> {
    let limit = sheet.bytes.len();
    for at in (FIRST_PLACE..limit).step_by(TUPLE_LIMIT) {
        let end = limit.min(at + TUPLE_LIMIT);
        // the number of samples of the last start stands behind the cluster
        let silence = end.min(at + cluster + APART);
        sheet.bytes[silence..end].fill(0xFF);
        if end == at + TUPLE_LIMIT {
            sheet.four(end - TAIL - FOUR, OUTSIDE);
        }
    }
    let in_cluster = |at: &usize| (at - FIRST_PLACE) % TUPLE_LIMIT < cluster;
    let starts: Vec<usize> = sheet
        .starts(APART, TUPLE_LIMIT)
        .filter(in_cluster)
        .collect();
    for at in &starts {
        sheet.frame(*at, kind.code, TUPLE_LIMIT);
    }
    sheet.count(kind, &starts, TUPLE_LIMIT, 0);
    sheet.bytes
}

/// Starts at every word of a stretch, with their backlinks in the next. In LSB order a
/// word is then the size of one ping and the type of the one before it; of two kinds
/// such a size is allowed. The last of a stretch is of no listed type and so kept; it
/// ends where the next stretch of starts begins.
fn every_word(mut sheet: Sheet, kind: Packed) -> Vec<u8> {
    let size = LARGE_SIZE | usize::from(kind.code);
    let length = size + FRAME;
    for (nth, at) in (FIRST_PLACE..sheet.bytes.len()).step_by(FOUR).enumerate() {
        let stretch = FOUR * nth / (length - FOUR);
        let word = if stretch.is_multiple_of(2) {
            size
        } else {
            length
        };
        sheet.four(at, word);
    }
    sheet.bytes
}

/// Pings with numbers of four bytes. What is a size for one is a number for those that
/// reach over it, so sizes rise from one start to the next, as far as they can be; then
/// they begin anew, which is where the numbers fall. Each ping of such a group reaches
/// over its end. The backlinks of a group stand in every second place for them, and those
/// of the next group between these.
fn rising(mut sheet: Sheet, code: u16) -> Vec<u8> {
    const GROUP: usize = TUPLE_LIMIT / 2 - 4 * APART;
    let limit = sheet.bytes.len();
    for at in (FIRST_PLACE..limit - APART + 1).step_by(APART) {
        let (group, within) = ((at - FIRST_PLACE) / GROUP, (at - FIRST_PLACE) % GROUP);
        let length = GROUP + APART * (2 + group % 2) + within;
        if at + length <= limit {
            sheet.frame(at, code, length);
        } else {
            sheet.four(at, length - FRAME);
        }
        // the number between this size and the next
        sheet.four(at + APART / 2, length - FRAME + APART / 2);
    }
    sheet.bytes
}

/// Clusters of U-16-angles in LSB order, a sample of which has six bytes: of every fourth
/// the number is the lower half of a size. Behind a cluster the numbers rise by 1, and
/// where its first ping ends they fall.
fn rising_angles(mut sheet: Sheet) -> Vec<u8> {
    const SAMPLE: usize = 6;
    const HEAD: usize = 4 * SAMPLE;
    const STARTS: usize = 2000;
    const RISE: usize = 2 * SAMPLE;
    const FIRST_LENGTH: usize = 140_000;
    const PERIOD: usize = FIRST_LENGTH + STARTS * (HEAD + RISE);
    let end = sheet.bytes.len().saturating_sub(PERIOD);
    for begin in (FIRST_PLACE..end).step_by(PERIOD) {
        let lower = (FIRST_LENGTH - FRAME) % (1 << 16);
        let heads = STARTS * HEAD / SAMPLE;
        let behind = lower + STARTS * RISE;
        for nth in 0..(FIRST_LENGTH - TAIL) / SAMPLE - 1 {
            let number = match nth {
                nth if nth < heads => lower + RISE * SAMPLE * nth / HEAD,
                nth => behind + nth - heads,
            };
            sheet.two(begin + SAMPLE * nth, number);
        }
        for nth in 0..STARTS {
            sheet.frame(begin + HEAD * nth, U16_ANGLES, FIRST_LENGTH + RISE * nth);
        }
    }
    sheet.bytes
}

/// Frames of the longest pings with numbers of two bytes. Their numbers can't rise far:
/// each ping that they reach over has one number more that is its type, or half of its
/// size; so they cost much only where samples are read to the end.
fn frames(mut sheet: Sheet, code: u16, length: usize) -> Vec<u8> {
    let starts: Vec<usize> = sheet.starts(APART, length).collect();
    for at in starts {
        sheet.frame(at, code, length);
    }
    sheet.bytes
}

/// A file of so many bytes at most.
pub type Make = Box<dyn Fn(usize) -> Vec<u8>>;

/// A crafted file, by its name.
type Named = (String, Make);

fn named(name: String, order: Order, craft: impl Fn(Sheet) -> Vec<u8> + 'static) -> Named {
    let told = match order {
        Order::Lsb => "LSB",
        Order::Msb => "MSB",
    };
    let make = move |limit| craft(Sheet::new(order, limit));
    (format!("{name}, {told}"), Box::new(make))
}

/// Those of a kind of words, whose full pings and clusters have so many bytes.
fn of_words(name: &str, kind: Packed, full: usize, cluster: usize, order: Order) -> [Named; 4] {
    let longest = TUPLE_LIMIT / CLOSE * CLOSE;
    [
        named(format!("{name} one sample too many"), order, move |sheet| {
            dense(sheet, kind, APART, full)
        }),
        named(format!("{name} too many values"), order, move |sheet| {
            dense(sheet, kind, APART, TUPLE_LIMIT)
        }),
        named(format!("{name} every 12 bytes"), order, move |sheet| {
            dense(sheet, kind, CLOSE, longest)
        }),
        named(format!("{name} bad word late"), order, move |sheet| {
            bad_word(sheet, kind, cluster)
        }),
    ]
}

/// Those of the kinds that number their samples.
fn of_numbers(order: Order) -> [Named; 4] {
    let drop_late = |name: &str, code| {
        let name = format!("{name} drop late");
        named(name, order, move |sheet| rising(sheet, code))
    };
    let longest = |name: &str, code, length| {
        let name = format!("{name} frames");
        named(name, order, move |sheet| frames(sheet, code, length))
    };
    [
        drop_late("U-32", U32),
        drop_late("U-32-16-angles", U32_16_ANGLES),
        longest("U-16", U16, LONGEST_U16),
        longest("U-16-angles", U16_ANGLES, LONGEST_U16_ANGLES),
    ]
}

/// Every crafted file.
pub fn crafted() -> Vec<Named> {
    let mut all = Vec::new();
    for order in [Order::Lsb, Order::Msb] {
        all.extend(of_words("C-32", C32, FULL_32, CLUSTER_32, order));
        all.extend(of_words("C-16", C16, FULL_16, CLUSTER_16, order));
        all.extend(of_words("CE-16", CE16, FULL_16, CLUSTER_16, order));
        all.extend(of_numbers(order));
    }
    for (name, kind) in [("C-32", C32), ("CE-16", CE16)] {
        let name = format!("{name} every word");
        all.push(named(name, Order::Lsb, move |sheet| {
            every_word(sheet, kind)
        }));
    }
    let name = "U-16-angles drop late".to_string();
    all.push(named(name, Order::Lsb, rising_angles));
    all
}
