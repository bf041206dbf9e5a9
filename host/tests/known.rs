//! What is known of the samples and the vectors, from their lines alone: a tuple
//! a line, the mark on the first.

use hac::{Counts, Order, Samples};
use std::fs;
use std::path::{Path, PathBuf};

/// The four spellings of the cruise, and their normal form.
pub const SPELLINGS: [&str; 4] = [
    "cruise-lsb",
    "cruise-lsb-cut",
    "cruise-msb",
    "cruise-msb-cut",
];
pub const NORMAL: &str = "cruise-normal";

/// How many identifiers linking the cruise compares, however it is spelled: for its
/// channels 1, 1 and 2, for its attitudes 0 (for all channels) and 3, for its
/// thresholds 1 and 2, for its pings 1, 2, 3, 2, 1 and 3.
pub const COMPARED: usize = 22;

/// A place in the repository.
pub fn repository(path: &str) -> PathBuf {
    Path::new(env!("CARGO_MANIFEST_DIR")).join("..").join(path)
}

/// Lines of hexadecimal, decoded and joined.
pub fn decode(lines: &str) -> Vec<u8> {
    let digits: String = lines.split_whitespace().collect();
    (0..digits.len())
        .step_by(2)
        .map(|at| u8::from_str_radix(&digits[at..at + 2], 16).expect("hexadecimal"))
        .collect()
}

/// The bytes that a vector's lines stand for.
pub fn vector(name: &str) -> Vec<u8> {
    let path = repository("tests/vectors").join(name);
    decode(&fs::read_to_string(path).expect("a vector"))
}

/// A number of two bytes, and one of four, as a file of an order has them.
pub fn two_bytes(order: Order, number: u16) -> [u8; 2] {
    match order {
        Order::Lsb => number.to_le_bytes(),
        Order::Msb => number.to_be_bytes(),
    }
}

pub fn four_bytes(order: Order, number: u32) -> [u8; 4] {
    match order {
        Order::Lsb => number.to_le_bytes(),
        Order::Msb => number.to_be_bytes(),
    }
}

/// A number as a ping stores it: its bytes, 2 or 4, and itself.
pub type Stored = (usize, u32);

/// The bytes of some stored numbers, in an order.
pub fn stored_bytes(order: Order, stored: &[Stored]) -> Vec<u8> {
    let bytes = stored.iter().map(|(width, number)| match width {
        2 => two_bytes(order, *number as u16).to_vec(),
        _ => four_bytes(order, *number).to_vec(),
    });
    bytes.flatten().collect()
}

/// A tuple of a sample.
#[derive(Clone)]
pub struct Tuple {
    pub order: Order,
    pub place: usize,
    pub bytes: Vec<u8>,
}

impl Tuple {
    pub fn two(&self, at: usize) -> u16 {
        let bytes = [self.bytes[at], self.bytes[at + 1]];
        match self.order {
            Order::Lsb => u16::from_le_bytes(bytes),
            Order::Msb => u16::from_be_bytes(bytes),
        }
    }

    pub fn four(&self, at: usize) -> u32 {
        let bytes = self.bytes[at..at + 4].try_into().expect("four bytes");
        match self.order {
            Order::Lsb => u32::from_le_bytes(bytes),
            Order::Msb => u32::from_be_bytes(bytes),
        }
    }

    /// The type code, which stands behind the data size.
    pub fn kind(&self) -> u16 {
        self.two(4)
    }

    pub fn is_ping(&self) -> bool {
        [10000, 10001, 10010, 10030, 10031, 10040, 10050].contains(&self.kind())
    }

    /// The numbers of four bytes from a place on, up to the attribute.
    fn fours(&self, at: usize) -> Vec<u32> {
        let places = (at..self.bytes.len() - 8).step_by(4);
        places.map(|place| self.four(place)).collect()
    }

    /// A C-32 ping's words; none of a U-32 ping.
    fn words(&self) -> Vec<u32> {
        match self.kind() {
            10010 => self.fours(28),
            _ => Vec::new(),
        }
    }

    /// A ping's samples: a U-32 ping's pairs, a C-32 ping's words that are no runs.
    pub fn samples(&self) -> Samples {
        if self.kind() == 10000 {
            let pairs = self.fours(24);
            return Samples {
                numbers: pairs.iter().copied().step_by(2).collect(),
                values: pairs[1..]
                    .iter()
                    .map(|word| *word as i32)
                    .step_by(2)
                    .collect(),
            };
        }
        let (mut numbers, mut values, mut number) = (Vec::new(), Vec::new(), 0);
        for word in self.words() {
            if word < RUN {
                numbers.push(number);
                values.push(word as i32);
            }
            number += samples_of(word);
        }
        Samples { numbers, values }
    }

    /// A ping's length: all its samples, where its last word is a run.
    pub fn length(&self) -> Option<u32> {
        let words = self.words();
        let is_silent_last = words.last().is_some_and(|word| *word >= RUN);
        is_silent_last.then(|| words.into_iter().map(samples_of).sum())
    }
}

/// The run of one sample, from which on all words are runs.
pub const RUN: u32 = 0xFFFF_0000;

/// How many samples a word of a C-32 ping stands for.
fn samples_of(word: u32) -> u32 {
    match word.checked_sub(RUN) {
        Some(more) => more + 1,
        None => 1,
    }
}

/// A sample: its bytes, and its tuples as its lines tell them.
pub struct Known {
    pub path: PathBuf,
    pub bytes: Vec<u8>,
    pub order: Order,
    pub tuples: Vec<Tuple>,
}

impl Known {
    pub fn sample(name: &str) -> Known {
        let path = repository("samples").join(format!("{name}.hac"));
        let bytes = fs::read(&path).expect("a sample");
        let lines = fs::read_to_string(path.with_extension("hex")).expect("its lines");
        let mut lines = lines.lines();
        let order = match lines.next() {
            Some("ac000000") => Order::Lsb,
            Some("000000ac") => Order::Msb,
            mark => panic!("no mark: {mark:?}"),
        };
        let mut place = hac::FIRST_PLACE;
        let tuples = lines.map(|line| {
            let bytes = decode(line);
            let start = place;
            place += bytes.len();
            Tuple {
                order,
                place: start,
                bytes,
            }
        });
        Known {
            tuples: tuples.collect(),
            path,
            bytes,
            order,
        }
    }

    /// What the check counts in it.
    pub fn counts(&self) -> Counts {
        Counts {
            tuples: self.tuples.len(),
            compared: COMPARED,
        }
    }

    /// The tuples of a type.
    pub fn of(&self, kind: u16) -> impl Iterator<Item = &Tuple> {
        self.tuples.iter().filter(move |tuple| tuple.kind() == kind)
    }

    /// The sounders of both makers, and the channels of both.
    pub fn sounders(&self) -> impl Iterator<Item = &Tuple> {
        self.tuples
            .iter()
            .filter(|tuple| [100, 200].contains(&tuple.kind()))
    }

    pub fn channels(&self) -> impl Iterator<Item = &Tuple> {
        self.tuples
            .iter()
            .filter(|tuple| [1000, 2000].contains(&tuple.kind()))
    }

    /// The first tuple of a type.
    pub fn first(&self, kind: u16) -> &Tuple {
        self.of(kind).next().expect("a tuple of this type")
    }

    pub fn pings(&self) -> Vec<&Tuple> {
        self.tuples.iter().filter(|tuple| tuple.is_ping()).collect()
    }
}

/// What the program says of an accepted file.
pub fn accepted(Counts { tuples, compared }: Counts) -> String {
    format!("accepted, {tuples} tuples, {compared} identifiers compared")
}

/// The bytes of 01's examples E1, E3 and E4.
pub fn e1() -> Vec<u8> {
    decode("ac000000 0e000000ffffacac64006400acac01df0000000018000000")
}

pub fn e3() -> Vec<u8> {
    decode("000000ac 00000012001e13880000003c0001fc7714180000000000000000001c")
}

pub fn e4() -> Vec<u8> {
    decode(
        "ac000000 260000001a2700003c0000000100000001000000ffffff7f02000000\
         0100ffff6400000090eefeff0000000030000000",
    )
}
