//! What the tests share.
#![allow(dead_code)]

pub mod echoes;
pub mod indexed;
pub mod said;

use second::gen::{fault, limit, limit_count, Case, Rng, FAULT_KINDS, LONG_KIND};
use second::pings::PingHeader;
use second::walk::{forward, Step, Tuple};
use second::{Answer, Order, SoftwareChannel};
use std::collections::{BTreeMap, BTreeSet};

/// The seed of the generated cases; SECOND_SEED sets another.
pub fn seed() -> u64 {
    number("SECOND_SEED", 2174)
}

/// How many generated cases; SECOND_COUNT sets another number.
pub fn count(usual: u64) -> u64 {
    number("SECOND_COUNT", usual)
}

fn number(name: &str, usual: u64) -> u64 {
    let set = std::env::var(name).ok().and_then(|text| text.parse().ok());
    set.unwrap_or(usual)
}

/// Bytes of hexadecimal digits; blanks don't count.
pub fn bytes(digits: &str) -> Vec<u8> {
    let digits: Vec<u32> = digits
        .chars()
        .filter(|c| !c.is_whitespace())
        .map(|c| c.to_digit(16).expect("a hexadecimal digit"))
        .collect();
    assert!(digits.len().is_multiple_of(2));
    digits
        .chunks(2)
        .map(|pair| (pair[0] << 4 | pair[1]) as u8)
        .collect()
}

/// The generator's limit case of a name, which its byte order ends.
pub fn limit_case(name: &str) -> Case {
    let wanted = format!("limit-{name}");
    let mut cases = (0..limit_count()).flat_map(limit);
    let found = cases.find(|case| case.name == wanted);
    found.unwrap_or_else(|| panic!("no {wanted}"))
}

/// Every refusal of the check is passed on: `judge` gives what a call answers for files with
/// each kind of damage made by rule, so many of a stream, and for one that is too long. All
/// of the check's codes come, in both orders.
pub fn every_refusal(stream: u64, each: u64, mut judge: impl FnMut(&[u8], &str) -> Answer) {
    let seed = seed();
    let mut seen = BTreeSet::new();
    let kinds = FAULT_KINDS.iter().copied().chain([LONG_KIND]);
    for (nth, kind) in kinds.enumerate() {
        for index in 0..each {
            let mut rng = Rng::of_case(seed ^ stream, nth as u64 * each + index);
            let Case { name, bytes, .. } = fault(&mut rng, kind);
            let answer = judge(&bytes, &format!("seed {seed} {name}"));
            assert!(!answer.is_accepted(), "{name}");
            seen.insert((Order::of(&bytes) == Some(Order::Msb), answer.code));
        }
    }
    let long = vec![0; 16_777_217];
    assert_eq!(judge(&long, "a long file"), Answer::refused(1, 0));
    // a file without a mark is of no order
    seen.insert((true, 2));
    let others = [1, 10, 18, 19, 20, 21, 22];
    let codes: BTreeSet<u32> = (1..=25).filter(|code| !others.contains(code)).collect();
    for msb in [false, true] {
        let given = seen.iter().filter(|seen| seen.0 == msb).map(|seen| seen.1);
        assert_eq!(given.collect::<BTreeSet<u32>>(), codes, "{msb}");
    }
}

/// The tuples of an accepted file, in order.
pub fn tuples(file: &[u8]) -> Vec<Tuple> {
    let found = tuples_found(file);
    let end = found.last().map_or(4, Tuple::end);
    assert_eq!(forward(file, end), Step::End);
    found
}

/// The tuples of any file, in order, as far as they go.
pub fn tuples_found(file: &[u8]) -> Vec<Tuple> {
    let mut found = Vec::new();
    let mut place = 4;
    while let Step::Tuple { tuple, next } = forward(file, place) {
        found.push(tuple);
        place = next;
    }
    found
}

/// Memory with a pattern that no writer would leave by chance.
pub fn lent(length: usize) -> Vec<u8> {
    (0..length).map(|at| (at * 151 + 89) as u8).collect()
}

/// The output of a call that accepts, in memory that just suffices; one byte less is 19
/// and alters nothing.
pub fn written(call: impl Fn(&mut [u8]) -> Answer) -> Vec<u8> {
    let mut out = lent(600_000);
    let answer = call(&mut out);
    assert_eq!((answer.code, answer.place), (0, 0));
    let length = answer.length as usize;
    assert_eq!(out[length..], lent(600_000)[length..]);
    out.truncate(length);
    let mut exact = lent(length);
    assert_eq!(call(&mut exact), answer);
    assert_eq!(exact, out);
    let mut short = lent(length - 1);
    assert_eq!(call(&mut short), Answer::refused(19, 0));
    assert_eq!(short, lent(length - 1));
    out
}

/// Bytes under way, in one order.
pub struct Bytes {
    pub order: Order,
    pub bytes: Vec<u8>,
}

impl Bytes {
    pub fn new(order: Order) -> Bytes {
        let bytes = Vec::new();
        Bytes { order, bytes }
    }

    pub fn two(&mut self, number: u16) {
        self.bytes.extend(match self.order {
            Order::Lsb => number.to_le_bytes(),
            Order::Msb => number.to_be_bytes(),
        });
    }

    pub fn four(&mut self, number: u32) {
        self.bytes.extend(match self.order {
            Order::Lsb => number.to_le_bytes(),
            Order::Msb => number.to_be_bytes(),
        });
    }

    /// A tuple of a length: the numbers that `fill` writes, then zeros.
    pub fn tuple(&mut self, code: u16, length: usize, fill: impl Fn(&mut Bytes)) {
        let start = self.bytes.len();
        self.four(length as u32 - 10);
        self.two(code);
        fill(self);
        self.bytes.resize(start + length - 4, 0);
        self.four(length as u32);
    }
}

/// A mark and the tuples that are put behind it.
pub fn marked(order: Order, put: impl FnOnce(&mut Bytes)) -> Vec<u8> {
    let mut file = Bytes::new(order);
    file.four(0xAC);
    put(&mut file);
    file.bytes
}

/// Where the first ping of a survey starts: behind the mark, a signature, a sounder, a
/// channel and a position.
pub const FIRST_PING: u64 = 4 + 24 + 72 + 108 + 36;

/// A file of these pings of channel 1, sound otherwise.
pub fn survey(order: Order, pings: impl FnOnce(&mut Bytes)) -> Vec<u8> {
    marked(order, |file| {
        file.tuple(65535, 24, |bytes| bytes.two(0xACAC));
        for (code, length) in [(100, 72), (1000, 108)] {
            file.tuple(code, length, |bytes| {
                bytes.two(1);
                bytes.four(7);
            });
        }
        file.tuple(20, 36, |_| {});
        pings(file);
        file.tuple(65534, 24, |_| {});
    })
}

/// A ping's header.
pub fn ping_header() -> PingHeader {
    PingHeader {
        time_fraction: 5000,
        time_cpu_ansi_c_standard_time: 60,
        software_channel_identifier: SoftwareChannel(1),
        transmitter_mode: 2,
        ping_number: 9,
        detected_bottom_range: -3,
    }
}

/// A file with its byte order, for the rules said once more.
pub struct File<'a> {
    pub bytes: &'a [u8],
    pub msb: bool,
}

impl File<'_> {
    /// By the mark; none where there is neither.
    pub fn new(bytes: &[u8]) -> Option<File<'_>> {
        match bytes.get(..4)? {
            [0xAC, 0, 0, 0] => Some(File { bytes, msb: false }),
            [0, 0, 0, 0xAC] => Some(File { bytes, msb: true }),
            _ => None,
        }
    }

    /// A number of some bytes; those past the end count as 0.
    pub fn number(&self, at: usize, width: usize) -> u64 {
        let byte = |n: usize| u64::from(*self.bytes.get(at + n).unwrap_or(&0));
        (0..width).fold(0, |sum, n| {
            let nth = if self.msb { n } else { width - 1 - n };
            sum * 256 + byte(nth)
        })
    }
}

/// Codes with their places.
pub type Faults = BTreeMap<&'static str, usize>;

/// The types of the seven kinds of ping.
pub const PINGS: [u64; 7] = [10000, 10001, 10010, 10030, 10031, 10040, 10050];

/// Lengths by 01's table and the readings, by TR's Tables 3 and 5 and request f's table.
fn suits(code: u64, length: u64) -> bool {
    match code {
        65535 => length == 24,
        100 => length == 72,
        200 => length == 80,
        1000 | 2000 => length == 108,
        20 | 40 => length == 36,
        30 => length == 28,
        10100 => length == 44,
        65516 | 65517 => length == 20,
        10110 | 65534 => length >= 24,
        10000 | 10001 => length >= 40 && length.is_multiple_of(8),
        10030 => length >= 36,
        10031 => length >= 40 && [0, 8].contains(&((length - 32) % 12)),
        10010 | 10040 | 10050 => length >= 40,
        _ => true,
    }
}

/// All faults of the frame of the tuple at a place, as far as they can be looked for.
pub fn frame_faults(file: &File, at: usize) -> Faults {
    let mut faults = Faults::new();
    let left = (file.bytes.len() - at) as u64;
    let length = file.number(at, 4) + 10;
    if left == 0 {
        faults.insert("4", at);
    }
    if left < 16 {
        faults.insert("3 short", at);
    }
    if !(16..=262_144).contains(&length) || length & 3 != 0 {
        faults.insert("5", at);
    }
    if length > left {
        faults.insert("3 end", at);
    } else if length >= 4 && file.number(at + length as usize - 4, 4) != length {
        faults.insert("6", at);
    }
    faults
}

/// All faults that the tuple at a place has by itself, whatever stands around it, as far
/// as they can be looked for.
pub fn tuple_faults(file: &File, at: usize) -> Faults {
    let mut all = frame_faults(file, at);
    let code = file.number(at + 4, 2);
    let length = file.number(at, 4) + 10;
    if !suits(code, length) {
        all.insert("9", at);
    }
    if code == 65535 && ![44201, 44204].contains(&file.number(at + 6, 2)) {
        all.insert("8", at);
    }
    let fits = suits(code, length) && length <= 262_144;
    if fits && PINGS.contains(&code) {
        all.extend(sample_faults(file, at));
    }
    all
}

/// All faults of the samples of a ping at a place, by the samples and words
/// themselves: requests c and f of 02. Its length has to fit.
pub fn sample_faults(file: &File, at: usize) -> Faults {
    let end = at + file.number(at, 4) as usize + 10 - 8;
    match file.number(at + 4, 2) {
        10000 | 10001 => number_faults(file, at, end, (8, 4)),
        10030 => number_faults(file, at, end, (4, 2)),
        10031 => number_faults(file, at, end, (6, 2)),
        code @ (10010 | 10040 | 10050) => word_faults(file, at, end, code),
        _ => Faults::new(),
    }
}

/// Samples of so many bytes, of which so many are the number.
fn number_faults(file: &File, at: usize, end: usize, (bytes, number): (usize, usize)) -> Faults {
    let mut faults = Faults::new();
    let count = (end - at - 24) / bytes;
    if count > 32_764 {
        faults.insert("11", at);
    }
    let nth = |n: usize| file.number(at + 24 + bytes * n, number);
    if let Some(n) = (1..count).find(|n| nth(*n) <= nth(n - 1)) {
        faults.insert("23", at + 24 + bytes * n);
    }
    faults
}

/// A number of some bits as a signed one.
fn two_complement(number: u64, bits: u32) -> i64 {
    if number < 1 << (bits - 1) {
        number as i64
    } else {
        number as i64 - (1 << bits)
    }
}

/// The value of a word that is no run, and the limits of its kind: Tables 20, 23 and 24.
pub fn word_value(code: u64, word: u64) -> (i64, std::ops::RangeInclusive<i64>) {
    match code {
        10010 => (two_complement(word, 32), -2_147_418_112..=2_147_418_111),
        10040 => (two_complement(word, 16), -32_511..=32_511),
        _ => {
            let (sign, exponent, mantissa) = (word / 32_768, word / 4096 % 8, (word % 4096) as i64);
            let counts = match exponent {
                0 => mantissa,
                _ => (4096 + mantissa) * (1 << (exponent - 1)),
            };
            let value = if sign == 1 { -counts } else { counts };
            (value, -507_840..=507_840)
        }
    }
}

/// Bytes of a word.
pub fn word_width(code: u64) -> usize {
    if code == 10010 {
        4
    } else {
        2
    }
}

/// Whether a word is a run: its upper half is all ones.
pub fn is_run(code: u64, word: u64) -> bool {
    match code {
        10010 => word / 65_536 == 65_535,
        _ => word / 256 == 255,
    }
}

/// Where the words of a ping stand, from its count up to its attribute: all, but for the
/// last two bytes where these are a space.
pub fn word_places(file: &File, at: usize, end: usize, code: u64) -> Vec<usize> {
    let width = word_width(code);
    let mut all: Vec<usize> = (at + 28..end).step_by(width).collect();
    if width == 4 {
        return all;
    }
    let values = |places: &[usize]| {
        let words = places.iter().map(|place| file.number(*place, width));
        words.filter(|word| !is_run(code, *word)).count() as u64
    };
    let stated = file.number(at + 24, 4);
    let (with, without) = (values(&all), values(&all[..all.len() - 1]));
    #[allow(clippy::nonminimal_bool)] // as the reading has it
    let word = stated == with || (stated != with && stated != without);
    if !word {
        all.pop();
    }
    all
}

fn word_faults(file: &File, at: usize, end: usize, code: u64) -> Faults {
    let mut faults = Faults::new();
    let word = |place: &usize| file.number(*place, word_width(code));
    let mut values = word_places(file, at, end, code);
    values.retain(|place| !is_run(code, word(place)));
    let outside = |place: &&usize| {
        let (value, limits) = word_value(code, word(place));
        !limits.contains(&value)
    };
    if values.len() > 32_764 {
        faults.insert("11", at);
    }
    if let Some(place) = values.iter().find(outside) {
        faults.insert("24", *place);
    }
    if file.number(at + 24, 4) != values.len() as u64 {
        faults.insert("25", at + 24);
    }
    faults
}

/// The one of them that is told: code and place.
pub fn first_sample_fault(file: &File, at: usize) -> Option<(u32, u64)> {
    let faults = sample_faults(file, at);
    let first = ["11", "24", "25", "23"]
        .into_iter()
        .find(|code| faults.contains_key(code))?;
    Some((first.parse().unwrap(), faults[first] as u64))
}
