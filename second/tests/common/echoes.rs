//! Files of echoes made by hand, and what a file's pings hold, said once more and slowly.

use super::{is_run, two_complement, word_places, word_value, word_width, Bytes, File, PINGS};
use second::gen::Rng;
use second::{check, Answer, Order};

/// The kinds of ping that have values.
pub const VALUED: [u16; 5] = [10000, 10010, 10030, 10040, 10050];

/// The kinds of angles.
pub const ANGLED: [u16; 2] = [10001, 10031];

/// A channel: 1000 or 2000, and its type of data sample.
pub type Channel = (u16, u16);

/// A ping of a kind, of a channel and of samples.
pub struct Echo {
    pub code: u16,
    pub channel: u16,
    pub samples: Vec<(u32, i32)>,
    /// Samples below threshold behind the last one, in a kind of words.
    pub silence: u32,
}

impl Echo {
    /// Of channel 1, of samples with these values, one behind another, from number 0.
    pub fn new(code: u16, values: &[i32]) -> Echo {
        let samples = values.iter().enumerate();
        Echo::of(
            code,
            &samples.map(|(n, v)| (n as u32, *v)).collect::<Vec<_>>(),
        )
    }

    pub fn of(code: u16, samples: &[(u32, i32)]) -> Echo {
        Echo {
            code,
            channel: 1,
            samples: samples.to_vec(),
            silence: 0,
        }
    }

    /// Without samples, of a length.
    pub fn silent(code: u16, length: u32) -> Echo {
        Echo {
            silence: length,
            ..Echo::of(code, &[])
        }
    }

    pub fn on(self, channel: u16) -> Echo {
        Echo { channel, ..self }
    }

    fn is_words(&self) -> bool {
        [10010, 10040, 10050].contains(&self.code)
    }

    /// The words of a gap, full runs first.
    fn runs(&self, gap: u32) -> Vec<u32> {
        let radix: u32 = if self.code == 10010 { 65_536 } else { 256 };
        let lengths = (0..gap.div_ceil(radix)).map(|nth| radix.min(gap - nth * radix));
        lengths.map(|n| (radix - 1) * radix + (n - 1)).collect()
    }

    /// The word of a value, by a search among all words where they are floating.
    fn word(&self, value: i32) -> u32 {
        let code = self.code.into();
        match self.code {
            10010 => value as u32,
            10040 => value as u16 as u32,
            _ => {
                let mut words = (0..0x1_0000).filter(|word| !is_run(code, *word));
                let found = words.find(|word| word_value(code, *word).0 == value.into());
                found.expect("counts with a word") as u32
            }
        }
    }

    fn put_words(&self, bytes: &mut Bytes) {
        bytes.four(self.samples.len() as u32);
        let mut words = Vec::new();
        let mut next = 0;
        for (number, value) in &self.samples {
            words.extend(self.runs(number - next));
            words.push(self.word(*value));
            next = number + 1;
        }
        words.extend(self.runs(self.silence));
        for word in words {
            match word_width(self.code.into()) {
                4 => bytes.four(word),
                _ => bytes.two(word as u16),
            }
        }
    }

    fn put_samples(&self, bytes: &mut Bytes) {
        for (number, value) in &self.samples {
            match self.code {
                10000 | 10001 => bytes.four(*number),
                _ => bytes.two(*number as u16),
            }
            match self.code {
                10000 => bytes.four(*value as u32),
                10030 => bytes.two(*value as u16),
                _ => {
                    bytes.two(*value as u16);
                    bytes.two(!*value as u16);
                }
            }
        }
    }

    fn put(&self, file: &mut Bytes) {
        let mut inner = Bytes::new(file.order);
        inner.bytes.extend([0; 6]);
        inner.two(self.channel);
        inner.bytes.extend([0; 10]);
        if self.is_words() {
            self.put_words(&mut inner);
        } else {
            self.put_samples(&mut inner);
        }
        let length = (6 + inner.bytes.len()).next_multiple_of(4) + 8;
        file.tuple(self.code, length, |bytes| bytes.bytes.extend(&inner.bytes));
    }
}

/// A file of channels, numbered from 1, each of a sounder of its own, and of pings, and the
/// places of these.
pub fn echo_file(order: Order, channels: &[Channel], pings: &[Echo]) -> (Vec<u8>, Vec<u64>) {
    let mut file = Bytes::new(order);
    file.four(0xAC);
    file.tuple(65535, 24, |bytes| bytes.two(0xACAC));
    for (id, (code, sample_type)) in (1u16..).zip(channels) {
        let length = if *code == 1000 { 72 } else { 80 };
        file.tuple(code / 10, length, |bytes| {
            bytes.two(1);
            bytes.four(70 + u32::from(id));
        });
        file.tuple(*code, 108, |bytes| {
            bytes.two(id);
            bytes.four(70 + u32::from(id));
            bytes.four(9);
            bytes.two(*sample_type);
        });
    }
    file.tuple(20, 36, |_| {});
    let mut places = Vec::new();
    for ping in pings {
        places.push(file.bytes.len() as u64);
        ping.put(&mut file);
    }
    file.tuple(65534, 24, |_| {});
    (file.bytes, places)
}

/// Where the tuples of an accepted file start.
pub fn starts(file: &File) -> Vec<usize> {
    let mut starts = vec![];
    let mut at = 4;
    while at < file.bytes.len() {
        starts.push(at);
        at += file.number(at, 4) as usize + 10;
    }
    starts
}

/// Where its listed pings do.
pub fn ping_starts(file: &File) -> Vec<usize> {
    let mut starts = starts(file);
    starts.retain(|at| PINGS.contains(&file.number(at + 4, 2)));
    starts
}

/// The channel that the ping at a place names, found among all tuples.
pub fn channel_of(file: &File, ping: usize) -> Channel {
    let id = file.number(ping + 12, 2);
    let mut channels = starts(file).into_iter().filter(|at| {
        let code = file.number(at + 4, 2);
        [1000, 2000].contains(&code) && file.number(at + 6, 2) == id
    });
    let at = channels.next().expect("a declared channel");
    (
        file.number(at + 4, 2) as u16,
        file.number(at + 16, 2) as u16,
    )
}

/// The samples of a sound ping without angles: numbers and values.
pub fn samples_at(file: &File, at: usize) -> Vec<(u64, i64)> {
    let code = file.number(at + 4, 2);
    let end = at + file.number(at, 4) as usize + 10 - 8;
    match code {
        10000 | 10030 => {
            let width = if code == 10000 { 4 } else { 2 };
            let samples = (at + 24..end).step_by(2 * width);
            let value = |place| two_complement(file.number(place, width), 8 * width as u32);
            samples
                .map(|place| (file.number(place, width), value(place + width)))
                .collect()
        }
        _ => {
            let mut samples = Vec::new();
            let mut number = 0;
            for place in word_places(file, at, end, code) {
                let word = file.number(place, word_width(code));
                if is_run(code, word) {
                    number += 1 + word % if code == 10010 { 65_536 } else { 256 };
                } else {
                    samples.push((number, word_value(code, word).0));
                    number += 1;
                }
            }
            samples
        }
    }
}

/// Asking for a ping by 01: the check's refusal, or 9 where no listed ping starts.
pub fn asked(bytes: &[u8], place: u64) -> Result<Answer, Answer> {
    let checked = check(bytes);
    if !checked.is_accepted() {
        return Err(checked);
    }
    let file = File::new(bytes).expect("a mark");
    if ping_starts(&file).iter().any(|at| *at as u64 == place) {
        Ok(checked)
    } else {
        Err(Answer::refused(9, place))
    }
}

/// Places worth asking at: of all tuples that a file begins with, of next to them, and of
/// none.
pub fn places_to_ask(rng: &mut Rng, bytes: &[u8], most: usize) -> Vec<u64> {
    let found = super::tuples_found(bytes);
    let mut places: Vec<u64> = found.iter().map(|tuple| tuple.place).collect();
    while places.len() > most {
        places.swap_remove(rng.index(places.len()));
    }
    let beside: Vec<u64> = places.iter().take(3).map(|place| place + 4).collect();
    places.extend(beside);
    places.extend([0, 3, bytes.len() as u64, bytes.len() as u64 + 1, u64::MAX]);
    places
}
