//! Private tuples: drawn and put into a file at the boundaries of its tuples, or found there and
//! taken out; and the map from the places of the file without them to those of the file with
//! them.

use crate::walked::walked;
use second::gen::Rng;
use second::layout::{class, Class, ATTITUDE, CHANNEL, EK500_CHANNEL, EK500_SOUNDER};
use second::layout::{END_OF_FILE, FILE_LIMIT, SOUNDER, THRESHOLD, TUPLE_LEAST, TUPLE_LIMIT};
use second::walk::Tuple;
use second::{Order, PingKind};
use std::ops::RangeInclusive;

/// The types that are left to whoever records: no rule speaks of them.
pub const TYPES: RangeInclusive<u16> = 65396..=65405;

/// What stands in a tuple besides its data: size and type before, the backlink behind.
const FRAME: usize = 10;
const TYPE_AT: usize = 4;

/// Tuples of more bytes than these are neither copied into a private one nor drawn but now and
/// then.
const SHORT: u64 = 1000;

/// Out of a hundred files so many get one private tuple of any length up to the largest.
const LONG: u64 = 3;

pub fn is_private(tuple: &Tuple) -> bool {
    TYPES.contains(&tuple.code)
}

pub fn is_index(tuple: &Tuple) -> bool {
    class(tuple.code) == Some(Class::Index)
}

/// A private tuple, and the place of the file without any that it stands at: the tuple that
/// stood there stands behind it.
#[derive(Clone)]
pub struct Put {
    pub at: u64,
    pub code: u16,
    pub bytes: Vec<u8>,
    /// What it was made to look like.
    pub looks: Option<String>,
}

impl Put {
    pub fn length(&self) -> u64 {
        self.bytes.len() as u64
    }
}

/// Where things stand behind something was put in before them.
pub struct Map {
    /// Where something was put in, in order, and how many bytes up to there, its own too.
    moves: Vec<(u64, u64)>,
}

impl Map {
    /// Of what was put in where, in order, and how long it is.
    pub fn of(puts: impl Iterator<Item = (u64, u64)>) -> Map {
        let mut all = 0;
        let moves = puts.map(|(at, length)| {
            all += length;
            (at, all)
        });
        Map {
            moves: moves.collect(),
        }
    }

    /// Where the byte of a place stands now. What was put in at that place stands before it.
    pub fn place(&self, place: u64) -> u64 {
        let before = self.moves.partition_point(|(at, _)| *at <= place);
        let moved = before.checked_sub(1).map_or(0, |last| self.moves[last].1);
        place + moved
    }

    /// Where the place behind a byte is now: behind the byte that stood before it, not before
    /// what was put in there.
    pub fn behind(&self, place: u64) -> u64 {
        place.checked_sub(1).map_or(0, |last| self.place(last) + 1)
    }
}

/// A file without some private tuples and the same file with them.
pub struct Partners {
    pub before: Vec<u8>,
    pub after: Vec<u8>,
    /// In the order in which they stand.
    pub puts: Vec<Put>,
    pub map: Map,
}

impl Partners {
    fn new(before: Vec<u8>, after: Vec<u8>, puts: Vec<Put>) -> Partners {
        let map = Map::of(puts.iter().map(|put| (put.at, put.length())));
        Partners {
            before,
            after,
            puts,
            map,
        }
    }

    /// Puts these into a file, as many as its limit allows.
    pub fn putting(file: &[u8], mut puts: Vec<Put>) -> Partners {
        puts.sort_by_key(|put| put.at);
        let mut length = file.len() as u64;
        puts.retain(|put| {
            let fits = length + put.length() <= FILE_LIMIT;
            length += if fits { put.length() } else { 0 };
            fits
        });
        let mut after = Vec::with_capacity(length as usize);
        let mut from = 0;
        for put in &puts {
            after.extend(&file[from..put.at as usize]);
            after.extend(&put.bytes);
            from = put.at as usize;
        }
        after.extend(&file[from..]);
        Partners::new(file.to_vec(), after, puts)
    }

    /// Takes some of its own private tuples out of a file, in their order.
    pub fn taking(file: &[u8], taken: &[Tuple]) -> Partners {
        let mut before = Vec::with_capacity(file.len());
        let mut puts = Vec::new();
        let mut from = 0;
        for tuple in taken {
            before.extend(&file[from..tuple.place as usize]);
            from = tuple.end() as usize;
            puts.push(Put {
                at: before.len() as u64,
                code: tuple.code,
                bytes: tuple.bytes(file).to_vec(),
                looks: None,
            });
        }
        before.extend(&file[from..]);
        Partners::new(before, file.to_vec(), puts)
    }

    /// How many private tuples one has more than the other, and how many bytes.
    pub fn more(&self) -> u64 {
        self.puts.len() as u64
    }

    pub fn more_bytes(&self) -> u64 {
        self.puts.iter().map(Put::length).sum()
    }

    /// Each of them, and where it stands in the file that has it.
    pub fn placed(&self) -> impl Iterator<Item = (u64, &Put)> + '_ {
        let mut before = 0;
        self.puts.iter().map(move |put| {
            let place = put.at + before;
            before += put.length();
            (place, put)
        })
    }
}

/// A tuple of a type with some data, in a byte order.
fn framed(order: Order, code: u16, data: &[u8]) -> Vec<u8> {
    let length = FRAME + data.len();
    let mut tuple = order.from_four(data.len() as u32).to_vec();
    tuple.extend(order.from_two(code));
    tuple.extend(data);
    tuple.extend(order.from_four(length as u32));
    tuple
}

/// A file that private tuples are drawn for.
pub struct Host<'a> {
    file: &'a [u8],
    order: Order,
    tuples: Vec<Tuple>,
}

impl<'a> Host<'a> {
    /// Of an accepted file.
    pub fn of(file: &'a [u8]) -> Option<Host<'a>> {
        Some(Host {
            file,
            order: Order::of(file)?,
            tuples: walked(file).map(|(_, tuple)| tuple).collect(),
        })
    }

    /// The places behind the signature and before the end of file where tuples meet.
    fn boundaries(&self) -> Vec<u64> {
        self.tuples[1..].iter().map(|tuple| tuple.place).collect()
    }

    /// Private tuples to be put in: where, by kinds of place, and what.
    pub fn draw(&self, rng: &mut Rng) -> Vec<Put> {
        let mut puts: Vec<Put> = self
            .draw_places(rng)
            .into_iter()
            .map(|at| self.draw_one(rng, at))
            .collect();
        if rng.chance(LONG) {
            let nth = rng.index(puts.len());
            puts[nth] = self.draw_long(rng, puts[nth].at);
        }
        puts
    }

    /// Right behind the signature, right before the end of file, somewhere, several at one
    /// place, at every boundary, or here and there.
    fn draw_places(&self, rng: &mut Rng) -> Vec<u64> {
        let boundaries = self.boundaries();
        let any = |rng: &mut Rng| boundaries[rng.index(boundaries.len())];
        match rng.below(7) {
            0 => boundaries[..1].to_vec(),
            1 => boundaries[boundaries.len() - 1..].to_vec(),
            2 => vec![any(rng)],
            3 => vec![any(rng); 2 + rng.index(4)],
            4 => boundaries,
            _ => (0..2 + rng.below(7)).map(|_| any(rng)).collect(),
        }
    }

    /// One of any type: of the least length, with anything in it, with a tuple of the file
    /// within it, or like one but for its type.
    pub fn draw_one(&self, rng: &mut Rng, at: u64) -> Put {
        let code = TYPES.start() + rng.below(TYPES.len() as u64) as u16;
        let least = TUPLE_LEAST as usize - FRAME;
        let (bytes, looks) = match (rng.below(4), self.draw_model(rng)) {
            (0, _) => (framed(self.order, code, &rng.bytes(least)), None),
            (1, Some(model)) => (self.around(rng, code, &model), Some(within(&model))),
            (2, Some(model)) => (self.as_private(code, &model), Some(but_typed(&model))),
            _ => {
                let more = 4 * rng.index(40);
                (framed(self.order, code, &rng.bytes(least + more)), None)
            }
        };
        Put {
            at,
            code,
            bytes,
            looks,
        }
    }

    /// One of the largest length, or of any.
    fn draw_long(&self, rng: &mut Rng, at: u64) -> Put {
        let most = (TUPLE_LIMIT - TUPLE_LEAST) / 4;
        let length = match rng.below(2) {
            0 => TUPLE_LIMIT,
            _ => TUPLE_LEAST + 4 * rng.below(most),
        };
        let code = TYPES.start() + rng.below(TYPES.len() as u64) as u16;
        self.of_length(at, code, length)
    }

    fn of_length(&self, at: u64, code: u16, length: u64) -> Put {
        let data = vec![code as u8; length as usize - FRAME];
        Put {
            at,
            code,
            bytes: framed(self.order, code, &data),
            looks: None,
        }
    }

    /// As many as make the file just as long as a file may be.
    pub fn fill(&self, rng: &mut Rng) -> Vec<Put> {
        let boundaries = self.boundaries();
        let mut puts = Vec::new();
        let mut left = FILE_LIMIT - self.file.len() as u64;
        while left > 0 {
            // what is left behind it is nothing, or enough for another
            let length = match left.checked_sub(TUPLE_LIMIT) {
                None => left,
                Some(1..TUPLE_LEAST) => TUPLE_LIMIT - TUPLE_LEAST,
                Some(_) => TUPLE_LIMIT,
            };
            let code = TYPES.start() + (puts.len() % TYPES.len()) as u16;
            let at = boundaries[rng.index(boundaries.len())];
            puts.push(self.of_length(at, code, length));
            left -= length;
        }
        puts
    }

    /// A tuple of the file to look like: its end of file, a ping or any, as long as it is short.
    fn draw_model(&self, rng: &mut Rng) -> Option<Tuple> {
        let what = rng.below(3);
        let models = self.tuples.iter().filter(|tuple| match what {
            0 => tuple.code == END_OF_FILE,
            1 => PingKind::of(tuple.code).is_some(),
            _ => true,
        });
        let models: Vec<&Tuple> = models.filter(|tuple| tuple.length <= SHORT).collect();
        let nth = rng.index(models.len());
        models.get(nth).map(|tuple| **tuple)
    }

    /// With a whole tuple within it, where a tuple may stand.
    fn around(&self, rng: &mut Rng, code: u16, model: &Tuple) -> Vec<u8> {
        // so that the tuple within it lies at a multiple of 4, too
        let (before, behind) = (2 + 4 * rng.index(3), 4 * rng.index(3));
        let beside = [before, behind].map(|count| rng.bytes(count));
        let data = [&beside[0][..], model.bytes(self.file), &beside[1]].concat();
        framed(self.order, code, &data)
    }

    /// A tuple of the file in all but its type.
    fn as_private(&self, code: u16, model: &Tuple) -> Vec<u8> {
        let mut bytes = model.bytes(self.file).to_vec();
        bytes[TYPE_AT..TYPE_AT + 2].copy_from_slice(&self.order.from_two(code));
        bytes
    }
}

/// What a private tuple can be made to look like.
pub const MODELS: [&str; 7] = [
    "a ping",
    "a threshold",
    "an attitude",
    "a channel",
    "a sounder",
    "an end of file",
    "another tuple",
];

fn model_name(model: &Tuple) -> &'static str {
    let [ping, threshold, attitude, channel, sounder, end, other] = MODELS;
    match model.code {
        THRESHOLD => threshold,
        ATTITUDE => attitude,
        CHANNEL | EK500_CHANNEL => channel,
        SOUNDER | EK500_SOUNDER => sounder,
        END_OF_FILE => end,
        code if PingKind::of(code).is_some() => ping,
        _ => other,
    }
}

pub fn within_met(name: &str) -> String {
    format!("{name} within a private tuple")
}

pub fn but_typed_met(name: &str) -> String {
    format!("{name} but for its private type")
}

fn within(model: &Tuple) -> String {
    within_met(model_name(model))
}

fn but_typed(model: &Tuple) -> String {
    but_typed_met(model_name(model))
}
