//! Cases for request h of 02: a file with index-class tuples or without, and what is done with
//! it: its index is written, bytes are appended, tuples are removed.

use super::corrections::bytes_of;
use super::draft::{index_of, index_tuple, render, Body, Draft, Pen, Piece, Style, INDEX_1};
use super::faults::{bad_size, declared, spoilt_behind, unused_channel, unused_document};
use super::faults::{Document, Software};
use super::limits::{filled, FILE_LIMIT, FILLED_INDEX};
use super::sound::*;
use super::Rng;
use crate::order::Order;
use Piece::{Chars, Four, Two};

/// What is done with a file.
#[derive(Clone, PartialEq, Eq, Debug)]
pub enum Edit {
    Index,
    Append(Vec<u8>),
    Remove(u64),
}

/// A file, sound or not, and what to do with it, each time from the start.
#[derive(Clone, Debug)]
pub struct EditCase {
    /// Says what the file has of the index class.
    pub name: String,
    pub file: Vec<u8>,
    pub edits: Vec<Edit>,
}

/// What a file has of the index class.
#[derive(Clone, Copy, PartialEq, Eq, Debug)]
enum Had {
    Nothing,
    /// The index that it ought to have, where it ought to stand.
    True,
    /// The same elsewhere, or twice.
    Misplaced,
    /// One that was never right, or is no more.
    Stale,
    /// Any tuples of the class, anywhere, with anything in them.
    Strewn,
    /// Hardly anything else.
    Many,
    /// Any of these, in a file that is refused.
    Refused,
}

const HADS: [Had; 8] = [
    Had::Nothing,
    Had::True,
    Had::Stale,
    Had::Strewn,
    Had::Misplaced,
    Had::Stale,
    Had::Many,
    Had::Refused,
];

/// What is appended.
#[derive(Clone, Copy, PartialEq, Eq, Debug)]
enum Added {
    Nothing,
    Ping,
    Record,
    /// A sounder, its channel and a ping of it.
    Vessel,
    /// A channel that its sounder doesn't count.
    Uncounted,
    Unlisted,
    /// Sound tuples, those of the index class among them.
    Several,
    /// What breaks a rule of the check.
    Spoilt,
    IndexClass,
    /// An end of file, mostly with something behind it.
    End,
    /// What divides into no tuples.
    Broken,
    /// Tuples, and then what is none.
    BrokenBehind,
    /// Tuples of the other byte order.
    Turned,
    /// A whole file, with its mark or without.
    File,
}

const ADDED: [Added; 18] = [
    Added::Nothing,
    Added::Ping,
    Added::Record,
    Added::Spoilt,
    Added::Vessel,
    Added::Broken,
    Added::Ping,
    Added::Uncounted,
    Added::Unlisted,
    Added::Spoilt,
    Added::Several,
    Added::BrokenBehind,
    Added::IndexClass,
    Added::End,
    Added::Record,
    Added::Spoilt,
    Added::Turned,
    Added::File,
];

/// So many are appended to each file, in turn, and to a refused one.
const APPENDS: u64 = 6;
const APPENDS_IF_REFUSED: u64 = 2;

/// So many tuples of a file are removed at the most, its first and last ones among them.
const REMOVES: usize = 20;

/// An index that is wrong in one thing: a type too few or too many, one twice, their order, the
/// time, the attribute, the type of the tuple itself.
fn stale_index(rng: &mut Rng, types: &[u16]) -> Draft {
    let mut types = types.to_vec();
    let at = rng.index(types.len());
    let what = rng.below(8);
    match what {
        0 => drop(types.remove(at)),
        1 => types.insert(at, types[at]),
        2 => types.insert(at, rng.two()),
        3 => types.reverse(),
        4 => types.extend([INDEX_1]),
        _ => {}
    }
    let mut index = index_of(&types);
    match what {
        5 => index.pieces()[1] = Four(rng.four()),
        6 => index.attribute = 1,
        7 => index.code = 65407,
        _ => {}
    }
    index
}

/// A sound file under way: its drafts, how they are written, and what they declare.
struct Desk {
    drafts: Vec<Draft>,
    style: Style,
    documents: Vec<Document>,
    channels: Vec<Software>,
}

impl Desk {
    fn begin(rng: &mut Rng) -> Desk {
        let wish = Wish {
            size: 12,
            ..Wish::any()
        };
        let mut drafts = sound_drafts(rng, &wish);
        let style = Style {
            index: false,
            ..Style::any(rng)
        };
        let (documents, channels) = declared(&drafts);
        if rng.chance(30) {
            let text = text_of_a_tuple(rng, &style);
            drafts.insert(1 + rng.index(drafts.len() - 1), text);
        }
        Desk {
            drafts,
            style,
            documents,
            channels,
        }
    }

    fn written(&self, rng: &mut Rng, drafts: &[Draft]) -> Vec<u8> {
        written(rng, drafts, &self.style)
    }

    /// The file's tuples, those of the index class among them.
    fn tuples(&self, rng: &mut Rng, had: Had) -> Vec<Vec<u8>> {
        let mut tuples: Vec<Vec<u8>> = Vec::new();
        for draft in &self.drafts {
            tuples.push(self.written(rng, std::slice::from_ref(draft)));
        }
        let types = types_of(&tuples, self.style.order);
        for (at, index) in self.index_class(rng, had, &types) {
            tuples.insert(at, self.written(rng, &[index]));
        }
        tuples
    }

    /// What there is of the index class, and before which tuple: the later ones first.
    fn index_class(&self, rng: &mut Rng, had: Had, types: &[u16]) -> Vec<(usize, Draft)> {
        let end = self.drafts.len() - 1;
        let mut put: Vec<(usize, Draft)> = match had {
            Had::Nothing | Had::Refused => Vec::new(),
            Had::True => vec![(end, index_of(types))],
            Had::Misplaced => (0..1 + rng.below(2))
                .map(|_| (1 + rng.index(end), index_of(types)))
                .collect(),
            Had::Stale => {
                let anywhere = 1 + rng.index(end);
                let at = rng.pick(&[end, end, 1, anywhere]);
                vec![(at, stale_index(rng, types))]
            }
            Had::Strewn | Had::Many => {
                let count = if had == Had::Many { 30 } else { 4 };
                (0..1 + rng.below(count))
                    .map(|_| (1 + rng.index(end), index_tuple(rng)))
                    .collect()
            }
        };
        put.sort_by_key(|(at, _)| std::cmp::Reverse(*at));
        put
    }

    /// A ping of a channel of the file, if it has one.
    fn ping(&self, rng: &mut Rng) -> Vec<Draft> {
        if self.channels.is_empty() {
            return self.vessel(rng);
        }
        let (channel, _) = rng.pick(&self.channels);
        vec![match rng.below(6) {
            0 => any_ping(rng, channel, true),
            _ => short_ping(rng, channel),
        }]
    }

    fn record(&self, rng: &mut Rng) -> Vec<Draft> {
        let channel = match self.channels.first() {
            Some(_) => rng.pick(&self.channels).0,
            None => return vec![attitude(rng, 65535)],
        };
        vec![match rng.below(6) {
            0 => position(rng),
            1 => navigation(rng),
            2 => attitude(rng, channel),
            3 => threshold(rng, channel),
            4 => marker(rng, 8),
            _ => run(rng),
        }]
    }

    fn vessel(&self, rng: &mut Rng) -> Vec<Draft> {
        let document = unused_document(rng, &self.documents);
        let channel = unused_channel(rng, &self.channels);
        let maker = any_maker(rng);
        vec![
            sounder_of(rng, maker, 1, document),
            channel_of(rng, maker, channel, document),
            short_ping(rng, channel),
        ]
    }

    fn uncounted(&self, rng: &mut Rng) -> Vec<Draft> {
        let (document, maker) = match self.documents.first() {
            Some(_) => rng.pick(&self.documents),
            None => (rng.four(), any_maker(rng)),
        };
        let channel = unused_channel(rng, &self.channels);
        vec![channel_of(rng, maker, channel, document)]
    }

    fn several(&self, rng: &mut Rng) -> Vec<Draft> {
        let mut all = Vec::new();
        for _ in 0..2 + rng.below(4) {
            all.extend(match rng.below(4) {
                0 => self.record(rng),
                1 => vec![index_tuple(rng)],
                2 => self.unlisted(rng),
                _ => self.ping(rng),
            });
        }
        all
    }

    fn unlisted(&self, rng: &mut Rng) -> Vec<Draft> {
        let code = unlisted_code(rng);
        vec![unlisted(rng, code)]
    }

    fn index_tuples(&self, rng: &mut Rng) -> Vec<Draft> {
        let mut all = Vec::new();
        for _ in 0..1 + rng.below(3) {
            let own = rng.chance(50);
            all.push(if own {
                index_of(&[20, 65534, 65535])
            } else {
                index_tuple(rng)
            });
        }
        all
    }

    /// An end of file, before and behind which there may be something.
    fn end(&self, rng: &mut Rng) -> Vec<Draft> {
        let mut all = Vec::new();
        if rng.chance(30) {
            all = self.several(rng);
        }
        all.push(end_of_file(rng, 2));
        match rng.below(4) {
            0 => {}
            1 => all.extend(self.index_tuples(rng)),
            2 => all.push(end_of_file(rng, 2)),
            _ => all.extend(self.ping(rng)),
        }
        all
    }

    /// Bytes that begin with no tuple.
    fn broken(&self, rng: &mut Rng) -> Vec<u8> {
        let drafts = match rng.below(3) {
            0 => self.index_tuples(rng),
            1 => vec![end_of_file(rng, 2)],
            _ => self.record(rng),
        };
        let mut tuple = self.written(rng, &drafts[..1]);
        let length = tuple.len();
        match rng.below(6) {
            0 => tuple.truncate(1 + rng.index(length - 1)),
            1 => tuple.truncate(length - 4),
            2 => {
                let count = 1 + rng.index(15);
                tuple = rng.bytes(count);
            }
            3 => {
                let count = 16 + rng.index(40);
                tuple = rng.bytes(count);
            }
            4 => {
                let size = self.style.order.from_four(bad_size(rng));
                tuple[..4].copy_from_slice(&size);
            }
            _ => tuple[length - 1 - rng.index(4)] ^= 1 << rng.below(8),
        }
        tuple
    }

    /// Bytes to append.
    fn bytes(&self, rng: &mut Rng, added: Added) -> Vec<u8> {
        let drafts = match added {
            Added::Nothing => Vec::new(),
            Added::Ping => self.ping(rng),
            Added::Record => self.record(rng),
            Added::Vessel => self.vessel(rng),
            Added::Uncounted => self.uncounted(rng),
            Added::Unlisted => self.unlisted(rng),
            Added::Several => self.several(rng),
            Added::Spoilt => spoilt_behind(rng, &self.drafts),
            Added::IndexClass => self.index_tuples(rng),
            Added::End => self.end(rng),
            Added::Broken => return self.broken(rng),
            Added::BrokenBehind => {
                let before = rng.pick(&[
                    Added::Ping,
                    Added::Several,
                    Added::IndexClass,
                    Added::Spoilt,
                    Added::End,
                    Added::Vessel,
                ]);
                let mut bytes = self.bytes(rng, before);
                bytes.extend(self.broken(rng));
                return bytes;
            }
            Added::Turned => return self.turned(rng),
            Added::File => {
                let file = render(&self.drafts, &self.style, rng).bytes;
                return file[rng.pick(&[0, 4])..].to_vec();
            }
        };
        self.written(rng, &drafts)
    }

    fn turned(&self, rng: &mut Rng) -> Vec<u8> {
        let order = match self.style.order {
            Order::Lsb => Order::Msb,
            Order::Msb => Order::Lsb,
        };
        let style = Style {
            order,
            ..self.style.clone()
        };
        let drafts = self.several(rng);
        written(rng, &drafts, &style)
    }
}

fn written(rng: &mut Rng, drafts: &[Draft], style: &Style) -> Vec<u8> {
    let mut pen = Pen::new(style.order);
    for draft in drafts {
        pen.tuple(draft, style, rng);
    }
    pen.bytes
}

/// The types that tuples have, each once, ascending.
fn types_of(tuples: &[Vec<u8>], order: Order) -> Vec<u16> {
    let types = tuples.iter().filter_map(|tuple| order.read_two(tuple, 4));
    let mut types: Vec<u16> = types.collect();
    types.sort_unstable();
    types.dedup();
    types
}

/// Where the text of an event marker starts.
const TEXT_AT: usize = 12;

/// An event marker whose text is a whole tuple, which is none of the file's.
fn text_of_a_tuple(rng: &mut Rng, style: &Style) -> Draft {
    let inner = run(rng);
    let text = written(rng, &[inner], style);
    let pieces = vec![Two(rng.two()), Four(rng.four()), Chars(text)];
    Draft::fields(rng, 10110, pieces)
}

/// Where each of some tuples starts, and where a tuple in the text of one does.
fn starts(tuples: &[Vec<u8>], order: Order) -> (Vec<u64>, Vec<u64>) {
    let (mut places, mut inside) = (Vec::new(), Vec::new());
    let mut place = 4;
    for tuple in tuples {
        places.push(place);
        if order.read_two(tuple, 4) == Some(10110) {
            inside.push(place + TEXT_AT as u64);
        }
        place += tuple.len() as u64;
    }
    (places, inside)
}

/// Places at which there is something to remove: all, or of many some.
fn some_places(rng: &mut Rng, places: &[u64]) -> Vec<u64> {
    if places.len() <= REMOVES {
        return places.to_vec();
    }
    let (first, last) = (&places[..3], &places[places.len() - 3..]);
    let between = (6..REMOVES).map(|_| rng.pick(places));
    let mut some: Vec<u64> = between.collect();
    some.extend(first.iter().chain(last));
    some
}

/// Places at which no tuple starts, in a file of some length.
fn no_places(rng: &mut Rng, places: &[u64], length: u64) -> Vec<u64> {
    let mut none = vec![rng.pick(&[0, 1, 2, 3]), length, u64::MAX, 1 << 32 | 4];
    none.push(length + rng.pick(&[1, 4, 16]));
    if !places.is_empty() {
        none.push(rng.pick(places) + rng.pick(&[1, 2, 3, 4, 6, 8, 12]));
        none.push(rng.pick(places) | 1 << 32);
    }
    none
}

/// Its own stream, so that these have nothing to do with the file cases of a seed.
const STREAM: u64 = 0x1D_E7ED;

/// The case of a number; what files have and what is appended to them come in turn.
pub fn edit_case(seed: u64, number: u64) -> EditCase {
    let mut rng = Rng::of_case(seed ^ STREAM, number);
    let had = HADS[(number % HADS.len() as u64) as usize];
    let desk = Desk::begin(&mut rng);
    let tuples = desk.tuples(&mut rng, had);
    let (places, inside) = starts(&tuples, desk.style.order);
    let refused = had == Had::Refused;
    let file = if refused {
        bytes_of(&mut rng, desk.drafts.clone(), &desk.style, true)
    } else {
        [&desk.style.order.mark()[..], &tuples.concat()].concat()
    };
    let mut edits = vec![Edit::Index];
    let appends = if refused { APPENDS_IF_REFUSED } else { APPENDS };
    for nth in 0..appends {
        let turn = (number / HADS.len() as u64 * APPENDS + nth) % ADDED.len() as u64;
        edits.push(Edit::Append(desk.bytes(&mut rng, ADDED[turn as usize])));
    }
    let mut removed = some_places(&mut rng, &places);
    if refused {
        removed.truncate(1);
    }
    removed.extend(no_places(&mut rng, &places, file.len() as u64));
    removed.extend(inside);
    edits.extend(removed.into_iter().map(Edit::Remove));
    EditCase {
        name: format!("edits-{had:?}-{}", desk.style.name()).to_lowercase(),
        file,
        edits,
    }
}

/// How many cases there are of about 16 MiB: each in both byte orders.
pub fn big_edit_count() -> usize {
    2 * BIG.len()
}

/// Cases of about 16 MiB, with results at the limit and past it, by name: files at the limit
/// itself, that have just no room for an index, and that just have; a shorter one, to which as
/// much is appended as there is room for, and more; a short one, and bytes that are themselves
/// at the limit, and past it, though they would be dropped.
const BIG: [(&str, MakeBig); 5] = [
    ("full", full_file),
    ("past", past_by_index),
    ("at", at_with_index),
    ("appended", appended_up_to),
    ("dropped", dropped_up_to),
];

/// The file, and what to do with it, in a style.
type MakeBig = fn(&Style) -> (Vec<u8>, Vec<Edit>);

/// The lengths of an end of file, and of the longest tuple.
const END: usize = 24;
const LONGEST: usize = 1 << 18;

/// Where the first of the markers that fill a file starts: behind mark, signature, sounder,
/// channel, position and silent ping.
const FILLED_FROM: u64 = 4 + 24 + 72 + 108 + 36 + 40;

/// A tuple of zeros.
fn zeros(style: &Style, code: u16, length: usize) -> Vec<u8> {
    let mut rng = Rng::new(0);
    let draft = Draft::new(&mut rng, code, Body::Raw(vec![0; length - 10]));
    written(&mut rng, &[draft], style)
}

/// A type that isn't listed.
const PRIVATE: u16 = 65400;

fn full_file(style: &Style) -> (Vec<u8>, Vec<Edit>) {
    let file = filled(style.order, FILE_LIMIT);
    let end = (FILE_LIMIT - END) as u64;
    let places = [4, FILLED_FROM, end];
    (file, places.map(Edit::Remove).to_vec())
}

fn past_by_index(style: &Style) -> (Vec<u8>, Vec<Edit>) {
    let file = filled(style.order, FILE_LIMIT - FILLED_INDEX + 4);
    let end = (file.len() - END) as u64;
    let edits = vec![
        Edit::Index,
        Edit::Append(Vec::new()),
        Edit::Remove(0),
        Edit::Remove(end),
    ];
    (file, edits)
}

/// Without its end of file the file has room for some zeros, which are no tuple.
fn at_with_index(style: &Style) -> (Vec<u8>, Vec<Edit>) {
    let file = filled(style.order, FILE_LIMIT - FILLED_INDEX);
    let room = FILLED_INDEX + END;
    let edits = vec![
        Edit::Index,
        Edit::Append(zeros(style, PRIVATE, 16)),
        Edit::Append(vec![0; 3]),
        Edit::Append(vec![0; room]),
        Edit::Append(vec![0; room + 1]),
    ];
    (file, edits)
}

/// The index lists one type more, which its space takes.
fn appended_up_to(style: &Style) -> (Vec<u8>, Vec<Edit>) {
    let length = 1 << 20;
    let file = filled(style.order, length);
    let whole = zeros(style, PRIVATE, LONGEST).repeat(FILE_LIMIT / LONGEST - 5);
    let half = zeros(style, PRIVATE, LONGEST / 2);
    let left = FILE_LIMIT - length - FILLED_INDEX - whole.len() - half.len();
    let with = |last| [&whole[..], &half, &zeros(style, PRIVATE, last)].concat();
    let edits = [with(left), with(left + 4)].map(Edit::Append);
    (file, edits.to_vec())
}

fn dropped_up_to(style: &Style) -> (Vec<u8>, Vec<Edit>) {
    let at = zeros(style, INDEX_1, LONGEST).repeat(FILE_LIMIT / LONGEST);
    let past = [&at[..], &[0]].concat();
    let edits = [at, past].map(Edit::Append);
    (filled(style.order, 1 << 12), edits.to_vec())
}

/// The big case of a number.
pub fn big_edit(nth: usize) -> EditCase {
    let (name, make) = BIG[nth / 2 % BIG.len()];
    let style = Style::plain(Order::BOTH[nth % 2]);
    let (file, edits) = make(&style);
    EditCase {
        name: format!("edits-16mib-{name}-{}", style.name()),
        file,
        edits,
    }
}
