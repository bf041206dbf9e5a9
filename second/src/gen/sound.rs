//! Drafts of sound files.

use super::draft::{coding, radix, spellings, suits, suits_words, word, Body, Draft, Piece};
use super::vessels::{MOST_CHANNELS, MOST_SOUNDERS};
use super::Rng;
use crate::kinds::{Family, PingKind};
use crate::layout::{class, is_listed, Class};
use crate::links::Maker;
use Piece::{Chars, Four, Identifier, Space, Two};

/// What a sound file is to have.
#[derive(Clone, Debug)]
pub struct Wish {
    /// Unlisted types outside the index class.
    pub unlisted: bool,
    /// Values that have no word of their family, and numbers too far out for words: such
    /// pings can only be of the family's other kind.
    pub wild: bool,
    /// Tuples between signature and end of file, about.
    pub size: u64,
}

impl Wish {
    pub fn any() -> Wish {
        Wish {
            unlisted: true,
            wild: true,
            size: 24,
        }
    }

    pub fn listed_only() -> Wish {
        Wish {
            unlisted: false,
            ..Wish::any()
        }
    }
}

pub(super) fn signature(rng: &mut Rng) -> Draft {
    let pieces = vec![Identifier, Two(rng.two()), Two(rng.two()), Four(rng.four())];
    Draft::fields(rng, 65535, pieces)
}

pub(super) fn sounder(rng: &mut Rng, count: u16, id: u32) -> Draft {
    let mut pieces = vec![Two(count), Four(id)];
    pieces.extend((0..10).map(|_| Two(rng.two())));
    pieces.extend([Chars(rng.bytes(30)), Space]);
    Draft::fields(rng, 100, pieces)
}

pub(super) fn channel(rng: &mut Rng, id: u16, parent: u32) -> Draft {
    let transceiver = rng.pick(&SMALL_IDS);
    let mut pieces = vec![Two(id), Four(parent), Four(rng.four())];
    pieces.extend([Two(rng.two()), Two(rng.two()), Two(transceiver), Space]);
    pieces.extend([Four(rng.four()), Four(rng.four())]);
    pieces.extend((0..14).map(|_| Two(rng.two())));
    pieces.extend([
        Four(rng.four()),
        Four(rng.four()),
        Chars(rng.bytes(30)),
        Space,
    ]);
    Draft::fields(rng, 1000, pieces)
}

pub(super) fn ek500_sounder(rng: &mut Rng, count: u16, id: u32) -> Draft {
    let mut pieces = vec![Two(count), Four(id)];
    pieces.extend((0..9).map(|_| Two(rng.two())));
    // the super layer's start, signed and often negative, then its margin and threshold
    pieces.extend([Four(rng.four()), Two(rng.two()), Two(rng.two())]);
    pieces.extend([Four(rng.four()), Chars(rng.bytes(30))]);
    Draft::fields(rng, 200, pieces)
}

pub(super) fn ek500_channel(rng: &mut Rng, id: u16, parent: u32) -> Draft {
    let transceiver = rng.pick(&SMALL_IDS);
    let mut pieces = vec![Two(id), Four(parent), Four(rng.four())];
    pieces.extend([Two(rng.two()), Two(transceiver)]);
    pieces.extend([Four(rng.four()), Four(rng.four())]);
    pieces.extend((0..15).map(|_| Two(rng.two())));
    pieces.extend([Space, Four(rng.four()), Four(rng.four())]);
    pieces.extend([Chars(rng.bytes(30)), Space]);
    Draft::fields(rng, 2000, pieces)
}

pub(super) fn any_maker(rng: &mut Rng) -> Maker {
    rng.pick(&[Maker::Biosonics, Maker::Simrad])
}

pub(super) fn other_maker(maker: Maker) -> Maker {
    match maker {
        Maker::Biosonics => Maker::Simrad,
        Maker::Simrad => Maker::Biosonics,
    }
}

pub(super) fn sounder_of(rng: &mut Rng, maker: Maker, count: u16, id: u32) -> Draft {
    match maker {
        Maker::Biosonics => sounder(rng, count, id),
        Maker::Simrad => ek500_sounder(rng, count, id),
    }
}

pub(super) fn channel_of(rng: &mut Rng, maker: Maker, id: u16, parent: u32) -> Draft {
    match maker {
        Maker::Biosonics => channel(rng, id, parent),
        Maker::Simrad => ek500_channel(rng, id, parent),
    }
}

/// Whose sounder a type code declares.
pub(super) fn sounder_maker(code: u16) -> Option<Maker> {
    match code {
        100 => Some(Maker::Biosonics),
        200 => Some(Maker::Simrad),
        _ => None,
    }
}

/// Whose channel a type code declares.
pub(super) fn channel_maker(code: u16) -> Option<Maker> {
    match code {
        1000 => Some(Maker::Biosonics),
        2000 => Some(Maker::Simrad),
        _ => None,
    }
}

pub(super) fn position(rng: &mut Rng) -> Draft {
    let pieces = vec![
        Two(rng.two()),
        Four(rng.four()),
        Four(rng.four()),
        Two(rng.two()),
        Space,
        Four(rng.four()),
        Four(rng.four()),
    ];
    Draft::fields(rng, 20, pieces)
}

pub(super) fn navigation(rng: &mut Rng) -> Draft {
    let mut pieces = vec![Two(rng.two()), Four(rng.four())];
    pieces.extend([Two(rng.two()), Two(rng.two()), Two(rng.two()), Space]);
    Draft::fields(rng, 30, pieces)
}

pub(super) fn attitude(rng: &mut Rng, channel: u16) -> Draft {
    let mut pieces = vec![Two(rng.two()), Four(rng.four()), Two(channel)];
    pieces.extend((0..6).map(|_| Two(rng.two())));
    pieces.push(Space);
    Draft::fields(rng, 40, pieces)
}

pub(super) fn threshold(rng: &mut Rng, channel: u16) -> Draft {
    let mut pieces = vec![Two(rng.two()), Four(rng.four()), Two(channel)];
    pieces.extend((0..5).map(|_| Two(rng.two())));
    pieces.extend((0..3).map(|_| Four(rng.four())));
    Draft::fields(rng, 10100, pieces)
}

/// An event marker with a text of so many bytes.
pub(super) fn marker(rng: &mut Rng, text: usize) -> Draft {
    let pieces = vec![Two(rng.two()), Four(rng.four()), Chars(rng.bytes(text))];
    Draft::fields(rng, 10110, pieces)
}

pub(super) fn run(rng: &mut Rng) -> Draft {
    let code = rng.pick(&[65516, 65517]);
    let pieces = vec![Two(rng.two()), Four(rng.four())];
    Draft::fields(rng, code, pieces)
}

/// An end of file with so many bytes of possible data.
pub(super) fn end_of_file(rng: &mut Rng, data: usize) -> Draft {
    let pieces = vec![
        Two(rng.two()),
        Four(rng.four()),
        Two(rng.two()),
        Chars(rng.bytes(data)),
    ];
    Draft::fields(rng, 65534, pieces)
}

pub(super) fn ping_header(rng: &mut Rng, channel: u16) -> Vec<Piece> {
    vec![
        Two(rng.two()),
        Four(rng.four()),
        Two(channel),
        Two(rng.two()),
        Four(rng.four()),
        Four(rng.four()),
    ]
}

/// A 32-bit ping of samples and without a length.
pub(super) fn ping(rng: &mut Rng, channel: u16, samples: Vec<(u32, i32)>) -> Draft {
    family_ping(rng, channel, Family::Bits32, samples, None)
}

/// A 32-bit ping without samples, of some length.
pub(super) fn silent_ping(rng: &mut Rng, channel: u16, length: u32) -> Draft {
    family_ping(rng, channel, Family::Bits32, Vec::new(), Some(length))
}

/// A ping of a family without angles: of samples, or of a length, or of both, which then
/// have to suit words.
pub(super) fn family_ping(
    rng: &mut Rng,
    channel: u16,
    family: Family,
    samples: Vec<(u32, i32)>,
    length: Option<u32>,
) -> Draft {
    let header = ping_header(rng, channel);
    let body = Body::Ping {
        family,
        header,
        samples,
        length,
    };
    let (listed, words) = spellings(family);
    let code = coding(listed.unwrap_or(words)).code;
    Draft::new(rng, code, body)
}

/// A ping of a kind that numbers its samples, as they are.
pub(super) fn listed_ping(
    rng: &mut Rng,
    channel: u16,
    kind: PingKind,
    samples: Vec<(u32, [u32; 2])>,
) -> Draft {
    let header = ping_header(rng, channel);
    let body = Body::Listed {
        kind,
        header,
        samples,
    };
    Draft::new(rng, coding(kind).code, body)
}

/// A ping of words, as they are.
pub(super) fn words_ping(
    rng: &mut Rng,
    channel: u16,
    kind: PingKind,
    count: u32,
    words: Vec<u32>,
) -> Draft {
    let header = ping_header(rng, channel);
    let body = Body::Words {
        kind,
        header,
        count,
        words,
    };
    Draft::new(rng, coding(kind).code, body)
}

/// The families without angles.
pub const FAMILIES: [Family; 3] = [Family::Bits32, Family::Bits16, Family::Ce16];

/// The kinds with angles.
pub(super) const ANGLES: [PingKind; 2] = [PingKind::U32_16Angles, PingKind::U16Angles];

/// A sound ping of any family and samples.
pub(super) fn any_ping(rng: &mut Rng, channel: u16, wild: bool) -> Draft {
    let family = match rng.below(10) {
        0..=3 => Family::Bits32,
        4..=6 => Family::Bits16,
        7 | 8 => Family::Ce16,
        _ => return angle_ping(rng, channel),
    };
    let samples = sample_list(rng, family, wild);
    let length = any_length(rng, family, &samples);
    family_ping(rng, channel, family, samples, length)
}

/// A sound ping of either kind with angles.
pub(super) fn angle_ping(rng: &mut Rng, channel: u16) -> Draft {
    let kind = rng.pick(&ANGLES);
    let samples = angle_list(rng, kind);
    let bits = |angle: i16| u32::from(angle as u16);
    let samples = samples.into_iter().map(|(n, angles)| (n, angles.map(bits)));
    listed_ping(rng, channel, kind, samples.collect())
}

/// A ping of any kind with or without a sample, a length or angles.
pub(super) fn short_ping(rng: &mut Rng, channel: u16) -> Draft {
    if rng.chance(20) {
        let kind = rng.pick(&ANGLES);
        return listed_ping(rng, channel, kind, vec![(3, [5, 6])]);
    }
    let family = rng.pick(&FAMILIES);
    let (samples, length) =
        rng.pick(&[(&[][..], Some(1)), (&[(3, 5)], None), (&[(3, 5)], Some(9))]);
    family_ping(rng, channel, family, samples.to_vec(), length)
}

/// An unlisted tuple of some code with anything in it.
pub(super) fn unlisted(rng: &mut Rng, code: u16) -> Draft {
    let data = match rng.below(10) {
        0 => 402,
        _ => rng.index(8) * 4 + 6,
    };
    let data = rng.bytes(data);
    Draft::new(rng, code, Body::Raw(data))
}

/// Codes inside the classes, beside them, private ones and any others.
pub(super) fn unlisted_code(rng: &mut Rng) -> u16 {
    const CODES: [u16; 36] = [
        0, 10, 19, 21, 29, 31, 41, 99, 101, 201, 999, 1001, 2001, 9999, 10002, 10011, 10020, 10029,
        10032, 10041, 10051, 10099, 10101, 10109, 10111, 11000, 12000, 65396, 65400, 65405, 65518,
        65525, 65526, 65533, 300, 3000,
    ];
    loop {
        let code = if rng.chance(80) {
            rng.pick(&CODES)
        } else {
            rng.number() as u16
        };
        if !is_listed(code) && class(code) != Some(Class::Index) {
            return code;
        }
    }
}

/// Few enough that identifiers of different kinds often coincide.
pub(super) const SMALL_IDS: [u16; 7] = [0, 1, 2, 3, 7, 256, 65535];

fn new_document(rng: &mut Rng, taken: &[u32]) -> u32 {
    loop {
        let id = match rng.below(4) {
            0 => rng.four(),
            1 => u32::from(rng.pick(&SMALL_IDS)) << 16,
            _ => u32::from(rng.pick(&SMALL_IDS)),
        };
        if !taken.contains(&id) {
            return id;
        }
    }
}

fn new_channel(rng: &mut Rng, taken: &[u16]) -> u16 {
    loop {
        let id = match rng.below(3) {
            0 => rng.two(),
            _ => rng.pick(&SMALL_IDS),
        };
        if !taken.contains(&id) {
            return id;
        }
    }
}

/// A value of a family, in a wild list one that may have no word of it.
fn value(rng: &mut Rng, family: Family, wild: bool) -> i32 {
    match family {
        Family::Bits16 => value_16(rng, wild),
        Family::Ce16 => counts(rng),
        _ => value_32(rng, wild),
    }
}

fn value_32(rng: &mut Rng, wild: bool) -> i32 {
    const WILD: [i32; 7] = [
        -1,
        -65_536,
        -32_768,
        i32::MIN,
        i32::MAX,
        2_147_418_112,
        -2_147_418_113,
    ];
    const TAME: [i32; 8] = [
        0,
        0,
        1,
        -65_537,
        2_147_418_111,
        -2_147_418_112,
        65_535,
        65_536,
    ];
    if wild && rng.chance(30) {
        return rng.pick(&WILD);
    }
    match rng.below(3) {
        0 => rng.pick(&TAME),
        1 => rng.below(100_000) as i32,
        _ => -65_537 - rng.below(2_147_418_112 - 65_537 + 1) as i32,
    }
}

fn value_16(rng: &mut Rng, wild: bool) -> i32 {
    const WILD: [i32; 7] = [-1, -256, -255, -32_768, 32_767, 32_512, -32_512];
    const TAME: [i32; 9] = [0, 0, 1, -257, 32_511, -32_511, 255, 256, 127];
    if wild && rng.chance(30) {
        return rng.pick(&WILD);
    }
    match rng.below(3) {
        0 => rng.pick(&TAME),
        1 => rng.below(32_512) as i32,
        _ => -257 - rng.below(32_511 - 257 + 1) as i32,
    }
}

/// Counts that CE-16 has a word for: twelve bits, or thirteen by an exponent; often 0,
/// which has two.
fn counts(rng: &mut Rng) -> i32 {
    const EDGES: [i32; 11] = [
        1, 255, 256, 4095, 4096, 8191, 8192, 8194, 16_384, 262_144, 507_840,
    ];
    let counts = match rng.below(4) {
        0 => 0,
        1 => rng.pick(&EDGES),
        2 => rng.below(4096) as i32,
        _ => ((4096 + rng.below(4096)) << rng.below(7)).min(507_840) as i32,
    };
    if rng.chance(50) {
        -counts
    } else {
        counts
    }
}

fn gap(rng: &mut Rng, family: Family) -> u64 {
    let most = radix(spellings(family).1);
    match rng.below(20) {
        0 => about_runs(rng, most),
        1 => rng.below(6 * most),
        2..=5 => 1 + rng.below(40),
        _ => 0,
    }
}

/// A number about that of one full run, of two, of three or of four.
fn about_runs(rng: &mut Rng, most: u64) -> u64 {
    most * (1 + rng.below(4)) + rng.below(3) - 1
}

/// Silence behind the last value, by number of samples.
fn silence(rng: &mut Rng, family: Family) -> u64 {
    let most = radix(spellings(family).1);
    match rng.below(4) {
        0 => about_runs(rng, most),
        1 => 1 + rng.below(6 * most),
        2 => rng.pick(&[1, 2]),
        _ => 1 + rng.below(40),
    }
}

/// The length of a ping that ends in so much silence; none without silence, or where
/// such a ping can't be.
pub(super) fn length_with(family: Family, samples: &[(u32, i32)], silence: u64) -> Option<u32> {
    let values_end = samples.last().map_or(0, |(n, _)| u64::from(*n) + 1);
    let length = u32::try_from(values_end + silence).ok();
    length.filter(|length| silence > 0 && suits_words(family, samples, Some(*length)))
}

/// A length for a sound list, which half of those with samples have.
pub fn any_length(rng: &mut Rng, family: Family, samples: &[(u32, i32)]) -> Option<u32> {
    if !samples.is_empty() && rng.chance(50) {
        return None;
    }
    let silence = silence(rng, family);
    length_with(family, samples, silence)
}

/// How many samples a list has.
fn list_length(rng: &mut Rng, least: u64) -> u64 {
    match rng.below(20) {
        0..=2 => least,
        3 => least + rng.below(600),
        4 => 1,
        _ => 1 + rng.below(12),
    }
}

/// The first number that a list may have: mostly 0. A far one is near the end of the
/// numbers; one of two bytes is at times about that end even where it isn't far, so that
/// words go on past it.
fn list_start(rng: &mut Rng, family: Family, far: bool) -> u64 {
    match family {
        Family::Bits32 if far && rng.chance(20) => rng.below(1 << 32),
        Family::Bits32 if far => (1 << 32) - 1 - rng.below(500_000),
        Family::Bits16 | Family::Ce16 if rng.chance(10) => 65_536 - rng.below(8),
        Family::Bits16 | Family::Ce16 if far => rng.below(200_000),
        _ => 0,
    }
}

/// A list of samples that is sound in its family; a wild one may suit one kind alone.
pub fn sample_list(rng: &mut Rng, family: Family, wild: bool) -> Vec<(u32, i32)> {
    let count = list_length(rng, 0);
    let wild = wild && rng.chance(20);
    let far = wild && rng.chance(30);
    let mut samples = Vec::new();
    let mut next = list_start(rng, family, far);
    for _ in 0..count {
        next += gap(rng, family);
        if far && family == Family::Bits32 && rng.chance(10) {
            next = next.max(u64::from(u32::MAX) - rng.below(3));
        }
        let Ok(number) = u32::try_from(next) else {
            break;
        };
        samples.push((number, value(rng, family, wild)));
        next += 1;
    }
    let words = spellings(family).1;
    if !samples.is_empty() && !suits(family, &samples) {
        // too far out for the kind with numbers: what has no word leaves
        samples.retain(|(_, value)| word(words, *value).is_some());
    }
    samples
}

/// A sound list of angles. Numbers of two bytes end at 65,535.
pub fn angle_list(rng: &mut Rng, kind: PingKind) -> Vec<(u32, [i16; 2])> {
    let most: u64 = match coding(kind).number {
        2 => 0xFFFF,
        _ => 0xFFFF_FFFF,
    };
    let count = list_length(rng, 1);
    let mut next = match rng.below(5) {
        0 => most - rng.below(20),
        1 => rng.below(most),
        _ => 0,
    };
    let mut samples = Vec::new();
    for _ in 0..count {
        next += gap(rng, Family::Ce16);
        if next > most {
            break;
        }
        samples.push((next as u32, [rng.two() as i16, rng.two() as i16]));
        next += 1;
    }
    if samples.is_empty() {
        samples.push((most as u32, [-1, 1]));
    }
    samples
}

/// A file under way.
pub(super) struct Plan {
    pub drafts: Vec<Draft>,
    /// Document identifiers and makers, and where each sounder stands.
    sounders: Vec<(u32, Maker, usize)>,
    /// Channels, and the sounder that each names.
    pub channels: Vec<(u16, usize)>,
}

impl Plan {
    pub fn begin(rng: &mut Rng) -> Plan {
        Plan {
            drafts: vec![signature(rng)],
            sounders: Vec::new(),
            channels: Vec::new(),
        }
    }

    pub fn add_sounder(&mut self, rng: &mut Rng) {
        if self.sounders.len() == MOST_SOUNDERS as usize {
            return;
        }
        let taken: Vec<u32> = self.sounders.iter().map(|(id, ..)| *id).collect();
        let id = new_document(rng, &taken);
        let maker = any_maker(rng);
        self.sounders.push((id, maker, self.drafts.len()));
        self.drafts.push(sounder_of(rng, maker, 0, id));
    }

    pub fn add_channel(&mut self, rng: &mut Rng) {
        if self.sounders.is_empty() || self.channels.len() == usize::from(MOST_CHANNELS) {
            return;
        }
        let taken: Vec<u16> = self.channels.iter().map(|(id, _)| *id).collect();
        let id = new_channel(rng, &taken);
        self.declare_channel(rng, id);
    }

    /// Declares a channel that is new, of any sounder.
    pub fn declare_channel(&mut self, rng: &mut Rng, id: u16) {
        let parent = rng.index(self.sounders.len());
        self.channels.push((id, parent));
        let (document, maker, _) = self.sounders[parent];
        self.drafts.push(channel_of(rng, maker, id, document));
    }

    pub fn any_channel(&self, rng: &mut Rng) -> Option<u16> {
        (!self.channels.is_empty()).then(|| self.channels[rng.index(self.channels.len())].0)
    }

    fn add_ping(&mut self, rng: &mut Rng, wild: bool) {
        if let Some(id) = self.any_channel(rng) {
            self.drafts.push(any_ping(rng, id, wild));
        }
    }

    pub fn add_other(&mut self, rng: &mut Rng) {
        let channel = self.any_channel(rng);
        let draft = match (rng.below(8), channel) {
            (0, _) => position(rng),
            (1, _) => navigation(rng),
            (2, Some(id)) => {
                let id = if rng.chance(30) { 65535 } else { id };
                attitude(rng, id)
            }
            (2, None) => attitude(rng, 65535),
            (3 | 4, Some(id)) => threshold(rng, id),
            (5, _) => {
                let text = 4 + 4 * rng.index(6);
                marker(rng, text)
            }
            _ => run(rng),
        };
        self.drafts.push(draft);
    }

    /// A tuple of a class that is still missing; unlisted ones will do.
    pub fn fill_classes(&mut self, rng: &mut Rng, wish: &Wish) {
        let has = |plan: &Plan, wanted: Class| {
            let mut codes = plan.drafts.iter().map(|draft| draft.code);
            codes.any(|code| class(code) == Some(wanted))
        };
        for (wanted, stand_in) in [
            (Class::Position, 21),
            (Class::Sounder, 300),
            (Class::Channel, 3000),
            (Class::Ping, 10020),
        ] {
            if has(self, wanted) {
                continue;
            }
            if wish.unlisted && rng.chance(40) {
                self.drafts.push(unlisted(rng, stand_in));
                continue;
            }
            match wanted {
                Class::Position => self.drafts.push(position(rng)),
                Class::Sounder => self.add_sounder(rng),
                Class::Channel => {
                    if self.sounders.is_empty() {
                        self.add_sounder(rng);
                    }
                    self.add_channel(rng);
                }
                _ => {
                    if self.sounders.is_empty() {
                        self.add_sounder(rng);
                    }
                    if self.channels.is_empty() {
                        self.add_channel(rng);
                    }
                    self.add_ping(rng, wish.wild);
                }
            }
        }
    }

    /// Every sounder states the number of channels that name it.
    fn state_counts(&mut self) {
        for (nth, (.., at)) in self.sounders.iter().enumerate() {
            let named = self.channels.iter().filter(|(_, parent)| *parent == nth);
            let count = named.count() as u16;
            self.drafts[*at].pieces()[0] = Two(count);
        }
    }

    /// The whole file.
    pub fn end(mut self, rng: &mut Rng) -> Vec<Draft> {
        self.state_counts();
        let data = 2 + 4 * rng.pick(&[0, 0, 0, 1, 2, 7]);
        self.drafts.push(end_of_file(rng, data));
        self.drafts
    }
}

/// About how many tuples a plan gets: mostly as many as wished for, at times
/// more, and seldom so many that all sounders and hundreds of channels are
/// declared.
fn steps(rng: &mut Rng, wish: &Wish) -> u64 {
    match rng.below(1000) {
        0 | 1 => 300 + rng.below(1200),
        2..=41 => 120,
        _ => 2 + rng.below(wish.size),
    }
}

/// The drafts of a sound file, signature first, end of file last.
pub fn sound_drafts(rng: &mut Rng, wish: &Wish) -> Vec<Draft> {
    let mut plan = Plan::begin(rng);
    for _ in 0..steps(rng, wish) {
        match rng.below(100) {
            0..=11 => plan.add_sounder(rng),
            12..=34 => plan.add_channel(rng),
            35..=64 => plan.add_ping(rng, wish.wild),
            65..=74 if wish.unlisted => {
                let code = unlisted_code(rng);
                plan.drafts.push(unlisted(rng, code));
            }
            _ => plan.add_other(rng),
        }
    }
    plan.fill_classes(rng, wish);
    plan.end(rng)
}
