//! Damaged files: by rule, with the answer that the rule tells, and at random.

use super::draft::{coding, no_runs, render};
use super::draft::{Body, Draft, Patch, Pen, Piece, Rendered, Style};
use super::sound::*;
use super::vessels::{MOST_CHANNELS, MOST_SOUNDERS};
use super::{Case, Rng};
use crate::kinds::PingKind;
use crate::layout::{class, Class, LAYOUTS};
use crate::links::Maker;
use crate::order::Order;
use std::sync::LazyLock;

/// Which sample of a ping is the first that offends: the earliest that can, one
/// in the middle, or the last.
#[derive(Clone, Copy, PartialEq, Eq, Debug)]
pub enum Spot {
    First,
    Middle,
    Last,
}

/// A kind of damage made by rule.
#[derive(Clone, Copy, PartialEq, Eq, Debug)]
pub enum Kind {
    Mark,
    Truncated,
    NoEnd,
    PassesEnd,
    Size,
    Backlink,
    NoSignature,
    SecondSignature,
    Identifier,
    UnfitSignature,
    Unfit,
    /// A sounder or channel of the EK-500 of another length.
    UnfitEk500,
    /// A ping of U-16-angles of another length.
    UnfitAngles,
    /// Numbers that don't rise.
    Pairs(PingKind, Spot),
    /// Words outside the limits.
    Word(PingKind, Spot),
    /// The number of samples.
    Count(PingKind),
    WordAndCount(PingKind),
    TooMany(PingKind),
    TwiceSounder,
    TwiceChannel,
    /// A sounder with the identifier of one of the other maker.
    SounderOfBoth,
    /// A channel with the identifier of one of the other maker.
    ChannelOfBoth,
    OrphanPing,
    OrphanOther,
    OrphanChannel,
    /// A channel that names a sounder of the other maker.
    OtherMaker,
    ManySounders,
    ManyChannels,
    Behind,
    NoClass,
    WrongCount,
}

/// The kinds of ping that number their samples, those of words, and those that have room
/// for too many values.
const LISTED: [PingKind; 4] = [
    PingKind::U32,
    PingKind::U32_16Angles,
    PingKind::U16,
    PingKind::U16Angles,
];
const PACKED: [PingKind; 3] = [PingKind::C32, PingKind::C16, PingKind::Ce16];
const ROOMY: [PingKind; 5] = [
    PingKind::C32,
    PingKind::U16,
    PingKind::U16Angles,
    PingKind::C16,
    PingKind::Ce16,
];

const SPOTS: [Spot; 3] = [Spot::First, Spot::Middle, Spot::Last];

impl Kind {
    /// In small letters, for a file's name: the kind of ping, too, unless it has 32 bits.
    pub fn name(self) -> String {
        let of = |what: &str, kind: PingKind| match kind {
            PingKind::U32 | PingKind::C32 => what.to_string(),
            kind => format!("{what}-{kind:?}").replace('_', "-"),
        };
        match self {
            Kind::Pairs(kind, spot) => format!("{}-{spot:?}", of("pairs", kind)),
            Kind::Word(kind, spot) => format!("{}-{spot:?}", of("word", kind)),
            Kind::Count(kind) => of("count", kind),
            Kind::WordAndCount(kind) => of("wordandcount", kind),
            Kind::TooMany(kind) => of("toomany", kind),
            other => format!("{other:?}"),
        }
        .to_lowercase()
    }
}

/// The kind whose files all have 1,025 channels and so 110 KB.
pub const LONG_KIND: Kind = Kind::ManyChannels;

/// One kind in so many is the long one.
const LONG_SELDOM: u64 = 400;

/// The kinds that no single tuple carries, or the first alone.
const WHOLE_FILE: [Kind; 9] = [
    Kind::Mark,
    Kind::Truncated,
    Kind::NoEnd,
    Kind::NoSignature,
    Kind::Identifier,
    Kind::UnfitSignature,
    Kind::Behind,
    Kind::NoClass,
    Kind::WrongCount,
];

/// Those that one tuple carries, wherever it stands behind the signature, but for those
/// of a ping's samples. The long one is such a kind, too.
const OF_A_TUPLE: [Kind; 16] = [
    Kind::PassesEnd,
    Kind::Size,
    Kind::Backlink,
    Kind::SecondSignature,
    Kind::Unfit,
    Kind::UnfitEk500,
    Kind::UnfitAngles,
    Kind::TwiceSounder,
    Kind::TwiceChannel,
    Kind::SounderOfBoth,
    Kind::ChannelOfBoth,
    Kind::OrphanPing,
    Kind::OrphanOther,
    Kind::OrphanChannel,
    Kind::OtherMaker,
    Kind::ManySounders,
];

/// Those of a ping's samples, for each kind of ping that can have them.
fn of_samples() -> Vec<Kind> {
    let mut kinds = Vec::new();
    for spot in SPOTS {
        kinds.extend(LISTED.map(|kind| Kind::Pairs(kind, spot)));
        kinds.extend(PACKED.map(|kind| Kind::Word(kind, spot)));
    }
    kinds.extend(PACKED.map(Kind::Count));
    kinds.extend(PACKED.map(Kind::WordAndCount));
    kinds.extend(ROOMY.map(Kind::TooMany));
    kinds
}

/// All kinds but the long one, those of samples last.
pub static FAULT_KINDS: LazyLock<Vec<Kind>> =
    LazyLock::new(|| [&WHOLE_FILE[..], &OF_A_TUPLE, &of_samples()].concat());

/// How many of them are not of samples.
const OTHERS: usize = WHOLE_FILE.len() + OF_A_TUPLE.len();

/// The kinds in turn, the long one seldom. One in three is of samples, since these are
/// many.
pub(super) fn kind_in_turn(rng: &mut Rng, nth: u64) -> Kind {
    if rng.below(LONG_SELDOM) == 0 {
        return LONG_KIND;
    }
    let (others, of_samples) = FAULT_KINDS.split_at(OTHERS);
    let (turn, place) = ((nth / 3) as usize, (nth % 3) as usize);
    match place {
        2 => of_samples[turn % of_samples.len()],
        _ => others[(2 * turn + place) % others.len()],
    }
}

/// Any kind that one tuple carries, the long one seldom.
fn any_local(rng: &mut Rng) -> Kind {
    if rng.below(LONG_SELDOM) == 0 {
        return LONG_KIND;
    }
    if rng.chance(40) {
        rng.pick(&FAULT_KINDS[OTHERS..])
    } else {
        rng.pick(&OF_A_TUPLE)
    }
}

fn is_local(kind: Kind) -> bool {
    !WHOLE_FILE.contains(&kind)
}

fn number(piece: &Piece) -> u32 {
    match piece {
        Piece::Two(number) => u32::from(*number),
        Piece::Four(number) => *number,
        _ => 0,
    }
}

/// The identifier of a sounder, and whose it is.
pub(super) type Document = (u32, Maker);

/// The same of a channel.
pub(super) type Software = (u16, Maker);

/// Documents and channels declared by some drafts.
pub(super) fn declared(drafts: &[Draft]) -> (Vec<Document>, Vec<Software>) {
    let (mut documents, mut channels) = (Vec::new(), Vec::new());
    for draft in drafts {
        if let Body::Fields(pieces) = &draft.body {
            if let Some(maker) = sounder_maker(draft.code) {
                documents.push((number(&pieces[1]), maker));
            }
            if let Some(maker) = channel_maker(draft.code) {
                channels.push((number(&pieces[0]) as u16, maker));
            }
        }
    }
    (documents, channels)
}

pub(super) fn unused_document(rng: &mut Rng, used: &[Document]) -> u32 {
    loop {
        let id = rng.four();
        if !used.iter().any(|(used, _)| *used == id) {
            return id;
        }
    }
}

/// An undeclared channel; often one that is a transceiver number.
pub(super) fn unused_channel(rng: &mut Rng, used: &[Software]) -> u16 {
    loop {
        let id = if rng.chance(50) {
            rng.pick(&SMALL_IDS)
        } else {
            rng.two()
        };
        if !used.iter().any(|(used, _)| *used == id) {
            return id;
        }
    }
}

/// A data size whose whole length isn't allowed.
pub(super) fn bad_size(rng: &mut Rng) -> u32 {
    match rng.below(3) {
        0 => rng.pick(&[0, 1, 2, 3, 4, 5, 7, 8, 9, 262_135, 262_138, 262_142]),
        1 => rng.pick(&[u32::MAX, u32::MAX - 9, u32::MAX - 5, 1 << 31, 16_777_206]),
        _ => 262_138 + rng.below(1 << 24) as u32,
    }
}

/// An unfit but allowed length of a listed type that is no signature.
fn unfit(rng: &mut Rng) -> Draft {
    loop {
        let layout = &LAYOUTS[1 + rng.index(LAYOUTS.len() - 1)];
        let length = 16 + 4 * rng.below(28);
        if !layout.fits(length) {
            let data = rng.bytes(length as usize - 10);
            return Draft::new(rng, layout.code, Body::Raw(data));
        }
    }
}

/// The EK-500's sounder or channel in a length beside its own, or in that of another
/// sounder or channel.
fn unfit_ek500(rng: &mut Rng) -> Draft {
    let (code, length) = match rng.below(2) {
        0 => (200, rng.pick(&[72, 76, 84, 88, 108])),
        _ => (2000, rng.pick(&[72, 80, 100, 104, 112])),
    };
    let data = rng.bytes(length - 10);
    Draft::new(rng, code, Body::Raw(data))
}

/// A ping of U-16-angles, in a length that an odd number of samples would have without
/// its space, or in one that is too short for any.
fn unfit_angles(rng: &mut Rng) -> Draft {
    let length = match rng.below(5) {
        0 => rng.pick(&[16, 20, 24, 28, 32]),
        _ => 32 + 12 * rng.index(12) + 4,
    };
    let data = rng.bytes(length - 10);
    Draft::new(rng, 10031, Body::Raw(data))
}

/// An identifier that is neither 44201 nor 44204: one beside them, one at an end,
/// 44201 with its bytes swapped (44204 stays itself), a half of either, or any.
pub(super) fn third_identifier(rng: &mut Rng) -> u16 {
    const THIRD: [u16; 12] = [
        44200, 44202, 44203, 44205, 0, 65535, 0xA9AC, 0xA9A9, 0x00AC, 0xAC00, 0x00A9, 0xA900,
    ];
    loop {
        let number = if rng.chance(80) {
            rng.pick(&THIRD)
        } else {
            rng.two()
        };
        if number != 44201 && number != 44204 {
            return number;
        }
    }
}

/// What the check says of a broken tuple: the code, and how far behind the
/// tuple's first byte the place lies.
#[derive(Clone, Copy)]
struct Told {
    code: u32,
    within: usize,
}

/// Most codes have the tuple's own place.
fn at_tuple(code: u32) -> Told {
    Told { code, within: 0 }
}

/// How many pairs or words a broken ping has, from a least number on: mostly
/// few, at times hundreds, seldom the most values that a ping can have.
fn sample_count(rng: &mut Rng, least: usize) -> usize {
    match rng.below(100) {
        0 | 1 => 32_764,
        2..=7 => least + rng.index(600),
        _ => least + rng.index(8),
    }
}

/// How many samples a broken ping has, and which of them offend: first the one of
/// the spot, where `earliest` is the first that can; half the time the last one
/// too, and one between.
fn offenders(rng: &mut Rng, spot: Spot, earliest: usize) -> (usize, Vec<usize>) {
    // so many that the three spots differ
    let least = match spot {
        Spot::First => 1,
        Spot::Last => 2,
        Spot::Middle => 3,
    };
    let count = sample_count(rng, earliest + least);
    let last = count - 1;
    let first = match spot {
        Spot::First => earliest,
        Spot::Middle => earliest + 1 + rng.index(last - earliest - 1),
        Spot::Last => last,
    };
    let mut offenders = vec![first];
    if first < last && rng.chance(50) {
        offenders.push(first + 1 + rng.index(last - first));
        offenders.push(last);
    }
    (count, offenders)
}

/// Numbers that rise but for the offenders, each of which is like the one before
/// it, just below it, or 0. Some starts let them pass 2^31 or 2^15, or rise where their
/// bytes turned about don't.
fn fallen_numbers(rng: &mut Rng, kind: PingKind, count: usize, offenders: &[usize]) -> Vec<u32> {
    let (start, most) = match coding(kind).number {
        2 => (rng.pick(&[0, 1, 250, 0x7FF0, 0xFE00]), 0xFFFF),
        _ => (
            rng.pick(&[0, 1, 250, 65_500, 0x7FFF_FFF0, 0xFF00_0000]),
            u32::MAX,
        ),
    };
    let mut number = start.min(most - count as u32);
    let mut numbers = vec![number];
    for nth in 1..count {
        let most_step = (most - number) / (count - nth) as u32;
        let step: u32 = 1 + rng.pick(&[0, 0, 1, 254]);
        number = if offenders.contains(&nth) {
            rng.pick(&[number, number.saturating_sub(1), 0])
        } else {
            number + step.min(most_step)
        };
        numbers.push(number);
    }
    numbers
}

fn bad_pairs(rng: &mut Rng, channel: u16, kind: PingKind, spot: Spot) -> (Draft, Told) {
    let (count, offenders) = offenders(rng, spot, 1);
    let numbers = fallen_numbers(rng, kind, count, &offenders);
    let samples = numbers.into_iter().map(|n| (n, [rng.four(), rng.four()]));
    let samples = samples.collect();
    let draft = listed_ping(rng, channel, kind, samples);
    let coding = coding(kind);
    let within = 24 + (coding.number + coding.value * coding.values) * offenders[0];
    (draft, Told { code: 23, within })
}

/// Words within the limits, runs among them, and words outside. Some would be of the
/// others with their bytes turned about.
#[rustfmt::skip]
fn known_words(kind: PingKind) -> (&'static [u32], &'static [u32]) {
    match kind {
        PingKind::C16 => (
            &[0, 5, 0xFF00, 0xFFFF, 0xFEFF, 0x7EFF, 0x8101, 0x007F, 0xFF80, 0x0080, 0x0081, 0x00FF],
            &[0x7F00, 0x7FFF, 0x8000, 0x80FF, 0x8100],
        ),
        PingKind::Ce16 => (
            &[0, 5, 0xFF00, 0xFFFF, 0xFEFF, 0x7EFF, 0x8000, 0x8100, 0x007F, 0xFF7F, 0x1000, 0x00FF],
            &[0x7F00, 0x7FFF, 0x7F80, 0x7F7F],
        ),
        _ => (
            &[0, 5, 0xFFFF_0000, 0xFFFF_FFFF, 0xFFFE_FFFF, 0x7FFE_FFFF, 0x8001_0000, 0x0000_FF7F,
                0xFFFF_0080, 0x0000_0080, 0x0000_FFFF],
            &[0x7FFF_0000, 0x8000_FFFF, 0x7FFF_FFFF, 0x8000_0000, 0x7FFF_8000],
        ),
    }
}

fn some_words(rng: &mut Rng, kind: PingKind, count: usize) -> Vec<u32> {
    let (good, _) = known_words(kind);
    (0..count).map(|_| rng.pick(good)).collect()
}

fn bad_word_of(rng: &mut Rng, kind: PingKind) -> u32 {
    rng.pick(known_words(kind).1)
}

/// A number of samples beside the right one, or equal in its low bytes alone. One less
/// would be right where the last word is a value of two bytes, which would then be a
/// space.
fn wrong_count(rng: &mut Rng, kind: PingKind, words: &[u32]) -> u32 {
    let right = no_runs(kind, words);
    let ends_in_run = words
        .last()
        .is_some_and(|word| no_runs(kind, &[*word]) == 0);
    let less = if coding(kind).value == 4 || ends_in_run {
        right.wrapping_sub(1)
    } else {
        right.wrapping_sub(2)
    };
    rng.pick(&[right + 1, less, right | 0x8000_0000, right << 16 | 0x10000])
}

/// A ping with bad words, rightly counted or not: the word is judged before the
/// count, which stands before it.
fn bad_word(
    rng: &mut Rng,
    channel: u16,
    kind: PingKind,
    spot: Spot,
    counted: bool,
) -> (Draft, Told) {
    let (count, offenders) = offenders(rng, spot, 0);
    let mut words = some_words(rng, kind, count);
    for at in &offenders {
        words[*at] = bad_word_of(rng, kind);
    }
    let count = if counted {
        no_runs(kind, &words)
    } else {
        wrong_count(rng, kind, &words)
    };
    let draft = words_ping(rng, channel, kind, count, words);
    let within = 28 + coding(kind).value * offenders[0];
    (draft, Told { code: 24, within })
}

/// A wrong count of words that leave no space: that would be a word, and at times a bad
/// one.
fn bad_count(rng: &mut Rng, channel: u16, kind: PingKind) -> (Draft, Told) {
    let length = sample_count(rng, 1);
    let words = some_words(rng, kind, length.next_multiple_of(2));
    let count = wrong_count(rng, kind, &words);
    let draft = words_ping(rng, channel, kind, count, words);
    let told = Told {
        code: 25,
        within: 24,
    };
    (draft, told)
}

fn any_spot(rng: &mut Rng) -> Spot {
    rng.pick(&SPOTS)
}

/// A ping of any kind whose samples break a rule, any but that of too many.
pub(super) fn broken_ping(rng: &mut Rng, channel: u16) -> Draft {
    let (listed, packed) = (rng.pick(&LISTED), rng.pick(&PACKED));
    let spot = any_spot(rng);
    let (draft, _) = match rng.below(4) {
        0 => bad_pairs(rng, channel, listed, spot),
        1 => bad_word(rng, channel, packed, spot, true),
        2 => bad_word(rng, channel, packed, spot, false),
        _ => bad_count(rng, channel, packed),
    };
    draft
}

/// Over 32,764 samples, or words that are no run.
fn too_many(rng: &mut Rng, channel: u16, kind: PingKind) -> Draft {
    if PACKED.contains(&kind) {
        too_many_words(rng, channel, kind)
    } else {
        too_many_samples(rng, channel, kind)
    }
}

/// Rising numbers or not.
fn too_many_samples(rng: &mut Rng, channel: u16, kind: PingKind) -> Draft {
    let over = 32_765 + rng.below(3) as usize;
    let offender = rng.pick(&[over, 1, over - 1]);
    let numbers = fallen_numbers(rng, kind, over, &[offender]);
    let samples = numbers.into_iter().map(|n| (n, [n, !n])).collect();
    listed_ping(rng, channel, kind, samples)
}

/// All good, all bad or with one bad among them, rightly counted or not. There are too
/// many even where the last is taken for a space.
fn too_many_words(rng: &mut Rng, channel: u16, kind: PingKind) -> Draft {
    let over = 32_766 + rng.below(3) as u32;
    let bad = bad_word_of(rng, kind);
    let mut words = vec![rng.pick(&[0, 7, bad]); over as usize];
    if rng.chance(50) {
        let at = rng.pick(&[0, 16_000, words.len() - 1]);
        words[at] = bad_word_of(rng, kind);
    }
    let run = known_words(kind).0[2];
    for _ in 0..rng.below(3) {
        words.insert(rng.index(words.len()), run + 3);
    }
    let count = rng.pick(&[over, over - 1, 32_764, 0]);
    words_ping(rng, channel, kind, count, words)
}

/// Sounders behind those declared, one more than there may be.
fn many_sounders(documents: &[Document], rng: &mut Rng) -> Vec<Draft> {
    let mut used = documents.to_vec();
    let mut more = Vec::new();
    while used.len() <= MOST_SOUNDERS as usize {
        let (id, maker) = (unused_document(rng, &used), any_maker(rng));
        used.push((id, maker));
        let count = rng.two();
        more.push(sounder_of(rng, maker, count, id));
    }
    more
}

/// Channels behind those declared, one more than there may be; half the time
/// that one names no sounder, or one of the other maker.
fn many_channels(documents: &[Document], channels: &[Software], rng: &mut Rng) -> Vec<Draft> {
    let mut used = channels.to_vec();
    let mut more = Vec::new();
    while used.len() <= usize::from(MOST_CHANNELS) {
        let last = used.len() == usize::from(MOST_CHANNELS);
        let id = unused_channel(rng, &used);
        let (mut parent, mut maker) = rng.pick(documents);
        if last {
            match rng.below(4) {
                0 => parent = unused_document(rng, documents),
                1 => maker = other_maker(maker),
                _ => {}
            }
        }
        used.push((id, maker));
        more.push(channel_of(rng, maker, id, parent));
    }
    more
}

/// A sounder's identifier for a channel that is refused whichever it names: one
/// declared, of either maker, the channel's own number, or another.
fn any_parent(rng: &mut Rng, documents: &[Document], id: u16) -> u32 {
    let (known, _) = rng.pick(documents);
    rng.pick(&[known, u32::from(id), 77])
}

/// Sets some drafts in, and tells where the last of them stands.
fn set_in(drafts: &mut Vec<Draft>, at: usize, more: Vec<Draft>) -> usize {
    let last = at + more.len() - 1;
    drafts.splice(at..at, more);
    last
}

/// Gives the tuple at `at`, or new ones set in before it, a fault of a local
/// kind. Tells where the offender now stands and what the check says of it; none
/// where the tuples before don't allow the kind.
fn spoil(drafts: &mut Vec<Draft>, at: usize, kind: Kind, rng: &mut Rng) -> Option<(usize, Told)> {
    let (documents, channels) = declared(&drafts[..at]);
    let software_known = (!channels.is_empty()).then(|| channels[rng.index(channels.len())]);
    let channel_known = software_known.map(|(id, _)| id);
    let mut insert = |(draft, told): (Draft, Told)| {
        drafts.insert(at, draft);
        Some((at, told))
    };
    match kind {
        Kind::PassesEnd => {
            drafts[at].patch = Some(Patch::Size(262_134));
            Some((at, at_tuple(3)))
        }
        Kind::Size => {
            drafts[at].patch = Some(Patch::Size(bad_size(rng)));
            Some((at, at_tuple(5)))
        }
        Kind::Backlink => {
            let wrong = rng.pick(&[0, 1, 12, u32::MAX, 262_148, 18]);
            drafts[at].patch = Some(Patch::Backlink(wrong));
            Some((at, at_tuple(6)))
        }
        Kind::SecondSignature => {
            let mut second = signature(rng);
            match rng.below(3) {
                0 => second.pieces()[0] = Piece::Two(third_identifier(rng)),
                1 => second.body = Body::Raw(rng.bytes(18)),
                _ => {}
            }
            insert((second, at_tuple(7)))
        }
        Kind::Unfit => insert((unfit(rng), at_tuple(9))),
        Kind::UnfitEk500 => insert((unfit_ek500(rng), at_tuple(9))),
        Kind::UnfitAngles => insert((unfit_angles(rng), at_tuple(9))),
        Kind::Pairs(kind, spot) => insert(bad_pairs(rng, channel_known?, kind, spot)),
        Kind::Word(kind, spot) => insert(bad_word(rng, channel_known?, kind, spot, true)),
        Kind::Count(kind) => insert(bad_count(rng, channel_known?, kind)),
        Kind::WordAndCount(kind) => {
            let spot = any_spot(rng);
            insert(bad_word(rng, channel_known?, kind, spot, false))
        }
        Kind::TooMany(kind) => insert((too_many(rng, channel_known?, kind), at_tuple(11))),
        Kind::TwiceSounder | Kind::SounderOfBoth if documents.is_empty() => None,
        Kind::TwiceSounder => {
            let (id, maker) = rng.pick(&documents);
            let count = rng.two();
            insert((sounder_of(rng, maker, count, id), at_tuple(12)))
        }
        Kind::SounderOfBoth => {
            let (id, maker) = rng.pick(&documents);
            let count = rng.two();
            let second = sounder_of(rng, other_maker(maker), count, id);
            insert((second, at_tuple(12)))
        }
        Kind::TwiceChannel => {
            let (id, maker) = software_known?;
            let parent = any_parent(rng, &documents, id);
            insert((channel_of(rng, maker, id, parent), at_tuple(12)))
        }
        Kind::ChannelOfBoth => {
            let (id, maker) = software_known?;
            let parent = any_parent(rng, &documents, id);
            let second = channel_of(rng, other_maker(maker), id, parent);
            insert((second, at_tuple(12)))
        }
        Kind::OrphanPing => {
            let id = unused_channel(rng, &channels);
            let orphan = match rng.below(4) {
                0 | 1 => broken_ping(rng, id),
                2 => silent_ping(rng, id, 1),
                _ => ping(rng, id, vec![(4, 4)]),
            };
            insert((orphan, at_tuple(13)))
        }
        Kind::OrphanOther => {
            let mut used = channels.clone();
            let all = rng.chance(50);
            if !all {
                used.push((65535, Maker::Biosonics));
            }
            let id = unused_channel(rng, &used);
            // 65535 says "all" in an attitude alone
            let orphan = if all {
                threshold(rng, id)
            } else {
                attitude(rng, id)
            };
            insert((orphan, at_tuple(13)))
        }
        Kind::OrphanChannel | Kind::OtherMaker if channels.len() >= usize::from(MOST_CHANNELS) => {
            None
        }
        Kind::OrphanChannel => {
            let id = unused_channel(rng, &channels);
            let mut parent = u32::from(id);
            if documents.iter().any(|(document, _)| *document == parent) {
                parent = unused_document(rng, &documents);
            }
            let maker = any_maker(rng);
            insert((channel_of(rng, maker, id, parent), at_tuple(13)))
        }
        Kind::OtherMaker if documents.is_empty() => None,
        Kind::OtherMaker => {
            let id = unused_channel(rng, &channels);
            let (parent, maker) = rng.pick(&documents);
            let other = channel_of(rng, other_maker(maker), id, parent);
            insert((other, at_tuple(13)))
        }
        Kind::ManySounders => {
            let more = many_sounders(&documents, rng);
            Some((set_in(drafts, at, more), at_tuple(14)))
        }
        Kind::ManyChannels if documents.is_empty() => None,
        Kind::ManyChannels => {
            let more = many_channels(&documents, &channels, rng);
            Some((set_in(drafts, at, more), at_tuple(14)))
        }
        _ => None,
    }
}

/// Tuples that break a rule of the check where they stand behind these of a sound file, before
/// its end of file; or an end of file with a broken frame.
pub(super) fn spoilt_behind(rng: &mut Rng, drafts: &[Draft]) -> Vec<Draft> {
    let end = drafts.len() - 1;
    loop {
        let kind = any_local(rng);
        let mut spoilt = drafts.to_vec();
        if spoil(&mut spoilt, end, kind, rng).is_some() {
            let more = (spoilt.len() - drafts.len()).max(1);
            return spoilt[end..end + more].to_vec();
        }
    }
}

/// A place behind the signature.
fn somewhere(drafts: &[Draft], rng: &mut Rng) -> usize {
    1 + rng.index(drafts.len() - 1)
}

/// Names the answer, unless "passes the end" has found room after all.
fn local_case(name: String, rendered: Rendered, offender: (usize, Told), kind: Kind) -> Case {
    let (draft, Told { code, within }) = offender;
    let tuple = rendered.places[draft];
    let left = rendered.bytes.len() - tuple;
    let known = kind != Kind::PassesEnd || left < 262_144;
    let expected = known.then_some((code, (tuple + within) as u64));
    Case::new(name, rendered.bytes, expected)
}

/// Takes away all tuples of a class, and those that link to them.
fn drop_class(drafts: &mut Vec<Draft>, absent: Class) {
    let names_channel = |draft: &mut Draft| match draft.code {
        10100 => true,
        40 => draft.pieces()[2] != Piece::Two(65535),
        _ => draft.is_ping(),
    };
    drafts.retain_mut(|draft| {
        let gone = class(draft.code) == Some(absent);
        let orphan = match absent {
            Class::Channel => names_channel(draft),
            Class::Sounder => channel_maker(draft.code).is_some() || names_channel(draft),
            _ => false,
        };
        !gone && !orphan
    });
    if absent == Class::Channel {
        for draft in drafts.iter_mut().filter(|draft| is_sounder(draft)) {
            draft.pieces()[0] = Piece::Two(0);
        }
    }
}

fn is_sounder(draft: &Draft) -> bool {
    sounder_maker(draft.code).is_some()
}

fn any_class(rng: &mut Rng) -> Class {
    rng.pick(&[Class::Position, Class::Sounder, Class::Channel, Class::Ping])
}

/// Spoils the stated channel count of some sounders; tells the first.
fn wrong_counts(drafts: &mut Vec<Draft>, rng: &mut Rng) -> usize {
    if !drafts.iter().any(is_sounder) {
        let maker = any_maker(rng);
        drafts.insert(1, sounder_of(rng, maker, 1, 5));
        return 1;
    }
    let sounders: Vec<usize> = (0..drafts.len())
        .filter(|at| is_sounder(&drafts[*at]))
        .collect();
    let first = rng.index(sounders.len());
    for (nth, at) in sounders.iter().enumerate().skip(first) {
        if nth == first || rng.chance(40) {
            let right = number(&drafts[*at].pieces()[0]) as u16;
            let wrong = rng.pick(&[right.wrapping_add(1), right.wrapping_sub(1), right ^ 0x100]);
            drafts[*at].pieces()[0] = Piece::Two(wrong);
        }
    }
    sounders[first]
}

fn some_bytes(rng: &mut Rng) -> Vec<u8> {
    let count = rng.pick(&[1, 2, 3, 4, 15, 16, 40]);
    rng.bytes(count)
}

fn bad_mark(rng: &mut Rng, mut bytes: Vec<u8>) -> Vec<u8> {
    match rng.below(4) {
        0 => bytes.truncate(rng.index(4)),
        1 => bytes[..4].copy_from_slice(&rng.pick(&[[0, 0xAC, 0, 0], [0, 0, 0xAC, 0], [0; 4]])),
        2 => bytes[rng.index(4)] ^= 1 << rng.below(8),
        _ => {
            bytes.remove(0);
        }
    }
    bytes
}

/// A file with one fault of a kind, and the answer that its rule tells.
pub fn fault(rng: &mut Rng, kind: Kind) -> Case {
    let drafts = sound_drafts(rng, &Wish::any());
    let style = Style::any(rng);
    fault_in(rng, kind, drafts, style).unwrap_or_else(|| fault(rng, Kind::Backlink))
}

/// The file of sound drafts with one fault of a kind, and the answer that its rule tells;
/// none where the drafts don't allow the kind.
pub(super) fn fault_in(
    rng: &mut Rng,
    kind: Kind,
    mut drafts: Vec<Draft>,
    style: Style,
) -> Option<Case> {
    let name = format!("damaged-{}-{}", kind.name(), style.name());
    if !is_local(kind) {
        return Some(whole_file_fault(rng, kind, drafts, style, name));
    }
    let mut at = somewhere(&drafts, rng);
    if [Kind::PassesEnd, Kind::Size, Kind::Backlink].contains(&kind) && rng.chance(10) {
        at = 0;
    }
    // The end of file has everything declared before it.
    if spoil(&mut drafts.clone(), at, kind, &mut rng.clone()).is_none() {
        at = drafts.len() - 1;
    }
    let offender = spoil(&mut drafts, at, kind, rng)?;
    let rendered = render(&drafts, &style, rng);
    Some(local_case(name, rendered, offender, kind))
}

fn whole_file_fault(
    rng: &mut Rng,
    kind: Kind,
    mut drafts: Vec<Draft>,
    style: Style,
    name: String,
) -> Case {
    let mut expected = None;
    match kind {
        Kind::NoEnd => {
            drafts.pop();
            drafts.truncate(1 + rng.index(drafts.len()));
        }
        Kind::NoSignature => {
            drafts.remove(0);
            expected = Some((7, 4));
        }
        Kind::Identifier => {
            drafts[0].pieces()[0] = Piece::Two(third_identifier(rng));
            expected = Some((8, 4));
        }
        Kind::UnfitSignature => {
            let length = rng.pick(&[16, 20, 28, 72, 1000]);
            drafts[0].body = Body::Raw(rng.bytes(length - 10));
            expected = Some((9, 4));
        }
        Kind::NoClass => drop_class(&mut drafts, any_class(rng)),
        _ => {}
    }
    let first = (kind == Kind::WrongCount).then(|| wrong_counts(&mut drafts, rng));
    let Rendered { mut bytes, places } = render(&drafts, &style, rng);
    let length = bytes.len() as u64;
    match kind {
        Kind::Mark => {
            bytes = bad_mark(rng, bytes);
            expected = Some((2, 0));
        }
        Kind::Truncated => {
            let at = rng.pick(&places);
            let tuple = Order::of(&bytes).and_then(|order| order.read_four(&bytes, at));
            let left = 1 + rng.index(tuple.unwrap_or(6) as usize + 9);
            bytes.truncate(at + left);
            expected = Some((3, at as u64));
        }
        Kind::NoEnd => expected = Some((4, length)),
        Kind::Behind => {
            bytes.extend(some_bytes(rng));
            expected = Some((15, length));
        }
        Kind::NoClass => expected = Some((16, length)),
        Kind::WrongCount => expected = first.map(|at| (17, places[at] as u64)),
        _ => {}
    }
    Case::new(name, bytes, expected)
}

/// A file with two faults, by rule; the earlier tuple's, or the one that
/// stands first in the order, tells the answer.
pub fn two_faults(rng: &mut Rng) -> Case {
    if rng.chance(25) {
        return two_late_faults(rng);
    }
    let mut drafts = sound_drafts(rng, &Wish::any());
    let style = Style::any(rng);
    let (a, b) = (somewhere(&drafts, rng), somewhere(&drafts, rng));
    let (early, late) = (a.min(b), a.max(b));
    let (first, second) = (any_local(rng), any_local(rng));
    // The later one first, so that the places before it stay.
    spoil(&mut drafts, late, second, rng);
    let Some(offender) = spoil(&mut drafts, early, first, rng) else {
        return two_faults(rng);
    };
    let name = format!("two-faults-{}-{}", first.name(), second.name());
    local_case(name, render(&drafts, &style, rng), offender, first)
}

/// Two of 15, 16 and 17.
fn two_late_faults(rng: &mut Rng) -> Case {
    let mut drafts = sound_drafts(rng, &Wish::any());
    let style = Style::any(rng);
    let left_out = rng.below(3);
    if left_out != 1 {
        drop_class(&mut drafts, any_class(rng));
    }
    if left_out != 2 {
        wrong_counts(&mut drafts, rng);
    }
    let mut bytes = render(&drafts, &style, rng).bytes;
    let length = bytes.len() as u64;
    if left_out != 0 {
        bytes.extend(some_bytes(rng));
    }
    let code = if left_out == 0 { 16 } else { 15 };
    // A sounder set in for its count may have brought its class back.
    let known = left_out != 0 || !has_all_classes(&drafts);
    Case::new("two-faults-late", bytes, known.then_some((code, length)))
}

fn has_all_classes(drafts: &[Draft]) -> bool {
    [Class::Position, Class::Sounder, Class::Channel, Class::Ping]
        .iter()
        .all(|wanted| {
            drafts
                .iter()
                .any(|draft| class(draft.code) == Some(*wanted))
        })
}

/// Changes one thing in the bytes of a file, knowing only its places.
fn damage(rng: &mut Rng, bytes: &mut Vec<u8>, places: &[usize]) {
    let at = rng.pick(places).min(bytes.len().saturating_sub(1));
    let next = places.iter().copied().find(|place| *place > at);
    let next = next.unwrap_or(bytes.len()).min(bytes.len());
    let near = |rng: &mut Rng, bytes: &Vec<u8>| {
        let reach = (bytes.len() - at).min(48);
        at + rng.index(reach)
    };
    match rng.below(12) {
        0..=2 => {
            let place = rng.index(bytes.len());
            bytes[place] ^= 1 << rng.below(8);
        }
        3 | 4 => {
            let place = near(rng, bytes);
            bytes[place] = rng.number() as u8;
        }
        5 => {
            // the low byte of the size, in either order
            let place = at + rng.pick(&[0, 3]);
            if let Some(byte) = bytes.get_mut(place) {
                *byte = byte.wrapping_add(rng.pick(&[4, 252, 8, 1, 2]));
            }
        }
        6 => {
            let place = next.saturating_sub(rng.pick(&[1, 4]));
            if let Some(byte) = bytes.get_mut(place) {
                *byte ^= rng.pick(&[4, 8, 1, 128]);
            }
        }
        7 => bytes.truncate(rng.index(bytes.len() + 1)),
        8 => {
            let tuple = bytes[at..next].to_vec();
            let again = rng.pick(places).min(bytes.len());
            bytes.splice(again..again, tuple);
        }
        9 => {
            bytes.drain(at..next);
        }
        10 => {
            // swapped with the tuple behind it
            let behind = places.iter().copied().find(|place| *place > next);
            let behind = behind.unwrap_or(bytes.len()).clamp(next, bytes.len());
            bytes[at..behind].rotate_left(next - at);
        }
        _ => {
            let more = some_bytes(rng);
            bytes.extend(more);
        }
    }
}

/// A sound file with one or two blind changes.
pub fn random_damage(rng: &mut Rng) -> Case {
    let drafts = sound_drafts(rng, &Wish::any());
    let style = Style::any(rng);
    let Rendered { mut bytes, places } = render(&drafts, &style, rng);
    let twice = rng.chance(40);
    for _ in 0..1 + u64::from(twice) {
        if !bytes.is_empty() {
            damage(rng, &mut bytes, &places);
        }
    }
    let name = if twice {
        "damaged-twice"
    } else {
        "damaged-once"
    };
    Case::new(name, bytes, None)
}

/// Random bytes, mostly behind a mark, or framed tuples with anything in them.
pub fn noise(rng: &mut Rng) -> Case {
    let style = Style::any(rng);
    let mut pen = Pen::new(style.order);
    if rng.chance(90) {
        pen.four(0xAC);
    }
    if rng.chance(50) {
        let count = rng.index(200);
        pen.bytes.extend(rng.bytes(count));
        return Case::new("noise-bytes", pen.bytes, None);
    }
    if rng.chance(80) {
        let draft = signature(rng);
        pen.tuple(&draft, &style, rng);
    }
    for _ in 0..rng.below(12) {
        let draft = noise_tuple(rng);
        pen.tuple(&draft, &style, rng);
    }
    Case::new("noise-tuples", pen.bytes, None)
}

/// A framed tuple of any type; listed ones often of a fit length.
fn noise_tuple(rng: &mut Rng) -> Draft {
    let layout = &LAYOUTS[rng.index(LAYOUTS.len())];
    let code = if rng.chance(80) {
        layout.code
    } else {
        rng.number() as u16
    };
    let mut length = 16 + 4 * rng.index(24);
    for fit in (16..120).step_by(4) {
        if layout.fits(fit) && rng.chance(80) {
            length = fit as usize;
        }
    }
    let data = (0..length - 10)
        .map(|_| rng.pick(&[0, 0, 0, 1, 2, 0xFF, 0x7F, 0x80]))
        .collect();
    Draft::new(rng, code, Body::Raw(data))
}
