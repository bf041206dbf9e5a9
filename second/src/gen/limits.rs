//! Limit cases, each with the answer that its limit tells.

use super::draft::{coding, index_of, most_words, no_runs, radix, render, run};
use super::draft::{Body, Cut, Draft, Patch, Piece, PingStyle, Style};
use super::sound::*;
use super::vessels::{self, MOST_CHANNELS, MOST_SOUNDERS};
use super::{Case, Rng};
use crate::kinds::{Family, PingKind};
use crate::order::Order;

/// The most bytes of a file.
pub(super) const FILE_LIMIT: usize = 16_777_216;

/// The smallest sound file's drafts, with one sounder and one channel, both
/// numbered 1, and a silent ping. Others are set in before the end of file.
fn base(rng: &mut Rng) -> Vec<Draft> {
    vec![
        signature(rng),
        sounder(rng, 1, 1),
        channel(rng, 1, 1),
        position(rng),
        silent_ping(rng, 1, 1),
        end_of_file(rng, 2),
    ]
}

/// Where the drafts set in before the base's end of file start.
const MORE: usize = 5;

fn with(rng: &mut Rng, more: Vec<Draft>) -> Vec<Draft> {
    let mut drafts = base(rng);
    drafts.splice(MORE..MORE, more);
    drafts
}

/// The check's code has the place of a draft's tuple.
pub(super) fn case(name: String, drafts: &[Draft], style: &Style, at: usize, code: u32) -> Case {
    case_within(name, drafts, style, (at, 0), code)
}

/// The check's code has a place so many bytes behind the start of a draft's
/// tuple.
fn case_within(
    name: String,
    drafts: &[Draft],
    style: &Style,
    (at, within): (usize, usize),
    code: u32,
) -> Case {
    let mut rng = Rng::new(7);
    let rendered = render(drafts, style, &mut rng);
    let place = if code == 0 {
        0
    } else {
        rendered.places[at] + within
    };
    let name = format!("limit-{name}-{}", style.name());
    Case::new(name, rendered.bytes, Some((code, place as u64)))
}

/// A private tuple of some whole length, which need not be allowed. Its bytes
/// are there, so that enough are left.
fn of_length(rng: &mut Rng, length: u32) -> Draft {
    let data = rng.bytes(length.clamp(10, 300_000) as usize - 10);
    let mut draft = Draft::new(rng, 65400, Body::Raw(data));
    if length < 10 {
        draft.patch = Some(Patch::Size(length.wrapping_sub(10)));
    }
    draft
}

fn length_case(nth: usize, style: &Style) -> Case {
    let (length, code) = LENGTHS[nth];
    let mut rng = Rng::new(length.into());
    let more = vec![of_length(&mut rng, length)];
    let drafts = with(&mut rng, more);
    case(format!("length-{length}"), &drafts, style, MORE, code)
}

#[rustfmt::skip]
const LENGTHS: [(u32, u32); 18] = [
    (0, 5), (4, 5), (9, 5), (10, 5), (12, 5), (13, 5), (14, 5), (15, 5), (16, 0), (17, 5),
    (18, 5), (19, 5), (20, 0), (262_140, 0), (262_143, 5), (262_144, 0), (262_145, 5), (262_148, 5),
];

fn sounders_case(count: u32, style: &Style) -> Case {
    let mut rng = Rng::new(count.into());
    let more = (2..=count).map(|id| sounder(&mut rng, 0, id)).collect();
    let drafts = with(&mut rng, more);
    let code = if count > MOST_SOUNDERS { 14 } else { 0 };
    let last = MORE + count as usize - 2;
    case(format!("sounders-{count}"), &drafts, style, last, code)
}

fn channels_case(count: u16, style: &Style) -> Case {
    let mut rng = Rng::new(count.into());
    let more = (2..=count).map(|id| channel(&mut rng, id, 1)).collect();
    let mut drafts = with(&mut rng, more);
    drafts[1].pieces()[0] = Piece::Two(count);
    let code = if count > MOST_CHANNELS { 14 } else { 0 };
    let last = MORE + usize::from(count) - 2;
    case(format!("channels-{count}"), &drafts, style, last, code)
}

/// The numbers from below the two known identifiers to above them.
const IDENTIFIERS: [(u16, u32); 6] = [
    (44200, 8),
    (44201, 0),
    (44202, 8),
    (44203, 8),
    (44204, 0),
    (44205, 8),
];

fn identifier_case(nth: usize, style: &Style) -> Case {
    let (number, code) = IDENTIFIERS[nth];
    let mut drafts = base(&mut Rng::new(number.into()));
    drafts[0].pieces()[0] = Piece::Two(number);
    case(format!("identifier-{number}"), &drafts, style, 0, code)
}

/// The name of a case of a kind of ping; one of 32 bits isn't named.
fn named(kind: PingKind, name: &str) -> String {
    match kind {
        PingKind::U32 | PingKind::C32 => name.to_string(),
        kind => format!("{kind:?}-{name}").replace('_', "-").to_lowercase(),
    }
}

/// A ping of given words, rightly counted.
fn counted(rng: &mut Rng, kind: PingKind, words: Vec<u32>) -> Draft {
    let count = no_runs(kind, &words);
    words_ping(rng, 1, kind, count, words)
}

/// The same in a sound file.
fn with_words(kind: PingKind, words: Vec<u32>) -> Vec<Draft> {
    let mut rng = Rng::new(11);
    let more = vec![counted(&mut rng, kind, words)];
    with(&mut rng, more)
}

/// A ping of given words; `offender` is the first one outside the limits.
fn words_case(kind: PingKind, word: &Limit, style: &Style) -> Case {
    let (name, words, offender) = word;
    let drafts = with_words(kind, words.to_vec());
    let name = named(kind, &format!("words-{name}"));
    match offender {
        Some(nth) => {
            let within = 28 + coding(kind).value * nth;
            case_within(name, &drafts, style, (MORE, within), 24)
        }
        None => case(name, &drafts, style, MORE, 0),
    }
}

/// A name, words, and which is the first one outside the limits.
type Limit = (&'static str, &'static [u32], Option<usize>);

/// Values at the edges of C-32, runs at theirs.
#[rustfmt::skip]
const WORDS: [Limit; 18] = [
    ("most", &[0x7FFE_FFFF], None),
    ("least", &[0x8001_0000], None),
    ("over-most", &[0x7FFF_0000], Some(0)),
    ("under-least", &[0x8000_FFFF], Some(0)),
    ("greatest", &[0xFFFF_0000, 0x7FFF_FFFF, 5], Some(1)),
    ("smallest", &[5, 0xFFFE_FFFF, 0x8000_0000], Some(2)),
    ("near-runs", &[0xFFFE_FFFF], None),
    ("run-1", &[0xFFFF_0000, 5], None),
    ("run-65536", &[0xFFFF_FFFF, 5], None),
    ("run-65535", &[0xFFFF_FFFE, 5], None),
    ("run-across", &[0xFFFF_FFFF, 0xFFFF_0000, 5], None),
    ("run-across-turned", &[0xFFFF_0000, 0xFFFF_FFFF, 5], None),
    ("run-halves", &[0xFFFF_7FFF, 0xFFFF_7FFF, 5], None),
    ("run-last", &[5, 0xFFFF_FFFF], None),
    ("run-alone", &[0xFFFF_FFFF], None),
    ("runs-alone", &[0xFFFF_0000, 0xFFFF_1234, 0xFFFF_FFFF], None),
    ("zero", &[0], None),
    ("zero-behind-run", &[0xFFFF_0000, 0, 0xFFFF_0001], None),
];

/// The same of C-16 and CE-16: words outside the limits.
#[rustfmt::skip]
const BAD_WORDS: [(PingKind, Limit); 6] = [
    (PingKind::C16, ("over-most", &[5, 0x7F00], Some(1))),
    (PingKind::C16, ("under-least", &[0x8100], Some(0))),
    (PingKind::C16, ("smallest", &[5, 0x8101, 0x8000], Some(2))),
    (PingKind::C16, ("beside-smallest", &[0xFF00, 0x80FF, 5], Some(1))),
    (PingKind::Ce16, ("over-most", &[0x7F00], Some(0))),
    (PingKind::Ce16, ("greatest", &[0x7EFF, 0xFF00, 0x8000, 0x7FFF], Some(3))),
];

/// Words within the limits, odd and even in number, of C-16 and of CE-16, each list a
/// ping; and of CE-16 alone.
#[rustfmt::skip]
const GOOD_WORDS: [&[u32]; 16] = [
    &[0x7EFF], &[0x8101], &[0xFEFF], &[0x7EFF, 0x8101], &[0xFF00, 5], &[0xFFFF, 5], &[0xFFFE, 5],
    &[0xFFFF, 0xFF00, 5], &[0xFF00, 0xFFFF, 5], &[0xFF7F, 0xFF7F, 5], &[5, 0xFFFF], &[0xFFFF],
    &[0xFF00, 0xFF12, 0xFFFF], &[0], &[0, 0], &[0xFF00, 0, 0xFF01],
];
#[rustfmt::skip]
const GOOD_COUNTS: [&[u32]; 8] = [
    &[0x8000], &[0, 0x8000], &[0x8000, 0xFF00], &[0x8000, 0x8000, 0x8000], &[0x80FF], &[0x8100],
    &[0x0FFF, 0x1000, 0x1FFF, 0x2000, 0x2001], &[0x7000, 0xF000, 0x8FFF, 0x9000],
];

/// A sound file of pings of these words.
fn good_words_case(kind: PingKind, style: &Style) -> Case {
    let mut rng = Rng::new(15);
    let mut lists = GOOD_WORDS.to_vec();
    if kind == PingKind::Ce16 {
        lists.extend(GOOD_COUNTS);
    }
    let pings = lists
        .iter()
        .map(|words| counted(&mut rng, kind, words.to_vec()));
    let pings = pings.collect();
    let drafts = with(&mut rng, pings);
    case(named(kind, "words"), &drafts, style, MORE, 0)
}

/// Counts and pairs of bytes before the attribute that are a word by the count, or a
/// space, whatever they hold; a run is a word always.
#[rustfmt::skip]
const SPACES: [(u32, &[u32]); 14] = [
    (1, &[5, 0]), (2, &[5, 0]), (1, &[5, 7]), (2, &[5, 7]), (1, &[5, 0xFF00]), (1, &[5, 0xFFFF]),
    (0, &[0xFF00, 0]), (1, &[0xFF00, 0]), (0, &[0xFF00, 0xFF03]), (0, &[0xFF00, 0x7F00]),
    (1, &[5, 0x7FFF]), (3, &[5, 6, 7, 0x7F01]), (1, &[0xFFFF, 0xFFFF, 9, 0xFEFF]),
    (2, &[9, 0xFF09, 0, 0]),
];

fn spaces_case(kind: PingKind, style: &Style) -> Case {
    let mut rng = Rng::new(16);
    let pings = SPACES
        .iter()
        .map(|(count, words)| words_ping(&mut rng, 1, kind, *count, words.to_vec()));
    let pings = pings.collect();
    let drafts = with(&mut rng, pings);
    case(named(kind, "spaces"), &drafts, style, MORE, 0)
}

/// A name, a count, words, and the code with its place in the ping.
type Counted = (&'static str, u32, [u32; 2], (u32, usize));

/// The same, but that the last is no space, for the count is right with it or wrong
/// either way.
#[rustfmt::skip]
const NO_SPACES: [Counted; 4] = [
    ("counted", 2, [5, 0x7F00], (24, 30)),
    ("miscounted", 3, [5, 0x7F00], (24, 30)),
    ("one-over", 3, [5, 7], (25, 24)),
    ("two-under", 0, [5, 7], (25, 24)),
];

fn no_space_case(kind: PingKind, nth: usize, style: &Style) -> Case {
    let (name, count, words, (code, within)) = NO_SPACES[nth];
    let mut rng = Rng::new(17);
    let more = vec![words_ping(&mut rng, 1, kind, count, words.to_vec())];
    let drafts = with(&mut rng, more);
    let name = named(kind, &format!("no-space-{name}"));
    case_within(name, &drafts, style, (MORE, within), code)
}

/// Silences about the longest run, and about several of them: so many runs, and so many
/// samples more.
const SILENCES: [(u64, i64); 10] = [
    (0, 1),
    (0, 2),
    (1, -1),
    (1, 0),
    (1, 1),
    (2, 0),
    (2, 1),
    (4, -1),
    (4, 0),
    (4, 1),
];

/// Pings of one shape in all these silences, each cut in every way.
fn silent_pings(rng: &mut Rng, kind: PingKind, ping_words: Shape) -> Vec<Draft> {
    let mut pings = Vec::new();
    for (runs, more) in SILENCES {
        let gap = (runs * radix(kind)).saturating_add_signed(more);
        for cut in Cut::ALL {
            let words = ping_words(cut.runs(kind, gap));
            pings.push(counted(rng, kind, words));
        }
    }
    pings
}

fn silences_case(name: &str, ping_words: Shape, style: &Style) -> Case {
    let mut rng = Rng::new(14);
    let pings = silent_pings(&mut rng, PingKind::C32, ping_words);
    let drafts = with(&mut rng, pings);
    case(format!("silence-{name}"), &drafts, style, MORE, 0)
}

/// The same of a kind of two bytes, all shapes in one file.
fn narrow_silences_case(kind: PingKind, style: &Style) -> Case {
    let mut rng = Rng::new(14);
    let mut pings = Vec::new();
    for (_, shape) in SILENT {
        pings.extend(silent_pings(&mut rng, kind, shape));
    }
    let drafts = with(&mut rng, pings);
    case(named(kind, "silence"), &drafts, style, MORE, 0)
}

/// The words of a ping that has some runs.
type Shape = fn(Vec<u32>) -> Vec<u32>;

/// What a ping has beside its silence: nothing, a value before it, one behind it, or one
/// between two silences.
#[rustfmt::skip]
const SILENT: [(&str, Shape); 4] = [
    ("alone", |runs| runs),
    ("behind", |runs| [vec![5], runs].concat()),
    ("before", |runs| [runs, vec![5]].concat()),
    ("around", |runs| [runs.clone(), vec![5], runs].concat()),
];

/// The most words of a tuple, all runs: the greatest length that a ping can have, and
/// as many runs of 1, which are few words in the normal form.
fn longest_silence_case(kind: PingKind, name: &str, samples: u64, style: &Style) -> Case {
    let words = vec![run(kind, samples); most_words(kind) as usize];
    let name = named(kind, &format!("silence-{name}"));
    case(name, &with_words(kind, words), style, MORE, 0)
}

/// The most values, and one quiet sample behind them.
fn full_and_silent_case(kind: PingKind, style: &Style) -> Case {
    let words = (0..32_764u32).map(|n| n % 32_512);
    let words = words.chain([run(kind, 1)]).collect();
    let name = named(kind, "silence-behind-32764");
    case(name, &with_words(kind, words), style, MORE, 0)
}

/// Pings of many words: how many values, runs, and the code. A run comes before a value,
/// so that more runs than values end the ping.
const MANY: [(usize, usize, u32); 8] = [
    (32_763, 0, 0),
    (32_764, 0, 0),
    (32_765, 0, 11),
    (32_764, 32_763, 0),
    (32_763, 32_764, 0),
    (32_765, 100, 11),
    (0, 65_527, 0),
    (65_527, 0, 11),
];

/// The same of words of two bytes: most leave a space.
const MANY_NARROW: [(usize, usize, u32); 3] =
    [(32_764, 32_763, 0), (32_765, 0, 11), (65_527, 65_527, 11)];

fn many_case(kind: PingKind, (values, runs, code): (usize, usize, u32), style: &Style) -> Case {
    let mut words = Vec::new();
    for n in 0..values.max(runs) {
        if n < runs {
            words.push(run(kind, radix(kind)) - n as u32 % 7);
        }
        if n < values {
            words.push(n as u32 % 32_512);
        }
    }
    let name = named(kind, &format!("words-{values}-values-{runs}-runs"));
    case(name, &with_words(kind, words), style, MORE, code)
}

/// 32,764 values and two bytes more, which by the count are a space, or a value too many.
fn last_value_case(kind: PingKind, count: u32, code: u32, style: &Style) -> Case {
    let mut rng = Rng::new(18);
    let words = [vec![run(kind, 1)], vec![5; 32_764], vec![6]].concat();
    let more = vec![words_ping(&mut rng, 1, kind, count, words)];
    let drafts = with(&mut rng, more);
    let name = named(kind, &format!("words-32764-and-more-{count}"));
    case(name, &drafts, style, MORE, code)
}

/// Values about sample 65,535, the last that U-16 can number, behind silence cut in every
/// way or behind others; and the same with a length.
fn reach_case(family: Family, style: &Style) -> Case {
    let mut rng = Rng::new(19);
    let style = Style {
        pings: PingStyle::Packed,
        cut: true,
        ..style.clone()
    };
    let mut pings = Vec::new();
    for last in 65_533..=65_538u32 {
        let dense: Vec<_> = (last - 99..=last).map(|n| (n, 7)).collect();
        for samples in [vec![(last, 7)], vec![(0, 5), (last, 7)], dense] {
            for length in [None, Some(last + 2), Some(last + 258)] {
                pings.push(family_ping(&mut rng, 1, family, samples.clone(), length));
            }
        }
    }
    let drafts = with(&mut rng, pings);
    let name = format!("reach-{family:?}").to_lowercase();
    case(name, &drafts, &style, MORE, 0)
}

/// So many samples as they are stored, three apart while that has room.
fn samples_of(kind: PingKind, count: u32) -> Vec<(u32, [u32; 2])> {
    let apart = if coding(kind).number == 4 { 3 } else { 1 };
    (0..count)
        .map(|n| (n * apart, [n.wrapping_sub(9), n ^ 0x5555]))
        .collect()
}

/// A ping that numbers its samples, with as many as it may have, or as a tuple holds, and
/// with more.
fn listed_case(kind: PingKind, count: u32, code: u32, style: &Style) -> Case {
    let mut rng = Rng::new(5);
    let more = vec![listed_ping(&mut rng, 1, kind, samples_of(kind, count))];
    let drafts = with(&mut rng, more);
    let name = named(kind, &format!("pairs-{count}"));
    case(name, &drafts, style, MORE, code)
}

/// Kinds, numbers of samples, and the code.
const LISTED: [(PingKind, u32, u32); 10] = [
    (PingKind::U32, 1, 0),
    (PingKind::U32, 32_764, 0),
    (PingKind::U32, 32_765, 5),
    (PingKind::U32_16Angles, 32_764, 0),
    (PingKind::U32_16Angles, 32_765, 5),
    (PingKind::U16, 32_764, 0),
    (PingKind::U16, 32_765, 11),
    (PingKind::U16, 65_528, 11),
    (PingKind::U16Angles, 32_764, 0),
    (PingKind::U16Angles, 32_765, 11),
];

/// Few samples of every kind that numbers them, odd and even in number, the last at the
/// end of the numbers.
fn few_case(style: &Style) -> Case {
    let mut rng = Rng::new(20);
    let mut pings = Vec::new();
    for (kind, most) in [
        (PingKind::U32, u32::MAX),
        (PingKind::U32_16Angles, u32::MAX),
        (PingKind::U16, 0xFFFF),
        (PingKind::U16Angles, 0xFFFF),
    ] {
        for count in 1..=6 {
            let mut samples = samples_of(kind, count);
            pings.push(listed_ping(&mut rng, 1, kind, samples.clone()));
            samples[count as usize - 1].0 = most;
            pings.push(listed_ping(&mut rng, 1, kind, samples));
        }
    }
    let drafts = with(&mut rng, pings);
    case("pairs-few".to_string(), &drafts, style, MORE, 0)
}

/// U-16-angles of a length that no number of samples has.
fn angles_length_case(length: usize, style: &Style) -> Case {
    let mut rng = Rng::new(21);
    let data = rng.bytes(length - 10);
    let more = vec![Draft::new(&mut rng, 10031, Body::Raw(data))];
    let drafts = with(&mut rng, more);
    let name = format!("u16angles-length-{length}");
    case(name, &drafts, style, MORE, 9)
}

/// A text, or the end of file's data, as long as a tuple holds, and longer.
fn text_case(text: usize, style: &Style) -> Case {
    let mut rng = Rng::new(6);
    let code = if text == 0 {
        9
    } else if text > 262_124 {
        5
    } else {
        0
    };
    let more = vec![marker(&mut rng, text)];
    let drafts = with(&mut rng, more);
    case(format!("text-{text}"), &drafts, style, MORE, code)
}

fn data_case(data: usize, style: &Style) -> Case {
    let mut rng = Rng::new(8);
    let mut drafts = base(&mut rng);
    drafts[MORE] = end_of_file(&mut rng, data);
    let code = if data > 262_122 { 5 } else { 0 };
    case(format!("data-{data}"), &drafts, style, MORE, code)
}

/// Channel 65535: an identifier like any other, but "all" in an attitude.
fn all_channels_case(nth: usize, style: &Style) -> Case {
    let mut rng = Rng::new(9);
    let (name, more, code): (_, Vec<Draft>, _) = match nth {
        0 => ("attitude", vec![attitude(&mut rng, 65535)], 0),
        1 => ("ping", vec![ping(&mut rng, 65535, vec![(1, 1)])], 13),
        2 => ("threshold", vec![threshold(&mut rng, 65535)], 13),
        _ => {
            let more = vec![
                channel(&mut rng, 65535, 1),
                ping(&mut rng, 65535, vec![(1, 1)]),
                threshold(&mut rng, 65535),
                attitude(&mut rng, 65535),
            ];
            ("declared", more, 0)
        }
    };
    let mut drafts = with(&mut rng, more);
    if nth == 3 {
        drafts[1].pieces()[0] = Piece::Two(2);
    }
    case(format!("65535-{name}"), &drafts, style, MORE, code)
}

/// A channel of the EK-500 that names the base's sounder, which is Biosonics's.
fn other_maker_case(style: &Style) -> Case {
    let mut rng = Rng::new(10);
    let more = vec![ek500_channel(&mut rng, 2, 1)];
    let drafts = with(&mut rng, more);
    case("other-maker".to_string(), &drafts, style, MORE, 13)
}

type Making = Box<dyn Fn(&Style) -> Case>;

/// Those of words of two bytes.
fn narrow_makings() -> Vec<Making> {
    let mut makings: Vec<Making> = Vec::new();
    for (kind, limit) in BAD_WORDS {
        makings.push(Box::new(move |style| words_case(kind, &limit, style)));
    }
    for kind in [PingKind::C16, PingKind::Ce16] {
        makings.push(Box::new(move |style| good_words_case(kind, style)));
        makings.push(Box::new(move |style| spaces_case(kind, style)));
        makings.push(Box::new(move |style| no_space_case(kind, 0, style)));
        makings.push(Box::new(move |style| narrow_silences_case(kind, style)));
        makings.push(Box::new(move |style| {
            last_value_case(kind, 32_764, 0, style)
        }));
        makings.push(Box::new(move |style| {
            last_value_case(kind, 32_765, 11, style)
        }));
    }
    for nth in 1..NO_SPACES.len() {
        makings.push(Box::new(move |style| {
            no_space_case(PingKind::C16, nth, style)
        }));
    }
    for many in MANY_NARROW {
        makings.push(Box::new(move |style| many_case(PingKind::C16, many, style)));
    }
    let [_, too_many, _] = MANY_NARROW;
    makings.push(Box::new(move |style| {
        many_case(PingKind::Ce16, too_many, style)
    }));
    for family in [Family::Bits16, Family::Ce16] {
        makings.push(Box::new(move |style| reach_case(family, style)));
    }
    makings
}

fn makings() -> Vec<Making> {
    let mut makings: Vec<Making> = Vec::new();
    for nth in 0..LENGTHS.len() {
        makings.push(Box::new(move |style| length_case(nth, style)));
    }
    for count in MOST_SOUNDERS - 1..=MOST_SOUNDERS + 1 {
        makings.push(Box::new(move |style| sounders_case(count, style)));
    }
    for count in MOST_CHANNELS - 1..=MOST_CHANNELS + 1 {
        makings.push(Box::new(move |style| channels_case(count, style)));
    }
    for making in vessels::CASES {
        makings.push(Box::new(making));
    }
    for nth in 0..IDENTIFIERS.len() {
        makings.push(Box::new(move |style| identifier_case(nth, style)));
    }
    for limit in WORDS {
        makings.push(Box::new(move |style| {
            words_case(PingKind::C32, &limit, style)
        }));
    }
    for (name, ping_words) in SILENT {
        makings.push(Box::new(move |style| {
            silences_case(name, ping_words, style)
        }));
    }
    for many in MANY {
        makings.push(Box::new(move |style| many_case(PingKind::C32, many, style)));
    }
    for kind in [PingKind::C32, PingKind::C16, PingKind::Ce16] {
        makings.push(Box::new(move |style| {
            longest_silence_case(kind, "longest", radix(kind), style)
        }));
        makings.push(Box::new(move |style| full_and_silent_case(kind, style)));
    }
    for kind in [PingKind::C32, PingKind::C16] {
        makings.push(Box::new(move |style| {
            longest_silence_case(kind, "most-runs", 1, style)
        }));
    }
    makings.extend(narrow_makings());
    for (kind, count, code) in LISTED {
        makings.push(Box::new(move |style| listed_case(kind, count, code, style)));
    }
    makings.push(Box::new(few_case));
    for length in [36, 48] {
        makings.push(Box::new(move |style| angles_length_case(length, style)));
    }
    for text in [0, 4, 262_124, 262_128] {
        makings.push(Box::new(move |style| text_case(text, style)));
    }
    for data in [2, 262_122, 262_126] {
        makings.push(Box::new(move |style| data_case(data, style)));
    }
    for nth in 0..4 {
        makings.push(Box::new(move |style| all_channels_case(nth, style)));
    }
    makings.push(Box::new(other_maker_case));
    makings
}

/// How many limit cases there are that are soon made.
pub fn limit_count() -> usize {
    makings().len()
}

/// A limit case of at most about half a megabyte, in both orders; every other
/// one with 44201 in its signature.
pub fn limit(nth: usize) -> [Case; 2] {
    let makings = makings();
    Order::BOTH.map(|order| {
        let style = Style {
            printed: nth % 2 == 1,
            rubbish: true,
            ..Style::plain(order)
        };
        makings[nth % makings.len()](&style)
    })
}

/// How many limit cases of about 16 MiB there are.
pub fn big_limit_count() -> usize {
    6
}

/// A limit case of 8 to 16 MiB: files at and past the limit, and files whose
/// normal form is at it or past it (the check accepts these two). Of the two at the
/// limit the first has no index, and so its normal form is past it, too.
pub fn big_limit(nth: usize) -> Case {
    const LIMIT: usize = FILE_LIMIT;
    let (name, order, bytes, code) = match nth {
        0 => ("at", Order::Lsb, filled(Order::Lsb, LIMIT), 0),
        1 => ("at", Order::Msb, filled_and_indexed(Order::Msb, LIMIT), 0),
        2 => ("past-by-4", Order::Lsb, filled(Order::Lsb, LIMIT + 4), 1),
        3 => {
            let mut bytes = filled(Order::Msb, LIMIT);
            bytes.push(0);
            ("past-by-1", Order::Msb, bytes, 1)
        }
        4 => ("normal-at", Order::Msb, dense(Order::Msb, LIMIT), 0),
        _ => ("normal-past", Order::Lsb, dense(Order::Lsb, LIMIT + 4), 0),
    };
    let style = Style::plain(order);
    let name = format!("limit-16mib-{name}-{}", style.name());
    Case::new(name, bytes, Some((code, 0)))
}

/// The bytes of the index of a filled file: the base's six types and that of event markers, so
/// there is a space, which may be another type.
pub(super) const FILLED_INDEX: usize = 20 + 16;

/// Length of the normal form of some drafts, all listed, without its index: that of the
/// file in U-32.
fn plain_length(drafts: &[Draft]) -> usize {
    let mut rng = Rng::new(1);
    render(drafts, &Style::plain(Order::Lsb), &mut rng)
        .bytes
        .len()
}

/// Fills drafts up with event markers until the normal form has some length, its index not
/// counted.
fn fill(rng: &mut Rng, drafts: &mut Vec<Draft>, length: usize) {
    let mut left = length - plain_length(drafts);
    while left > 0 {
        // no remainder under the least marker's 24 bytes
        let tuple = if left > 262_144 + 24 {
            262_144
        } else if left > 262_144 {
            131_072
        } else {
            left
        };
        drafts.insert(MORE, marker(rng, tuple - 20));
        left -= tuple;
    }
}

/// A file of event markers, exactly so long.
pub(super) fn filled(order: Order, length: usize) -> Vec<u8> {
    filled_with(order, length, Vec::new())
}

/// The same with an index, though of other types.
fn filled_and_indexed(order: Order, length: usize) -> Vec<u8> {
    filled_with(order, length, vec![index_of(&[7; 8])])
}

fn filled_with(order: Order, length: usize, more: Vec<Draft>) -> Vec<u8> {
    let mut rng = Rng::new(length as u64);
    let mut drafts = with(&mut rng, more);
    fill(&mut rng, &mut drafts, length);
    render(&drafts, &Style::plain(order), &mut rng).bytes
}

/// A file of full C-32 pings whose normal form is exactly so long.
fn dense(order: Order, length: usize) -> Vec<u8> {
    let mut rng = Rng::new(length as u64);
    let pings = (0..63)
        .map(|nth| {
            let samples = (0..32_764).map(|n| (n, n as i32 + nth)).collect();
            ping(&mut rng, 1, samples)
        })
        .collect();
    let mut drafts = with(&mut rng, pings);
    fill(&mut rng, &mut drafts, length - FILLED_INDEX);
    let style = Style {
        pings: PingStyle::Packed,
        ..Style::plain(order)
    };
    render(&drafts, &style, &mut rng).bytes
}
