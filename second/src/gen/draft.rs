//! Drafts of tuples, and their rendering as bytes in a style.

use super::Rng;
use crate::kinds::{Family, PingKind};
use crate::order::Order;

/// A field of a draft.
#[derive(Clone, PartialEq, Eq, Debug)]
pub enum Piece {
    Two(u16),
    Four(u32),
    Chars(Vec<u8>),
    /// A space of two bytes.
    Space,
    /// A signature's identifier; the style says which of the two numbers.
    Identifier,
}

#[derive(Clone, PartialEq, Eq, Debug)]
pub enum Body {
    Fields(Vec<Piece>),
    /// A sound ping; the style says which kind of its family it becomes, but it is in
    /// words where it has a length, or no samples, or one that the other kind can't
    /// number.
    Ping {
        family: Family,
        header: Vec<Piece>,
        samples: Vec<(u32, i32)>,
        length: Option<u32>,
    },
    /// A ping of a kind that numbers its samples, as it stands, sound or not: each number
    /// with its value, or with two angles.
    Listed {
        kind: PingKind,
        header: Vec<Piece>,
        samples: Vec<(u32, [u32; 2])>,
    },
    /// A ping of words as it stands, sound or not, with a space behind them where they
    /// need one.
    Words {
        kind: PingKind,
        header: Vec<Piece>,
        count: u32,
        words: Vec<u32>,
    },
    /// The data bytes of any type, attribute included.
    Raw(Vec<u8>),
}

/// A number of the frame that is written wrong.
#[derive(Clone, Copy, PartialEq, Eq, Debug)]
pub enum Patch {
    Size(u32),
    Backlink(u32),
}

#[derive(Clone, PartialEq, Eq, Debug)]
pub struct Draft {
    pub code: u16,
    pub body: Body,
    pub attribute: u32,
    pub patch: Option<Patch>,
}

impl Draft {
    pub fn fields(rng: &mut Rng, code: u16, pieces: Vec<Piece>) -> Draft {
        Draft::new(rng, code, Body::Fields(pieces))
    }

    pub fn new(rng: &mut Rng, code: u16, body: Body) -> Draft {
        Draft {
            code,
            body,
            attribute: rng.pick(&[0, 0, 1, u32::MAX, 0x8000_0000, 0x0102_0304]),
            patch: None,
        }
    }

    /// The fields, or a ping's header.
    pub fn pieces(&mut self) -> &mut [Piece] {
        match &mut self.body {
            Body::Fields(pieces) => pieces,
            Body::Ping { header, .. }
            | Body::Listed { header, .. }
            | Body::Words { header, .. } => header,
            Body::Raw(_) => &mut [],
        }
    }

    /// Whether it is a ping, sound or not, and so names a channel.
    pub(super) fn is_ping(&self) -> bool {
        !matches!(self.body, Body::Fields(_) | Body::Raw(_))
    }
}

/// The kind of its family that a sound ping becomes, where it may: the one that numbers
/// samples, the one of words, or either.
#[derive(Clone, Copy, PartialEq, Eq, Debug)]
pub enum PingStyle {
    Listed,
    Packed,
    Mixed,
}

/// Everything of a file that is no content.
#[derive(Clone, Debug)]
pub struct Style {
    pub order: Order,
    /// TR's printed 44201 in the signature, in place of 44204.
    pub printed: bool,
    /// Rubbish in the spaces.
    pub rubbish: bool,
    pub pings: PingStyle,
    /// Runs cut otherwise than full ones first, and in more pieces than needed.
    pub cut: bool,
    /// Half of the zeros of CE-16 pings with a sign.
    pub minus_zero: bool,
    /// Index-class tuples strewn in.
    pub index: bool,
}

impl Style {
    pub fn any(rng: &mut Rng) -> Style {
        let order = rng.pick(&Order::BOTH);
        Style {
            order,
            ..Style::any_lsb(rng)
        }
    }

    pub fn any_lsb(rng: &mut Rng) -> Style {
        Style {
            order: Order::Lsb,
            printed: rng.chance(40),
            rubbish: rng.chance(60),
            pings: rng.pick(&[PingStyle::Listed, PingStyle::Packed, PingStyle::Mixed]),
            cut: rng.chance(60),
            minus_zero: rng.chance(50),
            index: rng.chance(40),
        }
    }

    pub fn plain(order: Order) -> Style {
        Style {
            order,
            printed: false,
            rubbish: false,
            pings: PingStyle::Listed,
            cut: false,
            minus_zero: false,
            index: false,
        }
    }

    pub fn name(&self) -> &'static str {
        match self.order {
            Order::Lsb => "lsb",
            Order::Msb => "msb",
        }
    }
}

pub struct Rendered {
    pub bytes: Vec<u8>,
    /// Where each draft's tuple starts.
    pub places: Vec<usize>,
}

/// Bytes of a file under the pen.
pub(super) struct Pen {
    pub bytes: Vec<u8>,
    order: Order,
}

impl Pen {
    pub fn new(order: Order) -> Pen {
        Pen {
            bytes: Vec::new(),
            order,
        }
    }

    fn two(&mut self, number: u16) {
        let (high, low) = ((number >> 8) as u8, number as u8);
        match self.order {
            Order::Lsb => self.bytes.extend([low, high]),
            Order::Msb => self.bytes.extend([high, low]),
        }
    }

    pub fn four(&mut self, number: u32) {
        let (high, low) = ((number >> 16) as u16, number as u16);
        match self.order {
            Order::Lsb => {
                self.two(low);
                self.two(high);
            }
            Order::Msb => {
                self.two(high);
                self.two(low);
            }
        }
    }

    fn pieces(&mut self, pieces: &[Piece], style: &Style, rng: &mut Rng) {
        for piece in pieces {
            match piece {
                Piece::Two(number) => self.two(*number),
                Piece::Four(number) => self.four(*number),
                Piece::Chars(chars) => self.bytes.extend(chars),
                Piece::Space if style.rubbish => self.two(rng.two()),
                Piece::Space => self.two(0),
                Piece::Identifier if style.printed => self.two(44201),
                Piece::Identifier => self.two(44204),
            }
        }
    }

    /// A number of two bytes or of four.
    pub fn number(&mut self, width: usize, number: u32) {
        match width {
            2 => self.two(number as u16),
            _ => self.four(number),
        }
    }

    /// A space where so many bytes leave one, with rubbish in it if the style asks for
    /// that: anything below a number.
    fn space_behind(&mut self, bytes: usize, below: u64, style: &Style, rng: &mut Rng) {
        if bytes.is_multiple_of(4) {
            return;
        }
        self.two(match rng.below(2) {
            _ if !style.rubbish => 0,
            0 => rng.pick(&[1, 0x00FF, 0x7F00, 0x8000, 0xFEFF]),
            _ => rng.below(below) as u16,
        });
    }

    /// Samples with one value or with two, by their kind.
    fn listed(
        &mut self,
        kind: PingKind,
        samples: &[(u32, [u32; 2])],
        style: &Style,
        rng: &mut Rng,
    ) {
        let coding = coding(kind);
        for (number, values) in samples {
            self.number(coding.number, *number);
            for value in &values[..coding.values] {
                self.number(coding.value, *value);
            }
        }
        let bytes = samples.len() * (coding.number + coding.value * coding.values);
        self.space_behind(bytes, 0x1_0000, style, rng);
    }

    /// Count and words. The space behind them is never a run, which would be a word.
    fn words(&mut self, kind: PingKind, count: u32, words: &[u32], style: &Style, rng: &mut Rng) {
        let width = coding(kind).value;
        self.four(count);
        for word in words {
            self.number(width, *word);
        }
        self.space_behind(words.len() * width, 0xFF00, style, rng);
    }

    pub fn tuple(&mut self, draft: &Draft, style: &Style, rng: &mut Rng) {
        let start = self.bytes.len();
        let mut code = draft.code;
        let mut inner = Pen::new(self.order);
        match &draft.body {
            Body::Fields(pieces) => inner.pieces(pieces, style, rng),
            Body::Ping {
                family,
                header,
                samples,
                length,
            } => {
                inner.pieces(header, style, rng);
                code = coding(inner.ping(*family, samples, *length, style, rng)).code;
            }
            Body::Listed {
                kind,
                header,
                samples,
            } => {
                inner.pieces(header, style, rng);
                inner.listed(*kind, samples, style, rng);
                code = coding(*kind).code;
            }
            Body::Words {
                kind,
                header,
                count,
                words,
            } => {
                inner.pieces(header, style, rng);
                inner.words(*kind, *count, words, style, rng);
                code = coding(*kind).code;
            }
            Body::Raw(data) => inner.bytes.extend(data),
        }
        if !matches!(draft.body, Body::Raw(_)) {
            inner.four(draft.attribute);
        }
        let size = inner.bytes.len() as u32;
        self.four(match draft.patch {
            Some(Patch::Size(size)) => size,
            _ => size,
        });
        self.two(code);
        self.bytes.append(&mut inner.bytes);
        let length = (self.bytes.len() - start + 4) as u32;
        self.four(match draft.patch {
            Some(Patch::Backlink(backlink)) => backlink,
            _ => length,
        });
    }

    /// Writes a sound ping and gives the kind that it has become.
    fn ping(
        &mut self,
        family: Family,
        samples: &[(u32, i32)],
        length: Option<u32>,
        style: &Style,
        rng: &mut Rng,
    ) -> PingKind {
        let packed = match style.pings {
            PingStyle::Listed => false,
            PingStyle::Packed => true,
            PingStyle::Mixed => rng.chance(50),
        };
        let (listed, words) = spellings(family);
        let numbered = listed.filter(|kind| length.is_none() && can_number(*kind, samples));
        match numbered {
            Some(kind) if !packed || !suits_words(family, samples, length) => {
                let samples: Vec<_> = samples.iter().map(|(n, v)| (*n, [*v as u32, 0])).collect();
                self.listed(kind, &samples, style, rng);
                kind
            }
            _ => {
                let cut = cut_words(words, samples, length, style, rng);
                self.words(words, samples.len() as u32, &cut, style, rng);
                words
            }
        }
    }
}

/// What the encoder knows of a kind, apart from the library's table: its type code, bytes
/// of a sample number, if it has any, and of a value or word, and values of a sample.
pub(super) struct Coding {
    pub code: u16,
    pub number: usize,
    pub value: usize,
    pub values: usize,
}

pub(super) fn coding(kind: PingKind) -> Coding {
    let (code, number, value, values) = match kind {
        PingKind::U32 => (10000, 4, 4, 1),
        PingKind::U32_16Angles => (10001, 4, 2, 2),
        PingKind::C32 => (10010, 0, 4, 1),
        PingKind::U16 => (10030, 2, 2, 1),
        PingKind::U16Angles => (10031, 2, 2, 2),
        PingKind::C16 => (10040, 0, 2, 1),
        PingKind::Ce16 => (10050, 0, 2, 1),
    };
    Coding {
        code,
        number,
        value,
        values,
    }
}

/// The kinds of a family without angles: the one that numbers samples, if there is one,
/// and the one of words.
pub(super) fn spellings(family: Family) -> (Option<PingKind>, PingKind) {
    match family {
        Family::Bits16 => (Some(PingKind::U16), PingKind::C16),
        Family::Ce16 => (None, PingKind::Ce16),
        _ => (Some(PingKind::U32), PingKind::C32),
    }
}

/// Whether a kind's numbers have room for those of a list.
fn can_number(kind: PingKind, samples: &[(u32, i32)]) -> bool {
    let last = samples.last();
    last.is_some_and(|(number, _)| coding(kind).number == 4 || *number <= 0xFFFF)
}

/// The samples of the longest run of a kind: as many as half of a word's bits tell.
pub(super) fn radix(kind: PingKind) -> u64 {
    match coding(kind).value {
        2 => 256,
        _ => 65_536,
    }
}

/// The most words that a ping of 262,144 bytes has room for.
pub(super) fn most_words(kind: PingKind) -> u64 {
    (262_144 - 36) / coding(kind).value as u64
}

/// The words of a kind that are no run, which is the count that a ping has to state.
pub(super) fn no_runs(kind: PingKind, words: &[u32]) -> u32 {
    let radix = radix(kind) as u32;
    let values = words.iter().filter(|word| **word / radix != radix - 1);
    values.count() as u32
}

/// The word of a value, if it has one: by the tables, and by trying all exponents.
pub(super) fn word(kind: PingKind, value: i32) -> Option<u32> {
    match kind {
        PingKind::Ce16 => {
            let counts = value.unsigned_abs();
            let word = (0..8).find_map(|exponent| match exponent {
                0 => (counts < 4096).then_some(counts),
                _ => {
                    let unit = 1 << (exponent - 1);
                    let whole =
                        counts.is_multiple_of(unit) && (4096..8192).contains(&(counts / unit));
                    whole.then(|| exponent * 4096 + counts / unit - 4096)
                }
            });
            let sign = if value < 0 { 0x8000 } else { 0 };
            word.filter(|word| *word < 0x7F00).map(|word| word + sign)
        }
        PingKind::C16 => {
            let has_word = (-32_511..=-257).contains(&value) || (0..=32_511).contains(&value);
            has_word.then_some(value as u32 & 0xFFFF)
        }
        _ => {
            let has_word =
                (-2_147_418_112..=-65_537).contains(&value) || (0..=2_147_418_111).contains(&value);
            has_word.then_some(value as u32)
        }
    }
}

/// The gap before each sample, and the one behind the last up to the length.
fn gaps(samples: &[(u32, i32)], length: Option<u32>) -> (Vec<u64>, u64) {
    let mut next = 0;
    let before = samples.iter().map(|(number, _)| {
        let gap = u64::from(*number).saturating_sub(next);
        next = u64::from(*number) + 1;
        gap
    });
    let before = before.collect();
    (before, u64::from(length.unwrap_or(0)).saturating_sub(next))
}

/// The fewest run words for a gap.
fn runs_needed(kind: PingKind, gap: u64) -> u64 {
    gap.div_ceil(radix(kind))
}

fn words_needed(kind: PingKind, samples: &[(u32, i32)], length: Option<u32>) -> u64 {
    let (before, behind) = gaps(samples, length);
    let gaps = before.into_iter().chain([behind]);
    samples.len() as u64 + gaps.map(|gap| runs_needed(kind, gap)).sum::<u64>()
}

/// Whether every value has a word of the family and all words have room.
pub(super) fn suits_words(family: Family, samples: &[(u32, i32)], length: Option<u32>) -> bool {
    let (_, kind) = spellings(family);
    samples.len() <= 32_764
        && samples
            .iter()
            .all(|(_, value)| word(kind, *value).is_some())
        && words_needed(kind, samples, length) <= most_words(kind)
}

/// Whether a list without a length is sound in some kind of the family.
pub(super) fn suits(family: Family, samples: &[(u32, i32)]) -> bool {
    let (listed, _) = spellings(family);
    let narrow = |(_, value): &(u32, i32)| i16::try_from(*value).is_ok();
    let fits = |kind: PingKind| coding(kind).value == 4 || samples.iter().all(narrow);
    listed.is_some_and(|kind| can_number(kind, samples) && fits(kind))
        || !samples.is_empty() && suits_words(family, samples, None)
}

/// The word of a run.
pub(super) fn run(kind: PingKind, length: u64) -> u32 {
    let radix = radix(kind);
    (radix * (radix - 1) + length - 1) as u32
}

/// Ways to say one gap in runs.
#[derive(Clone, Copy, PartialEq, Eq, Debug)]
pub(super) enum Cut {
    /// Full runs first, the remainder last: the normal form's.
    Fewest,
    /// As few words, the remainder first.
    RemainderFirst,
    /// Two shares of a half each, cut in the fewest.
    Halves,
    /// About so many runs of one length, the last one shorter.
    Short(u64),
}

impl Cut {
    pub(super) const ALL: [Cut; 4] = [
        Cut::Fewest,
        Cut::RemainderFirst,
        Cut::Halves,
        Cut::Short(40),
    ];

    pub(super) fn runs(self, kind: PingKind, gap: u64) -> Vec<u32> {
        let most = radix(kind);
        let full = |gap: u64| vec![run(kind, most); (gap / most) as usize];
        let rest = |gap: u64| (!gap.is_multiple_of(most)).then(|| run(kind, gap % most));
        match self {
            Cut::Fewest => full(gap).into_iter().chain(rest(gap)).collect(),
            Cut::RemainderFirst => rest(gap).into_iter().chain(full(gap)).collect(),
            Cut::Halves => {
                let half = gap / 2;
                [half, gap - half]
                    .into_iter()
                    .flat_map(|share| Cut::Fewest.runs(kind, share))
                    .collect()
            }
            Cut::Short(count) => {
                let length = gap.div_ceil(count).clamp(1, most);
                let mut runs = vec![run(kind, length); (gap / length) as usize];
                runs.extend((!gap.is_multiple_of(length)).then(|| run(kind, gap % length)));
                runs
            }
        }
    }
}

/// Run words for a gap: the fewest, or cut otherwise while there is slack.
fn cut_gap(kind: PingKind, gap: u64, cut: bool, slack: &mut u64, rng: &mut Rng) -> Vec<u32> {
    if !cut || gap == 0 {
        return Cut::Fewest.runs(kind, gap);
    }
    let runs = match rng.below(6) {
        0 | 1 => cut_anywhere(kind, gap, rng),
        _ => rng.pick(&Cut::ALL).runs(kind, gap),
    };
    let more = runs.len() as u64 - runs_needed(kind, gap);
    if more > *slack {
        return Cut::Fewest.runs(kind, gap);
    }
    *slack -= more;
    runs
}

/// Up to three runs of any length, then the fewest.
fn cut_anywhere(kind: PingKind, mut gap: u64, rng: &mut Rng) -> Vec<u32> {
    let mut runs = Vec::new();
    for _ in 0..rng.below(4) {
        if gap > 1 {
            let most = (gap - 1).min(radix(kind));
            let length = match rng.below(3) {
                0 => 1,
                1 => most,
                _ => 1 + rng.below(most),
            };
            runs.push(run(kind, length));
            gap -= length;
        }
    }
    runs.extend(Cut::Fewest.runs(kind, gap));
    runs
}

/// The words of samples that suit them.
fn cut_words(
    kind: PingKind,
    samples: &[(u32, i32)],
    length: Option<u32>,
    style: &Style,
    rng: &mut Rng,
) -> Vec<u32> {
    let mut slack = most_words(kind) - words_needed(kind, samples, length);
    let (before, behind) = gaps(samples, length);
    let mut words = Vec::new();
    for (gap, (_, value)) in before.into_iter().zip(samples) {
        words.extend(cut_gap(kind, gap, style.cut, &mut slack, rng));
        let second = kind == PingKind::Ce16 && *value == 0 && style.minus_zero && rng.chance(50);
        words.push(if second {
            0x8000
        } else {
            word(kind, *value).unwrap_or(0)
        });
    }
    words.extend(cut_gap(kind, behind, style.cut, &mut slack, rng));
    words
}

/// The type of the Index 1 tuple: TR's Table 14.
pub(super) const INDEX_1: u16 = 65406;

/// An index-class tuple with anything in it.
pub(super) fn index_tuple(rng: &mut Rng) -> Draft {
    let code = rng.pick(&[65406, 65407, 65450, 65514, 65515]);
    let data = rng.index(6) * 4 + 6;
    let data = rng.bytes(data);
    Draft::new(rng, code, Body::Raw(data))
}

/// TR's Index 1 tuple of these types, with a space of 0 where they are odd in number.
pub fn index_of(types: &[u16]) -> Draft {
    let mut pieces = vec![Piece::Two(0), Piece::Four(0)];
    pieces.extend(types.iter().copied().map(Piece::Two));
    if types.len() % 2 == 1 {
        pieces.push(Piece::Two(0));
    }
    Draft {
        code: INDEX_1,
        body: Body::Fields(pieces),
        attribute: 0,
        patch: None,
    }
}

/// The bytes of a whole file, mark first.
pub fn render(drafts: &[Draft], style: &Style, rng: &mut Rng) -> Rendered {
    let mut pen = Pen::new(style.order);
    pen.four(0xAC);
    let mut places = Vec::new();
    for (nth, draft) in drafts.iter().enumerate() {
        while style.index && nth > 0 && rng.chance(15) {
            let index = index_tuple(rng);
            pen.tuple(&index, style, rng);
        }
        places.push(pen.bytes.len());
        pen.tuple(draft, style, rng);
    }
    Rendered {
        bytes: pen.bytes,
        places,
    }
}
