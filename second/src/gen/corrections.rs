//! Pairs for request k of 02: a deposit and a corrections file, and what is worth asking of
//! them.

use super::draft::{render, Draft, Piece, Style};
use super::faults::{fault_in, noise, FAULT_KINDS};
use super::sound::{any_ping, ping_header, short_ping, Plan, Wish, SMALL_IDS};
use super::Rng;
use Piece::{Four, Two};

/// A software channel and a ping number.
pub type Question = (u16, u32);

/// A pair of files, sound or not, and the questions to ask of it.
#[derive(Clone, Debug)]
pub struct CorrectionCase {
    /// Says what the pair is for.
    pub name: String,
    pub deposit: Vec<u8>,
    pub corrections: Vec<u8>,
    pub questions: Vec<Question>,
}

/// How a pair is made.
struct Recipe {
    name: &'static str,
    /// Out of a hundred of the deposit's pings so many are in the corrections file.
    share: u64,
    /// Each of these comes there so many times, at most.
    most: u64,
    /// Out of a hundred pings there so many have attribute 1.
    edited: u64,
    /// So many pings there, at most, are of names beside the deposit's.
    strangers: u64,
    /// Out of a hundred pings of the deposit, and of the corrections, so many only look like
    /// one.
    look_alikes: [u64; 2],
    /// Whether the deposit is refused, and whether the corrections are.
    refused: [bool; 2],
    /// Whether the deposit is the corrections file, too.
    same: bool,
}

/// The attribute of a correction.
const EDITED: u32 = 1;

/// Attributes beside it: TR's original tuple, another label and a negative one; those that
/// are 1 in the other byte order, or in some of their bytes alone.
#[rustfmt::skip]
const OTHERS: [u32; 8] = [0, 0, 2, u32::MAX, 0x0100_0000, 0x0001_0000, 0x8000_0001, 257];

const MIXED: Recipe = Recipe {
    name: "mixed",
    share: 50,
    most: 3,
    edited: 50,
    strangers: 4,
    look_alikes: [0, 0],
    refused: [false, false],
    same: false,
};

#[rustfmt::skip]
const RECIPES: [Recipe; 15] = [
    MIXED,
    Recipe { name: "some", share: 30, most: 1, edited: 100, strangers: 0, ..MIXED },
    Recipe { name: "all", share: 100, most: 1, edited: 100, strangers: 0, ..MIXED },
    Recipe { name: "several", share: 40, most: 6, ..MIXED },
    Recipe { name: "unedited", share: 100, edited: 0, ..MIXED },
    Recipe { name: "none", share: 0, strangers: 0, ..MIXED },
    Recipe { name: "strangers", share: 0, edited: 100, strangers: 8, ..MIXED },
    Recipe { name: "look-alikes", share: 100, edited: 100, look_alikes: [0, 100], ..MIXED },
    Recipe { name: "look-alikes-among", share: 80, most: 4, edited: 80, look_alikes: [40, 60], ..MIXED },
    Recipe { name: "look-alikes-alone", edited: 100, look_alikes: [100, 100], ..MIXED },
    Recipe { name: "same", look_alikes: [10, 0], same: true, ..MIXED },
    Recipe { name: "refused-deposit", refused: [true, false], ..MIXED },
    Recipe { name: "refused-corrections", refused: [false, true], ..MIXED },
    Recipe { name: "refused-both", refused: [true, true], ..MIXED },
    Recipe { name: "refused-same", refused: [true, false], same: true, ..MIXED },
];

/// Out of a hundred pings of a deposit so many have attribute 1 without being corrections.
const EDITED_DEPOSITED: u64 = 30;

/// Channels of a deposit.
const CHANNELS: [u64; 6] = [1, 1, 2, 2, 3, 5];

/// First numbers of a deposit's pings: from some on they pass to another byte, or from the
/// largest one to 0.
const STARTS: [u32; 8] = [
    0,
    1,
    254,
    65_533,
    0x00FF_FFFE,
    0x7FFF_FFFE,
    u32::MAX - 2,
    u32::MAX,
];

/// The largest channel and number.
const LAST: Question = (u16::MAX, u32::MAX);

/// Where a ping's header has what stands behind the channel: the mode, the ping's number,
/// the bottom's range.
const MODE: usize = 3;
const NUMBER: usize = 4;
const BOTTOM: usize = 5;

/// Types that aren't listed pings, and how many numbers of four bytes they need behind a
/// ping's header: unlisted ones, most of them of the class of pings, and listed ones.
#[rustfmt::skip]
const UNLISTED: [(u16, usize); 11] = [
    (10002, 2), (10009, 2), (10011, 3), (10020, 2), (10029, 2), (10032, 2), (10041, 3),
    (10051, 3), (10099, 2), (65400, 2), (65406, 2),
];
const LISTED: [(u16, usize); 4] = [(20, 1), (40, 1), (10100, 3), (MARKER, 2)];

/// The type and the length of a U-32 ping of one sample, and the type whose text it may be.
const PING: (u16, u32) = (10000, 40);
const MARKER: u16 = 10110;

/// A file under way, and the names of its pings and of what looks like one.
struct Sheet {
    plan: Plan,
    named: Vec<Question>,
}

impl Sheet {
    fn begin(rng: &mut Rng) -> Sheet {
        let mut plan = Plan::begin(rng);
        for _ in 0..1 + rng.below(2) {
            plan.add_sounder(rng);
        }
        Sheet {
            plan,
            named: Vec::new(),
        }
    }

    /// Declares a channel where it isn't yet.
    fn declare(&mut self, rng: &mut Rng, channel: u16) {
        let mut known = self.plan.channels.iter();
        if !known.any(|(id, _)| *id == channel) {
            self.plan.declare_channel(rng, channel);
        }
    }

    /// Adds a ping of a name, or what looks like one, now and then with another tuple before
    /// it.
    fn add(&mut self, rng: &mut Rng, name: Question, attribute: u32, look_alike: bool) {
        self.declare(rng, name.0);
        if rng.chance(20) {
            self.plan.add_other(rng);
        }
        let mut draft = if look_alike {
            any_look_alike(rng, name, attribute)
        } else {
            self.named_ping(rng, name)
        };
        draft.attribute = attribute;
        self.plan.drafts.push(draft);
        self.named.push(name);
    }

    /// A ping of any kind, mostly a short one. At times its other fields have another ping's
    /// name.
    fn named_ping(&self, rng: &mut Rng, (channel, number): Question) -> Draft {
        let mut draft = match rng.below(10) {
            0 => any_ping(rng, channel, true),
            _ => short_ping(rng, channel),
        };
        let header = draft.pieces();
        header[NUMBER] = Four(number);
        if !self.named.is_empty() && rng.chance(30) {
            let (channel, number) = rng.pick(&self.named);
            header[MODE] = Two(channel);
            header[BOTTOM] = Four(number);
        }
        draft
    }

    /// The whole file. A class that is missing, that of pings too, may be filled by an
    /// unlisted type.
    fn end(mut self, rng: &mut Rng) -> Vec<Draft> {
        self.plan.fill_classes(rng, &Wish::any());
        self.plan.end(rng)
    }
}

/// A ping's header with its name.
fn named_header(rng: &mut Rng, (channel, number): Question) -> Vec<Piece> {
    let mut header = ping_header(rng, channel);
    header[NUMBER] = Four(number);
    header
}

/// A tuple that has a ping's name where a ping has it, or a whole ping in its text.
fn any_look_alike(rng: &mut Rng, name: Question, attribute: u32) -> Draft {
    let (code, more) = match rng.below(5) {
        0 => return text_of_a_ping(rng, name, attribute),
        1 | 2 => rng.pick(&LISTED),
        _ => rng.pick(&UNLISTED),
    };
    let mut pieces = named_header(rng, name);
    pieces.extend((0..more).map(|_| Four(rng.four())));
    Draft::fields(rng, code, pieces)
}

fn text_of_a_ping(rng: &mut Rng, name: Question, attribute: u32) -> Draft {
    let (code, length) = PING;
    let mut pieces = vec![Two(rng.two()), Four(rng.four())];
    pieces.extend([Four(length - 10), Two(code)]);
    pieces.extend(named_header(rng, name));
    pieces.extend([Four(rng.four()), Four(rng.four())]);
    pieces.extend([Four(attribute), Four(length)]);
    Draft::fields(rng, MARKER, pieces)
}

fn shuffle<T>(rng: &mut Rng, list: &mut [T]) {
    for at in 1..list.len() {
        list.swap(at, rng.index(at + 1));
    }
}

/// The names of a deposit's pings: mostly of each channel and number one, now and then none
/// or two, and not always in the order of their numbers.
fn deposit_names(rng: &mut Rng, channels: &[u16]) -> Vec<Question> {
    let rounds = match rng.below(20) {
        0 => 30 + rng.below(60),
        _ => 1 + rng.below(5),
    };
    let start = rng.pick(&STARTS);
    let mut names = Vec::new();
    for round in 0..rounds as u32 {
        for channel in channels {
            let times = rng.pick(&[0, 1, 1, 1, 1, 1, 2]);
            let name = (*channel, start.wrapping_add(round));
            names.extend(vec![name; times]);
        }
    }
    if rng.chance(40) {
        shuffle(rng, &mut names);
    }
    names
}

/// Attribute 1 so many times out of a hundred, else another.
fn any_attribute(rng: &mut Rng, edited: u64) -> u32 {
    if rng.chance(edited) {
        EDITED
    } else {
        rng.pick(&OTHERS)
    }
}

fn deposit(rng: &mut Rng, look_alikes: u64) -> Sheet {
    let mut sheet = Sheet::begin(rng);
    for _ in 0..rng.pick(&CHANNELS) {
        sheet.plan.add_channel(rng);
    }
    let channels: Vec<u16> = sheet.plan.channels.iter().map(|(id, _)| *id).collect();
    for name in deposit_names(rng, &channels) {
        let attribute = any_attribute(rng, EDITED_DEPOSITED);
        let look_alike = rng.chance(look_alikes);
        sheet.add(rng, name, attribute, look_alike);
    }
    sheet
}

/// What two numbers differ by whose lower two bytes are the same.
const UPPER: u32 = 0x0001_0000;

/// The name of no ping, mostly, but near one of those known: another number or channel, or
/// one of either with its bytes turned about.
fn stranger(rng: &mut Rng, known: &[Question]) -> Question {
    if known.is_empty() || rng.chance(10) {
        return (rng.two(), rng.four());
    }
    let (channel, number) = rng.pick(known);
    match rng.below(6) {
        0 => (channel, number.wrapping_add(1)),
        1 => (channel, number.wrapping_sub(1)),
        2 => (channel, number.swap_bytes()),
        3 => (channel, number ^ UPPER),
        4 => (channel.swap_bytes(), number),
        _ => (rng.pick(&SMALL_IDS), number),
    }
}

/// Corrections of some of the deposit's pings and of others, in any order.
fn corrections(rng: &mut Rng, recipe: &Recipe, known: &[Question]) -> Sheet {
    let mut names = Vec::new();
    for name in known {
        if rng.chance(recipe.share) {
            let times = 1 + rng.index(recipe.most as usize);
            names.extend(vec![*name; times]);
        }
    }
    for _ in 0..rng.below(recipe.strangers + 1) {
        names.push(stranger(rng, known));
    }
    shuffle(rng, &mut names);
    let mut sheet = Sheet::begin(rng);
    for name in names {
        let attribute = any_attribute(rng, recipe.edited);
        let look_alike = rng.chance(recipe.look_alikes[1]);
        sheet.add(rng, name, attribute, look_alike);
    }
    sheet
}

/// The file's bytes in a style; where it is to be refused, with a fault made by rule, or in
/// its place noise or nothing.
pub(super) fn bytes_of(rng: &mut Rng, drafts: Vec<Draft>, style: &Style, refused: bool) -> Vec<u8> {
    if !refused {
        return render(&drafts, style, rng).bytes;
    }
    match rng.below(20) {
        0 => return noise(rng).bytes,
        1 => return Vec::new(),
        _ => {}
    }
    loop {
        let kind = rng.pick(&FAULT_KINDS);
        if let Some(case) = fault_in(rng, kind, drafts.clone(), style.clone()) {
            return case.bytes;
        }
    }
}

/// So many of each file's names are asked for, besides its first and its last; so many are
/// put together from two, and so many are strangers.
const PICKED: usize = 5;
const CROSSED: usize = 3;
const STRANGERS: usize = 4;

/// A refused pair answers every question alike.
const ASKED_IF_REFUSED: usize = 3;

/// Names of both files, names near them, and the largest there are; none twice.
fn questions(rng: &mut Rng, deposit: &[Question], corrections: &[Question]) -> Vec<Question> {
    let mut asked = Vec::new();
    for named in [corrections, deposit] {
        asked.extend(named.first());
        asked.extend(named.last());
        let picked = if named.is_empty() { 0 } else { PICKED };
        asked.extend((0..picked).map(|_| rng.pick(named)));
    }
    asked.extend(asked.is_empty().then(|| (rng.two(), rng.four())));
    for _ in 0..CROSSED {
        let (one, other) = (rng.pick(&asked), rng.pick(&asked));
        asked.push((one.0, other.1));
    }
    for _ in 0..STRANGERS {
        asked.push(stranger(rng, &asked));
    }
    let (channel, number) = rng.pick(&asked);
    asked.extend([LAST, (channel, LAST.1), (LAST.0, number), (0, 0)]);
    let mut once = Vec::new();
    for question in asked {
        if !once.contains(&question) {
            once.push(question);
        }
    }
    once
}

/// Its own stream, so that pairs have nothing to do with the file cases of a seed.
const STREAM: u64 = 0xC0_44EC;

/// The pair of a number; what pairs are for comes in turn.
pub fn correction_case(seed: u64, number: u64) -> CorrectionCase {
    let mut rng = Rng::of_case(seed ^ STREAM, number);
    let recipe = &RECIPES[(number % RECIPES.len() as u64) as usize];
    let styles = [Style::any(&mut rng), Style::any(&mut rng)];
    let original = deposit(&mut rng, recipe.look_alikes[0]);
    let edited = corrections(&mut rng, recipe, &original.named);
    let mut questions = questions(&mut rng, &original.named, &edited.named);
    if recipe.refused.contains(&true) {
        questions.truncate(ASKED_IF_REFUSED);
    }
    let [original, edited] = [original, edited].map(|sheet| sheet.end(&mut rng));
    let deposit = bytes_of(&mut rng, original, &styles[0], recipe.refused[0]);
    let corrections = if recipe.same {
        deposit.clone()
    } else {
        bytes_of(&mut rng, edited, &styles[1], recipe.refused[1])
    };
    CorrectionCase {
        name: format!("corrections-{}", recipe.name),
        deposit,
        corrections,
        questions,
    }
}
