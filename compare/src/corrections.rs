//! What is compared of corrections: pairs of a deposit and a corrections file, sound, refused,
//! cut and damaged, each asked for pings by channel and number; what is answered and left,
//! the mark and the place with it; and what was met in the pairs, so that nothing that can be
//! is never there.

use crate::answers::five;
use crate::batch::{Batch, File, Slice};
use crate::exports::export;
use crate::tally::{Chapter, Given};
use crate::walked::walked;
use second::gen::{correction_case, CorrectionCase, Question, Rng};
use second::kinds::KINDS;
use second::walk::Tuple;
use second::{check, corrected, Corrected, Order, PingKind, SoftwareChannel, WhichFile};
use std::collections::BTreeSet;
use std::io;
use std::sync::LazyLock;

/// What the export compared here can give: what a check can, and 31.
pub const GIVEN: [Given; 1] = [Given::checking("find_ping", &[31])];

/// So many pairs come with each case that is compared in full; what the generator makes
/// them for comes in turn.
const PAIRS: u64 = 5;

/// The numbers of what is cut and damaged lie apart from the generator's.
const DAMAGES: u64 = 0xDA_3A6E;

/// Where a ping has its channel and its number, and how far before its end its attribute.
const CHANNEL_AT: usize = 12;
const NUMBER_AT: usize = 16;
const ATTRIBUTE: usize = 8;

/// The attribute of a correction, and some beside it that correct nothing.
const EDITED: i32 = 1;
const UNEDITED: [(i32, &str); 3] = [
    (0, "an original beside attribute 0 in the corrections"),
    (2, "an original beside attribute 2 in the corrections"),
    (-1, "an original beside attribute -1 in the corrections"),
];

/// The most bytes of a file that is asked for its first ping, too.
const LARGE: usize = 1 << 20;

/// A small pair that is accepted.
static SMALL: LazyLock<CorrectionCase> = LazyLock::new(|| correction_case(0, 0));

/// The pairs of a case.
pub fn compare_pairs(batch: &mut Batch, seed: u64, index: u64) -> io::Result<()> {
    let mut rng = Rng::of_case(seed ^ DAMAGES, index);
    for number in PAIRS * index..PAIRS * (index + 1) {
        let case = correction_case(seed, number);
        let about = format!("seed {seed}, pair {number}, {}", case.name);
        for file in [&case.deposit, &case.corrections] {
            batch.start(about.clone(), file);
        }
        compare_pair(batch, &case, &mut rng)?;
    }
    Ok(())
}

/// All questions of a pair; and its first one where either file is cut short, or damaged, or
/// both are.
pub fn compare_pair(batch: &mut Batch, case: &CorrectionCase, rng: &mut Rng) -> io::Result<()> {
    let (deposit, corrections) = (&case.deposit[..], &case.corrections[..]);
    let mut pair = Pair::of(deposit, corrections);
    for question in &case.questions {
        pair.ask(batch, *question);
        batch.rest()?;
    }
    let question = case.questions[0];
    let cut = [deposit, corrections].map(|file| &file[..rng.index(file.len() + 1)]);
    let damaged = [deposit, corrections].map(|file| damaged(file, rng));
    for (deposit, corrections) in [
        (cut[0], corrections),
        (deposit, cut[1]),
        (&damaged[0], corrections),
        (deposit, &damaged[1]),
        (&damaged[0], cut[1]),
    ] {
        Pair::of(deposit, corrections).ask(batch, question);
        batch.rest()?;
    }
    Ok(())
}

/// A file with a bit of it turned, if it has one.
fn damaged(file: &[u8], rng: &mut Rng) -> Vec<u8> {
    let mut damaged = file.to_vec();
    if !damaged.is_empty() {
        let at = rng.index(damaged.len());
        damaged[at] ^= 1 << rng.below(8);
    }
    damaged
}

/// Any file as the deposit and as the corrections beside another that is accepted, and as
/// both: asked for its own first and last ping, or, without any, for one of the other.
pub fn compare_beside(batch: &mut Batch, file: &mut File) -> io::Result<()> {
    let pings = Seen::of(file.bytes).pings;
    let ends = match file.bytes.len() {
        0..=LARGE => vec![pings.first(), pings.last()],
        _ => vec![pings.last()],
    };
    for ping in ends {
        let question = ping.map_or(SMALL.questions[0], |ping| ping.name);
        let own = batch.file(file);
        let [deposit, corrections] = [&SMALL.deposit, &SMALL.corrections].map(|b| batch.give(b));
        let bytes = file.bytes;
        find(
            batch,
            [own.clone(), corrections],
            [bytes, &SMALL.corrections],
            question,
        );
        find(
            batch,
            [deposit, own.clone()],
            [&SMALL.deposit, bytes],
            question,
        );
        find(batch, [own.clone(), own], [bytes; 2], question);
        batch.rest()?;
    }
    Ok(())
}

/// The call, what the second program says of the same two files beside it.
fn find<'a>(
    batch: &mut Batch,
    [deposit, corrections]: [Slice; 2],
    bytes: [&'a [u8]; 2],
    (channel, number): Question,
) -> Corrected<'a> {
    let told = corrected(bytes[0], bytes[1], SoftwareChannel(channel), number);
    let mut numbers = five(told.answer);
    numbers.push(told.mark as u64);
    if told.answer.is_accepted() {
        numbers.push(told.from);
    }
    let arguments = [
        deposit.into(),
        corrections.into(),
        u64::from(channel).into(),
        u64::from(number).into(),
    ];
    batch.call(export("find_ping"), &arguments, &numbers);
    told
}

/// A deposit and a corrections file, and what is seen of each.
struct Pair<'a> {
    deposit: File<'a>,
    corrections: File<'a>,
    seen: [Seen; 2],
    /// In what orders they are; none where one has no mark.
    orders: Option<[Order; 2]>,
}

impl<'a> Pair<'a> {
    fn of(deposit: &'a [u8], corrections: &'a [u8]) -> Pair<'a> {
        let orders = (Order::of(deposit), Order::of(corrections));
        Pair {
            deposit: File::new(deposit),
            corrections: File::new(corrections),
            seen: [deposit, corrections].map(Seen::of),
            orders: match orders {
                (Some(deposit), Some(corrections)) => Some([deposit, corrections]),
                _ => None,
            },
        }
    }

    /// Asks for a ping. One file for both is handed over as the same memory.
    fn ask(&mut self, batch: &mut Batch, question: Question) {
        let bytes = [self.deposit.bytes, self.corrections.bytes];
        let deposit = batch.file(&mut self.deposit);
        let corrections = match bytes[0] == bytes[1] {
            true => deposit.clone(),
            false => batch.file(&mut self.corrections),
        };
        let told = find(batch, [deposit, corrections], bytes, question);
        let Some(orders) = self.orders else {
            return;
        };
        let whats = match told.answer.code {
            0 | NOT_HELD => self.found(&told, question),
            _ => BTreeSet::from([self.refused(&told).to_string()]),
        };
        for what in whats {
            batch.met_in(Chapter::Corrections, met(&what, orders));
        }
    }

    fn refused(&self, told: &Corrected) -> &'static str {
        let corrections = self.corrections.bytes;
        match told.mark {
            WhichFile::Deposit if !check(corrections).is_accepted() => BOTH_REFUSED,
            WhichFile::Deposit => DEPOSIT_REFUSED,
            WhichFile::Corrections | WhichFile::Neither => CORRECTIONS_REFUSED,
        }
    }

    /// What is seen of the ping that was asked for, in two accepted files.
    fn found(&self, told: &Corrected, question: Question) -> BTreeSet<String> {
        let [deposit, corrections] = &self.seen;
        let asked = Asked {
            mark: told.mark,
            own: deposit.attributes(question),
            theirs: corrections.attributes(question),
            alike: self
                .seen
                .each_ref()
                .map(|seen| seen.others.contains(&question)),
        };
        let sights = SIGHTS.iter().filter(|(_, is_seen)| is_seen(&asked));
        let mut whats: BTreeSet<String> = sights.map(|(what, _)| what.to_string()).collect();
        let beside = UNEDITED
            .iter()
            .filter(|(attribute, _)| asked.is_beside(*attribute));
        whats.extend(beside.map(|(_, what)| what.to_string()));
        let from = match told.mark {
            WhichFile::Deposit => deposit,
            WhichFile::Corrections => corrections,
            WhichFile::Neither => return whats,
        };
        let part = from.pings.iter().find(|ping| ping.place == told.from);
        whats.extend(part.map(|ping| kind_met(ping.kind.row().name, told.mark)));
        whats
    }
}

/// The code of a ping that neither file holds.
const NOT_HELD: u32 = 31;

/// What can be seen of a refused pair.
const DEPOSIT_REFUSED: &str = "the deposit refused";
const CORRECTIONS_REFUSED: &str = "the corrections refused";
const BOTH_REFUSED: &str = "both refused";

/// What was asked for, and what of it there is.
struct Asked {
    mark: WhichFile,
    /// The attributes of all pings of this name, in the deposit and in the corrections.
    own: Vec<i32>,
    theirs: Vec<i32>,
    /// Whether a tuple of either file that is no listed ping has the name where one has it.
    alike: [bool; 2],
}

impl Asked {
    fn is_corrected(&self) -> bool {
        self.mark == WhichFile::Corrections
    }

    fn is_original(&self) -> bool {
        self.mark == WhichFile::Deposit
    }

    fn is_neither(&self) -> bool {
        self.mark == WhichFile::Neither
    }

    /// An original, beside a ping of the corrections with this attribute.
    fn is_beside(&self, attribute: i32) -> bool {
        self.is_original() && self.theirs.contains(&attribute)
    }
}

/// What can be seen of a ping that was asked for.
type Sight = (&'static str, fn(&Asked) -> bool);

const SIGHTS: [Sight; 12] = [
    ("a correction over an original", |asked| {
        asked.is_corrected() && !asked.own.is_empty()
    }),
    ("a correction of a ping that the deposit lacks", |asked| {
        asked.is_corrected() && asked.own.is_empty()
    }),
    ("the first of several corrections", |asked| {
        let edited = asked
            .theirs
            .iter()
            .filter(|attribute| **attribute == EDITED);
        asked.is_corrected() && edited.count() > 1
    }),
    ("a correction behind another attribute", |asked| {
        asked.is_corrected() && asked.theirs[0] != EDITED
    }),
    ("an original alone", |asked| {
        asked.is_original() && asked.theirs.is_empty()
    }),
    ("the first of several originals", |asked| {
        asked.is_original() && asked.own.len() > 1
    }),
    ("an original with attribute 1", |asked| {
        asked.is_original() && asked.own[0] == EDITED
    }),
    ("an original with another attribute", |asked| {
        asked.is_original() && asked.own[0] != EDITED
    }),
    ("neither, with nothing of the name", |asked| {
        asked.is_neither() && asked.theirs.is_empty() && asked.alike == [false; 2]
    }),
    ("neither, beside another attribute", |asked| {
        asked.is_neither() && !asked.theirs.is_empty()
    }),
    ("what only looks like a ping in the deposit", |asked| {
        asked.is_neither() && asked.alike[0]
    }),
    ("what only looks like a ping in the corrections", |asked| {
        !asked.is_corrected() && asked.alike[1]
    }),
];

fn kind_met(kind: &str, mark: WhichFile) -> String {
    format!("{kind} from {mark:?}")
}

fn met(what: &str, [deposit, corrections]: [Order; 2]) -> String {
    format!("{what}, {deposit:?} beside {corrections:?}")
}

/// All that corrections have to meet.
pub fn wanted() -> Vec<String> {
    let mut wanted = [DEPOSIT_REFUSED, CORRECTIONS_REFUSED, BOTH_REFUSED]
        .map(String::from)
        .to_vec();
    wanted.extend(SIGHTS.map(|(what, _)| what.into()));
    wanted.extend(UNEDITED.map(|(_, what)| what.into()));
    for mark in [WhichFile::Deposit, WhichFile::Corrections] {
        wanted.extend(KINDS.map(|row| kind_met(row.name, mark)));
    }
    let orders = Order::BOTH.map(|deposit| Order::BOTH.map(|corrections| [deposit, corrections]));
    let all = |what: &String| {
        orders
            .as_flattened()
            .iter()
            .map(|orders| met(what, *orders))
            .collect::<Vec<_>>()
    };
    wanted.iter().flat_map(all).collect()
}

/// A listed ping.
struct Listed {
    kind: PingKind,
    place: u64,
    name: Question,
    attribute: i32,
}

/// What is seen of a file, from its first tuple up to where it can be walked.
#[derive(Default)]
struct Seen {
    pings: Vec<Listed>,
    /// The names that other tuples would have as pings.
    others: Vec<Question>,
}

impl Seen {
    fn of(file: &[u8]) -> Seen {
        let mut seen = Seen::default();
        for (order, tuple) in walked(file) {
            seen.take(file, order, &tuple);
        }
        seen
    }

    fn take(&mut self, file: &[u8], order: Order, tuple: &Tuple) {
        let bytes = tuple.bytes(file);
        let channel = order.read_two(bytes, CHANNEL_AT);
        let number = order.read_four(bytes, NUMBER_AT);
        let attribute = order.read_four(bytes, bytes.len() - ATTRIBUTE);
        let (Some(channel), Some(number), Some(attribute)) = (channel, number, attribute) else {
            return;
        };
        let name = (channel, number);
        match PingKind::of(tuple.code) {
            Some(kind) => self.pings.push(Listed {
                kind,
                place: tuple.place,
                name,
                attribute: attribute as i32,
            }),
            None => self.others.push(name),
        }
    }

    /// The attributes of the pings of a name, in file order.
    fn attributes(&self, name: Question) -> Vec<i32> {
        let named = self.pings.iter().filter(|ping| ping.name == name);
        named.map(|ping| ping.attribute).collect()
    }
}
