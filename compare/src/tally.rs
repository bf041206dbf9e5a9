//! What was compared: how often each export was called, which codes it gave, how
//! many identifiers it told as compared, which records were met and which files, and
//! what each chapter met in these.

use crate::exports::{Export, EXPORTS};
use crate::kinds::KINDS;
use crate::{corrections, edits, energies, readings, salvage, settings, sights};
use second::kinds::{Kind, KINDS as PING_KINDS};
use second::layout::{CHANNEL_LIMIT, FILE_LIMIT};
use second::{Maker, Order, PingKind};
use std::collections::BTreeMap;

/// The codes of 01 and 02, and 0 for acceptance; some of the numbers stand for none.
const CODES: usize = 32;

/// The most identifiers that one search compares. Only a number above it shows
/// that searches among many were added up.
const FEW_COMPARED: u64 = CHANNEL_LIMIT as u64;

/// The most bytes of stack that a call may take: the stack of the small machine on the
/// quay.
const MOST_STACK: u64 = 96 << 10;

/// In the order in which they are counted.
const MAKERS: [Maker; 2] = [Maker::Biosonics, Maker::Simrad];

/// What can be done with a ping: it is read, it is written, it is in a normal form.
#[derive(Clone, Copy, PartialEq, Eq)]
pub enum Deed {
    Read,
    Written,
    Normalised,
}

/// In words, in the order in which they are counted.
const DEEDS: [(Deed, &str); 3] = [
    (Deed::Read, "read"),
    (Deed::Written, "written"),
    (Deed::Normalised, "in a normal form"),
];

/// How often each deed was done with pings of one kind, without a length and with one.
type Pings = [[u64; 2]; DEEDS.len()];

/// Whether a deed can be done with a ping of a kind, without a length or with one. Words
/// alone have one, and C-32 is in no normal form without.
fn can_be(kind: &Kind, deed: Deed, has_length: bool) -> bool {
    match (kind.kind, has_length) {
        (_, true) => kind.is_packed(),
        (PingKind::C32, false) => deed != Deed::Normalised,
        _ => true,
    }
}

/// The refusals of a check.
const CHECKED: [usize; 19] = [
    1, 2, 3, 4, 5, 6, 7, 8, 9, 11, 12, 13, 14, 15, 16, 17, 23, 24, 25,
];

/// What an export can give, and so must: said by the module that compares it.
#[derive(Clone, Copy)]
pub struct Given {
    name: &'static str,
    /// The codes that it can refuse with: a check's, where it makes one, and its own.
    checked: &'static [usize],
    own: &'static [usize],
    /// Of one that checks a whole file, the fewest identifiers compared that it can
    /// accept with.
    fewest: Option<u64>,
}

impl Given {
    pub const fn new(name: &'static str, own: &'static [usize]) -> Given {
        Given {
            name,
            checked: &[],
            own,
            fewest: None,
        }
    }

    /// Of one that refuses as a check does, and by codes of its own.
    pub const fn checking(name: &'static str, own: &'static [usize]) -> Given {
        Given {
            checked: &CHECKED,
            ..Given::new(name, own)
        }
    }

    pub const fn comparing(self, fewest: u64) -> Given {
        Given {
            fewest: Some(fewest),
            ..self
        }
    }

    fn codes(&self) -> impl Iterator<Item = usize> {
        self.checked.iter().chain(self.own).copied()
    }
}

/// Of one export.
#[derive(Clone, Default)]
struct Count {
    codes: [u64; CODES],
    /// The calls that were also made with too few entries: none, and one less.
    short: u64,
    /// The least and the largest number of identifiers compared that it accepted
    /// with.
    compared: Option<(u64, u64)>,
}

impl Count {
    fn add(&mut self, other: &Count) {
        self.short += other.short;
        if let Some((least, most)) = other.compared {
            self.compare(least);
            self.compare(most);
        }
        for (sum, count) in self.codes.iter_mut().zip(&other.codes) {
            *sum += count;
        }
    }

    /// Notes a number of identifiers compared.
    fn compare(&mut self, number: u64) {
        let (least, most) = self.compared.unwrap_or((number, number));
        self.compared = Some((least.min(number), most.max(number)));
    }

    fn accepted(&self) -> u64 {
        self.codes[0]
    }

    fn refused(&self) -> u64 {
        self.codes[1..].iter().sum()
    }

    fn calls(&self) -> u64 {
        self.accepted() + self.refused()
    }

    /// The refusals that were given.
    fn refusals(&self) -> impl Iterator<Item = usize> + '_ {
        (1..CODES).filter(|code| self.codes[*code] > 0)
    }
}

/// What a chapter met in the files, and how often.
#[derive(Clone, Default)]
struct Met(BTreeMap<String, u64>);

impl Met {
    fn note(&mut self, what: String) {
        *self.0.entry(what).or_default() += 1;
    }

    fn add(&mut self, other: &Met) {
        for (what, times) in &other.0 {
            *self.0.entry(what.clone()).or_default() += times;
        }
    }

    fn tell(&self, chapter: &str) -> String {
        let met = self.0.iter();
        let met: Vec<String> = met.map(|(what, times)| format!("{what} {times}")).collect();
        format!("{chapter} met {}", met.join("; "))
    }

    /// What it never met of what it has to.
    fn never(&self, chapter: &str, wanted: Vec<String>) -> Vec<String> {
        let never = wanted.iter().filter(|what| !self.0.contains_key(*what));
        never
            .map(|what| format!("{chapter} never met {what}"))
            .collect()
    }
}

/// Those who note what they met.
#[derive(Clone, Copy)]
pub enum Chapter {
    Salvage,
    Settings,
    Corrections,
    Edits,
    Energies,
    Readings,
    Private,
}

/// Tells all that has to be met.
type Wanted = fn() -> Vec<String>;

/// The chapters in their order, by name, and what they have to meet.
const CHAPTERS: [(&str, Wanted); 7] = [
    ("salvage", salvage::wanted),
    ("settings", settings::wanted),
    ("corrections", corrections::wanted),
    ("edits", edits::wanted),
    ("energies", energies::wanted),
    ("readings", readings::wanted),
    ("private tuples", sights::wanted),
];

/// What was met in a file of a byte order, and of something that has to be met in both.
pub fn in_order(what: &str, order: Order) -> String {
    format!("{what} in order {order:?}")
}

pub fn in_both_orders(wanted: &[String]) -> Vec<String> {
    let both = |what: &String| Order::BOTH.map(|order| in_order(what, order));
    wanted.iter().flat_map(both).collect()
}

/// Of the files that begin with one of the marks.
#[derive(Clone, Default)]
struct Marked {
    files: u64,
    at_limit: u64,
    past_limit: u64,
}

#[derive(Clone)]
pub struct Tally {
    exports: Vec<Count>,
    /// Of each record how often it was read, and how often it was written.
    records: BTreeMap<&'static str, [u64; 2]>,
    /// The most bytes of stack that each export took, accepted and refused; 0 where that
    /// isn't measured.
    stack: Vec<[u64; 2]>,
    /// In the order of `Order::BOTH`.
    marked: [Marked; 2],
    /// The channels of each maker that were refused for naming a sounder of the other.
    other_maker: [u64; 2],
    /// In the order of the kinds of ping.
    pings: [Pings; PING_KINDS.len()],
    /// In the order of the chapters.
    met: [Met; CHAPTERS.len()],
    pub cases: u64,
    files: u64,
    bytes: u64,
}

impl Default for Tally {
    fn default() -> Tally {
        Tally {
            exports: vec![Count::default(); EXPORTS.len()],
            records: BTreeMap::new(),
            stack: vec![[0; 2]; EXPORTS.len()],
            marked: Default::default(),
            other_maker: [0; 2],
            pings: Default::default(),
            met: Default::default(),
            cases: 0,
            files: 0,
            bytes: 0,
        }
    }
}

impl Tally {
    /// Counts a call by its code and the identifiers compared; says how many of
    /// the export gave this code before.
    pub fn count(&mut self, export: Export, code: u64, compared: u64) -> u64 {
        let count = &mut self.exports[export.number];
        if code == 0 {
            count.compare(compared);
        }
        let times = &mut count.codes[code as usize];
        *times += 1;
        *times - 1
    }

    pub fn count_short(&mut self, export: Export) {
        self.exports[export.number].short += 1;
    }

    /// Counts a record that was read or written.
    pub fn met(&mut self, record: &'static str, written: bool) {
        self.records.entry(record).or_default()[usize::from(written)] += 1;
    }

    /// Counts a channel of this maker that names a sounder of the other.
    pub fn other_maker(&mut self, channel: Maker) {
        for (maker, times) in MAKERS.iter().zip(&mut self.other_maker) {
            *times += u64::from(*maker == channel);
        }
    }

    /// Counts what was done with a ping.
    pub fn met_ping(&mut self, deed: Deed, kind: PingKind, has_length: bool) {
        self.pings[kind as usize][deed as usize][usize::from(has_length)] += 1;
    }

    /// Counts what a chapter met.
    pub fn met_in(&mut self, chapter: Chapter, what: String) {
        self.met[chapter as usize].note(what);
    }

    /// Of each kind of ping and each deed how often it was done, without a length and with
    /// one.
    fn deeds(&self) -> impl Iterator<Item = (&'static Kind, Deed, &'static str, [u64; 2])> + '_ {
        let kinds = PING_KINDS.iter().zip(&self.pings);
        kinds.flat_map(|(kind, pings)| {
            let deeds = DEEDS.iter().zip(pings);
            deeds.map(move |((deed, what), times)| (kind, *deed, *what, *times))
        })
    }

    /// Takes in what a runner measured: two numbers an export, or none.
    pub fn measured(&mut self, told: &[u64]) {
        let (pairs, _) = told.as_chunks();
        self.add_stack(pairs);
    }

    fn add_stack(&mut self, other: &[[u64; 2]]) {
        for (most, bytes) in self.stack.iter_mut().zip(other) {
            *most = [most[0].max(bytes[0]), most[1].max(bytes[1])];
        }
    }

    pub fn file(&mut self, file: &[u8]) {
        let length = file.len() as u64;
        self.files += 1;
        self.bytes += length;
        if let Some(order) = Order::of(file) {
            let marked = &mut self.marked[usize::from(order == Order::BOTH[1])];
            marked.files += 1;
            marked.at_limit += u64::from(length == FILE_LIMIT);
            marked.past_limit += u64::from(length > FILE_LIMIT);
        }
    }

    pub fn add(&mut self, other: &Tally) {
        self.cases += other.cases;
        self.files += other.files;
        self.bytes += other.bytes;
        for (sum, count) in self.exports.iter_mut().zip(&other.exports) {
            sum.add(count);
        }
        self.add_stack(&other.stack);
        for (record, [read, written]) in &other.records {
            let sum = self.records.entry(record).or_default();
            sum[0] += read;
            sum[1] += written;
        }
        for (sum, marked) in self.marked.iter_mut().zip(&other.marked) {
            sum.files += marked.files;
            sum.at_limit += marked.at_limit;
            sum.past_limit += marked.past_limit;
        }
        for (sum, times) in self.other_maker.iter_mut().zip(other.other_maker) {
            *sum += times;
        }
        for (sum, met) in self.met.iter_mut().zip(&other.met) {
            sum.add(met);
        }
        let sums = self.pings.as_flattened_mut().as_flattened_mut();
        for (sum, times) in sums
            .iter_mut()
            .zip(other.pings.as_flattened().as_flattened())
        {
            *sum += times;
        }
    }

    /// In words, a line each: cases and files; each export's calls with the codes
    /// that they gave and the identifiers compared; the records; the channels that
    /// named a sounder of the other maker; the pings of each kind; what each chapter met.
    pub fn tell(&self) -> Vec<String> {
        let [lsb, msb] = &self.marked;
        let calls: u64 = self.exports.iter().map(Count::calls).sum();
        let short: u64 = self.exports.iter().map(|count| count.short).sum();
        let mut lines = vec![
            format!(
                "{} cases, {} files of {} bytes: {} LSB, {} MSB, {} without a mark; \
                 of 16 MiB {} LSB, {} MSB; past it {} LSB, {} MSB",
                self.cases,
                self.files,
                self.bytes,
                lsb.files,
                msb.files,
                self.files - lsb.files - msb.files,
                lsb.at_limit,
                msb.at_limit,
                lsb.past_limit,
                msb.past_limit,
            ),
            format!("{calls} calls, {short} of them with 0 entries and with one too few, too"),
        ];
        for (export, count) in EXPORTS.iter().zip(&self.exports) {
            lines.push(of_export(export.name, count));
        }
        let records = self.records.iter();
        let told = records.map(|(name, [read, written])| format!("{name} {read}, {written}"));
        let told: Vec<String> = told.collect();
        lines.push(format!("records read, written: {}", told.join("; ")));
        let [biosonics, simrad] = self.other_maker;
        lines.push(format!(
            "files refused for a sounder of the other maker: {biosonics} for Biosonics's channel, \
             {simrad} for Simrad's"
        ));
        for (kind, _, what, [without, with]) in self.deeds() {
            let name = kind.name;
            let lengths = match kind.is_packed() {
                true => format!(", with a length {with}"),
                false => String::new(),
            };
            lines.push(format!("{name} {what} {}{lengths}", without + with));
        }
        let chapters = CHAPTERS.iter().zip(&self.met);
        lines.extend(chapters.map(|((chapter, _), met)| met.tell(chapter)));
        lines
    }

    /// The stack of each export, a line each; and what is wrong with it.
    pub fn tell_stack(&self) -> (Vec<String>, Vec<String>) {
        let mut lines = vec![format!("{:16} {:>8} {:>8}", "call", "accepted", "refused")];
        let mut wrong = Vec::new();
        for (export, most) in EXPORTS.iter().zip(&self.stack) {
            let [accepted, refused] = most;
            lines.push(format!("{:16} {accepted:>8} {refused:>8}", export.name));
            if most.contains(&0) {
                wrong.push(format!(
                    "{} was never accepted, or never refused",
                    export.name
                ));
            }
            if most.iter().any(|bytes| *bytes > MOST_STACK) {
                wrong.push(format!(
                    "{} takes more than {MOST_STACK} bytes of stack",
                    export.name
                ));
            }
        }
        (lines, wrong)
    }

    /// What is wrong however many cases there were: exports that nobody says what they
    /// can give, or that gave something else.
    pub fn unsaid(&self, given: &[Given]) -> Vec<String> {
        let mut unsaid = Vec::new();
        for (export, count) in EXPORTS.iter().zip(&self.exports) {
            let Some(given) = given.iter().find(|given| given.name == export.name) else {
                unsaid.push(format!("nobody says what {} can give", export.name));
                continue;
            };
            for code in count
                .refusals()
                .filter(|code| given.codes().all(|can| can != *code))
            {
                unsaid.push(format!("{} gave code {code}, which it can't", export.name));
            }
        }
        unsaid
    }

    /// What was not compared: codes that no call gave; what an export or a record
    /// never did; files at the limit and past it in either order; a sounder of the
    /// other maker named by a channel of either; pings of each kind; what the chapters
    /// have to meet.
    pub fn missing(&self, given: &[Given]) -> Vec<String> {
        let mut missing = Vec::new();
        for (export, count) in EXPORTS.iter().zip(&self.exports) {
            let said = given.iter().filter(|given| given.name == export.name);
            missing.extend(said.flat_map(|given| never_done(given, count)));
        }
        for kind in &KINDS {
            let met = self.records.get(kind.name).copied().unwrap_or_default();
            for (what, times) in ["read", "written"].iter().zip(met) {
                if times == 0 {
                    missing.push(format!("{} was never {what}", kind.name));
                }
            }
        }
        for (order, marked) in Order::BOTH.iter().zip(&self.marked) {
            for (what, files) in [("of", marked.at_limit), ("past", marked.past_limit)] {
                if files == 0 {
                    missing.push(format!("no file {what} 16 MiB in order {order:?}"));
                }
            }
        }
        for (maker, times) in MAKERS.iter().zip(self.other_maker) {
            if times == 0 {
                missing.push(format!(
                    "no channel of {maker:?} was refused for a sounder of the other maker"
                ));
            }
        }
        for (kind, deed, what, times) in self.deeds() {
            for (has_length, times) in [false, true].into_iter().zip(times) {
                if times == 0 && can_be(kind, deed, has_length) {
                    let length = if has_length { "with" } else { "without" };
                    missing.push(format!("no {} {length} a length was {what}", kind.name));
                }
            }
        }
        for ((chapter, wanted), met) in CHAPTERS.iter().zip(&self.met) {
            missing.extend(met.never(chapter, wanted()));
        }
        missing
    }
}

/// An export's calls, in words.
fn of_export(name: &str, count: &Count) -> String {
    let codes = count.refusals();
    let codes: Vec<String> = codes
        .map(|code| format!("{code}: {}", count.codes[code]))
        .collect();
    let (calls, accepted) = (count.calls(), count.accepted());
    let compared = match count.compared {
        Some((least, most)) if most > 0 => format!("; identifiers compared {least} to {most}"),
        _ => String::new(),
    };
    let codes = codes.join(", ");
    format!("{name} {calls} times, accepted {accepted}, refused by {codes}{compared}")
}

/// Which of the codes that it can give an export never gave; whether it was never
/// accepted or never called with too few entries; of one that checks a whole file,
/// whether it was never accepted with the fewest identifiers compared that there can
/// be, or never with many.
fn never_done(given: &Given, count: &Count) -> Vec<String> {
    let name = given.name;
    let mut never = Vec::new();
    for (what, times) in [
        ("accepted", count.accepted()),
        ("called with too few entries", count.short),
    ] {
        if times == 0 {
            never.push(format!("{name} was never {what}"));
        }
    }
    for code in given.codes() {
        if count.codes[code] == 0 {
            never.push(format!("{name} never gave code {code}"));
        }
    }
    let (Some(fewest), Some((least, most))) = (given.fewest, count.compared) else {
        return never;
    };
    if least > fewest {
        never.push(format!(
            "{name} was never accepted with {fewest} identifiers compared"
        ));
    }
    if most <= FEW_COMPARED {
        never.push(format!(
            "{name} was never accepted with over {FEW_COMPARED} identifiers compared"
        ));
    }
    never
}
