//! Calls of the archive, told in batches to a runner.
//!
//! Beside each call stands what the second program makes of the same memory.
//! The runner hands all lent bytes back, and every one of them is compared.
//! Some calls are made to hear what they give: that tells what another one must.

use crate::answers::COMPARED;
use crate::exports::Export;
use crate::runner::Runner;
use crate::tally::{in_order, Chapter, Deed, Tally};
use second::{Maker, Order, PingKind};
use std::io;
use std::mem;
use std::ops::Range;

/// What lent memory holds before a call.
pub const FILL: u8 = 0xA5;

/// The bytes of an entry, and of all that numbers are aligned to.
const ENTRY: usize = 8;

/// The bytes of the numbers that slices have: of most, and of 16-bit sample numbers,
/// values and angles.
const WORD: usize = 4;
const HALF: usize = 2;

/// What a word holds before a call, and what half a word does.
pub const FILLED: u32 = u32::from_ne_bytes([FILL; WORD]);
pub const HALF_FILLED: u16 = u16::from_ne_bytes([FILL; HALF]);

/// What an entry of a table does, and a number of 64 bits.
pub const ENTRY_FILLED: usize = usize::from_ne_bytes([FILL; ENTRY]);
pub const LONG_FILLED: u64 = u64::from_ne_bytes([FILL; ENTRY]);

/// Bytes behind lent memory, which no call may touch.
const GUARD: usize = 8;

/// A call is lent just its entries, one more or two more, in turn.
const SPARE: u64 = 3;

/// Of a case's calls of an export that give one code, the first and then one
/// in so many are made with too few entries, too.
const SHORT: u64 = 64;

/// The code of lent memory that is too short.
const NO_ROOM: u64 = 19;

/// So many bytes of a difference are shown.
const SHOWN: usize = 32;

/// A batch is run where it lends more bytes than this, or gives more than that.
const FULL: usize = 1 << 20;
const FULL_GIVEN: usize = 64 << 20;

/// Memory that a call gets: to read from, or to write to.
#[derive(Clone, Copy, PartialEq, Eq, Debug)]
enum Memory {
    Given,
    Lent,
}

/// A part of a batch's memory, as one of entries so many bytes wide.
#[derive(Clone)]
pub struct Slice {
    memory: Memory,
    bytes: Range<usize>,
    width: usize,
}

impl Slice {
    fn of(self, width: usize) -> Slice {
        Slice { width, ..self }
    }

    fn entries(&self) -> usize {
        self.bytes.len() / self.width
    }
}

#[derive(Clone)]
pub enum Arg {
    Number(u64),
    Slice(Slice),
}

impl From<u64> for Arg {
    fn from(number: u64) -> Arg {
        Arg::Number(number)
    }
}

impl From<Slice> for Arg {
    fn from(slice: Slice) -> Arg {
        Arg::Slice(slice)
    }
}

impl Arg {
    /// The argument as the runner is told it.
    fn tell(&self, told: &mut Vec<u64>) {
        match self {
            Arg::Number(number) => told.extend([0, *number]),
            Arg::Slice(slice) => {
                let kind = match slice.memory {
                    Memory::Given => 1,
                    Memory::Lent => 2,
                };
                let numbers = [slice.bytes.start, slice.bytes.len(), slice.entries()];
                told.push(kind);
                told.extend(numbers.map(|number| number as u64));
            }
        }
    }

    fn describe(&self) -> String {
        match self {
            Arg::Number(number) => number.to_string(),
            Arg::Slice(slice) => format!("{:?} [{}]", slice.memory, slice.entries()),
        }
    }
}

/// A file that calls take.
pub struct File<'a> {
    pub bytes: &'a [u8],
    /// The run of the batch that it was given to, and where.
    given: Option<(u64, Slice)>,
}

impl File<'_> {
    pub fn new(bytes: &[u8]) -> File<'_> {
        File { bytes, given: None }
    }
}

/// What a call left: its answer, and the slices lent to it, in their order.
pub struct Left {
    pub answer: Vec<u64>,
    pub slices: Vec<Vec<u8>>,
}

/// A call: its arguments, the last of them for its answer, and where in lent
/// memory what it gets starts and the code that it hands back goes.
struct Call {
    export: Export,
    arguments: Range<usize>,
    answer: Slice,
    lent: usize,
    code: usize,
}

pub struct Batch {
    runner: Runner,
    given: Vec<u8>,
    lent: Vec<u8>,
    expected: Vec<u8>,
    arguments: Vec<Arg>,
    calls: Vec<Call>,
    told: Vec<u64>,
    back: Vec<u8>,
    runs: u64,
    /// Of the case at hand, and of those before it.
    tally: Tally,
    pub total: Tally,
    /// Room for what the second program writes.
    pub scratch: Vec<u8>,
    /// The first difference met, in words.
    pub difference: Option<String>,
    /// What the next calls are about.
    pub about: String,
    /// Who says what the next calls must give.
    pub beside: &'static str,
}

/// Who says that of most calls.
pub const SECOND: &str = "the second program";

/// Fills up to where an entry may lie.
fn align(bytes: &mut Vec<u8>, fill: u8) {
    bytes.resize(bytes.len().next_multiple_of(ENTRY), fill);
}

impl Batch {
    pub fn new(runner: Runner) -> Batch {
        Batch {
            runner,
            given: Vec::new(),
            lent: Vec::new(),
            expected: Vec::new(),
            arguments: Vec::new(),
            calls: Vec::new(),
            told: Vec::new(),
            back: Vec::new(),
            runs: 0,
            tally: Tally::default(),
            total: Tally::default(),
            scratch: Vec::new(),
            difference: None,
            about: String::new(),
            beside: SECOND,
        }
    }

    /// Bytes to read from. They stay where they are until the batch is run.
    pub fn give(&mut self, bytes: &[u8]) -> Slice {
        align(&mut self.given, 0);
        let start = self.given.len();
        self.given.extend_from_slice(bytes);
        Slice {
            memory: Memory::Given,
            bytes: start..self.given.len(),
            width: 1,
        }
    }

    /// A file, given once a run.
    pub fn file(&mut self, file: &mut File) -> Slice {
        match &file.given {
            Some((run, given)) if *run == self.runs => given.clone(),
            _ => {
                let given = self.give(file.bytes);
                file.given = Some((self.runs, given.clone()));
                given
            }
        }
    }

    /// Memory to write to; the second program's copy of it is `expected`.
    pub fn lend(&mut self, count: usize) -> Slice {
        align(&mut self.lent, FILL);
        let bytes = self.lent.len()..self.lent.len() + count;
        self.lent.resize(bytes.end + GUARD, FILL);
        self.expected.resize(self.lent.len(), FILL);
        Slice {
            memory: Memory::Lent,
            bytes,
            width: 1,
        }
    }

    /// Lends numbers of some width, which the second program left like this.
    pub fn lend_of(&mut self, left: &[u8], width: usize) -> Arg {
        let lent = self.lend(left.len());
        self.expected(&lent).copy_from_slice(left);
        lent.of(width).into()
    }

    pub fn lend_words(&mut self, left: &[u32]) -> Arg {
        self.lend_of(&word_bytes(left), WORD)
    }

    pub fn lend_halves(&mut self, left: &[u16]) -> Arg {
        self.lend_of(&half_bytes(left), HALF)
    }

    pub fn lend_entries(&mut self, left: &[usize]) -> Arg {
        self.lend_of(&entry_bytes(left), ENTRY)
    }

    /// Numbers of 64 bits: places, energies, the bits of doubles.
    pub fn lend_longs(&mut self, left: &[u64]) -> Arg {
        self.lend_of(&long_bytes(left), ENTRY)
    }

    /// Numbers of a byte.
    pub fn lend_bytes(&mut self, left: &[u8]) -> Arg {
        self.lend_of(left, 1)
    }

    /// Words to read from, and halves of them.
    pub fn give_words(&mut self, words: &[u32]) -> Arg {
        self.give(&word_bytes(words)).of(WORD).into()
    }

    pub fn give_halves(&mut self, halves: &[u16]) -> Arg {
        self.give(&half_bytes(halves)).of(HALF).into()
    }

    pub fn expected(&mut self, lent: &Slice) -> &mut [u8] {
        &mut self.expected[lent.bytes.clone()]
    }

    /// Makes a call, the second program's numbers beside it: its code first.
    /// At times makes it again with too few entries, which alters nothing.
    pub fn call(&mut self, export: Export, arguments: &[Arg], numbers: &[u64]) {
        assert_eq!(arguments.len(), export.parameters, "{}", export.name);
        let code = numbers[0];
        let before = self.tally.count(export, code, numbers[COMPARED]);
        let spare = (before % SPARE) as usize;
        self.tell(export, arguments, export.entries + spare, numbers, code);
        if before.is_multiple_of(SHORT) {
            for entries in [0, export.entries - 1] {
                let arguments: Vec<Arg> = arguments.iter().map(|arg| self.lend_anew(arg)).collect();
                self.tell(export, &arguments, entries, &[], NO_ROOM);
            }
            self.tally.count_short(export);
        }
    }

    /// Makes a call of which nobody says beforehand what it gives: `hear` tells that.
    pub fn ask(&mut self, export: Export, arguments: &[Arg]) {
        assert_eq!(arguments.len(), export.parameters, "{}", export.name);
        self.tell(export, arguments, export.entries, &[], 0);
    }

    /// The argument for another call: lent memory is as it was.
    fn lend_anew(&mut self, argument: &Arg) -> Arg {
        match argument {
            Arg::Slice(slice) if slice.memory == Memory::Lent => {
                self.lend(slice.bytes.len()).of(slice.width).into()
            }
            other => other.clone(),
        }
    }

    fn tell(
        &mut self,
        export: Export,
        arguments: &[Arg],
        entries: usize,
        numbers: &[u64],
        code: u64,
    ) {
        let answer = self.lend(ENTRY * entries).of(ENTRY);
        let handed_back = self.lend(ENTRY);
        let slots = self.expected(&answer).chunks_exact_mut(ENTRY);
        for (slot, number) in slots.zip(numbers) {
            slot.copy_from_slice(&number.to_le_bytes());
        }
        let slot = self.expected(&handed_back);
        slot.copy_from_slice(&code.to_le_bytes());
        let first_lent = arguments.iter().find_map(|argument| match argument {
            Arg::Slice(slice) if slice.memory == Memory::Lent => Some(slice.bytes.start),
            _ => None,
        });
        let first = self.arguments.len();
        self.arguments.extend_from_slice(arguments);
        self.arguments.push(answer.clone().into());
        self.calls.push(Call {
            export,
            arguments: first..self.arguments.len(),
            lent: first_lent.unwrap_or(answer.bytes.start),
            answer,
            code: handed_back.bytes.start,
        });
    }

    /// Between calls: runs a full batch. Says whether all was the same so far.
    pub fn rest(&mut self) -> io::Result<bool> {
        if self.lent.len() > FULL || self.given.len() > FULL_GIVEN {
            self.run()?;
        }
        Ok(self.difference.is_none())
    }

    /// A record of a type was read or written.
    pub fn met(&mut self, record: &'static str, written: bool) {
        self.tally.met(record, written);
    }

    /// Notes what was done with a ping.
    pub fn met_ping(&mut self, deed: Deed, kind: PingKind, has_length: bool) {
        self.tally.met_ping(deed, kind, has_length);
    }

    /// Notes what a chapter met.
    pub fn met_in(&mut self, chapter: Chapter, what: String) {
        self.tally.met_in(chapter, what);
    }

    /// Notes what a chapter met in a file, with the file's byte order.
    pub fn met_in_order(&mut self, chapter: Chapter, file: &[u8], what: &str) {
        if let Some(order) = Order::of(file) {
            self.met_in(chapter, in_order(what, order));
        }
    }

    /// Notes that a channel of this maker named a sounder of the other.
    pub fn other_maker(&mut self, channel: Maker) {
        self.tally.other_maker(channel);
    }

    /// The calls of a file begin.
    pub fn start(&mut self, about: String, file: &[u8]) {
        self.about = about;
        self.tally.file(file);
    }

    /// All calls of a case are told.
    pub fn end_case(&mut self) {
        self.total.cases += 1;
        self.total.add(&mem::take(&mut self.tally));
    }

    /// Notes a difference that shows in the second program's answers already.
    pub fn differ(&mut self, what: &str) {
        if self.difference.is_none() {
            self.difference = Some(format!("{}: {what}", self.about));
        }
    }

    /// Runs all calls and compares what they leave.
    pub fn run(&mut self) -> io::Result<()> {
        self.exchange()?;
        if self.back != self.expected && self.difference.is_none() {
            self.difference = Some(self.describe());
        }
        self.clear();
        Ok(())
    }

    /// Runs all calls, none of which is compared, and gives what each of them left.
    pub fn hear(&mut self) -> io::Result<Vec<Left>> {
        self.exchange()?;
        let left = self.calls.iter().map(|call| self.left_by(call)).collect();
        let told = self.calls.iter().all(|call| {
            let code = &self.back[call.code..call.code + ENTRY];
            code == &self.back[call.answer.bytes.start..][..ENTRY]
        });
        if !told {
            self.differ("a call hands another code back than it answers");
        }
        self.clear();
        Ok(left)
    }

    fn left_by(&self, call: &Call) -> Left {
        // the last argument is the answer
        let arguments = &self.arguments[call.arguments.start..call.arguments.end - 1];
        let slices = arguments.iter().filter_map(|argument| match argument {
            Arg::Slice(slice) if slice.memory == Memory::Lent => {
                Some(self.back[slice.bytes.clone()].to_vec())
            }
            _ => None,
        });
        Left {
            answer: numbers(&self.back[call.answer.bytes.clone()]),
            slices: slices.collect(),
        }
    }

    /// Lets the runner make all calls.
    fn exchange(&mut self) -> io::Result<()> {
        align(&mut self.given, 0);
        align(&mut self.lent, FILL);
        self.expected.resize(self.lent.len(), FILL);
        self.back.resize(self.lent.len(), 0);
        self.tell_all();
        self.runner
            .run(&self.given, &self.lent, &self.told, &mut self.back)
    }

    fn clear(&mut self) {
        for bytes in [&mut self.given, &mut self.lent, &mut self.expected] {
            bytes.clear();
        }
        self.arguments.clear();
        self.calls.clear();
        self.runs += 1;
    }

    /// All calls as the runner is told them.
    fn tell_all(&mut self) {
        self.told.clear();
        for call in &self.calls {
            let head = [call.export.number, call.arguments.len(), call.code];
            self.told.extend(head.map(|number| number as u64));
            for argument in &self.arguments[call.arguments.clone()] {
                argument.tell(&mut self.told);
            }
        }
    }

    /// Ends the runner. It must have met no fault. What it tells in the end is the stack
    /// of each export, where that is measured.
    pub fn finish(&mut self) {
        match self.runner.finish() {
            Ok(told) => self.total.measured(&told),
            Err(error) => {
                self.about = "the runner".to_string();
                self.differ(&error.to_string());
            }
        }
    }

    /// The first call that differs: its name, its arguments, what both hand
    /// back and answer, and the lent bytes from the first difference on.
    fn describe(&self) -> String {
        let pairs = self.back.iter().zip(&self.expected);
        let at = pairs.take_while(|(a, b)| a == b).count();
        let behind = self.calls.partition_point(|call| call.lent <= at);
        let Some(call) = behind.checked_sub(1).and_then(|nth| self.calls.get(nth)) else {
            return format!("{}: a byte before all calls", self.about);
        };
        let arguments = self.arguments[call.arguments.clone()].iter();
        let arguments: Vec<String> = arguments.map(Arg::describe).collect();
        let said = |bytes: &[u8]| {
            let code = &bytes[call.code..call.code + ENTRY];
            let answer = numbers(&bytes[call.answer.bytes.clone()]);
            format!("{:?} with {answer:?}", numbers(code))
        };
        let shown = at..self.back.len().min(at + SHOWN);
        format!(
            "{}: {} of {}: the archive says {}, {} {}; \
             lent byte {} and on: {:02x?} and {:02x?}",
            self.about,
            call.export.name,
            arguments.join(", "),
            said(&self.back),
            self.beside,
            said(&self.expected),
            at - call.lent,
            &self.back[shown.clone()],
            &self.expected[shown],
        )
    }
}

fn word_bytes(words: &[u32]) -> Vec<u8> {
    words.iter().flat_map(|word| word.to_le_bytes()).collect()
}

fn half_bytes(halves: &[u16]) -> Vec<u8> {
    halves.iter().flat_map(|half| half.to_le_bytes()).collect()
}

fn entry_bytes(entries: &[usize]) -> Vec<u8> {
    entries
        .iter()
        .flat_map(|entry| entry.to_le_bytes())
        .collect()
}

fn long_bytes(longs: &[u64]) -> Vec<u8> {
    longs.iter().flat_map(|long| long.to_le_bytes()).collect()
}

/// The entries that bytes hold.
pub fn numbers(bytes: &[u8]) -> Vec<u64> {
    let number = |slot: &[u8]| {
        slot.iter()
            .rev()
            .fold(0, |n, byte| n << 8 | u64::from(*byte))
    };
    bytes.chunks_exact(ENTRY).map(number).collect()
}
