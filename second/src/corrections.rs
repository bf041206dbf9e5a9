//! Request k of 02: corrections beside the deposit.

use crate::answer::Answer;
use crate::check::survey;
use crate::kinds::PingKind;
use crate::links::SoftwareChannel;
use crate::order::Order;
use crate::pings::{attribute, PingHeader};
use crate::walk::{forward, Step, Tuple};

/// The first tuple's place, which is behind the mark.
const FIRST: u64 = 4;

/// The attribute that makes a ping of the corrections file a correction: in TR's tables it
/// is that of an edited tuple.
const EDITED: i32 = 1;

/// 02's mark that tells which file: its number is the enum's.
#[derive(Clone, Copy, PartialEq, Eq, Debug)]
pub enum WhichFile {
    Neither = 0,
    Deposit = 1,
    Corrections = 2,
}

/// A ping's own bytes, or the refusal.
#[derive(Clone, Copy, PartialEq, Eq, Debug)]
pub struct Corrected<'a> {
    pub answer: Answer,
    /// The file that the part is from, or the one that is refused.
    pub mark: WhichFile,
    /// The whole tuple, from data size to backlink, where it lies in its file; empty with
    /// every refusal.
    pub part: &'a [u8],
    /// The place of the part's first byte in its file; 0 with every refusal.
    pub from: u64,
}

impl Corrected<'_> {
    fn refused(mark: WhichFile, refusal: Answer) -> Self {
        Corrected {
            answer: refusal,
            mark,
            part: &[],
            from: 0,
        }
    }
}

/// One of the two files, known to pass the check.
struct Passed<'a> {
    mark: WhichFile,
    file: &'a [u8],
    order: Order,
}

impl<'a> Passed<'a> {
    /// Checks a file: its own refusal, with its mark.
    fn check(mark: WhichFile, file: &'a [u8]) -> Result<Passed<'a>, Corrected<'a>> {
        match survey(file) {
            Ok(survey) => Ok(Passed {
                mark,
                file,
                order: survey.order,
            }),
            Err(refusal) => Err(Corrected::refused(mark, refusal)),
        }
    }

    /// The first listed ping, in file order, whose header and attribute are those wanted.
    fn first_ping(&self, wanted: impl Fn(PingHeader, i32) -> bool) -> Option<Corrected<'a>> {
        let mut place = FIRST;
        while let Step::Tuple { tuple, next } = forward(self.file, place) {
            let bytes = tuple.bytes(self.file);
            let header = || PingHeader::take(bytes, self.order);
            let attribute = || attribute(bytes, self.order);
            if PingKind::of(tuple.code).is_some() && wanted(header(), attribute()) {
                return Some(self.part(&tuple));
            }
            place = next;
        }
        None
    }

    /// A tuple of the file, handed back where it lies.
    fn part(&self, tuple: &Tuple) -> Corrected<'a> {
        Corrected {
            answer: Answer::accepted(1, tuple.length),
            mark: self.mark,
            part: tuple.bytes(self.file),
            from: tuple.place,
        }
    }
}

/// The ping of a software channel and a number: the first in the corrections file with
/// attribute 1, or else the first in the deposit, whatever its attribute. Neither file is
/// altered or copied.
///
/// Accepts with 1 tuple and its length. Refuses, with an empty part, by the deposit's own
/// refusal, then by that of the corrections, each with that file's mark; then by 31 at 0
/// where neither holds the ping.
pub fn corrected<'a>(
    deposit: &'a [u8],
    corrections: &'a [u8],
    channel: SoftwareChannel,
    number: u32,
) -> Corrected<'a> {
    let files = Passed::check(WhichFile::Deposit, deposit).and_then(|deposit| {
        let corrections = Passed::check(WhichFile::Corrections, corrections)?;
        Ok((deposit, corrections))
    });
    let (deposit, corrections) = match files {
        Ok(files) => files,
        Err(refused) => return refused,
    };
    let asked_for = |header: PingHeader| {
        header.software_channel_identifier == channel && header.ping_number == number
    };
    corrections
        .first_ping(|header, attribute| asked_for(header) && attribute == EDITED)
        .or_else(|| deposit.first_ping(|header, _| asked_for(header)))
        .unwrap_or(Corrected::refused(
            WhichFile::Neither,
            Answer::refused(31, 0),
        ))
}
