//! Asking for a ping's channel and sounder.

use crate::answer::{Answer, Reply};
use crate::check::{survey, Survey};
use crate::kinds::PingKind;
use crate::links::{ChannelLink, DocumentId, SoftwareChannel, SounderLink};
use crate::order::{two_at, Order};
use crate::samples::sample_lists;
use crate::walk::{forward, Step, Tuple};

/// The first tuple's place, which is behind the mark.
const FIRST: u64 = 4;

/// A ping's channel and sounder, with the places of their tuples and what the
/// channel's record holds for a reader of samples.
#[derive(Clone, Copy, PartialEq, Eq, Debug)]
pub struct Parents {
    pub channel: SoftwareChannel,
    pub channel_place: u64,
    pub sampling_rate: u32,
    pub type_of_data_sample: u16,
    pub sounder: DocumentId,
    pub sounder_place: u64,
}

/// The tuple that starts at a place of an accepted file, if one does.
fn tuple_starting_at(file: &[u8], asked: u64) -> Option<Tuple> {
    let mut place = FIRST;
    while place <= asked {
        let Step::Tuple { tuple, next } = forward(file, place) else {
            return None;
        };
        if place == asked {
            return Some(tuple);
        }
        place = next;
    }
    None
}

/// A listed ping of an accepted file, and whose it is.
pub(crate) struct LinkedPing<'a> {
    pub place: u64,
    pub kind: PingKind,
    pub channel: &'a ChannelLink,
    pub sounder: &'a SounderLink,
    order: Order,
    bytes: &'a [u8],
}

impl<'a> LinkedPing<'a> {
    /// The ping that a tuple of an accepted file is, if it is a listed one.
    fn of(survey: &'a Survey, file: &'a [u8], tuple: &Tuple) -> Option<LinkedPing<'a>> {
        let kind = PingKind::of(tuple.code)?;
        let bytes = tuple.bytes(file);
        let id = SoftwareChannel(two_at(survey.order, bytes, 12));
        // An accepted file declares every ping's channel.
        let (channel, sounder) = survey.links.channel(id)?;
        Some(LinkedPing {
            place: tuple.place,
            kind,
            channel,
            sounder,
            order: survey.order,
            bytes,
        })
    }

    /// Its samples, where it has no angles: their numbers and their values.
    pub fn samples(&self) -> (Vec<u32>, Vec<i32>) {
        sample_lists(self.bytes, self.kind, self.order)
    }
}

/// All listed pings of an accepted file, in order.
pub(crate) fn linked_pings<'a>(survey: &'a Survey, file: &'a [u8]) -> Vec<LinkedPing<'a>> {
    let mut pings = Vec::new();
    let mut place = FIRST;
    while let Step::Tuple { tuple, next } = forward(file, place) {
        pings.extend(LinkedPing::of(survey, file, &tuple));
        place = next;
    }
    pings
}

/// The ping at a place of an accepted file: 9 at the place where no listed ping starts.
pub(crate) fn asked_ping<'a>(
    survey: &'a Survey,
    file: &'a [u8],
    place: u64,
) -> Result<LinkedPing<'a>, Answer> {
    tuple_starting_at(file, place)
        .and_then(|tuple| LinkedPing::of(survey, file, &tuple))
        .ok_or(Answer::refused(9, place))
}

/// The channel and sounder of the ping at a place: the check's refusals for
/// the whole file, then 9 at the place where no listed ping starts. Accepts
/// with the file's number of tuples and the check's comparisons.
pub fn parents(file: &[u8], place: u64) -> Reply<Parents> {
    let survey = survey(file)?;
    let LinkedPing {
        channel, sounder, ..
    } = asked_ping(&survey, file, place)?;
    let parents = Parents {
        channel: channel.id,
        channel_place: channel.place,
        sampling_rate: channel.sampling_rate,
        type_of_data_sample: channel.type_of_data_sample,
        sounder: sounder.id,
        sounder_place: sounder.place,
    };
    Ok((survey.accepted(0), parents))
}
