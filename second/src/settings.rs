//! Request l of 02: which settings held at each ping.

use crate::answer::Answer;
use crate::check::survey;
use crate::kinds::PingKind;
use crate::layout;
use crate::links::SoftwareChannel;
use crate::order::{two_at, Order};
use crate::walk::{forward, Step};
use std::collections::HashMap;

/// The first tuple's place, which is behind the mark.
const FIRST: u64 = 4;

/// Stands for no tuple: the mark is there, and so none is.
const NONE: u64 = 0;

/// Where pings, thresholds and attitudes name their channel.
const CHANNEL_AT: usize = 12;

/// A ping's place, and those of the tuples that govern it.
struct Held {
    ping: u64,
    threshold: u64,
    attitude: u64,
}

/// The places of the last thresholds and attitudes so far, by the channel that they name.
/// In an attitude 65535 is all channels, even where a channel 65535 is declared: its line
/// is the one for all.
#[derive(Default)]
struct Last {
    thresholds: HashMap<SoftwareChannel, u64>,
    attitudes: HashMap<SoftwareChannel, u64>,
}

fn last_of(places: &HashMap<SoftwareChannel, u64>, channel: SoftwareChannel) -> u64 {
    places.get(&channel).copied().unwrap_or(NONE)
}

impl Last {
    /// What governs a ping of a channel that comes next. Of the channel's own attitude and
    /// that for all the later one does, which has the greater place.
    fn at_ping(&self, ping: u64, channel: SoftwareChannel) -> Held {
        let own = last_of(&self.attitudes, channel);
        let for_all = last_of(&self.attitudes, SoftwareChannel::ALL);
        Held {
            ping,
            threshold: last_of(&self.thresholds, channel),
            attitude: own.max(for_all),
        }
    }
}

/// What held at each ping of an accepted file, in one pass. Clocks aren't looked at, for
/// some ships set theirs back.
fn held_at_pings(file: &[u8], order: Order) -> Vec<Held> {
    let mut last = Last::default();
    let mut held = Vec::new();
    let mut place = FIRST;
    while let Step::Tuple { tuple, next } = forward(file, place) {
        let channel = || SoftwareChannel(two_at(order, tuple.bytes(file), CHANNEL_AT));
        match tuple.code {
            layout::THRESHOLD => {
                last.thresholds.insert(channel(), place);
            }
            layout::ATTITUDE => {
                last.attitudes.insert(channel(), place);
            }
            code if PingKind::of(code).is_some() => held.push(last.at_ping(place, channel())),
            _ => {}
        }
        place = next;
    }
    held
}

/// Which settings held at each ping: one entry in each slice for each listed ping, in file
/// order. `pings` gets its place, `thresholds` that of the last threshold before it for
/// its channel, `attitudes` that of the last attitude before it for its channel or for
/// all; 0 where there is none.
///
/// Accepts with the file's number of tuples, the number of pings as length and the
/// check's comparisons; entries past the pings stay. The check's refusals, then 19 at 0
/// where a slice has too few entries; a refusal leaves all of them.
pub fn settings(
    file: &[u8],
    pings: &mut [u64],
    thresholds: &mut [u64],
    attitudes: &mut [u64],
) -> Answer {
    let survey = match survey(file) {
        Ok(survey) => survey,
        Err(refusal) => return refusal,
    };
    let held = held_at_pings(file, survey.order);
    let room = pings.len().min(thresholds.len()).min(attitudes.len());
    if room < held.len() {
        return Answer::refused(19, 0);
    }
    for (nth, held) in held.iter().enumerate() {
        pings[nth] = held.ping;
        thresholds[nth] = held.threshold;
        attitudes[nth] = held.attitude;
    }
    survey.accepted(held.len() as u64)
}
