//! Pings of an accepted file that have no energy or no readings: what their samples are.

use super::Advice;
use crate::answer::Refusal;
use crate::energy::energy;
use crate::file::{ask, maker_at};
use crate::ping::{read_ping, samples};
use crate::readings::readings;
use crate::types;

pub fn not_sv(file: &[u8], place: usize, refusal: Refusal) -> Option<Advice> {
    let is_so = energy(file, place) == Err(refusal);
    is_so.then(|| unfit(file, place, "Sv"))?
}

pub fn no_reading(file: &[u8], place: usize, refusal: Refusal) -> Option<Advice> {
    let is_so = readings(file, place, 0, 0) == Err(refusal);
    is_so.then(|| unfit(file, place, "volts, Sv or TS"))?
}

/// A ping of angles, or of a channel that TR has other samples for than are needed.
fn unfit(file: &[u8], place: usize, needed: &str) -> Option<Advice> {
    let kind = read_ping(file, place).ok()?.kind;
    if kind.has_angles() {
        let words = format!("ping {kind} has angles, not {needed}");
        return Some(Advice::of(words).kind(kind.code()));
    }
    let parents = ask(file, place).ok()?;
    let maker = maker_at(file, parents.channel_place)?;
    let (channel, sample) = (parents.channel.0, parents.type_of_data_sample);
    let words = match types::data_sample(maker, sample) {
        Some(samples) => format!("channel {channel} has {samples}, not {needed}"),
        None => {
            format!("channel {channel} has type of data sample {sample}, which TR doesn't list")
        }
    };
    let advice = Advice::of(words).number("channel", channel.into());
    Some(advice.number("type_of_data_sample", sample.into()))
}

/// Which sample it is, and its value in decibels as it is read.
pub fn outside_levels(file: &[u8], place: usize, refusal: Refusal) -> Option<Advice> {
    if energy(file, place) != Err(refusal) {
        return None;
    }
    let nth = refusal.place;
    let number = *samples(file, place).ok()?.numbers.get(nth)?;
    let reading = readings(file, place, number as usize, 1).ok()?;
    let value = reading.first()?.value()?;
    let words = format!("sample {nth} of its list, number {number}, is {value} dB");
    let advice = Advice::of(words).number("sample", nth);
    let advice = advice.number("number", number as usize);
    Some(advice.text("decibels", value.to_string()))
}
