//! What the samples of a channel are, as far as they are volts or decibels.

use crate::kinds::Family;
use crate::links::{ChannelLink, Maker};

#[derive(Clone, Copy, PartialEq, Eq, Debug)]
pub(crate) enum Quantity {
    Volts,
    Sv,
    Ts,
}

impl Quantity {
    /// By the type of data sample in the maker's table: TR's Tables 4 and 5. Phase and
    /// mechanical angles, raw power and what no table defines are none of these.
    pub fn of(channel: &ChannelLink) -> Option<Quantity> {
        match (channel.maker, channel.type_of_data_sample) {
            (Maker::Biosonics, 0) => Some(Quantity::Volts),
            (Maker::Biosonics, 1) | (Maker::Simrad, 2) => Some(Quantity::Sv),
            (Maker::Biosonics, 2) | (Maker::Simrad, 3) => Some(Quantity::Ts),
            _ => None,
        }
    }

    /// How many of the units of a family's values are 1 volt or 1 dB; none where these are
    /// angles.
    pub fn units(self, family: Family) -> Option<i32> {
        match self {
            Quantity::Volts => family.per_volt(),
            Quantity::Sv | Quantity::Ts => family.per_db(),
        }
    }
}
