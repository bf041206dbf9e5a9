//! Sound files of settings: thresholds and attitudes between the pings of a few channels or
//! of many, by a clock that some ships set back.

use self::Setting::{Attitude, ForAll, Threshold};
use super::draft::{render, Draft, Piece, Style};
use super::sound::{attitude, marker, navigation, position, run, short_ping, threshold};
use super::sound::{Plan, Wish};
use super::{Case, Rng};

/// What is set: a channel's threshold, its attitude, or the attitude for all channels.
#[derive(Clone, Copy, PartialEq, Eq)]
enum Setting {
    Threshold,
    Attitude,
    ForAll,
}

/// Settings one behind another, all for the same channel but for those for all.
const ROWS: [&[Setting]; 10] = [
    &[Threshold],
    &[Threshold],
    &[Threshold; 3],
    &[Attitude],
    &[Attitude; 3],
    &[ForAll],
    &[ForAll; 2],
    &[Attitude, ForAll],
    &[ForAll, Attitude],
    &[Threshold, ForAll, Attitude, Threshold],
];

/// The settings that a file has at all: mostly each of them.
const HAD: [&[Setting]; 8] = [
    &[Threshold, Attitude, ForAll],
    &[Threshold, Attitude, ForAll],
    &[Threshold, Attitude, ForAll],
    &[Threshold, Attitude, ForAll],
    &[Threshold, Attitude],
    &[Attitude, ForAll],
    &[Threshold],
    &[],
];

/// For an attitude these are all channels; for all others it is a channel.
const ALL: u16 = 65535;

/// Channels declared before anything else.
const CHANNELS: [u64; 8] = [0, 1, 2, 2, 3, 5, 9, 40];

/// Pings of channels in turn, at most.
const ROUND: usize = 50;

/// Between two tuples there is less than a minute; a clock is set back by less than a day.
const MINUTE: u64 = 60;
const DAY: u64 = 24 * 60 * MINUTE;

/// Of unlisted types: those beside thresholds and attitudes, of the class of pings, and
/// private ones.
const STRANGE: [u16; 8] = [10101, 10109, 41, 49, 10002, 10020, 10099, 65400];

/// A file under way, and the clock on board.
struct Log {
    plan: Plan,
    seconds: u32,
    /// Out of a hundred times that the clock is read, it has been set back so often.
    set_back: u64,
    had: &'static [Setting],
    /// Whether it has tuples of unlisted types.
    strange: bool,
}

impl Log {
    fn begin(rng: &mut Rng) -> Log {
        let mut plan = Plan::begin(rng);
        for _ in 0..1 + rng.below(3) {
            plan.add_sounder(rng);
        }
        for _ in 0..rng.pick(&CHANNELS) {
            plan.add_channel(rng);
        }
        Log {
            plan,
            seconds: rng.four(),
            set_back: rng.pick(&[0, 10, 50, 100]),
            had: rng.pick(&HAD),
            strange: rng.chance(30),
        }
    }

    fn has_channel(&self, id: u16) -> bool {
        self.plan.channels.iter().any(|(channel, _)| *channel == id)
    }

    /// A channel or a sounder between pings; often the channel 65535.
    fn declare(&mut self, rng: &mut Rng) {
        match rng.below(4) {
            0 => self.plan.add_sounder(rng),
            1 if !self.has_channel(ALL) => self.plan.declare_channel(rng, ALL),
            _ => self.plan.add_channel(rng),
        }
    }

    /// A declared channel, often the last one, or 65535.
    fn channel(&self, rng: &mut Rng) -> Option<u16> {
        match rng.below(4) {
            0 => self.plan.channels.last().map(|(id, _)| *id),
            1 if self.has_channel(ALL) => Some(ALL),
            _ => self.plan.any_channel(rng),
        }
    }

    /// Adds a tuple with what the clock says, which those that name a channel have behind
    /// its fraction.
    fn add(&mut self, rng: &mut Rng, mut draft: Draft) {
        self.seconds = if rng.chance(self.set_back) {
            self.seconds.wrapping_sub(rng.below(DAY) as u32)
        } else {
            self.seconds.wrapping_add(rng.below(MINUTE) as u32)
        };
        draft.pieces()[1] = Piece::Four(self.seconds);
        self.plan.drafts.push(draft);
    }

    fn add_ping(&mut self, rng: &mut Rng) {
        if let Some(channel) = self.channel(rng) {
            let ping = short_ping(rng, channel);
            self.add(rng, ping);
        }
    }

    /// A ping of each channel in turn, at times each with a threshold before it.
    fn add_round(&mut self, rng: &mut Rng) {
        let channels = self.plan.channels.iter().map(|(id, _)| *id);
        let channels: Vec<u16> = channels.take(ROUND).collect();
        let sets = self.had.contains(&Threshold) && rng.chance(30);
        for channel in channels {
            if sets {
                let threshold = threshold(rng, channel);
                self.add(rng, threshold);
            }
            let ping = short_ping(rng, channel);
            self.add(rng, ping);
        }
    }

    /// Settings in a row, as far as the file has such. Those for all need no channel.
    fn add_settings(&mut self, rng: &mut Rng) {
        let channel = self.channel(rng);
        for setting in rng.pick(&ROWS) {
            if !self.had.contains(setting) {
                continue;
            }
            let draft = match (setting, channel) {
                (Threshold, Some(channel)) => threshold(rng, channel),
                (Attitude, Some(channel)) => attitude(rng, channel),
                (ForAll, _) => attitude(rng, ALL),
                _ => continue,
            };
            self.add(rng, draft);
        }
    }

    /// A tuple like a threshold's or an attitude's, of an unlisted type: it sets nothing,
    /// and is no ping.
    fn add_stranger(&mut self, rng: &mut Rng) {
        let channel = self.channel(rng).unwrap_or(ALL);
        let make = rng.pick(&[threshold, attitude]);
        let mut draft = make(rng, channel);
        draft.code = rng.pick(&STRANGE);
        self.add(rng, draft);
    }

    /// A tuple that neither declares nor names.
    fn add_other(&mut self, rng: &mut Rng) {
        let draft = match rng.below(4) {
            0 => position(rng),
            1 => navigation(rng),
            2 => marker(rng, 8),
            _ => run(rng),
        };
        self.plan.drafts.push(draft);
    }

    /// What a file must have besides, and half the time settings behind its last ping.
    fn end(mut self, rng: &mut Rng) -> Vec<Draft> {
        let wish = Wish {
            unlisted: self.strange,
            ..Wish::any()
        };
        self.plan.fill_classes(rng, &wish);
        if rng.chance(50) {
            for _ in 0..1 + rng.below(3) {
                self.add_settings(rng);
            }
        }
        self.plan.end(rng)
    }
}

/// Mostly some tens of tuples, and now and then some hundreds.
fn settings_drafts(rng: &mut Rng) -> Vec<Draft> {
    let mut log = Log::begin(rng);
    let steps = match rng.below(20) {
        0 => 100 + rng.below(200),
        _ => 4 + rng.below(30),
    };
    for _ in 0..steps {
        match rng.below(100) {
            0..=7 => log.declare(rng),
            8..=44 => log.add_ping(rng),
            45..=49 => log.add_round(rng),
            50..=89 => log.add_settings(rng),
            90..=94 if log.strange => log.add_stranger(rng),
            _ => log.add_other(rng),
        }
    }
    log.end(rng)
}

/// A sound file of settings, in any style.
pub fn settings_case(rng: &mut Rng) -> Case {
    let drafts = settings_drafts(rng);
    let style = Style::any(rng);
    let bytes = render(&drafts, &style, rng).bytes;
    Case::new(
        format!("sound-settings-{}", style.name()),
        bytes,
        Some((0, 0)),
    )
}
