//! What is compared of settings: what the call answers, tells and leaves, lent just enough
//! entries, more, one too few of each slice, and none; and what it met in a file, so that
//! nothing that can be is never there.

use crate::answers::five;
use crate::batch::{Batch, File, LONG_FILLED};
use crate::exports::export;
use crate::slices::{Lent, Slices, Tries};
use crate::tally::{in_both_orders, Chapter, Given};
use crate::walked::walked;
use second::kinds::KINDS;
use second::layout::{ATTITUDE, THRESHOLD};
use second::walk::Tuple;
use second::{settings, Answer, Order, PingKind, SoftwareChannel};
use std::collections::{BTreeSet, HashMap};
use std::io;

/// What the export compared here can give: what a check can, and 19.
pub const GIVEN: [Given; 1] = [Given::checking("settings", &[19]).comparing(0)];

/// Where a ping, a threshold and an attitude have their clock and their channel.
const TIME_AT: usize = 8;
const CHANNEL_AT: usize = 12;

/// What means all channels in an attitude, and there alone.
const ALL: u16 = SoftwareChannel::ALL.0;

/// The slices, as the header calls them.
const SLICES: Slices = Slices {
    chapter: Chapter::Settings,
    names: ["pings", "thresholds", "attitudes"],
};

/// Settings of a file, lent an entry of each slice for each ping, and what else is tried.
pub fn compare_settings(batch: &mut Batch, file: &mut File, tries: Tries) -> io::Result<()> {
    let seen = Seen::of(file.bytes);
    let answer = SLICES.compare(batch, file, seen.held.len(), tries, settings_into)?;
    if answer.is_accepted() {
        seen.note(batch, file.bytes);
    }
    Ok(())
}

fn settings_into(batch: &mut Batch, file: &mut File, lent: Lent) -> Answer {
    let mut slices = lent.map(|entries| vec![LONG_FILLED; entries]);
    let [pings, thresholds, attitudes] = &mut slices;
    let answer = settings(file.bytes, pings, thresholds, attitudes);
    let mut arguments = vec![batch.file(file).into()];
    arguments.extend(slices.iter().map(|places| batch.lend_longs(places)));
    batch.call(export("settings"), &arguments, &five(answer));
    answer
}

/// The settings of one type for one channel, or for all, as far as a file was walked.
#[derive(Clone, Copy)]
struct Set {
    /// Where the last of them stands, and what its clock says.
    place: u64,
    time: u32,
    /// The latest that the clock of any of them says.
    latest: u32,
}

/// A listed ping, and what is set before it.
struct Held {
    kind: PingKind,
    channel: u16,
    time: u32,
    threshold: Option<Set>,
    /// The attitudes of its channel, which 65535 has none of, and those for all.
    own: Option<Set>,
    for_all: Option<Set>,
}

impl Held {
    /// The places of the last attitude of its channel and of the last for all, where there
    /// are both.
    fn both(&self) -> Option<(u64, u64)> {
        Some((self.own?.place, self.for_all?.place))
    }

    /// The attitudes of which the last holds.
    fn attitude(&self) -> Option<Set> {
        let both = self.own.into_iter().chain(self.for_all);
        let latest = both.clone().map(|set| set.latest).max()?;
        let last = both.max_by_key(|set| set.place)?;
        Some(Set { latest, ..last })
    }
}

/// What can be seen of a ping and the settings before it.
type Sight = (&'static str, fn(&Held) -> bool);

const OF_PINGS: [Sight; 12] = [
    ("a threshold", |held| held.threshold.is_some()),
    ("no threshold", |held| held.threshold.is_none()),
    ("an attitude of the channel alone", |held| {
        held.own.is_some() && held.for_all.is_none()
    }),
    ("an attitude for all alone", |held| {
        held.own.is_none() && held.for_all.is_some()
    }),
    ("an attitude of the channel behind one for all", |held| {
        held.both().is_some_and(|(own, for_all)| own > for_all)
    }),
    ("an attitude for all behind one of the channel", |held| {
        held.both().is_some_and(|(own, for_all)| own < for_all)
    }),
    ("no attitude", |held| held.attitude().is_none()),
    ("a channel 65535 with a threshold", |held| {
        held.channel == ALL && held.threshold.is_some()
    }),
    ("a threshold that the clocks put before another", |held| {
        held.threshold.is_some_and(|set| set.time < set.latest)
    }),
    ("an attitude that the clocks put before another", |held| {
        held.attitude().is_some_and(|set| set.time < set.latest)
    }),
    ("a threshold that the clocks put behind the ping", |held| {
        held.threshold.is_some_and(|set| set.time > held.time)
    }),
    ("an attitude that the clocks put behind the ping", |held| {
        held.attitude().is_some_and(|set| set.time > held.time)
    }),
];

/// What can be seen of a file as a whole.
const NO_PING: &str = "no listed ping";
const BEHIND: &str = "a setting behind the last ping";

/// All that settings have to meet.
pub fn wanted() -> Vec<String> {
    let mut wanted = SLICES.wanted();
    wanted.extend([NO_PING, BEHIND].map(String::from));
    wanted.extend(OF_PINGS.map(|(what, _)| what.into()));
    wanted.extend(KINDS.map(|row| row.name.into()));
    in_both_orders(&wanted)
}

/// What is seen of a file, from its first tuple up to where it can be walked.
#[derive(Default)]
struct Seen {
    held: Vec<Held>,
    /// By the type of the settings and the channel that they name.
    sets: HashMap<(u16, u16), Set>,
    /// Something is set behind the last ping.
    behind: bool,
}

impl Seen {
    fn of(file: &[u8]) -> Seen {
        let mut seen = Seen::default();
        for (order, tuple) in walked(file) {
            seen.take(file, order, &tuple);
        }
        seen
    }

    fn take(&mut self, file: &[u8], order: Order, tuple: &Tuple) {
        // those that are looked at have both, in a file that is accepted
        let bytes = tuple.bytes(file);
        let time = order.read_four(bytes, TIME_AT).unwrap_or(0);
        let channel = order.read_two(bytes, CHANNEL_AT).unwrap_or(0);
        if let Some(kind) = PingKind::of(tuple.code) {
            let held = self.at_ping(kind, channel, time);
            self.held.push(held);
            self.behind = false;
        } else if [THRESHOLD, ATTITUDE].contains(&tuple.code) {
            let those = (tuple.code, channel);
            let before = self.sets.get(&those).map_or(time, |set| set.latest);
            let set = Set {
                place: tuple.place,
                time,
                latest: time.max(before),
            };
            self.sets.insert(those, set);
            self.behind = true;
        }
    }

    fn at_ping(&self, kind: PingKind, channel: u16, time: u32) -> Held {
        let set = |code, channel| self.sets.get(&(code, channel)).copied();
        Held {
            kind,
            channel,
            time,
            threshold: set(THRESHOLD, channel),
            own: set(ATTITUDE, channel).filter(|_| channel != ALL),
            for_all: set(ATTITUDE, ALL),
        }
    }

    /// Notes what an accepted file has, each thing once.
    fn note(&self, batch: &mut Batch, file: &[u8]) {
        let mut whats = BTreeSet::new();
        if self.held.is_empty() {
            whats.insert(NO_PING);
        } else if self.behind {
            whats.insert(BEHIND);
        }
        for held in &self.held {
            whats.insert(held.kind.row().name);
            let sights = OF_PINGS.iter().filter(|(_, is_seen)| is_seen(held));
            whats.extend(sights.map(|(what, _)| what));
        }
        for what in whats {
            batch.met_in_order(Chapter::Settings, file, what);
        }
    }
}
