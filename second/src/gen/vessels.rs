//! Bigger vessels: files of many sounders and channels, at the limits of
//! request m of 02 and past them, of both makers by request b.

use super::draft::{Draft, Style};
use super::limits::case;
use super::sound::*;
use super::{Case, Rng};
use crate::links::Maker;

/// The most sounders and channels of a file.
pub(super) const MOST_SOUNDERS: u32 = 64;
pub(super) const MOST_CHANNELS: u16 = 1024;

/// The document identifier that is declared as the nth, from 1. These don't
/// rise, so that nothing but the order of declaration tells where one stands.
fn document(nth: u32) -> u32 {
    nth.wrapping_mul(0x9E37_79B1) // odd, so that no two are the same
}

/// The software channel that is declared as the nth, likewise.
fn software(nth: u16) -> u16 {
    nth.wrapping_mul(0x9E3B)
}

/// The sounder that the nth channel names: they are dealt out in turn.
fn parent(nth: u16, sounders: u32) -> u32 {
    (u32::from(nth) - 1) % sounders + 1
}

/// How many sounders and channels a vessel has, and whose its nth sounder is.
#[derive(Clone, Copy)]
struct Vessel {
    sounders: u32,
    channels: u16,
    maker: fn(u32) -> Maker,
}

/// Of every three sounders the first is Simrad's: so are the first and the 64th.
fn mixed(nth: u32) -> Maker {
    match nth % 3 {
        1 => Maker::Simrad,
        _ => Maker::Biosonics,
    }
}

fn biosonics(_: u32) -> Maker {
    Maker::Biosonics
}

fn simrad(_: u32) -> Maker {
    Maker::Simrad
}

/// Sounders and channels of both makers.
const fn of_both(sounders: u32, channels: u16) -> Vessel {
    Vessel {
        sounders,
        channels,
        maker: mixed,
    }
}

impl Vessel {
    fn sounder(self, rng: &mut Rng, nth: u32) -> Draft {
        let named = (1..=self.channels).filter(|channel| parent(*channel, self.sounders) == nth);
        let count = named.count() as u16;
        sounder_of(rng, (self.maker)(nth), count, document(nth))
    }

    fn channel(self, rng: &mut Rng, nth: u16) -> Draft {
        let parent = parent(nth, self.sounders);
        channel_of(rng, (self.maker)(parent), software(nth), document(parent))
    }

    /// A file up to its position: the sounders, then the channels.
    fn drafts(self, rng: &mut Rng) -> Vec<Draft> {
        let mut drafts = vec![signature(rng)];
        drafts.extend((1..=self.sounders).map(|nth| self.sounder(rng, nth)));
        drafts.extend((1..=self.channels).map(|nth| self.channel(rng, nth)));
        drafts.push(position(rng));
        drafts
    }
}

/// A ping of the nth channel, which need not be declared.
fn ping_of(rng: &mut Rng, nth: u16) -> Draft {
    short_ping(rng, software(nth))
}

/// A vessel, what comes behind its declarations, and the end of file. A code
/// other than 0 is that of the last draft before the end of file.
fn behind(
    name: &str,
    vessel: Vessel,
    more: impl Fn(&mut Rng) -> Vec<Draft>,
    code: u32,
    style: &Style,
) -> Case {
    let mut rng = Rng::new(12);
    let mut drafts = vessel.drafts(&mut rng);
    drafts.extend(more(&mut rng));
    let last = drafts.len() - 1;
    drafts.push(end_of_file(&mut rng, 2));
    case(format!("vessel-{name}"), &drafts, style, last, code)
}

/// Both tables full.
const FULL: Vessel = of_both(MOST_SOUNDERS, MOST_CHANNELS);

/// So many pings come behind full tables, where their order is the point.
const PINGS: usize = 1000;

/// Pings behind full tables, each of the channel declared as the nth.
fn pings(name: &str, channels: impl Fn(&mut Rng) -> Vec<u16>, style: &Style) -> Case {
    let more = |rng: &mut Rng| {
        let channels = channels(rng);
        channels.iter().map(|nth| ping_of(rng, *nth)).collect()
    };
    behind(name, FULL, more, 0, style)
}

/// A sounder behind the others, with the identifier of the nth.
fn more_sounder(maker: Maker, nth: u32) -> impl Fn(&mut Rng) -> Vec<Draft> {
    move |rng| vec![sounder_of(rng, maker, 0, document(nth))]
}

/// A channel behind the others, with the identifier of the nth, that names the
/// sounder of the other number.
fn more_channel(maker: Maker, nth: u16, parent: u32) -> impl Fn(&mut Rng) -> Vec<Draft> {
    move |rng| vec![channel_of(rng, maker, software(nth), document(parent))]
}

/// No sounder has this number.
const NOWHERE: u32 = MOST_SOUNDERS + 1;

/// 12 before 14: the 65th sounder has the 64th one's identifier.
fn sounder_twice(style: &Style) -> Case {
    let vessel = of_both(MOST_SOUNDERS, 1);
    let twice = more_sounder(Maker::Simrad, MOST_SOUNDERS);
    behind("sounder-twice", vessel, twice, 12, style)
}

/// 12 before 14 and 13: the 1,025th channel has the 1,024th one's identifier and
/// names no sounder.
fn channel_twice(style: &Style) -> Case {
    let twice = more_channel(Maker::Simrad, MOST_CHANNELS, NOWHERE);
    behind("channel-twice", FULL, twice, 12, style)
}

/// 14 before 13: the 1,025th channel names no sounder.
fn channel_orphan(style: &Style) -> Case {
    let orphan = more_channel(Maker::Biosonics, MOST_CHANNELS + 1, NOWHERE);
    behind("channel-orphan", FULL, orphan, 14, style)
}

/// 12 before 14: the 65th sounder has the identifier of the 64th, which is the
/// other maker's.
fn sounder_of_both(style: &Style) -> Case {
    let vessel = of_both(MOST_SOUNDERS, 1);
    let twice = more_sounder(Maker::Biosonics, MOST_SOUNDERS);
    behind("sounder-of-both", vessel, twice, 12, style)
}

/// 12 before 14 and 13: the 1,025th channel has the identifier of the 1,024th, which
/// is the other maker's, and names that one's sounder.
fn channel_of_both(style: &Style) -> Case {
    let twice = more_channel(Maker::Biosonics, MOST_CHANNELS, MOST_SOUNDERS);
    behind("channel-of-both", FULL, twice, 12, style)
}

/// 14: the 65th sounder is the only one of its maker.
fn sounder_alone(name: &str, table: fn(u32) -> Maker, style: &Style) -> Case {
    let vessel = Vessel {
        maker: table,
        ..of_both(MOST_SOUNDERS, 1)
    };
    let more = more_sounder(other_maker(table(1)), MOST_SOUNDERS + 1);
    behind(name, vessel, more, 14, style)
}

fn simrad_sounder_alone(style: &Style) -> Case {
    sounder_alone("simrad-sounder-65", biosonics, style)
}

fn biosonics_sounder_alone(style: &Style) -> Case {
    sounder_alone("biosonics-sounder-65", simrad, style)
}

/// 14: the 1,025th channel, of a sounder of its own maker.
fn simrad_channel_over(style: &Style) -> Case {
    let over = more_channel(Maker::Simrad, MOST_CHANNELS + 1, 1);
    behind("simrad-channel-1025", FULL, over, 14, style)
}

/// 14 before 13: the 1,025th channel names a sounder of the other maker.
fn other_maker_over(style: &Style) -> Case {
    let over = more_channel(Maker::Simrad, MOST_CHANNELS + 1, 2);
    behind("other-maker-1025", FULL, over, 14, style)
}

/// 13: the 1,024th channel names a sounder of the other maker, the last of 64.
fn other_maker_last(style: &Style) -> Case {
    let vessel = of_both(MOST_SOUNDERS, MOST_CHANNELS - 1);
    let other = more_channel(Maker::Biosonics, MOST_CHANNELS, MOST_SOUNDERS);
    behind("other-maker-1024", vessel, other, 13, style)
}

/// Full tables of Simrad's alone.
fn all_simrad(style: &Style) -> Case {
    let vessel = Vessel {
        maker: simrad,
        ..FULL
    };
    let pings = |rng: &mut Rng| [MOST_CHANNELS, 1].map(|nth| ping_of(rng, nth)).to_vec();
    behind("all-simrad", vessel, pings, 0, style)
}

/// All that names a channel names the last, the first, and the last again; an
/// attitude names all, too.
fn ends_named(style: &Style) -> Case {
    let naming = |rng: &mut Rng| {
        let mut drafts = vec![attitude(rng, 65535)];
        for nth in [MOST_CHANNELS, 1, MOST_CHANNELS] {
            drafts.push(ping_of(rng, nth));
            drafts.push(threshold(rng, software(nth)));
            drafts.push(attitude(rng, software(nth)));
        }
        drafts
    };
    behind("ends-named", FULL, naming, 0, style)
}

/// 13: a ping of a channel that isn't in the full table.
fn ping_orphan(style: &Style) -> Case {
    let named = |rng: &mut Rng| vec![ping_of(rng, 1), ping_of(rng, MOST_CHANNELS + 1)];
    behind("ping-orphan", FULL, named, 13, style)
}

fn in_turn(style: &Style) -> Case {
    pings("in-turn", |_| (1..=MOST_CHANNELS).collect(), style)
}

fn any_nth(rng: &mut Rng, channels: u16) -> u16 {
    1 + rng.below(channels.into()) as u16
}

fn any_order(style: &Style) -> Case {
    let draw = |rng: &mut Rng| (0..PINGS).map(|_| any_nth(rng, MOST_CHANNELS)).collect();
    pings("any-order", draw, style)
}

/// The last channel again and again: almost 1,024 comparisons a tuple.
fn repeated(style: &Style) -> Case {
    pings("repeated", |_| vec![MOST_CHANNELS; PINGS], style)
}

/// Sounders and channels declared between pings, up to full tables.
fn between(style: &Style) -> Case {
    let rng = &mut Rng::new(13);
    let mut drafts = vec![signature(rng), position(rng)];
    for nth in 1..=FULL.channels {
        if u32::from(nth) <= FULL.sounders {
            drafts.push(FULL.sounder(rng, nth.into()));
        }
        drafts.push(FULL.channel(rng, nth));
        let any = any_nth(rng, nth);
        let named = rng.pick(&[nth, 1, any]);
        drafts.push(ping_of(rng, named));
    }
    drafts.push(end_of_file(rng, 2));
    case("vessel-between".to_string(), &drafts, style, 0, 0)
}

pub(super) const CASES: [fn(&Style) -> Case; 17] = [
    sounder_twice,
    channel_twice,
    channel_orphan,
    sounder_of_both,
    channel_of_both,
    simrad_sounder_alone,
    biosonics_sounder_alone,
    simrad_channel_over,
    other_maker_over,
    other_maker_last,
    all_simrad,
    ends_named,
    ping_orphan,
    in_turn,
    any_order,
    repeated,
    between,
];

/// A file for the two programs, within their 65,536 bytes: sounders about both
/// the old limit and the new, channels from the old limit on.
pub(super) fn short_vessel(rng: &mut Rng) -> Vec<Draft> {
    let sounders = rng.pick(&[16, 17, 63, 64, 65]);
    let channels = rng.pick(&[64, 65, 200, 500]);
    let mut drafts = of_both(sounders, channels).drafts(rng);
    for _ in 0..=rng.below(40) {
        let nth = any_nth(rng, channels);
        drafts.push(ping_of(rng, nth));
    }
    drafts.push(end_of_file(rng, 2));
    drafts
}
