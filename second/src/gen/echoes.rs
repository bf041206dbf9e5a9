//! Files of echoes, for requests i and j of 02: pings of Sv channels and of others, with
//! values about the limits and about the steps.

use super::corrections::bytes_of;
use super::draft::{spellings, suits, word, Draft, Piece, Style};
use super::sound::{angle_ping, any_length, channel_maker, family_ping, sample_list};
use super::sound::{Plan, Wish, FAMILIES};
use super::{Case, Rng};
use crate::kinds::{Family, PingKind};
use crate::links::Maker;

/// How loud values are.
#[derive(Clone, Copy)]
pub(super) enum Levels {
    /// Anywhere from -150 to 0 dB.
    Inside,
    /// Those two and next to them.
    Limits,
    /// Multiples of 0.05 dB and next to them.
    Steps,
    /// Multiples of 10 dB, next to them and a step beside them.
    Tens,
    /// 0 dB.
    Loudest,
    /// Each of these.
    Mixed,
}

/// How a file is made.
pub(super) struct Recipe {
    pub name: &'static str,
    /// Out of a hundred channels so many are Sv.
    pub sv: u64,
    /// Out of a hundred pings so many are of angles, and of the others so many silent.
    pub angles: u64,
    pub silent: u64,
    pub levels: Levels,
    /// Out of a hundred pings with values so many have some outside the limits.
    pub outside: u64,
    /// Whether values are anything in place of these.
    pub wild: bool,
    /// Whether a ping has as many values as there can be.
    pub full: bool,
    /// Whether the last sample of a 32-bit ping has the last number that there is.
    pub far: bool,
    pub refused: bool,
}

pub(super) const MIXED: Recipe = Recipe {
    name: "mixed",
    sv: 70,
    angles: 10,
    silent: 10,
    levels: Levels::Mixed,
    outside: 20,
    wild: false,
    full: false,
    far: false,
    refused: false,
};

/// Pings with values of Sv channels alone.
const SV: Recipe = Recipe {
    name: "sv",
    sv: 100,
    angles: 0,
    silent: 0,
    levels: Levels::Inside,
    outside: 0,
    ..MIXED
};

#[rustfmt::skip]
const RECIPES: [Recipe; 12] = [
    MIXED,
    SV,
    Recipe { name: "limits", levels: Levels::Limits, ..SV },
    Recipe { name: "steps", levels: Levels::Steps, ..SV },
    Recipe { name: "tens", levels: Levels::Tens, ..SV },
    Recipe { name: "outside", levels: Levels::Limits, outside: 100, ..SV },
    Recipe { name: "outside-among", outside: 40, silent: 20, ..SV },
    Recipe { name: "other-types", sv: 0, ..MIXED },
    Recipe { name: "silent", sv: 80, silent: 80, ..MIXED },
    Recipe { name: "angles", sv: 80, angles: 60, ..MIXED },
    Recipe { name: "full", levels: Levels::Loudest, full: true, ..SV },
    Recipe { name: "refused", refused: true, ..MIXED },
];

/// The most values that a ping has.
const MOST_VALUES: u32 = 32_764;

/// In dB; the loudest is 0.
const QUIETEST: i32 = -150;

/// Types of data sample: those of both makers' tables, so the other one's Sv too, the next
/// ones, and the numbers of Sv with their bytes turned about.
const TYPES: [u16; 10] = [0, 0, 1, 2, 3, 3, 4, 0x0100, 0x0200, 65535];

/// Where a channel's fields have it.
const TYPE: usize = 3;

/// A family's units in 1 dB, and in the step of 0.05 dB.
fn per_db(family: Family) -> i32 {
    match family {
        Family::Bits16 => 100,
        Family::Ce16 => 1_000,
        _ => 1_000_000,
    }
}

fn per_step(family: Family) -> i32 {
    per_db(family) / 20
}

/// A value from -150 to 0 dB.
fn inside(rng: &mut Rng, family: Family, levels: Levels) -> i32 {
    let (db, step) = (per_db(family), per_step(family));
    let (quietest, beside) = (QUIETEST * db, rng.pick(&[-1, 0, 0, 1]));
    let value = match levels {
        Levels::Inside => -(rng.below(1 + quietest.unsigned_abs() as u64) as i32),
        Levels::Limits => rng.pick(&[0, quietest]) + beside,
        Levels::Steps => -(rng.below(3001) as i32) * step + beside,
        Levels::Tens => -(rng.below(16) as i32) * 10 * db + beside * rng.pick(&[1, step]),
        Levels::Loudest => 0,
        Levels::Mixed => {
            let levels = [Levels::Inside, Levels::Limits, Levels::Steps, Levels::Tens];
            let levels = rng.pick(&levels);
            return inside(rng, family, levels);
        }
    };
    with_word(family, value.clamp(quietest, 0), 1)
}

/// A value above 0 dB or below -150 dB: next to them, a dB further on, and the last there
/// are.
fn outside(rng: &mut Rng, family: Family) -> i32 {
    let (lowest, highest) = match family {
        Family::Bits16 => (i16::MIN.into(), i16::MAX.into()),
        Family::Ce16 => (-507_840, 507_840),
        _ => (i32::MIN, i32::MAX),
    };
    let (db, quietest) = (per_db(family), QUIETEST * per_db(family));
    let low = [quietest - 1, quietest - 1, quietest - db, lowest];
    if rng.chance(50) {
        with_word(family, rng.pick(&low), -1)
    } else {
        rng.pick(&[1, 1, db, highest])
    }
}

/// The nearest value in a direction that CE-16 has a word for; the other families have a
/// kind that stores any.
fn with_word(family: Family, mut value: i32, direction: i32) -> i32 {
    while family == Family::Ce16 && word(PingKind::Ce16, value).is_none() {
        value += direction;
    }
    value
}

/// Puts values outside the limits into a list: one or several, often first or last.
fn put_outside(rng: &mut Rng, family: Family, samples: &mut [(u32, i32)]) {
    if samples.is_empty() {
        return;
    }
    let last = samples.len() - 1;
    for _ in 0..rng.pick(&[1, 1, 2, 9]) {
        let any = rng.index(samples.len());
        let nth = rng.pick(&[0, last, any, any]);
        samples[nth].1 = outside(rng, family);
    }
}

/// A sound list of samples with such values.
fn echo_list(rng: &mut Rng, family: Family, recipe: &Recipe) -> Vec<(u32, i32)> {
    if recipe.wild {
        return sample_list(rng, family, true);
    }
    let mut samples = if recipe.full {
        (0..MOST_VALUES).map(|number| (number, 0)).collect()
    } else {
        sample_list(rng, family, false)
    };
    for (_, value) in &mut samples {
        *value = inside(rng, family, recipe.levels);
    }
    if rng.chance(recipe.outside) {
        put_outside(rng, family, &mut samples);
    }
    if !suits(family, &samples) {
        // past what the kind with numbers can number: what has no word leaves
        let kind = spellings(family).1;
        samples.retain(|(_, value)| word(kind, *value).is_some());
    }
    samples
}

/// Moves a list of 32-bit samples up to the last number that there is.
fn move_up(samples: &mut [(u32, i32)]) {
    let up = samples.last().map_or(0, |(last, _)| u32::MAX - last);
    for (number, _) in samples {
        *number += up;
    }
}

fn echo_ping(rng: &mut Rng, channel: u16, recipe: &Recipe) -> Draft {
    if rng.chance(recipe.angles) {
        return angle_ping(rng, channel);
    }
    let family = rng.pick(&FAMILIES);
    let mut samples = if rng.chance(recipe.silent) {
        Vec::new()
    } else {
        echo_list(rng, family, recipe)
    };
    if recipe.far && family == Family::Bits32 {
        move_up(&mut samples);
    }
    let length = any_length(rng, family, &samples);
    family_ping(rng, channel, family, samples, length)
}

/// Declares a channel of either maker, of Sv or of any type.
fn add_channel(plan: &mut Plan, rng: &mut Rng, sv: u64) {
    plan.add_channel(rng);
    let Some(draft) = plan.drafts.last_mut() else {
        return;
    };
    let own_sv = match channel_maker(draft.code) {
        Some(Maker::Biosonics) => 1,
        Some(Maker::Simrad) => 2,
        None => return,
    };
    let of_sample = if rng.chance(sv) {
        own_sv
    } else {
        rng.pick(&TYPES)
    };
    draft.pieces()[TYPE] = Piece::Two(of_sample);
}

/// Mostly a few pings of a few channels, now and then some tens, and one or two where they
/// are full.
pub(super) fn echo_drafts(rng: &mut Rng, recipe: &Recipe) -> Vec<Draft> {
    let mut plan = Plan::begin(rng);
    for _ in 0..1 + rng.below(2) {
        plan.add_sounder(rng);
    }
    for _ in 0..1 + rng.below(4) {
        add_channel(&mut plan, rng, recipe.sv);
    }
    let pings = match rng.below(20) {
        _ if recipe.full => 1 + rng.below(2),
        0 => 20 + rng.below(40),
        _ => 1 + rng.below(9),
    };
    for _ in 0..pings {
        match rng.below(20) {
            0 => add_channel(&mut plan, rng, recipe.sv),
            1..=4 => plan.add_other(rng),
            _ => {}
        }
        if let Some(channel) = plan.any_channel(rng) {
            let ping = echo_ping(rng, channel, recipe);
            plan.drafts.push(ping);
        }
    }
    plan.fill_classes(rng, &Wish::any());
    plan.end(rng)
}

/// Its own stream, so that these files have nothing to do with the file cases of a seed.
const STREAM: u64 = 0xEC_4035;

/// The file of a number; what files are for comes in turn.
pub fn energy_case(seed: u64, number: u64) -> Case {
    let mut rng = Rng::of_case(seed ^ STREAM, number);
    let recipe = &RECIPES[(number % RECIPES.len() as u64) as usize];
    let style = Style::any(&mut rng);
    let drafts = echo_drafts(&mut rng, recipe);
    let bytes = bytes_of(&mut rng, drafts, &style, recipe.refused);
    let name = format!("energy-{}-{}", recipe.name, style.name());
    let expected = (!recipe.refused).then_some((0, 0));
    Case::new(name, bytes, expected)
}
