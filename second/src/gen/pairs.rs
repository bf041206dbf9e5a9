//! Pairs of accepted files: of equal content but not of equal bytes, and of
//! contents that differ in one small place.

use super::draft::{coding, radix, render, spellings, suits, suits_words};
use super::draft::{Body, Draft, Piece, PingStyle, Style};
use super::sound::{length_with, sound_drafts, Wish, FAMILIES};
use super::Rng;
use crate::kinds::{Family, PingKind};

/// Styles that let both files of a pair be normalised: unlisted types need
/// LSB order.
fn any_style(rng: &mut Rng, wish: &Wish) -> Style {
    if wish.unlisted {
        Style::any_lsb(rng)
    } else {
        Style::any(rng)
    }
}

fn any_wish(rng: &mut Rng) -> Wish {
    if rng.chance(30) {
        Wish::any()
    } else {
        Wish::listed_only()
    }
}

/// Two files of the same drafts: in one style and apart in one thing alone that is no
/// content, or in two styles.
pub fn equal_pair(rng: &mut Rng) -> (Vec<u8>, Vec<u8>) {
    let wish = any_wish(rng);
    let drafts = sound_drafts(rng, &wish);
    let one = any_style(rng, &wish);
    let alter: Option<fn(&mut Style)> = match rng.below(8) {
        0 => return identifier_pair(rng, &drafts, one),
        1 => Some(|style: &mut Style| style.cut = true),
        2 => Some(|style: &mut Style| style.pings = PingStyle::Listed),
        3 => Some(|style: &mut Style| style.rubbish = true),
        4 => Some(|style: &mut Style| style.minus_zero = true),
        _ => None,
    };
    if let Some(alter) = alter {
        let one = packed(one.clone());
        let mut other = one.clone();
        alter(&mut other);
        let pair = both(rng, &drafts, &one, &other);
        if pair.0 != pair.1 {
            return pair;
        }
    }
    let other = any_style(rng, &wish);
    both(rng, &drafts, &one, &other)
}

/// The drafts in two styles.
fn both(rng: &mut Rng, drafts: &[Draft], one: &Style, other: &Style) -> (Vec<u8>, Vec<u8>) {
    let one = render(drafts, one, rng).bytes;
    (one, render(drafts, other, rng).bytes)
}

/// The same bytes but for 44201 in the one and 44204 in the other.
fn identifier_pair(rng: &mut Rng, drafts: &[Draft], one: Style) -> (Vec<u8>, Vec<u8>) {
    let other = Style {
        printed: !one.printed,
        ..one.clone()
    };
    // The same stream for both, so that rubbish, cuts and index tuples are the same.
    let again = &mut rng.clone();
    let one = render(drafts, &one, rng).bytes;
    (one, render(drafts, &other, again).bytes)
}

/// The style with pings in words, in the fewest, and nothing else that chance decides.
fn packed(style: Style) -> Style {
    Style {
        rubbish: false,
        pings: PingStyle::Packed,
        cut: false,
        minus_zero: false,
        index: false,
        ..style
    }
}

/// Whether the style alone says what a piece becomes.
fn is_style(piece: &Piece) -> bool {
    matches!(piece, Piece::Space | Piece::Identifier)
}

/// The pieces that are content and that no link and no other rule hangs on.
fn free_pieces(draft: &Draft) -> Vec<usize> {
    let (pieces, bound): (&[Piece], &[usize]) = match (&draft.body, draft.code) {
        (Body::Fields(pieces), 100 | 200 | 1000 | 2000) => (pieces, &[0, 1]),
        (Body::Fields(pieces), 40 | 10100) => (pieces, &[2]),
        (Body::Fields(pieces), _) => (pieces, &[]),
        (Body::Ping { header, .. } | Body::Listed { header, .. }, _) => (header, &[2]),
        _ => (&[], &[]),
    };
    (0..pieces.len())
        .filter(|at| !bound.contains(at) && !is_style(&pieces[*at]))
        .collect()
}

fn change_piece(rng: &mut Rng, draft: &mut Draft) -> bool {
    let free = free_pieces(draft);
    if free.is_empty() {
        return false;
    }
    let at = rng.pick(&free);
    match &mut draft.pieces()[at] {
        Piece::Two(number) => *number ^= 1 << rng.below(16),
        Piece::Four(number) => *number ^= 1 << rng.below(32),
        Piece::Chars(chars) => {
            let at = rng.index(chars.len());
            chars[at] ^= 1 << rng.below(8);
        }
        Piece::Space | Piece::Identifier => return false,
    }
    true
}

/// One sample more, one less, another value, or another number.
fn change_samples(rng: &mut Rng, samples: &mut Vec<(u32, i32)>) -> bool {
    let next = samples.last().map_or(Some(0), |(n, _)| n.checked_add(1));
    if samples.is_empty() || rng.chance(25) {
        // Stored 0 is a sample, silence is none.
        let Some(next) = next else { return false };
        samples.push((next, 0));
        return true;
    }
    let at = rng.index(samples.len());
    match rng.below(3) {
        0 if samples.len() > 1 => {
            samples.remove(at);
        }
        0 => return false,
        1 => samples[at].1 ^= 1,
        _ => {
            let above = samples.get(at + 1).map_or(1 << 32, |(n, _)| u64::from(*n));
            if u64::from(samples[at].0) + 1 >= above {
                return false;
            }
            samples[at].0 += 1;
        }
    }
    true
}

/// One quiet sample more behind the last value, one less, or about a run more; where none
/// is left, a ping of samples has no length, and needs another kind or none.
fn change_length(
    rng: &mut Rng,
    family: Family,
    samples: &[(u32, i32)],
    length: &mut Option<u32>,
) -> bool {
    let values_end = samples.last().map_or(0, |(n, _)| u64::from(*n) + 1);
    let silence = length.map_or(0, |length| u64::from(length) - values_end);
    let other = match rng.below(4) {
        0 => silence.saturating_sub(1),
        1 => silence + radix(spellings(family).1) + rng.below(3) - 1,
        _ => silence + 1,
    };
    let changed = length_with(family, samples, other);
    let none_left = other == 0 && !samples.is_empty();
    let possible = changed.is_some() || none_left;
    if other == silence || !possible {
        return false;
    }
    *length = changed;
    true
}

/// Another list of samples, or another length. A ping with a length still has to hold
/// all its samples.
fn change_ping(
    rng: &mut Rng,
    family: Family,
    samples: &mut Vec<(u32, i32)>,
    length: &mut Option<u32>,
) -> bool {
    if rng.chance(40) {
        return change_length(rng, family, samples, length);
    }
    change_samples(rng, samples) && is_sound(family, samples, *length)
}

/// Whether a family has a kind for a list and a length.
fn is_sound(family: Family, samples: &[(u32, i32)], length: Option<u32>) -> bool {
    let last = samples.last().map_or(0, |(n, _)| u64::from(*n) + 2);
    match length {
        Some(length) => u64::from(length) >= last && suits_words(family, samples, Some(length)),
        None => suits(family, samples),
    }
}

/// Another angle, the two angles the other way round, or a sample less.
fn change_angles(rng: &mut Rng, kind: PingKind, samples: &mut Vec<(u32, [u32; 2])>) -> bool {
    if coding(kind).values != 2 {
        return false;
    }
    let at = rng.index(samples.len());
    match rng.below(4) {
        0 if samples.len() > 1 => {
            samples.remove(at);
        }
        1 => {
            let angles = &mut samples[at].1;
            angles.swap(0, 1);
            return angles[0] != angles[1];
        }
        _ => samples[at].1[rng.index(2)] ^= 1 << rng.below(16),
    }
    true
}

/// Types that may stand anywhere, or be missing, without breaking a rule.
fn is_free(draft: &Draft) -> bool {
    matches!(draft.code, 30 | 10110 | 65516 | 65517)
}

/// Makes the content differ in one place; false where it couldn't.
fn change(rng: &mut Rng, drafts: &mut Vec<Draft>) -> bool {
    let at = rng.index(drafts.len());
    match rng.below(10) {
        0 | 1 if !matches!(drafts[at].body, Body::Raw(_)) => {
            drafts[at].attribute ^= 1 << rng.below(32);
            true
        }
        2 if is_free(&drafts[at]) => {
            drafts.remove(at);
            true
        }
        3 if is_free(&drafts[at]) => {
            let again = drafts[at].clone();
            drafts.insert(at, again);
            true
        }
        4 if at + 2 < drafts.len() && is_free(&drafts[at]) && is_free(&drafts[at + 1]) => {
            let differ = drafts[at] != drafts[at + 1];
            drafts.swap(at, at + 1);
            differ
        }
        5 if matches!(drafts[at].code, 65516 | 65517) => {
            drafts[at].code ^= 1; // 65516 and 65517 differ in the last bit
            true
        }
        _ => match &mut drafts[at].body {
            Body::Raw(data) => {
                let place = rng.index(data.len());
                data[place] ^= 1 << rng.below(8);
                true
            }
            Body::Ping {
                family,
                samples,
                length,
                ..
            } if rng.chance(70) => change_ping(rng, *family, samples, length),
            Body::Listed { kind, samples, .. } if rng.chance(70) => {
                change_angles(rng, *kind, samples)
            }
            _ => change_piece(rng, &mut drafts[at]),
        },
    }
}

/// Makes the silence behind a ping's last value another; false where it couldn't.
fn other_length(rng: &mut Rng, ping: &mut Draft) -> bool {
    match &mut ping.body {
        Body::Ping {
            family,
            samples,
            length,
            ..
        } => change_length(rng, *family, samples, length),
        _ => false,
    }
}

/// Gives a ping the same samples in another family; false where it couldn't.
fn other_family(rng: &mut Rng, ping: &mut Draft) -> bool {
    match &mut ping.body {
        Body::Ping {
            family,
            samples,
            length,
            ..
        } => {
            let other = rng.pick(&FAMILIES);
            let changed = other != *family && is_sound(other, samples, *length);
            *family = other;
            changed
        }
        Body::Listed { kind, samples, .. } => {
            let narrow = samples.iter().all(|(number, _)| *number <= 0xFFFF);
            let other = match kind {
                PingKind::U16Angles => Some(PingKind::U32_16Angles),
                PingKind::U32_16Angles if narrow => Some(PingKind::U16Angles),
                _ => None,
            };
            *kind = other.unwrap_or(*kind);
            other.is_some()
        }
        _ => false,
    }
}

/// Alters a draft; false where it couldn't.
type Alter = fn(&mut Rng, &mut Draft) -> bool;

/// Two files apart in one ping's silence, or in its family, alone; none where no ping
/// allows it.
fn ping_pair(
    rng: &mut Rng,
    drafts: &[Draft],
    style: Style,
    alter: Alter,
) -> Option<(Vec<u8>, Vec<u8>)> {
    let mut other = drafts.to_vec();
    let mut pings: Vec<&mut Draft> = other.iter_mut().filter(|draft| draft.is_ping()).collect();
    let nth = rng.index(pings.len());
    if !alter(rng, pings.get_mut(nth)?) {
        return None;
    }
    let style = packed(style);
    let one = render(drafts, &style, rng).bytes;
    Some((one, render(&other, &style, rng).bytes))
}

/// Two accepted files whose contents differ in one small place.
pub fn unequal_pair(rng: &mut Rng) -> (Vec<u8>, Vec<u8>) {
    let wish = any_wish(rng);
    let drafts = sound_drafts(rng, &wish);
    let alter: Option<Alter> = match rng.below(5) {
        0 => Some(other_length),
        1 => Some(other_family),
        _ => None,
    };
    if let Some(alter) = alter {
        let style = any_style(rng, &wish);
        if let Some(pair) = ping_pair(rng, &drafts, style, alter) {
            return pair;
        }
    }
    let mut other = drafts.clone();
    while !change(rng, &mut other) {
        other = drafts.clone();
    }
    let style = any_style(rng, &wish);
    let one = render(&drafts, &style, rng).bytes;
    let style = if rng.chance(50) {
        style
    } else {
        any_style(rng, &wish)
    };
    (one, render(&other, &style, rng).bytes)
}
