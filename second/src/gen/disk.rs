//! Files as disks damage them: blocks zeroed, lost and repeated, bits turned, ends cut;
//! and what salvage meets besides: tuples inside a broken ping, starts of many pings one
//! in another, bytes left over, a mark with little or nothing but rubbish behind it.

use super::draft::{coding, no_runs, render};
use super::draft::{Body, Draft, Patch, Pen, Piece, Rendered, Style};
use super::sound::{any_ping, navigation, position, sound_drafts, unlisted, unlisted_code, Wish};
use super::{Case, Rng};
use crate::kinds::PingKind;
use crate::order::{put_four, put_two, Order};
use std::ops::Range;

/// What happened to a file.
#[derive(Clone, Copy, PartialEq, Eq, Debug)]
pub enum DiskFault {
    Zeroed,
    Lost,
    Repeated,
    Turned,
    Cut,
    /// One to three bytes behind the last whole offset.
    LeftOver,
    /// Tuples inside a ping that is mostly broken.
    Inside,
    /// Starts of pings one in another, whose frames agree and whose samples mostly don't.
    Nested,
    Rubbish,
    /// The mark, and too few bytes for a tuple behind it.
    Short,
}

pub const DISK_FAULTS: [DiskFault; 10] = [
    DiskFault::Zeroed,
    DiskFault::Lost,
    DiskFault::Repeated,
    DiskFault::Turned,
    DiskFault::Cut,
    DiskFault::LeftOver,
    DiskFault::Inside,
    DiskFault::Nested,
    DiskFault::Rubbish,
    DiskFault::Short,
];

const PINGS: [PingKind; 7] = [
    PingKind::U32,
    PingKind::U32_16Angles,
    PingKind::C32,
    PingKind::U16,
    PingKind::U16Angles,
    PingKind::C16,
    PingKind::Ce16,
];

/// Where tuples start, behind the mark, which no fault strikes.
const FIRST: usize = 4;

/// A disk's blocks, and the most bytes of a smaller one.
const BLOCKS: [usize; 2] = [512, 4096];
const SMALL_BLOCK: usize = 64;

/// A tuple has no fewer bytes.
const LEAST: usize = 16;

/// A nested ping reaches over so many starts at least, which leave room for its head.
const NESTED_LEAST: usize = 3;

/// Tuples of a file that has several of a disk's larger blocks, about.
const MANY: u64 = 300;

/// A file with faults of a kind.
pub fn disk_fault(rng: &mut Rng, fault: DiskFault) -> Case {
    let style = Style::any(rng);
    let bytes = match fault {
        DiskFault::Nested => nested(rng, style.order),
        DiskFault::Rubbish => rubbish(rng, style.order),
        DiskFault::Short => {
            let count = match rng.below(4) {
                0 => 0,
                _ => rng.index(LEAST),
            };
            marked(style.order, rng.bytes(count))
        }
        _ => damaged(rng, fault, &style),
    };
    let name = format!("disk-{fault:?}-{}", style.name());
    Case::new(name.to_lowercase(), bytes, None)
}

fn marked(order: Order, behind: Vec<u8>) -> Vec<u8> {
    [&order.mark()[..], &behind].concat()
}

/// A sound file, struck once or a few times.
fn damaged(rng: &mut Rng, fault: DiskFault, style: &Style) -> Vec<u8> {
    let wish = Wish {
        size: rng.pick(&[24, 24, 24, MANY]),
        ..Wish::any()
    };
    let mut drafts = sound_drafts(rng, &wish);
    if fault == DiskFault::Inside {
        for _ in 0..1 + rng.below(3) {
            let at = 1 + rng.index(drafts.len() - 1);
            let ping = ping_around(rng, style);
            drafts.insert(at, ping);
        }
    }
    let Rendered { mut bytes, places } = render(&drafts, style, rng);
    for _ in 0..1 + rng.below(3) {
        strike(rng, fault, &mut bytes, &places);
    }
    bytes
}

/// A block that is struck: as disks have them, at a multiple of its length; or from a
/// tuple's place on, up to one, or anywhere.
fn block(rng: &mut Rng, length: usize, places: &[usize]) -> Range<usize> {
    let bytes = match rng.below(3) {
        0 => 1 + rng.index(SMALL_BLOCK),
        _ => rng.pick(&BLOCKS),
    };
    let from = match rng.below(4) {
        0 => rng.pick(places),
        1 => rng.index(length),
        _ => rng.index(length) / bytes * bytes,
    };
    let from = from.clamp(FIRST, length);
    let to = match rng.below(4) {
        0 => rng.pick(places).max(from),
        _ => from + bytes,
    };
    from..to.min(length)
}

fn strike(rng: &mut Rng, fault: DiskFault, bytes: &mut Vec<u8>, places: &[usize]) {
    let length = bytes.len();
    let block = block(rng, length, places);
    match fault {
        DiskFault::Zeroed => bytes[block].fill(0),
        DiskFault::Lost => {
            bytes.drain(block);
        }
        DiskFault::Repeated => {
            let again = bytes[block.clone()].to_vec();
            // behind itself, or in the place of what follows it
            let instead = rng.chance(50);
            let to = if instead { block.len() } else { 0 };
            let to = length.min(block.end + to);
            bytes.splice(block.end..to, again);
        }
        DiskFault::Cut => {
            let within = rng.pick(&[0, 0, 1, 2, 3, 4, 15, 16]);
            let end = match rng.below(3) {
                0 => block.start,
                _ => rng.pick(places) + within,
            };
            bytes.truncate(end.max(FIRST));
        }
        DiskFault::LeftOver => {
            let whole = length / 4 * 4;
            bytes.truncate(whole);
            let more = 1 + rng.index(3);
            bytes.extend(rng.bytes(more));
        }
        _ => turn_bits(rng, bytes),
    }
}

fn turn_bits(rng: &mut Rng, bytes: &mut [u8]) {
    for _ in 0..1 + rng.below(4) {
        let at = FIRST + rng.index(bytes.len() - FIRST);
        bytes[at] ^= 1 << rng.below(8);
    }
}

/// A tuple that may lie inside another.
fn inner(rng: &mut Rng) -> Draft {
    match rng.below(5) {
        0 => position(rng),
        1 => navigation(rng),
        2 => {
            let code = unlisted_code(rng);
            unlisted(rng, code)
        }
        _ => {
            let channel = rng.two();
            any_ping(rng, channel, true)
        }
    }
}

/// A ping whose samples or words are the bytes of tuples, mostly at offsets that are
/// tried; mostly it is broken, so that these are found. Of words it states their number,
/// one more or one less, or anything.
fn ping_around(rng: &mut Rng, style: &Style) -> Draft {
    let mut pen = Pen::new(style.order);
    let aside = rng.pick(&[0, 0, 0, 0, 4, 8, 2]);
    pen.bytes.extend(rng.bytes(aside));
    for _ in 0..1 + rng.below(3) {
        let draft = inner(rng);
        pen.tuple(&draft, style, rng);
    }
    let fill = pen.bytes.len().next_multiple_of(4) - pen.bytes.len();
    pen.bytes.extend(rng.bytes(fill));
    let kind = rng.pick(&PINGS);
    let mut ping = match coding(kind).number {
        0 => words_ping(rng, kind, style.order, &pen.bytes),
        _ => {
            let data = [rng.bytes(18), pen.bytes, rng.bytes(4)].concat();
            Draft::new(rng, coding(kind).code, Body::Raw(data))
        }
    };
    if rng.chance(30) {
        ping.patch = Some(Patch::Backlink(rng.four()));
    }
    ping
}

fn words_ping(rng: &mut Rng, kind: PingKind, order: Order, bytes: &[u8]) -> Draft {
    let words = words_of(kind, order, bytes);
    let right = no_runs(kind, &words);
    let count = match rng.below(4) {
        0 => right,
        1 => right.wrapping_add(1),
        2 => right.wrapping_sub(1),
        _ => rng.four(),
    };
    let body = Body::Words {
        kind,
        header: any_header(rng),
        count,
        words,
    };
    Draft::new(rng, coding(kind).code, body)
}

/// A ping's header with anything in it.
fn any_header(rng: &mut Rng) -> Vec<Piece> {
    let (time, numbers) = (Piece::Two(rng.two()), [rng.four(), rng.four(), rng.four()]);
    let [clock, ping, bottom] = numbers.map(Piece::Four);
    let [channel, mode] = [rng.two(), rng.two()].map(Piece::Two);
    vec![time, clock, channel, mode, ping, bottom]
}

/// Bytes as the words of a kind.
fn words_of(kind: PingKind, order: Order, bytes: &[u8]) -> Vec<u32> {
    let width = coding(kind).value;
    let words = bytes.chunks_exact(width).map(|word| match width {
        2 => order.two([word[0], word[1]]).into(),
        _ => order.four([word[0], word[1], word[2], word[3]]),
    });
    words.collect()
}

/// What a nested file is filled with, beside the frames: silence and small values, whose
/// bytes are no frame; numbers that rise; and seldom a word outside the limits.
fn filling(rng: &mut Rng, kind: PingKind, order: Order, bytes: usize) -> Vec<u8> {
    let coding = coding(kind);
    let mut pen = Pen::new(order);
    let seldom = rng.pick(&[0, 0, 1, 10]);
    let mut number = 0u32;
    while pen.bytes.len() < bytes {
        if coding.number > 0 {
            number = number.wrapping_add(1 + rng.below(2) as u32);
            pen.number(coding.number, number);
            for _ in 0..coding.values {
                pen.number(coding.value, 0);
            }
            continue;
        }
        pen.number(
            coding.value,
            match rng.below(1000) {
                chance if chance < seldom => 0x7FFF_7FFF,
                chance if chance < 500 => u32::MAX - rng.below(200) as u32,
                _ => rng.below(100) as u32,
            },
        );
    }
    pen.bytes.truncate(bytes);
    pen.bytes
}

/// Many starts of pings of one kind, each of which reaches over others and has a backlink
/// that mostly agrees. Of words they mostly state one more than there are, so that only
/// all of them tell.
fn nested(rng: &mut Rng, order: Order) -> Vec<u8> {
    let kind = rng.pick(&PINGS);
    let length = rng.pick(&[400, 1200, 5000, 20_000, 70_000]);
    let mut bytes = marked(order, filling(rng, kind, order, length));
    let apart = rng.pick(&[16, 32, 64, 200]);
    let mut pings = Vec::new();
    for start in (FIRST..bytes.len()).step_by(apart) {
        let most = (bytes.len() - start) / apart;
        if most >= NESTED_LEAST {
            let reach = apart * (NESTED_LEAST + rng.index(most - NESTED_LEAST + 1));
            let ping = start..start + reach;
            put_four(order, &mut bytes, ping.start, reach as u32 - 10);
            put_two(order, &mut bytes, ping.start + 4, coding(kind).code);
            put_four(order, &mut bytes, ping.end - 4, reach as u32);
            pings.push(ping);
        }
    }
    if coding(kind).number == 0 {
        // from behind, so that what a ping counts is there
        for ping in pings.into_iter().rev() {
            let words = words_of(kind, order, &bytes[ping.start + 28..ping.end - 8]);
            let beside = rng.pick(&[1, 1, 1, 1, 1, 1, 0, u32::MAX]);
            let count = no_runs(kind, &words).wrapping_add(beside);
            put_four(order, &mut bytes, ping.start + 24, count);
        }
    }
    bytes
}

/// A mark and bytes of nothing: any, zeros, ones, or numbers as frames have them.
fn rubbish(rng: &mut Rng, order: Order) -> Vec<u8> {
    let most = rng.pick(&[40, 400, 3000]);
    let count = 1 + rng.index(most);
    let mut pen = Pen::new(order);
    match rng.below(4) {
        0 => pen.bytes = rng.bytes(count),
        1 => pen.bytes = vec![0; count],
        2 => pen.bytes = vec![0xFF; count],
        _ => {
            while pen.bytes.len() < count {
                pen.four(rng.pick(&[6, 10, 14, 16, 18, 20, 24, 26, 28, 30, 36, 40]));
            }
        }
    }
    marked(order, pen.bytes)
}
