//! Request f of 02, the other ping encodings: 10001, 10030, 10031, 10040 and 10050 by TR's
//! Tables 19 and 21 to 24. Bytes, lengths, places and normal forms here were worked out by
//! hand; at the end stands all of it once more, slowly, by the readings' own words.

mod common;

use common::indexed::indexed;
use common::{bytes, count, is_run, lent, marked, ping_header, seed, survey, word_places};
use common::{first_sample_fault, word_value, word_width, written, Bytes, File, FIRST_PING};
use second::gen::{equal_pair, file_case, unequal_pair, Rng};
use second::pings::*;
use second::programs::normalise_tuple;
use second::{check, content, normalise, parents, Answer, Entry, Family, Order, PingKind};
use std::collections::{BTreeMap, BTreeSet};

const ATTRIBUTE: i32 = -8;

/// A ping as it is stored: its type, its count if it has one, and numbers of two bytes;
/// one of four bytes is two of these, the upper first.
#[derive(Clone, PartialEq, Eq, Debug)]
struct Stored {
    code: u16,
    count: Option<u32>,
    numbers: Vec<Number>,
}

#[derive(Clone, Copy, PartialEq, Eq, Debug)]
enum Number {
    Two(u16),
    Four(u32),
}

use Number::{Four, Two};

/// C-16 and CE-16: the count and all numbers behind it, a space among them.
fn words(code: u16, count: u32, words: &[u16]) -> Stored {
    Stored {
        code,
        count: Some(count),
        numbers: words.iter().map(|word| Two(*word)).collect(),
    }
}

fn u16s(pairs: &[(u16, i16)]) -> Stored {
    let numbers = pairs.iter().flat_map(|(n, v)| [Two(*n), Two(*v as u16)]);
    Stored {
        code: 10030,
        count: None,
        numbers: numbers.collect(),
    }
}

/// 10031, with what its space holds where it has one.
fn u16_angles(samples: &[(u16, i16, i16)], space: u16) -> Stored {
    let numbers = samples.iter();
    let numbers = numbers.flat_map(|(n, a, b)| [Two(*n), Two(*a as u16), Two(*b as u16)]);
    let mut numbers: Vec<Number> = numbers.collect();
    if numbers.len() % 2 == 1 {
        numbers.push(Two(space));
    }
    Stored {
        code: 10031,
        count: None,
        numbers,
    }
}

fn u32_angles(samples: &[(u32, i16, i16)]) -> Stored {
    let numbers = samples.iter();
    let numbers = numbers.flat_map(|(n, a, b)| [Four(*n), Two(*a as u16), Two(*b as u16)]);
    Stored {
        code: 10001,
        count: None,
        numbers: numbers.collect(),
    }
}

impl Bytes {
    fn ping(&mut self, stored: &Stored) {
        let mut inner = Bytes::new(self.order);
        inner.two(5000);
        inner.four(60);
        inner.two(1);
        inner.two(2);
        inner.four(9);
        inner.four(-3i32 as u32);
        if let Some(count) = stored.count {
            inner.four(count);
        }
        for number in &stored.numbers {
            match number {
                Two(number) => inner.two(*number),
                Four(number) => inner.four(*number),
            }
        }
        inner.four(ATTRIBUTE as u32);
        let length = inner.bytes.len() + 10;
        self.tuple(stored.code, length, |bytes| {
            bytes.bytes.extend(&inner.bytes)
        });
    }
}

fn alone(order: Order, stored: &Stored) -> Vec<u8> {
    marked(order, |file| file.ping(stored))
}

fn whole(order: Order, pings: &[Stored]) -> Vec<u8> {
    survey(order, |file| {
        pings.iter().for_each(|stored| file.ping(stored))
    })
}

/// A ping has this normal form, in both orders, alone and in a file; and that one is its
/// own. It names its channel, and no 18 comes of it.
fn becomes(stored: &Stored, normal: &Stored) {
    for order in Order::BOTH {
        let name = format!("{order:?} {stored:x?}");
        let tuple = alone(order, stored);
        let expected = alone(Order::Lsb, normal);
        assert_eq!(
            written(|out| normalise_tuple(&tuple, out)),
            expected,
            "{name}"
        );
        assert_eq!(
            written(|out| normalise_tuple(&expected, out)),
            expected,
            "{name}"
        );
        let file = whole(order, &[stored.clone(), stored.clone()]);
        let expected = indexed(&whole(Order::Lsb, &[normal.clone(), normal.clone()]));
        assert_eq!(check(&file), Answer::checked(7, 0, 3), "{name}");
        assert_eq!(written(|out| normalise(&file, out)), expected, "{name}");
        assert!(content(&file) == content(&expected), "{name}");
        let (asked, found) = parents(&file, FIRST_PING).unwrap();
        assert_eq!(asked, Answer::checked(7, 0, 3), "{name}");
        assert_eq!(found.channel.0, 1, "{name}");
    }
}

/// A ping is refused by every call that judges it, so many bytes behind its start.
fn refused(stored: &Stored, code: u32, within: u64) {
    for order in Order::BOTH {
        let name = format!("{order:?} {:.300}", format!("{stored:x?}"));
        let file = whole(order, std::slice::from_ref(stored));
        let refusal = Answer::refused(code, FIRST_PING + within);
        assert_eq!(check(&file), refusal, "{name}");
        assert_eq!(parents(&file, 4), Err(refusal), "{name}");
        assert_eq!(Ping::read(&file, FIRST_PING), Err(refusal), "{name}");
        let (samples, angles) = (
            read_samples(&file, FIRST_PING, &mut [], &mut []),
            read_angles(&file, FIRST_PING, &mut [], &mut [], &mut []),
        );
        let other = Answer::refused(9, FIRST_PING);
        let has_angles = [10001, 10031].contains(&stored.code);
        let expected = if has_angles {
            (other, refusal)
        } else {
            (refusal, other)
        };
        assert_eq!((samples, angles), expected, "{name}");
        assert_eq!(normalise(&file, &mut []), refusal, "{name}");
        let single = alone(order, stored);
        let refusal = Answer::refused(code, 4 + within);
        assert_eq!(normalise_tuple(&single, &mut []), refusal, "{name}");
    }
}

/// What the readers tell of a ping that has no angles.
fn reads(stored: &Stored, kind: PingKind, length: Option<u32>, samples: &[(u32, i32)]) {
    for order in Order::BOTH {
        let name = format!("{order:?} {stored:x?}");
        let file = whole(order, std::slice::from_ref(stored));
        let n = samples.len();
        assert_eq!(
            Ping::read(&file, FIRST_PING),
            Ok((Answer::accepted(1, 0), fields(kind, n, length))),
            "{name}"
        );
        let (mut numbers, mut values) = (vec![7; n + 2], vec![8; n + 1]);
        let answer = read_samples(&file, FIRST_PING, &mut numbers, &mut values);
        assert_eq!(answer, Answer::accepted(1, n as u64), "{name}");
        let (first, second): (Vec<u32>, Vec<i32>) = samples.iter().copied().unzip();
        assert_eq!(numbers, [&first[..], &[7, 7]].concat(), "{name}");
        assert_eq!(values, [&second[..], &[8]].concat(), "{name}");
        // a slice that is too short, and the other reader
        if n > 0 {
            let (mut short, mut enough) = (vec![7; n - 1], vec![8; n]);
            let answer = read_samples(&file, FIRST_PING, &mut short, &mut enough);
            assert_eq!(answer, Answer::refused(19, 0), "{name}");
            let (mut enough, mut short) = (vec![7; n], vec![8; n - 1]);
            let answer = read_samples(&file, FIRST_PING, &mut enough, &mut short);
            assert_eq!(answer, Answer::refused(19, 0), "{name}");
            assert!(enough.iter().all(|n| *n == 7) && short.iter().all(|n| *n == 8));
        }
        let angles = read_angles(&file, FIRST_PING, &mut [], &mut [], &mut []);
        assert_eq!(angles, Answer::refused(9, FIRST_PING), "{name}");
    }
}

fn fields(kind: PingKind, values: usize, length: Option<u32>) -> Ping {
    Ping {
        header: ping_header(),
        tuple_attribute: ATTRIBUTE,
        kind,
        values: values as u32,
        length,
    }
}

/// What the readers tell of a ping of angles.
fn reads_angles(stored: &Stored, kind: PingKind, samples: &[(u32, i16, i16)]) {
    for order in Order::BOTH {
        let name = format!("{order:?} {stored:x?}");
        let file = whole(order, std::slice::from_ref(stored));
        let n = samples.len();
        assert_eq!(
            Ping::read(&file, FIRST_PING),
            Ok((Answer::accepted(1, 0), fields(kind, n, None))),
            "{name}"
        );
        let (mut numbers, mut along, mut athwart) = (vec![7; n + 1], vec![8; n + 2], vec![9; n]);
        let answer = read_angles(&file, FIRST_PING, &mut numbers, &mut along, &mut athwart);
        assert_eq!(answer, Answer::accepted(1, n as u64), "{name}");
        for (nth, sample) in samples.iter().enumerate() {
            assert_eq!((numbers[nth], along[nth], athwart[nth]), *sample, "{name}");
        }
        assert_eq!((numbers[n], along[n], along[n + 1]), (7, 8, 8), "{name}");
        for short in 0..3 {
            let room = |nth| if nth == short { n - 1 } else { n };
            let mut lists = (vec![7; room(0)], vec![8; room(1)], vec![9; room(2)]);
            let answer = read_angles(&file, FIRST_PING, &mut lists.0, &mut lists.1, &mut lists.2);
            assert_eq!(answer, Answer::refused(19, 0), "{name}");
            assert!(lists.0.iter().all(|n| *n == 7) && lists.1.iter().all(|n| *n == 8));
            assert!(lists.2.iter().all(|n| *n == 9));
        }
        let samples = read_samples(&file, FIRST_PING, &mut [], &mut []);
        assert_eq!(samples, Answer::refused(9, FIRST_PING), "{name}");
    }
}

/// The tables' offsets, byte for byte.
#[test]
fn tuples_by_hand() {
    let u16 = alone(Order::Lsb, &u16s(&[(3, -2), (65_535, 258)]));
    let u16_bytes = "ac000000 1e000000 2e27 8813 3c000000 0100 0200 09000000 fdffffff
        0300 feff ffff 0201 f8ffffff 28000000";
    assert_eq!(u16, bytes(u16_bytes));
    let c16 = alone(Order::Msb, &words(10040, 1, &[0xFF01, 0x8101]));
    let c16_bytes = "000000ac 0000001e 2738 1388 0000003c 0001 0002 00000009 fffffffd
        00000001 ff01 8101 fffffff8 00000028";
    assert_eq!(c16, bytes(c16_bytes));
    let angles = alone(Order::Lsb, &u16_angles(&[(7, -1, 2)], 0x1234));
    let angles_bytes = "ac000000 1e000000 2f27 8813 3c000000 0100 0200 09000000 fdffffff
        0700 ffff 0200 3412 f8ffffff 28000000";
    assert_eq!(angles, bytes(angles_bytes));
    let angles = alone(Order::Msb, &u32_angles(&[(0x0102_0304, -1, 2)]));
    let angles_bytes = "000000ac 0000001e 2711 1388 0000003c 0001 0002 00000009 fffffffd
        01020304 ffff 0002 fffffff8 00000028";
    assert_eq!(angles, bytes(angles_bytes));
    // what the writers write
    let header = ping_header();
    let behind_mark = |tuple: Vec<u8>, order: Order| [order.mark().to_vec(), tuple].concat();
    for order in Order::BOTH {
        let tuple = written(|out| write_u16(&header, -8, &[3, 65_535], &[-2, 258], order, out));
        let stored = u16s(&[(3, -2), (65_535, 258)]);
        assert_eq!(behind_mark(tuple, order), alone(order, &stored));
        let tuple = written(|out| write_c16(&header, -8, &[2], &[-32_511], None, order, out));
        let stored = words(10040, 1, &[0xFF01, 0x8101]);
        assert_eq!(behind_mark(tuple, order), alone(order, &stored));
        let tuple = written(|out| write_ce16(&header, -8, &[2], &[-507_840], Some(5), order, out));
        let stored = words(10050, 1, &[0xFF01, 0xFEFF, 0xFF01, 0]);
        assert_eq!(behind_mark(tuple, order), alone(order, &stored));
        let tuple = written(|out| write_u16_angles(&header, -8, &[7], &[-1], &[2], order, out));
        let stored = u16_angles(&[(7, -1, 2)], 0);
        assert_eq!(behind_mark(tuple, order), alone(order, &stored));
        let tuple = written(|out| {
            write_u32_16_angles(&header, -8, &[7, 70_000], &[-1, 4], &[2, -5], order, out)
        });
        let stored = u32_angles(&[(7, -1, 2), (70_000, 4, -5)]);
        assert_eq!(behind_mark(tuple, order), alone(order, &stored));
    }
}

#[test]
fn samples_by_hand() {
    reads(&u16s(&[(0, 0)]), PingKind::U16, None, &[(0, 0)]);
    reads(
        &u16s(&[(3, -1), (255, -32_768), (256, 32_767), (65_535, -256)]),
        PingKind::U16,
        None,
        &[(3, -1), (255, -32_768), (256, 32_767), (65_535, -256)],
    );
    reads(
        &words(10040, 3, &[0x7EFF, 0xFF01, 0xFEFF, 0x8101]),
        PingKind::C16,
        None,
        &[(0, 32_511), (3, -257), (4, -32_511)],
    );
    reads(
        &words(10050, 4, &[0x8000, 0x1001, 0xFFFF, 0xFEFF, 0x2FFF, 0]),
        PingKind::Ce16,
        None,
        &[(0, 0), (1, 4097), (258, -507_840), (259, 16_382)],
    );
    reads_angles(
        &u16_angles(&[(0, 1, -1)], 9),
        PingKind::U16Angles,
        &[(0, 1, -1)],
    );
    reads_angles(
        &u16_angles(&[(1, -32_768, 32_767), (65_535, 3, 4)], 0),
        PingKind::U16Angles,
        &[(1, -32_768, 32_767), (65_535, 3, 4)],
    );
    reads_angles(
        &u32_angles(&[(1, -32_768, 32_767), (u32::MAX, 3, 4)]),
        PingKind::U32_16Angles,
        &[(1, -32_768, 32_767), (u32::MAX, 3, 4)],
    );
}

/// A U-16 or C-16 ping with a length, or one that U-16 can't number, is C-16 in the fewest
/// words, every other U-16.
#[test]
fn family_16() {
    let listed = u16s(&[(2, 7), (4, -300)]);
    becomes(&listed, &listed);
    let minus = (-300i16) as u16;
    for spelling in [
        words(10040, 2, &[0xFF01, 7, 0xFF00, minus]),
        words(10040, 2, &[0xFF00, 0xFF00, 7, 0xFF00, minus, 0]),
        words(10040, 2, &[0xFF00, 0xFF00, 7, 0xFF00, minus, 0x7F00]),
    ] {
        becomes(&spelling, &listed);
    }
    // a value that has no word is U-16 alone
    let wordless = u16s(&[(0, -1), (9, -256), (10, 32_767)]);
    becomes(&wordless, &wordless);
    // with a length: even and odd, runs joined, the remainder last
    for (stored, fewest, length) in [
        (
            words(10040, 1, &[5, 0xFF00]),
            words(10040, 1, &[5, 0xFF00]),
            2,
        ),
        (
            words(10040, 1, &[5, 0xFF00, 0xFFFF, 0]),
            words(10040, 1, &[5, 0xFFFF, 0xFF00, 0]),
            258,
        ),
        (
            words(10040, 1, &[5, 0xFF7F, 0xFF7F, 0]),
            words(10040, 1, &[5, 0xFFFF]),
            257,
        ),
        (
            words(10040, 0, &[0xFF00, 0]),
            words(10040, 0, &[0xFF00, 0]),
            1,
        ),
        (
            words(10040, 0, &[0xFFFF, 0xFF00]),
            words(10040, 0, &[0xFFFF, 0xFF00]),
            257,
        ),
        (
            words(10040, 0, &[0xFF00, 0xFF00]),
            words(10040, 0, &[0xFF01, 0]),
            2,
        ),
        (
            words(10040, 0, &[0xFF03, 0xFFFF, 0xFFFF, 0xFFFB]),
            words(10040, 0, &[0xFFFF, 0xFFFF, 0xFFFF, 0]),
            768,
        ),
    ] {
        becomes(&stored, &fewest);
        let samples: &[(u32, i32)] = if stored.count == Some(1) {
            &[(0, 5)]
        } else {
            &[]
        };
        reads(&stored, PingKind::C16, Some(length), samples);
        reads(&fewest, PingKind::C16, Some(length), samples);
    }
}

/// The last sample that U-16 can number is 65,535.
#[test]
fn values_past_the_numbers() {
    let full = |runs: usize| vec![0xFFFF; runs];
    // 255 full runs are 65,280 samples
    for (stored, normal, last) in [
        // 65,535
        (
            words(10040, 1, &[full(255), vec![0xFFFE, 7, 0]].concat()[..]),
            u16s(&[(65_535, 7)]),
            65_535,
        ),
        // 65,536: 256 full runs
        (
            words(10040, 1, &[full(256), vec![7, 0]].concat()[..]),
            words(10040, 1, &[full(256), vec![7, 0]].concat()[..]),
            65_536,
        ),
        // the same otherwise cut, the space not 0
        (
            words(10040, 1, &[full(255), vec![0xFFFE, 0xFF00, 7]].concat()[..]),
            words(10040, 1, &[full(256), vec![7, 0]].concat()[..]),
            65_536,
        ),
        (
            words(10040, 1, &[vec![0xFF00], full(256), vec![7]].concat()[..]),
            words(10040, 1, &[full(256), vec![0xFF00, 7]].concat()[..]),
            65_537,
        ),
    ] {
        let mut stored = stored;
        if stored.numbers.len() % 2 == 1 {
            stored.numbers.push(Two(0x1234));
        }
        becomes(&stored, &normal);
        reads(&stored, PingKind::C16, None, &[(last, 7)]);
    }
    // 65,536 values are too many, but a value at 65,535 behind others is none too far
    let near: Vec<u16> = [full(255), vec![0xFFFD, 7, 8]].concat();
    becomes(
        &words(
            10040,
            2,
            &[&near[..], &[0]].concat()[..near.len() + near.len() % 2],
        ),
        &u16s(&[(65_534, 7), (65_535, 8)]),
    );
}

/// CE-16 stays CE-16 in the fewest words, and 0 has one spelling.
#[test]
fn family_ce16() {
    for (stored, normal) in [
        (words(10050, 1, &[5, 0]), words(10050, 1, &[5, 0])),
        (words(10050, 1, &[0x8000, 0x8000]), words(10050, 1, &[0, 0])),
        (words(10050, 2, &[0x8000, 0x8000]), words(10050, 2, &[0, 0])),
        (
            words(10050, 2, &[0xFF00, 0xFF00, 0x8000, 0x8001]),
            words(10050, 2, &[0xFF01, 0, 0x8001, 0]),
        ),
        (
            words(10050, 1, &[0xFF00, 0x8000, 0xFF7F, 0xFF7F, 0xFF00, 0x0123]),
            words(10050, 1, &[0xFF00, 0, 0xFFFF, 0xFF00]),
        ),
    ] {
        becomes(&stored, &normal);
    }
    // far out, too
    let far = [vec![0xFFFF; 300], vec![0x7EFF, 0]].concat();
    let stored = words(10050, 1, &[&[0xFF00][..], &far[..300], &[0x7EFF]].concat());
    let normal = words(10050, 1, &[&far[..300], &[0xFF00, 0x7EFF]].concat());
    becomes(&stored, &normal);
}

#[test]
fn angles_stay() {
    for samples in [
        vec![(0, 1, -1)],
        vec![(0, 1, -1), (1, 5, 6)],
        vec![(0, 1, -1), (300, 5, 6), (65_535, -32_768, 32_767)],
    ] {
        becomes(&u16_angles(&samples, 0xFF00), &u16_angles(&samples, 0));
        let wide: Vec<_> = samples
            .iter()
            .map(|(n, a, b)| (u32::from(*n) * 65_537, *a, *b))
            .collect();
        becomes(&u32_angles(&wide), &u32_angles(&wide));
    }
}

/// Lengths that suit and that don't; what suits is refused for its channel alone.
#[test]
fn lengths() {
    for (code, fits) in [
        (10001, [false, false, true, false, true, false, true]),
        (10030, [false, true, true, true, true, true, true]),
        (10031, [false, false, true, true, false, true, true]),
        (10040, [false, false, true, true, true, true, true]),
        (10050, [false, false, true, true, true, true, true]),
    ] {
        for (nth, fits) in fits.into_iter().enumerate() {
            let length = 32 + 4 * nth;
            for order in Order::BOTH {
                let file = survey(order, |file| file.tuple(code, length, |_| {}));
                let expected = if fits { 13 } else { 9 };
                let answer = check(&file);
                assert_eq!(
                    answer,
                    Answer::refused(expected, FIRST_PING),
                    "{code} {length}"
                );
            }
        }
    }
}

/// Each kind's places: 24 and a sample's bytes; 28 and a word's.
#[test]
fn places_by_hand() {
    refused(&u16s(&[(5, 0), (5, 0)]), 23, 28);
    refused(&u16s(&[(5, 0), (6, 0), (4, 0), (3, 0)]), 23, 32);
    refused(&u16s(&[(255, 0), (256, 0), (0, 0)]), 23, 32);
    refused(&u16_angles(&[(5, 0, 0), (5, 0, 0)], 0), 23, 30);
    refused(&u16_angles(&[(5, 0, 0), (6, 9, 9), (6, 0, 0)], 0), 23, 36);
    refused(&u32_angles(&[(5, 0, 0), (4, 0, 0)]), 23, 32);
    refused(&u32_angles(&[(5, 9, 9), (70_000, 1, 1), (6, 0, 0)]), 23, 40);
    for (code, bad) in [
        (10040, &[0x7F00, 0x7FFF, 0x8000, 0x80FF, 0x8100][..]),
        (10050, &[0x7F00, 0x7FFF]),
    ] {
        for bad in bad {
            refused(&words(code, 2, &[*bad, 5]), 24, 28);
            refused(&words(code, 2, &[5, *bad]), 24, 30);
            // runs are words, too; the first of two counts
            refused(&words(code, 2, &[0xFF00, *bad, 0xFF00, *bad]), 24, 30);
            // the word before the count
            refused(&words(code, 9, &[5, *bad]), 24, 30);
            refused(&words(code, 0, &[*bad, *bad, 5, 5]), 24, 28);
        }
        refused(&words(code, 3, &[5, 5]), 25, 24);
        refused(&words(code, 0, &[5, 5]), 25, 24);
        refused(&words(code, 1, &[0xFF00, 0xFF00]), 25, 24);
        refused(&words(code, 0x1_0002, &[5, 5]), 25, 24);
    }
}

/// The last two bytes: a word where the count is right with them, or with and without them
/// wrong; a space where it is right without them alone.
#[test]
fn the_last_two_bytes() {
    for code in [10040, 10050] {
        let kind = PingKind::of(code).unwrap();
        // the count says that they are a word, or a space, whatever they hold
        for last in [0, 7, 0x7EFF, 0xFEFF] {
            let value = word_value(code.into(), last.into()).0 as i32;
            reads(
                &words(code, 2, &[5, last]),
                kind,
                None,
                &[(0, 5), (1, value)],
            );
            reads(&words(code, 1, &[5, last]), kind, None, &[(0, 5)]);
            reads(
                &words(code, 2, &[5, 0xFF00, 6, last]),
                kind,
                None,
                &[(0, 5), (2, 6)],
            );
            reads(&words(code, 0, &[0xFF00, last]), kind, Some(1), &[]);
            // wrong either way: a word
            refused(&words(code, 0, &[5, last]), 25, 24);
            refused(&words(code, 3, &[5, last]), 25, 24);
        }
        // outside the limits: free as a space, bad as a word
        for last in [0x7F00, 0x7FFF] {
            reads(&words(code, 1, &[5, last]), kind, None, &[(0, 5)]);
            reads(&words(code, 0, &[0xFF03, last]), kind, Some(4), &[]);
            refused(&words(code, 2, &[5, last]), 24, 30);
            refused(&words(code, 0, &[5, last]), 24, 30);
            refused(&words(code, 3, &[5, last]), 24, 30);
        }
        // a run is a word always
        for last in [0xFF00, 0xFF01, 0xFFFF] {
            let length = 1 + u32::from(last - 0xFF00) + 1;
            reads(&words(code, 1, &[5, last]), kind, Some(length), &[(0, 5)]);
            refused(&words(code, 0, &[5, last]), 25, 24);
            refused(&words(code, 2, &[5, last]), 25, 24);
        }
        // of an even number of words the one before the space ends the ping
        let run = words(code, 1, &[5, 0xFF00, 0xFF00, 9]);
        reads(&run, kind, Some(3), &[(0, 5)]);
        becomes(&run, &words(code, 1, &[5, 0xFF01]));
    }
}

/// 11 comes before everything else, and counts what is found to be a word.
#[test]
fn too_many_values() {
    let rising: Vec<(u16, i16)> = (0..32_765).map(|n| (n, n as i16)).collect();
    let most = u16s(&rising[..32_764]);
    becomes(&most, &most);
    refused(&u16s(&rising), 11, 0);
    let fallen = vec![(0, 0); 32_765];
    refused(&u16s(&fallen), 11, 0);
    refused(&u16s(&fallen[1..]), 23, 28);
    let angles: Vec<(u16, i16, i16)> = rising.iter().map(|(n, v)| (*n, *v, !*v)).collect();
    becomes(
        &u16_angles(&angles[..32_763], 3),
        &u16_angles(&angles[..32_763], 0),
    );
    becomes(
        &u16_angles(&angles[..32_764], 3),
        &u16_angles(&angles[..32_764], 0),
    );
    refused(&u16_angles(&angles, 0), 11, 0);
    for code in [10040, 10050] {
        let values = |n: usize| vec![5; n];
        refused(&words(code, 32_766, &values(32_766)), 11, 0);
        refused(&words(code, 0, &values(32_766)), 11, 0);
        // 32,765 values and a space, which is a word where the count is wrong
        refused(&words(code, 32_765, &values(32_766)), 11, 0);
        // 32,764 values, and one more that is a space by the count
        let run = [&[0xFF00][..], &values(32_765)].concat();
        refused(&words(code, 32_765, &run), 11, 0);
        refused(&words(code, 32_763, &run), 11, 0);
        for order in Order::BOTH {
            let file = whole(order, &[words(code, 32_764, &run)]);
            assert_eq!(check(&file).code, 0);
            let (_, ping) = Ping::read(&file, FIRST_PING).unwrap();
            assert_eq!(ping.values, 32_764);
        }
        let bad = [&[0x7F00][..], &values(32_765)].concat();
        refused(&words(code, 1, &bad), 11, 0);
    }
}

type Writer<'a> = &'a dyn Fn(Order, &mut [u8]) -> Answer;

fn refuses(writer: Writer, code: u32, place: u64) {
    for order in Order::BOTH {
        for room in [0, 60, 300_000] {
            let mut out = lent(room);
            assert_eq!(writer(order, &mut out), Answer::refused(code, place));
            assert_eq!(out, lent(room));
        }
    }
}

/// 23 (unequal), 11 (count), 22, 23 of the kinds that number samples.
#[test]
fn listed_writers_in_order() {
    let header = ping_header();
    let many: Vec<u16> = vec![0; 32_766];
    let values = vec![0i16; 32_766];
    let u16 = |numbers: &[u16], values: &[i16], code, place| {
        refuses(
            &|order, out| write_u16(&header, 0, numbers, values, order, out),
            code,
            place,
        );
    };
    u16(&[], &[1], 23, 0);
    u16(&[5, 5, 5], &[1, 1], 23, 2);
    u16(&many, &values[1..], 23, 32_765);
    u16(&many[1..], &values[1..], 11, 0);
    u16(&[], &[], 22, 0);
    u16(&[5, 5, 5], &[1, 1, 1], 23, 1);
    u16(&[5, 6, 0, 0], &[1; 4], 23, 2);
    // the smallest of three counts, whichever list has it
    let angles = |numbers: &[u16], along: &[i16], athwart: &[i16], code, place| {
        refuses(
            &|order, out| write_u16_angles(&header, 0, numbers, along, athwart, order, out),
            code,
            place,
        );
        let wide: Vec<u32> = numbers.iter().map(|n| u32::from(*n)).collect();
        refuses(
            &|order, out| write_u32_16_angles(&header, 0, &wide, along, athwart, order, out),
            code,
            place,
        );
    };
    for (a, b, c) in [
        (3, 4, 5),
        (4, 3, 5),
        (5, 4, 3),
        (3, 3, 4),
        (4, 3, 3),
        (3, 4, 3),
    ] {
        angles(&many[..a], &values[..b], &values[..c], 23, 3);
    }
    angles(&[], &[], &[1], 23, 0);
    angles(&many, &values, &values[..9], 23, 9);
    angles(&many, &values, &values, 11, 0);
    angles(&many[1..], &values[1..], &values[1..], 11, 0);
    angles(&[], &[], &[], 22, 0);
    angles(&[4, 4], &[1; 2], &[1; 2], 23, 1);
    angles(&[4, 9, 8, 0], &[1; 4], &[1; 4], 23, 2);
    // the most that there may be
    let rising: Vec<u16> = (0..32_764).collect();
    let wide: Vec<u32> = (0..32_764).map(|n| n * 100_000).collect();
    let list = &values[..32_764];
    for order in Order::BOTH {
        let most = written(|out| write_u16(&header, 0, &rising, list, order, out));
        assert_eq!(most.len(), 131_088);
        let most = written(|out| write_u16_angles(&header, 0, &rising, list, list, order, out));
        assert_eq!(most.len(), 196_616);
        let most = written(|out| write_u32_16_angles(&header, 0, &wide, list, list, order, out));
        assert_eq!(most.len(), 262_144);
    }
}

/// A writer of words with all that it takes but the header.
type WordWriter = fn(&[u32], &[i32], Option<u32>, Order, &mut [u8]) -> Answer;

fn c16(
    numbers: &[u32],
    values: &[i32],
    length: Option<u32>,
    order: Order,
    out: &mut [u8],
) -> Answer {
    let values: Vec<i16> = values.iter().map(|value| *value as i16).collect();
    write_c16(&ping_header(), 0, numbers, &values, length, order, out)
}

fn ce16(
    numbers: &[u32],
    values: &[i32],
    length: Option<u32>,
    order: Order,
    out: &mut [u8],
) -> Answer {
    write_ce16(&ping_header(), 0, numbers, values, length, order, out)
}

/// 23 (unequal), 11 (count), 22, 23, 21, 26, 11 (length), 19: each before the next.
#[test]
fn word_writers_in_order() {
    let many: Vec<u32> = vec![0; 32_766];
    for (writer, bad) in [(c16 as WordWriter, -1), (ce16, 8193)] {
        let wrong = |numbers: &[u32], values: &[i32], length, code, place| {
            refuses(
                &|order, out| writer(numbers, values, length, order, out),
                code,
                place,
            );
        };
        let values = vec![bad; 32_766];
        wrong(&[5, 5, 5], &values[..2], Some(0), 23, 2);
        wrong(&many, &values[1..], None, 23, 32_765);
        wrong(&many[1..], &values[1..], Some(0), 11, 0);
        wrong(&[], &[], None, 22, 0);
        wrong(&[4, 4], &values[..2], Some(0), 23, 1);
        wrong(&[4, u32::MAX], &[0, bad], Some(0), 21, 1);
        wrong(&[4, u32::MAX], &[0, 0], Some(0), 26, 0);
        wrong(&[], &[], Some(0), 26, 0);
        wrong(&[4], &[0], Some(5), 26, 0);
        wrong(&[u32::MAX - 1], &[0], Some(u32::MAX), 26, 0);
        wrong(&[u32::MAX - 2], &[0], Some(u32::MAX), 11, 0);
        wrong(&[u32::MAX], &[0], None, 11, 0);
        wrong(&[], &[], Some(u32::MAX), 11, 0);
        // 131,054 words have room: 131,053 full runs and a value
        let last = 131_053 * 256;
        wrong(&[last + 1], &[0], None, 11, 0);
        wrong(&[last], &[0], Some(last + 2), 11, 0);
        wrong(&[], &[], Some(131_054 * 256 + 1), 11, 0);
        for order in Order::BOTH {
            let most = written(|out| writer(&[last], &[0], None, order, out));
            assert_eq!(most.len(), 262_144);
            let most = written(|out| writer(&[], &[], Some(131_054 * 256), order, out));
            assert_eq!(most.len(), 262_144);
            let odd = written(|out| writer(&[], &[], Some(131_053 * 256), order, out));
            assert_eq!((odd.len(), &odd[262_134..262_136]), (262_144, &[0, 0][..]));
        }
    }
    // what has no word
    let wrong = |writer: WordWriter, value| {
        refuses(
            &|order, out| writer(&[0, 9], &[0, value], None, order, out),
            21,
            1,
        );
    };
    for value in [-1, -256, 32_512, -32_512, -32_768, 32_767] {
        wrong(c16, value);
    }
    for value in [
        8193,
        -8193,
        507_841,
        -507_841,
        507_839,
        507_904,
        i32::MIN,
        i32::MAX,
    ] {
        wrong(ce16, value);
    }
}

/// Every value of C-16, and every count of CE-16, is written and read back, or refused.
#[test]
fn every_value() {
    let order = Order::Msb;
    let mut out = lent(64);
    for value in i16::MIN..=i16::MAX {
        let answer = write_c16(&ping_header(), 0, &[3], &[value], None, order, &mut out);
        let has_word = (-32_511..=-257).contains(&value) || (0..=32_511).contains(&value);
        assert_eq!(answer.code, if has_word { 0 } else { 21 }, "{value}");
        if has_word {
            assert_eq!(read_single(order, &out, answer), (3, value.into()));
        }
    }
    // by definition: a sign, and counts that some exponent gives
    let mut counts = BTreeSet::new();
    for mantissa in 0..4096 {
        counts.insert(mantissa);
        counts.extend((1..8).map(|exponent| (4096 + mantissa) << (exponent - 1)));
    }
    counts.retain(|counts| *counts <= 507_840);
    for value in -520_000..=520_000 {
        let answer = write_ce16(&ping_header(), 0, &[3], &[value], None, order, &mut out);
        let has_word = counts.contains(&value.abs());
        assert_eq!(answer.code, if has_word { 0 } else { 21 }, "{value}");
        if has_word {
            assert_eq!(read_single(order, &out, answer), (3, value));
        }
    }
}

/// The one sample of a written ping.
fn read_single(order: Order, out: &[u8], answer: Answer) -> (u32, i32) {
    let file = [&order.mark()[..], &out[..answer.length as usize]].concat();
    let (mut number, mut value) = ([0], [0]);
    let read = read_samples(&file, 4, &mut number, &mut value);
    assert_eq!(read, Answer::accepted(1, 1));
    (number[0], value[0])
}

/// Every other type of the class stays unlisted.
#[test]
fn no_other_type() {
    for code in 10000..10100 {
        let file = survey(Order::Msb, |file| {
            file.ping(&u16s(&[(0, 1)]));
            file.tuple(code, 40, |bytes| {
                bytes.two(0);
                bytes.four(0);
                bytes.two(1);
            });
        });
        // Of zeros alone a listed one has one sample, or two that don't rise, or values
        // that its count of 0 leaves out.
        let expected = match code {
            10000 | 10001 | 10031 => 0,
            10030 => 23,
            10010 | 10040 | 10050 => 25,
            _ => 18,
        };
        assert_eq!(normalise(&file, &mut lent(600)).code, expected, "{code}");
    }
}

// ---- once more, slowly

/// What a ping says, by the readings: its family, its samples and its length.
#[derive(Clone, PartialEq, Eq, Debug)]
struct Meaning {
    family: &'static str,
    samples: Vec<(u64, Vec<i64>)>,
    length: Option<u64>,
}

/// The meaning of a sound ping at a place.
fn meaning(file: &File, at: usize) -> Meaning {
    let code = file.number(at + 4, 2);
    let end = at + file.number(at, 4) as usize + 2;
    let signed = |place: usize, width: usize| {
        let number = file.number(place, width) as i64;
        let half = 1i64 << (8 * width - 1);
        (number + half) % (2 * half) - half
    };
    let listed = |family, number: usize, value: usize, values: usize| {
        let bytes = number + value * values;
        let samples = (0..(end - at - 24) / bytes).map(|nth| {
            let place = at + 24 + bytes * nth;
            let of = |n| signed(place + number + value * n, value);
            (file.number(place, number), (0..values).map(of).collect())
        });
        Meaning {
            family,
            samples: samples.collect(),
            length: None,
        }
    };
    match code {
        10000 => listed("32", 4, 4, 1),
        10001 => listed("32 angles", 4, 2, 2),
        10030 => listed("16", 2, 2, 1),
        10031 => listed("16 angles", 2, 2, 2),
        _ => {
            let family = match code {
                10010 => "32",
                10040 => "16",
                _ => "CE",
            };
            let places = word_places(file, at, end, code);
            let words = places
                .iter()
                .map(|place| file.number(*place, word_width(code)));
            of_words(family, code, words)
        }
    }
}

fn of_words(family: &'static str, code: u64, words: impl Iterator<Item = u64>) -> Meaning {
    let radix = 1 << (4 * word_width(code));
    let (mut samples, mut next, mut quiet) = (Vec::new(), 0, false);
    for word in words {
        quiet = is_run(code, word);
        if quiet {
            next += word % radix + 1;
        } else {
            samples.push((next, vec![word_value(code, word).0]));
            next += 1;
        }
    }
    Meaning {
        family,
        samples,
        length: quiet.then_some(next),
    }
}

/// A word of a value that has one.
fn word(code: u64, value: i64) -> u64 {
    (0..1 << (8 * word_width(code).min(2)))
        .find(|word| {
            let run = is_run(code, *word);
            let (said, limits) = word_value(code, *word);
            !run && said == value && limits.contains(&value)
        })
        .unwrap_or(value as u64 & 0xFFFF_FFFF)
}

/// The samples of the normal form of a meaning, in LSB order, with its type: by the
/// readings of d and f.
fn normal_samples(meaning: &Meaning) -> (u64, Vec<u8>) {
    let last = meaning.samples.last().map_or(0, |(number, _)| *number);
    let (code, packed) = match meaning.family {
        "32 angles" => (10001, false),
        "16 angles" => (10031, false),
        "32" if meaning.length.is_none() => (10000, false),
        "32" => (10010, true),
        "16" if meaning.length.is_none() && last < 65_536 => (10030, false),
        "16" => (10040, true),
        _ => (10050, true),
    };
    let mut bytes = Vec::new();
    if !packed {
        let (number, value) = match code {
            10000 => (4, 4),
            10001 => (4, 2),
            _ => (2, 2),
        };
        for (sample, values) in &meaning.samples {
            bytes.extend(&sample.to_le_bytes()[..number]);
            for said in values {
                bytes.extend(&said.to_le_bytes()[..value]);
            }
        }
    } else {
        let width = word_width(code);
        bytes.extend((meaning.samples.len() as u32).to_le_bytes());
        let mut put = |word: u64| bytes.extend(&word.to_le_bytes()[..width]);
        let radix = 1 << (4 * width);
        let mut next = 0;
        let ends = meaning
            .samples
            .iter()
            .map(|(number, values)| (*number, Some(values[0])));
        for (end, value) in ends.chain(meaning.length.map(|length| (length, None))) {
            let mut gap = end - next;
            while gap > 0 {
                let run = gap.min(radix);
                put((radix - 1) * radix + run - 1);
                gap -= run;
            }
            if let Some(value) = value {
                put(word(code, value));
            }
            next = end + 1;
        }
    }
    if bytes.len() % 4 != 0 {
        bytes.extend([0, 0]);
    }
    (code, bytes)
}

/// Each ping of generated files, refused or not, is judged, read and brought to its normal
/// form as the readings say.
#[test]
fn pings_are_the_definitions() {
    let seed = seed();
    let mut seen: BTreeMap<(u64, bool), u64> = BTreeMap::new();
    for index in 0..count(3000) {
        for case in file_case(seed, index) {
            let name = format!("seed {seed} file {index} {}", case.name);
            let Some(file) = File::new(&case.bytes).filter(|file| file.bytes.len() < 60_000) else {
                continue;
            };
            for tuple in common::tuples_found(&case.bytes) {
                let at = tuple.place as usize;
                let kind = PingKind::of(tuple.code);
                let unfit =
                    Ping::read(&case.bytes, tuple.place) == Err(Answer::refused(9, tuple.place));
                if kind.is_none() || unfit {
                    continue;
                }
                let sound = first_sample_fault(&file, at).is_none();
                *seen.entry((tuple.code.into(), sound)).or_default() += 1;
                if sound {
                    defined(&file, at, &name);
                } else {
                    let (code, place) = first_sample_fault(&file, at).unwrap();
                    let refusal = Answer::refused(code, place);
                    assert_eq!(Ping::read(&case.bytes, tuple.place), Err(refusal), "{name}");
                }
            }
        }
    }
    for code in common::PINGS {
        let met = |sound| seen.get(&(code, sound)).copied().unwrap_or(0);
        assert!(met(true) > 150 && met(false) > 10, "{seen:?}");
    }
}

/// A sound ping at a place.
fn defined(file: &File, at: usize, name: &str) {
    let meaning = meaning(file, at);
    let (_, ping) = Ping::read(file.bytes, at as u64).unwrap();
    let n = meaning.samples.len();
    assert_eq!(ping.values as usize, n, "{name}");
    assert_eq!(ping.length.map(u64::from), meaning.length, "{name}");
    let mut numbers = vec![0; n];
    if meaning.family.ends_with("angles") {
        let (mut a, mut b) = (vec![0; n], vec![0; n]);
        let answer = read_angles(file.bytes, at as u64, &mut numbers, &mut a, &mut b);
        assert_eq!(answer, Answer::accepted(1, n as u64), "{name}");
        for (nth, (number, values)) in meaning.samples.iter().enumerate() {
            let read = (u64::from(numbers[nth]), vec![a[nth].into(), b[nth].into()]);
            assert_eq!(read, (*number, values.clone()), "{name}");
        }
    } else {
        let mut read = vec![0; n];
        let answer = read_samples(file.bytes, at as u64, &mut numbers, &mut read);
        assert_eq!(answer, Answer::accepted(1, n as u64), "{name}");
        for (nth, (number, values)) in meaning.samples.iter().enumerate() {
            let read = (u64::from(numbers[nth]), vec![read[nth].into()]);
            assert_eq!(read, (*number, values.clone()), "{name}");
        }
    }
    let end = at + file.number(at, 4) as usize + 10;
    let single = [&file.bytes[..4], &file.bytes[at..end]].concat();
    let mut out = lent(600_000);
    let answer = normalise_tuple(&single, &mut out);
    assert_eq!(answer.code, 0, "{name}");
    let (code, samples) = normal_samples(&meaning);
    let normal = &out[4..answer.length as usize];
    assert_eq!(
        u64::from(normal[4]) + 256 * u64::from(normal[5]),
        code,
        "{name}"
    );
    assert_eq!(normal[24..normal.len() - 8], samples, "{name}");
}

/// Pairs apart in one ping's family alone, in one length alone, and in what is no content
/// alone.
#[test]
fn the_generator_has_pairs_of_kinds() {
    let seed = seed();
    let mut met: BTreeMap<&str, u64> = BTreeMap::new();
    for index in 0..count(3000) {
        let (one, other) = unequal_pair(&mut Rng::of_case(seed, index));
        let (one, other) = (content(&one).unwrap(), content(&other).unwrap());
        assert_ne!(one, other);
        if without_family(&one) == without_family(&other) {
            *met.entry("family").or_default() += 1;
        }
        let (one, other) = equal_pair(&mut Rng::of_case(seed, index));
        assert_eq!(content(&one), content(&other));
        if one == other || one.len() != other.len() || Order::of(&one) != Order::of(&other) {
            continue;
        }
        let apart: Vec<(u8, u8)> = one
            .iter()
            .zip(&other)
            .filter(|(a, b)| a != b)
            .map(|(a, b)| (*a, *b))
            .collect();
        if apart.iter().all(|pair| *pair == (0, 0x80)) {
            *met.entry("minus zero").or_default() += 1;
        } else if apart.iter().all(|(zero, _)| *zero == 0) {
            *met.entry("spaces").or_default() += 1;
        }
    }
    for what in ["family", "minus zero", "spaces"] {
        assert!(
            met.get(what).is_some_and(|n| n * 100 > count(3000)),
            "{met:?}"
        );
    }
}

/// Contents with one family for all.
fn without_family(entries: &[Entry]) -> Vec<Entry> {
    let mut entries = entries.to_vec();
    for entry in &mut entries {
        match entry {
            Entry::Ping { family, .. } => *family = Family::Bits32,
            Entry::Angles { family, .. } => *family = Family::U16Angles,
            _ => {}
        }
    }
    entries
}
