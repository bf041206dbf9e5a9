//! Request d of 02, silence has a length: a C-32 ping whose last word is a run has all its
//! samples, runs counted, as its length, and keeps it in the normal form, which is C-32 in
//! the fewest words. Words, lengths and bytes here were worked out by hand.

mod common;

use common::indexed::indexed;
use common::{bytes, count, is_run, lent, marked, ping_header, seed, survey, tuples};
use common::{word_places, word_width, written, Bytes, File, FIRST_PING};
use second::gen::{equal_pair, file_case, frames, unequal_pair, Case, Rng};
use second::pings::{read_samples, write_c32, write_u32, Ping};
use second::programs::{normalise_tuple, program_one, program_two};
use second::walk::Tuple;
use second::{check, content, normalise, Answer, Entry, Order, PingKind};
use std::collections::BTreeMap;

/// The words of a run of 1 and of 65,536; a run of n is RUN + n - 1.
const RUN: u32 = 0xFFFF_0000;
const FULL: u32 = 0xFFFF_FFFF;

/// A value of two signs: -70,000.
const MINUS: u32 = 0xFFFE_EE90;

/// What a ping stores.
#[derive(Clone, PartialEq, Eq, Debug)]
enum Stored {
    Words(Vec<u32>),
    Pairs(Vec<(u32, u32)>),
}

use Stored::{Pairs, Words};

/// Words that are no runs.
fn values(words: &[u32]) -> u32 {
    words.iter().filter(|word| **word < RUN).count() as u32
}

const ATTRIBUTE: i32 = -8;

impl Bytes {
    /// `ping_header` as it is stored.
    fn header(&mut self) {
        self.two(5000);
        self.four(60);
        self.two(1);
        self.two(2);
        self.four(9);
        self.four(-3i32 as u32);
    }

    fn ping(&mut self, stored: &Stored) {
        match stored {
            Words(words) => self.tuple(10010, 36 + 4 * words.len(), |bytes| {
                bytes.header();
                bytes.four(values(words));
                words.iter().for_each(|word| bytes.four(*word));
                bytes.four(ATTRIBUTE as u32);
            }),
            Pairs(pairs) => self.tuple(10000, 32 + 8 * pairs.len(), |bytes| {
                bytes.header();
                for (number, value) in pairs {
                    bytes.four(*number);
                    bytes.four(*value);
                }
                bytes.four(ATTRIBUTE as u32);
            }),
        }
    }
}

/// A mark and one ping.
fn alone(order: Order, stored: &Stored) -> Vec<u8> {
    marked(order, |file| file.ping(stored))
}

/// A sound file of these pings.
fn whole(order: Order, pings: &[Stored]) -> Vec<u8> {
    survey(order, |file| {
        pings.iter().for_each(|stored| file.ping(stored))
    })
}

fn normal_tuple(file: &[u8]) -> Vec<u8> {
    written(|out| normalise_tuple(file, out))
}

fn normal_file(file: &[u8]) -> Vec<u8> {
    written(|out| normalise(file, out))
}

/// What a program prints on a file's lines.
fn printed(program: fn(&[u8]) -> Vec<u8>, file: &[u8]) -> Vec<u8> {
    program(frames(file).join("\n").as_bytes())
}

/// The lines of a file, each with its line feed.
fn lines(file: &[u8]) -> Vec<u8> {
    (frames(file).join("\n") + "\n").into_bytes()
}

/// The ping of these words has this normal form, in both orders, alone and in a file;
/// what it has itself is its own normal form.
fn becomes(stored: &Stored, normal: &Stored) {
    for order in Order::BOTH {
        let name = format!("{order:?} {stored:x?}");
        let tuple = alone(order, stored);
        let expected = alone(Order::Lsb, normal);
        assert_eq!(normal_tuple(&tuple), expected, "{name}");
        assert_eq!(normal_tuple(&expected), expected, "{name}");
        assert_eq!(printed(program_two, &tuple), lines(&expected), "{name}");
        let file = whole(order, &[stored.clone(), stored.clone()]);
        let expected = indexed(&whole(Order::Lsb, &[normal.clone(), normal.clone()]));
        assert_eq!(check(&file), Answer::checked(7, 0, 3), "{name}");
        assert_eq!(normal_file(&file), expected, "{name}");
        assert_eq!(printed(program_one, &file), lines(&expected), "{name}");
        assert!(content(&file) == content(&expected), "{name}");
    }
}

/// What both readers tell of a ping: its length, its sample numbers and its values.
fn reads(stored: &Stored, length: Option<u32>, samples: &[(u32, i32)]) {
    let kind = match stored {
        Words(_) => PingKind::C32,
        Pairs(_) => PingKind::U32,
    };
    for order in Order::BOTH {
        let name = format!("{order:?} {stored:x?}");
        let expected = Ping {
            header: ping_header(),
            tuple_attribute: ATTRIBUTE,
            kind,
            values: samples.len() as u32,
            length,
        };
        let file = whole(order, std::slice::from_ref(stored));
        let told = Ok((Answer::accepted(1, 0), expected));
        assert_eq!(Ping::read(&file, FIRST_PING), told, "{name}");
        let n = samples.len();
        let (mut numbers, mut read) = (vec![7; n + 2], vec![8; n + 2]);
        let answer = read_samples(&file, FIRST_PING, &mut numbers, &mut read);
        assert_eq!(answer, Answer::accepted(1, n as u64), "{name}");
        let (first, second): (Vec<u32>, Vec<i32>) = samples.iter().copied().unzip();
        // a run behind the last value gives no sample
        assert_eq!(numbers, [&first[..], &[7, 7]].concat(), "{name}");
        assert_eq!(read, [&second[..], &[8, 8]].concat(), "{name}");
    }
}

/// Words, their fewest, the length, the samples.
#[test]
fn the_run_behind_the_last_value_is_kept() {
    for (words, fewest, length, samples) in [
        (vec![5, RUN], vec![5, RUN], 2, vec![(0, 5)]),
        (vec![5, RUN, RUN], vec![5, RUN + 1], 3, vec![(0, 5)]),
        (vec![5, RUN + 1], vec![5, RUN + 1], 3, vec![(0, 5)]),
        // 65,535, 65,536 and 65,537 quiet samples
        (vec![5, FULL - 1], vec![5, FULL - 1], 65_536, vec![(0, 5)]),
        (vec![5, FULL], vec![5, FULL], 65_537, vec![(0, 5)]),
        (vec![5, FULL, RUN], vec![5, FULL, RUN], 65_538, vec![(0, 5)]),
        (vec![5, RUN, FULL], vec![5, FULL, RUN], 65_538, vec![(0, 5)]),
        // 32,768 twice and 1
        (
            vec![5, 0xFFFF_7FFF, 0xFFFF_7FFF, RUN],
            vec![5, FULL, RUN],
            65_538,
            vec![(0, 5)],
        ),
        // 3 and 65,534, and 3 and 65,533
        (
            vec![5, RUN + 2, FULL - 2],
            vec![5, FULL, RUN],
            65_538,
            vec![(0, 5)],
        ),
        (
            vec![5, RUN + 2, FULL - 3],
            vec![5, FULL],
            65_537,
            vec![(0, 5)],
        ),
        // three full runs and 10, the remainder first
        (
            vec![5, RUN + 9, FULL, FULL, FULL],
            vec![5, FULL, FULL, FULL, RUN + 9],
            196_619,
            vec![(0, 5)],
        ),
        // 3, a value, 2, a value, 10: as many gaps as it may have
        (
            vec![RUN + 2, 100, RUN, RUN, MINUS, RUN + 9],
            vec![RUN + 2, 100, RUN + 1, MINUS, RUN + 9],
            17,
            vec![(3, 100), (6, -70_000)],
        ),
        // a full run and 1 in each gap, cut three ways
        (
            vec![RUN, FULL, 1, FULL, RUN, 2, 0xFFFF_7FFF, RUN, 0xFFFF_7FFF],
            vec![FULL, RUN, 1, FULL, RUN, 2, FULL, RUN],
            196_613,
            vec![(65_537, 1), (131_075, 2)],
        ),
        // a stored 0 is a sample, and no silence
        (vec![0, RUN], vec![0, RUN], 2, vec![(0, 0)]),
        (
            vec![RUN, 0, 0, RUN],
            vec![RUN, 0, 0, RUN],
            4,
            vec![(1, 0), (2, 0)],
        ),
    ] {
        let stored = Words(words);
        becomes(&stored, &Words(fewest));
        reads(&stored, Some(length), &samples);
    }
}

/// A silent ping of length n is the fewest words for a gap of n.
#[test]
fn silent_pings() {
    for (words, fewest, length) in [
        (vec![RUN], vec![RUN], 1),
        (vec![RUN, RUN], vec![RUN + 1], 2),
        (vec![RUN + 1], vec![RUN + 1], 2),
        (vec![FULL - 1], vec![FULL - 1], 65_535),
        (vec![FULL], vec![FULL], 65_536),
        (vec![FULL - 1, RUN], vec![FULL], 65_536),
        (vec![FULL, RUN], vec![FULL, RUN], 65_537),
        (vec![RUN, FULL], vec![FULL, RUN], 65_537),
        (vec![RUN; 7], vec![RUN + 6], 7),
        // 1, 4,661 and 65,536
        (
            vec![RUN, RUN + 0x1234, FULL],
            vec![FULL, RUN + 0x1235],
            70_198,
        ),
        (vec![RUN, FULL, FULL], vec![FULL, FULL, RUN], 131_073),
        (vec![FULL, RUN, FULL], vec![FULL, FULL, RUN], 131_073),
    ] {
        let stored = Words(words);
        becomes(&stored, &Words(fewest));
        reads(&stored, Some(length), &[]);
    }
}

/// A C-32 ping that ends in a value becomes U-32, and neither has a length.
#[test]
fn pings_that_end_in_a_value() {
    for (words, pairs) in [
        (vec![5], vec![(0, 5)]),
        (vec![0], vec![(0, 0)]),
        (vec![RUN + 2, 100, RUN, MINUS], vec![(3, 100), (5, MINUS)]),
        (vec![RUN, FULL, 7], vec![(65_537, 7)]),
    ] {
        let samples: Vec<(u32, i32)> = pairs.iter().map(|(n, v)| (*n, *v as i32)).collect();
        let (words, pairs) = (Words(words), Pairs(pairs));
        becomes(&words, &pairs);
        becomes(&pairs, &pairs);
        reads(&words, None, &samples);
        reads(&pairs, None, &samples);
    }
}

/// The longest ping there can be: 65,527 full runs, 4,294,377,472 samples; and as many
/// runs of 1, which are one word.
#[test]
fn the_longest_silence() {
    let longest = Words(vec![FULL; 65_527]);
    let many = Words(vec![RUN; 65_527]);
    for order in Order::BOTH {
        let tuple = alone(order, &longest);
        assert_eq!(tuple.len(), 4 + 262_144);
        let (_, ping) = Ping::read(&tuple, 4).unwrap();
        assert_eq!((ping.values, ping.length), (0, Some(4_294_377_472)));
        assert_eq!(normal_tuple(&tuple), alone(Order::Lsb, &longest));
        let one = alone(Order::Lsb, &Words(vec![RUN + 65_526]));
        assert_eq!(normal_tuple(&alone(order, &many)), one);
    }
    // with a last sample in front of most of it
    let mut words = vec![FULL; 65_526];
    words.insert(0, 3);
    let (_, ping) = Ping::read(&alone(Order::Lsb, &Words(words)), 4).unwrap();
    assert_eq!((ping.values, ping.length), (1, Some(4_294_311_937)));
}

/// One silence as full runs and a remainder, if there is one: the fewest words, this way
/// round.
fn full_first(silence: u32) -> Vec<u32> {
    let rest = (!silence.is_multiple_of(65_536)).then(|| RUN + silence % 65_536 - 1);
    let mut runs = vec![FULL; (silence / 65_536) as usize];
    runs.extend(rest);
    runs
}

/// As few words the other way round.
fn full_last(silence: u32) -> Vec<u32> {
    full_first(silence).into_iter().rev().collect()
}

/// Ways to say one silence: as few words as can be both ways round, one sample apart from
/// the others, and each sample apart.
fn cuts(silence: u32) -> Vec<Vec<u32>> {
    let others = silence - 1;
    let mut cuts = vec![
        full_first(silence),
        full_last(silence),
        [vec![RUN], full_first(others)].concat(),
        [full_last(others), vec![RUN]].concat(),
    ];
    if silence < 2000 {
        cuts.push(vec![RUN; silence as usize]);
    }
    cuts
}

const SILENCES: [u32; 13] = [
    1, 2, 3, 1000, 65_534, 65_535, 65_536, 65_537, 65_538, 131_071, 131_072, 131_073, 262_145,
];

/// Two cuts of one silence have one normal form and one content, two lengths never.
#[test]
fn one_silence_one_form() {
    let before: [&[u32]; 4] = [&[], &[5], &[RUN + 3, 5], &[5, FULL, RUN, 9]];
    let mut forms: Vec<(Vec<u8>, Vec<Entry>)> = Vec::new();
    for values in before {
        for silence in SILENCES {
            let fewest = [values, &full_first(silence)].concat();
            let expected = indexed(&whole(Order::Lsb, &[Words(fewest)]));
            for runs in cuts(silence) {
                let stored = Words([values, &runs].concat());
                for order in Order::BOTH {
                    let file = whole(order, std::slice::from_ref(&stored));
                    assert_eq!(normal_file(&file), expected, "{stored:x?}");
                    assert!(content(&file) == content(&expected), "{stored:x?}");
                }
            }
            forms.push((expected.clone(), content(&expected).unwrap()));
        }
        // and without silence behind the last value
        if !values.is_empty() {
            let file = whole(Order::Msb, &[Words(values.to_vec())]);
            forms.push((normal_file(&file), content(&file).unwrap()));
        }
    }
    for (nth, (one, of_one)) in forms.iter().enumerate() {
        for (other, of_other) in &forms[..nth] {
            assert!(one != other && of_one != of_other);
        }
    }
}

/// The ping that the C-32 writer makes, in an order.
fn c32(numbers: &[u32], values: &[i32], length: Option<u32>, order: Order) -> Vec<u8> {
    written(|out| {
        write_c32(
            &ping_header(),
            ATTRIBUTE,
            numbers,
            values,
            length,
            order,
            out,
        )
    })
}

/// Bytes of silent pings in both orders.
#[test]
fn silent_pings_written() {
    let lsb = "1a27 8813 3c000000 0100 0200 09000000 fdffffff 00000000";
    let msb = "271a 1388 0000003c 0001 0002 00000009 fffffffd 00000000";
    for (length, lsb_words, msb_words) in [
        (1, "0000ffff", "ffff0000"),
        (2, "0100ffff", "ffff0001"),
        (65_535, "feffffff", "fffffffe"),
        (65_536, "ffffffff", "ffffffff"),
        (65_537, "ffffffff 0000ffff", "ffffffff ffff0000"),
        (
            131_073,
            "ffffffff ffffffff 0000ffff",
            "ffffffff ffffffff ffff0000",
        ),
    ] {
        let (size, backlink) = match lsb_words.len() {
            8 => ("1e", "28"),
            17 => ("22", "2c"),
            _ => ("26", "30"),
        };
        let lsb = format!("{size}000000 {lsb} {lsb_words} f8ffffff {backlink}000000");
        let msb = format!("000000{size} {msb} {msb_words} fffffff8 000000{backlink}");
        assert_eq!(c32(&[], &[], Some(length), Order::Lsb), bytes(&lsb));
        assert_eq!(c32(&[], &[], Some(length), Order::Msb), bytes(&msb));
    }
}

/// The words of written pings; what was written is its own normal form where it ends in a
/// run, and is read with its length.
#[test]
fn lengths_written() {
    for (numbers, values, length, words) in [
        (vec![0], vec![5], Some(2), vec![5, RUN]),
        (vec![0], vec![5], Some(65_536), vec![5, FULL - 1]),
        (vec![0], vec![5], Some(65_537), vec![5, FULL]),
        (vec![0], vec![5], Some(65_538), vec![5, FULL, RUN]),
        (vec![2], vec![100], Some(4), vec![RUN + 1, 100, RUN]),
        (
            vec![2, 3],
            vec![100, -70_000],
            Some(14),
            vec![RUN + 1, 100, MINUS, RUN + 9],
        ),
        (
            vec![65_537, 131_075],
            vec![1, 2],
            Some(196_613),
            vec![FULL, RUN, 1, FULL, RUN, 2, FULL, RUN],
        ),
        // without a length there is no run behind the last value
        (
            vec![2, 3],
            vec![100, -70_000],
            None,
            vec![RUN + 1, 100, MINUS],
        ),
    ] {
        let samples: Vec<(u32, i32)> = numbers.iter().copied().zip(values.clone()).collect();
        for order in Order::BOTH {
            let tuple = c32(&numbers, &values, length, order);
            let file = [&order.mark()[..], &tuple].concat();
            assert_eq!(file, alone(order, &Words(words.clone())), "{words:x?}");
            if length.is_some() {
                assert_eq!(
                    normal_tuple(&file),
                    alone(Order::Lsb, &Words(words.clone()))
                );
            }
        }
        reads(&Words(words), length, &samples);
    }
}

/// The C-32 writer refuses a list with a length, or none, in both orders and with any
/// room.
fn refused(numbers: &[u32], values: &[i32], length: Option<u32>, code: u32, place: u64) {
    for order in Order::BOTH {
        for room in [0, 44, 262_200] {
            let mut out = lent(room);
            let answer = write_c32(&ping_header(), 0, numbers, values, length, order, &mut out);
            assert_eq!(answer, Answer::refused(code, place), "{length:?}");
            assert_eq!(out, lent(room), "{length:?}");
        }
    }
}

/// 23 (unequal lists), 11 (count), 22, 23, 21, 26, 11 (length), 19: each before the next,
/// with a length that is 26 and with one that makes the tuple too long.
#[test]
fn the_writer_refuses_in_order() {
    let rising: Vec<u32> = (0..32_765).collect();
    let (fallen, minus) = (vec![0; 32_765], vec![-1; 32_765]);
    for length in [None, Some(0), Some(1), Some(u32::MAX)] {
        refused(&[], &[1], length, 23, 0);
        refused(&[0], &[], length, 23, 0);
        refused(&[5, 5, 5], &[-1, -1], length, 23, 2);
        refused(&rising, &minus[1..], length, 23, 32_764);
        refused(&rising, &minus, length, 11, 0);
        refused(&fallen, &minus, length, 11, 0);
        refused(&[4, 4], &[-1, 0], length, 23, 1);
        refused(&[9, 8, 7], &[0, 0, -1], length, 23, 1);
        refused(&[0, 1, 2], &[0, -1, -1], length, 21, 1);
        refused(&[u32::MAX], &[-1], length, 21, 0);
    }
    refused(&[], &[], None, 22, 0);
    // 26, whether the tuple would have room or not
    refused(&[], &[], Some(0), 26, 0);
    refused(&[0], &[0], Some(0), 26, 0);
    refused(&[0], &[0], Some(1), 26, 0);
    refused(&[u32::MAX], &[0], Some(u32::MAX), 26, 0);
    refused(&[4_294_967_290], &[0], Some(0), 26, 0);
    // 11
    refused(&[], &[], Some(u32::MAX), 11, 0);
    refused(&[0], &[0], Some(u32::MAX), 11, 0);
    refused(&[u32::MAX], &[0], None, 11, 0);
    // 19 comes last, and only where there is too little room
    let mut out = lent(43);
    let short = write_c32(&ping_header(), 0, &[0], &[5], Some(2), Order::Lsb, &mut out);
    assert_eq!(short, Answer::refused(19, 0));
    assert_eq!(out, lent(43));
}

/// 26 for a length up to the last number plus 1, and not from plus 2 on.
#[test]
fn the_least_length() {
    for last in [0, 1, 5, 65_534, 65_535, 65_536, 131_071, 1_000_000] {
        for length in [0, 1.min(last), last, last + 1] {
            refused(&[last], &[7], Some(length), 26, 0);
        }
        for (length, quiet) in [(last + 2, 1), (last + 3, 2)] {
            let tuple = c32(&[last], &[7], Some(length), Order::Lsb);
            let run = &tuple[tuple.len() - 12..tuple.len() - 8];
            assert_eq!(run, (RUN + quiet - 1).to_le_bytes());
        }
    }
    // the last of several numbers counts
    refused(&[1, 8], &[7, 7], Some(9), 26, 0);
    c32(&[1, 8], &[7, 7], Some(10), Order::Msb);
    // last plus 2 is 2^32 - 1, 2^32 and 2^32 + 1: of these the first alone is a length
    for last in [4_294_967_293, 4_294_967_294, 4_294_967_295] {
        for length in [0, 1, 2, last - 1, last] {
            refused(&[last], &[7], Some(length), 26, 0);
        }
    }
    refused(&[4_294_967_293], &[7], Some(4_294_967_294), 26, 0);
    refused(&[4_294_967_293], &[7], Some(4_294_967_295), 11, 0);
    refused(&[4_294_967_294], &[7], Some(4_294_967_295), 26, 0);
    refused(&[4_294_967_292], &[7], Some(4_294_967_294), 11, 0);
}

/// Tuples of 65,526 and 65,527 words, and of one more, which is 11.
#[test]
fn the_most_words() {
    let full = |runs: u32| runs * 65_536;
    for (length, bytes) in [
        (full(65_525) + 1, 262_140),
        (full(65_526), 262_140),
        (full(65_526) + 1, 262_144),
        (full(65_527), 262_144),
    ] {
        for order in Order::BOTH {
            assert_eq!(c32(&[], &[], Some(length), order).len(), bytes);
        }
    }
    for length in [full(65_527) + 1, full(65_528), u32::MAX] {
        refused(&[], &[], Some(length), 11, 0);
    }
    // a value and 65,526 full runs
    assert_eq!(
        c32(&[0], &[7], Some(full(65_526) + 1), Order::Lsb).len(),
        262_144
    );
    refused(&[0], &[7], Some(full(65_526) + 2), 11, 0);
    // 32,763 values and 32,762 runs between them are 65,525 words
    let odd: Vec<u32> = (0..32_764).map(|n| 2 * n).collect();
    let values = vec![3; 32_764];
    for (quiet, bytes) in [
        (1, 262_140),
        (65_536, 262_140),
        (65_537, 262_144),
        (131_072, 262_144),
    ] {
        let length = Some(65_525 + quiet);
        assert_eq!(
            c32(&odd[..32_763], &values[..32_763], length, Order::Msb).len(),
            bytes
        );
    }
    refused(
        &odd[..32_763],
        &values[..32_763],
        Some(65_525 + 131_073),
        11,
        0,
    );
    // one value more leaves no word for a run behind it
    assert_eq!(c32(&odd, &values, None, Order::Msb).len(), 262_144);
    refused(&odd, &values, Some(65_528), 11, 0);
}

/// A length is C-32's alone: the U-32 writer knows none, and 22 is as it was.
#[test]
fn the_other_writer_has_no_length() {
    let mut out = lent(40);
    let silent = write_u32(&ping_header(), 0, &[], &[], Order::Lsb, &mut out);
    assert_eq!(silent, Answer::refused(22, 0));
    assert_eq!(out, lent(40));
}

/// All samples of a ping's words, one by one: a value, or none below threshold.
fn expanded(words: &[u32]) -> Vec<Option<u32>> {
    let samples = words.iter().flat_map(|word| match word.leading_ones() {
        16.. => vec![None; (word % 65_536) as usize + 1],
        _ => vec![Some(*word)],
    });
    samples.collect()
}

/// The normal form by definition: from all samples, each counted.
fn defined(words: &[u32]) -> (Stored, Option<u32>) {
    let samples = expanded(words);
    if samples.last().is_some_and(Option::is_some) {
        let pairs = samples.iter().zip(0..);
        let pairs = pairs.filter_map(|(value, n)| value.map(|value| (n, value)));
        return (Pairs(pairs.collect()), None);
    }
    let mut fewest = Vec::new();
    let mut quiet = 0;
    for (nth, sample) in samples.iter().enumerate() {
        quiet += u32::from(sample.is_none());
        let next = samples.get(nth + 1);
        let ends = !matches!(next, Some(None));
        if quiet == 65_536 || (quiet > 0 && ends) {
            fewest.push(RUN + quiet - 1);
            quiet = 0;
        }
        fewest.extend(sample);
    }
    (Words(fewest), Some(samples.len() as u32))
}

/// Values and runs, of which most are short and some as long as they can be.
fn any_words(rng: &mut Rng) -> Vec<u32> {
    let count = 1 + rng.index(12);
    let mut word = || match rng.below(8) {
        0..=2 => rng.below(100_000) as u32,
        3 => MINUS,
        4 => FULL - rng.below(3) as u32,
        5 => RUN + rng.below(65_536) as u32,
        _ => RUN + rng.below(4) as u32,
    };
    (0..count).map(|_| word()).collect()
}

#[test]
fn normal_forms_are_the_definitions() {
    let seed = seed();
    let mut lengths = 0;
    for index in 0..count(3000) {
        let words = any_words(&mut Rng::of_case(seed ^ 0x6C65_6E67, index));
        let (normal, length) = defined(&words);
        lengths += u64::from(length.is_some());
        for order in Order::BOTH {
            let file = alone(order, &Words(words.clone()));
            let name = format!("seed {seed} words {index} {words:x?}");
            assert_eq!(normal_tuple(&file), alone(Order::Lsb, &normal), "{name}");
            let (_, ping) = Ping::read(&file, 4).unwrap();
            assert_eq!(ping.length, length, "{name}");
        }
    }
    assert!(lengths * 4 > count(3000), "{lengths}");
}

/// What a generated file has of request d, in its byte order, in each kind of words.
fn of_silence(case: &Case) -> Vec<String> {
    let bytes = &case.bytes;
    let Some(file) = File::new(bytes).filter(|_| check(bytes).code == 0) else {
        return Vec::new();
    };
    let order = if file.msb { "Msb" } else { "Lsb" };
    let mut seen = Vec::new();
    for tuple in tuples(bytes) {
        let code = u64::from(tuple.code);
        if [10010, 10040, 10050].contains(&code) {
            let words = stored_words(&file, &tuple, code);
            let met = of_words(&words, code).into_iter();
            seen.extend(met.map(|what| format!("{code}: {what}, {order}")));
        }
    }
    seen
}

/// The words of a ping as they are stored.
fn stored_words(file: &File, tuple: &Tuple, code: u64) -> Vec<u64> {
    let (at, end) = (tuple.place as usize, tuple.end() as usize - 8);
    word_places(file, at, end, code)
        .into_iter()
        .map(|place| file.number(place, word_width(code)))
        .collect()
}

/// The silence behind a ping's last value.
fn of_words(words: &[u64], code: u64) -> Vec<String> {
    let most = 1 << (4 * word_width(code));
    let last_value = words.iter().rposition(|word| !is_run(code, *word));
    let behind = &words[last_value.map_or(0, |at| at + 1)..];
    let quiet: u64 = behind.iter().map(|run| run % most + 1).sum();
    let kind = match (last_value, quiet) {
        (_, 0) => "a value last",
        (None, _) => "silent",
        _ => "a run last",
    };
    let fewest = quiet.div_ceil(most) as usize;
    let cut = behind.len() == fewest && fewest > 1;
    let seen = [
        (quiet == 1, ", 1"),
        (quiet + 1 == most, ", a run less 1"),
        (quiet == most, ", a run"),
        (quiet == most + 1, ", a run and 1"),
        (quiet >= 3 * most, ", several full"),
        (behind.len() > 20, ", short runs"),
        (cut && behind[0] % most + 1 != most, ", remainder first"),
        (true, ""),
    ];
    let met = seen.iter().filter(|(met, _)| *met);
    met.map(|(_, what)| format!("{kind}{what}")).collect()
}

/// So many cases of seed 1 are compared in full where every call is (`tests/calls`).
const COMPARED_CASES: u64 = 100_000u64.div_ceil(41);

/// The comparison of every call meets all of these, in both orders.
#[test]
fn the_generator_has_silences() {
    let mut times: BTreeMap<String, u64> = BTreeMap::new();
    for index in 0..COMPARED_CASES {
        for case in file_case(1, index) {
            for what in of_silence(&case) {
                *times.entry(what).or_default() += 1;
            }
        }
    }
    for (code, order) in [10010, 10040, 10050]
        .map(|code| [(code, "Lsb"), (code, "Msb")])
        .concat()
    {
        let met = |what: &str| {
            let times = times.get(&format!("{code}: {what}, {order}"));
            times.copied().unwrap_or(0)
        };
        assert!(met("a value last") > 100, "{times:?}");
        for kind in ["silent", "a run last"] {
            assert!(met(kind) > 100, "{times:?}");
            for what in [
                "1",
                "a run less 1",
                "a run",
                "a run and 1",
                "several full",
                "short runs",
                "remainder first",
            ] {
                let what = format!("{kind}, {what}");
                assert!(met(&what) > 3, "{what}, {code} {order}: {times:?}");
            }
        }
    }
}

/// Contents that differ in the lengths of pings alone.
fn differ_in_length(one: &[Entry], other: &[Entry]) -> bool {
    let without = |entries: &[Entry]| {
        let mut entries = entries.to_vec();
        for entry in &mut entries {
            if let Entry::Ping { length, .. } = entry {
                *length = None;
            }
        }
        entries
    };
    one != other && without(one) == without(other)
}

/// Pairs of files: apart in one length alone, so of other contents; and with the same
/// lengths cut otherwise, so of equal ones.
#[test]
fn the_generator_has_pairs_of_silences() {
    let seed = seed();
    let (mut apart, mut cut, mut one_more) = (0, 0, 0);
    for index in 0..count(2000) {
        let (one, other) = unequal_pair(&mut Rng::of_case(seed, index));
        let (of_one, of_other) = (content(&one).unwrap(), content(&other).unwrap());
        if differ_in_length(&of_one, &of_other) {
            apart += 1;
            one_more += u64::from(one.len() == other.len());
        }
        let (one, other) = equal_pair(&mut Rng::of_case(seed, index));
        let entries = content(&one).unwrap();
        let lengths = entries.iter().filter(|entry| {
            matches!(
                entry,
                Entry::Ping {
                    length: Some(_),
                    ..
                }
            )
        });
        cut += u64::from(lengths.count() > 0 && one != other);
    }
    assert!(apart * 8 > count(2000), "{apart}");
    assert!(one_more * 20 > count(2000), "{one_more}");
    assert!(cut * 2 > count(2000), "{cut}");
}
