//! Request c of 02, which sample is wrong: 23 has the byte of the first number
//! that doesn't rise, 24 that of the first word outside the limits, 25 that of
//! the count. Every call that judges a ping says so, in both byte orders.

mod common;

use common::{count, first_sample_fault, lent, marked, sample_faults, seed, survey, tuples_found};
use common::{is_run, word_places, word_value, word_width, Bytes, File, FIRST_PING};
use second::gen::{fault, frames, line_case, Case, Kind, Rng, Spot, FAULT_KINDS};
use second::pings::{read_angles, read_samples, Ping};
use second::programs::{decode, normalise_tuple, program_one, program_two, BYTE_LIMIT};
use second::{check, content, normalise, parents, Answer, Order, PingKind};
use std::collections::BTreeMap;

/// The samples of a ping as they are stored.
#[derive(Clone, Debug)]
enum Samples {
    /// The numbers of U-32 pairs.
    Pairs(Vec<u32>),
    /// A C-32 ping's number of samples, and its words.
    Words(u32, Vec<u32>),
}

impl Bytes {
    /// A ping of channel 1. Its header has 18 bytes, so that pairs and count
    /// stand 24 bytes behind its start.
    fn ping(&mut self, samples: &Samples) {
        let header = |bytes: &mut Bytes| {
            bytes.two(0);
            bytes.four(0);
            bytes.two(1);
            bytes.bytes.extend([0; 10]);
        };
        match samples {
            Samples::Pairs(numbers) => self.tuple(10000, 32 + 8 * numbers.len(), |bytes| {
                header(bytes);
                for number in numbers {
                    bytes.four(*number);
                    bytes.four(0x7FFF_0000);
                }
            }),
            Samples::Words(count, words) => self.tuple(10010, 36 + 4 * words.len(), |bytes| {
                header(bytes);
                bytes.four(*count);
                for word in words {
                    bytes.four(*word);
                }
            }),
        }
    }
}

/// A mark and one ping.
fn alone(order: Order, samples: &Samples) -> Vec<u8> {
    marked(order, |file| file.ping(samples))
}

/// A file of these pings, sound otherwise.
fn whole(order: Order, pings: &[Samples]) -> Vec<u8> {
    survey(order, |file| {
        pings.iter().for_each(|samples| file.ping(samples))
    })
}

/// Where its first ping starts.
const PING: usize = FIRST_PING as usize;

/// What a program prints on a file's lines.
fn printed(program: fn(&[u8]) -> Vec<u8>, file: &[u8]) -> String {
    String::from_utf8(program(frames(file).join("\n").as_bytes())).unwrap()
}

/// What both readers of pings answer at a place. They write nothing.
fn readers_refuse(file: &[u8], place: usize, refusal: Answer, name: &str) {
    let fields = Ping::read(file, place as u64);
    assert_eq!(fields, Err(refusal), "{name}");
    // either reader of samples is for other kinds
    let code = File::new(file).unwrap().number(place + 4, 2);
    let other = Answer::refused(9, place as u64);
    let expected = match code {
        10001 | 10031 => (other, refusal),
        _ => (refusal, other),
    };
    for room in [0, 3, 32_764] {
        let (mut numbers, mut values) = (vec![7; room], vec![8; room]);
        let (mut first, mut second) = (vec![9; room], vec![10; room]);
        let place = place as u64;
        let samples = read_samples(file, place, &mut numbers, &mut values);
        let angles = read_angles(file, place, &mut numbers, &mut first, &mut second);
        assert_eq!((samples, angles), expected, "{name}");
        assert!(numbers.iter().all(|n| *n == 7) && values.iter().all(|n| *n == 8));
        assert!(first.iter().all(|n| *n == 9) && second.iter().all(|n| *n == 10));
    }
}

/// A call that writes is refused like this, and writes nothing.
fn writer_refuses(call: fn(&[u8], &mut [u8]) -> Answer, file: &[u8], refusal: Answer, name: &str) {
    for room in [0, 600] {
        let mut out = lent(room);
        assert_eq!(call(file, &mut out), refusal, "{name}");
        assert_eq!(out, lent(room), "{name}");
    }
}

/// A ping is refused by every call that judges it, so many bytes behind its
/// start; readers and programs give that place in the file which they have.
fn refused(samples: &Samples, code: u32, within: usize) {
    for order in Order::BOTH {
        let name = format!("{order:?} {:.200}", format!("{samples:?}"));
        let file = whole(order, std::slice::from_ref(samples));
        let refusal = Answer::refused(code, (PING + within) as u64);
        assert_eq!(check(&file), refusal, "{name}");
        assert_eq!(content(&file), Err(refusal), "{name}");
        for place in [0, 4, PING as u64] {
            assert_eq!(parents(&file, place), Err(refusal), "{name}");
        }
        readers_refuse(&file, PING, refusal, &name);
        writer_refuses(normalise, &file, refusal, &name);

        let single = alone(order, samples);
        let refusal_alone = Answer::refused(code, (4 + within) as u64);
        readers_refuse(&single, 4, refusal_alone, &name);
        writer_refuses(normalise_tuple, &single, refusal_alone, &name);
        // before 15
        let more = [&single[..], &[0]].concat();
        writer_refuses(normalise_tuple, &more, refusal_alone, &name);

        if file.len() <= BYTE_LIMIT {
            let line = |answer: Answer| format!("refused {code} {}\n", answer.place);
            assert_eq!(printed(program_one, &file), line(refusal), "{name}");
            assert_eq!(printed(program_two, &single), line(refusal_alone), "{name}");
        }
    }
}

/// A sound ping of so many samples.
fn sound(samples: &Samples, values: u64) {
    for order in Order::BOTH {
        let file = whole(order, std::slice::from_ref(samples));
        // the channel's sounder and the ping's channel
        assert_eq!(check(&file), Answer::checked(6, 0, 2), "{samples:?}");
        let (mut numbers, mut read) = (vec![0; 32_764], vec![0; 32_764]);
        let answer = read_samples(&file, PING as u64, &mut numbers, &mut read);
        assert_eq!(answer, Answer::accepted(1, values), "{samples:?}");
        let normal = normalise_tuple(&alone(order, samples), &mut lent(262_148));
        assert_eq!((normal.code, normal.place), (0, 0), "{samples:?}");
    }
}

/// Words that are no run.
fn values(words: &[u32]) -> u32 {
    words.iter().filter(|word| **word / 65_536 < 65_535).count() as u32
}

/// Bytes behind the ping's start, by hand: pairs from 24 on, 8 bytes each.
#[test]
fn numbers_by_hand() {
    const MIDDLE: u32 = 1 << 31;
    for (numbers, within) in [
        (vec![5, 5], 32),
        (vec![5, 4], 32),
        (vec![u32::MAX, 0], 32),
        (vec![0, 0, 1, 2], 32),
        (vec![1, 2, 2, 4], 40),
        (vec![1, 2, 3, 3], 48),
        // several: the first counts
        (vec![9, 8, 7, 6], 32),
        (vec![1, 2, 1, 2, 1, 2], 40),
        (vec![1, 5, 2, 3, 3], 40),
        // all below the second, but only the third isn't above the one before it
        (vec![0, 100, 1, 2, 3], 40),
        // numbers have no sign, and their bytes have an order
        (vec![MIDDLE - 1, MIDDLE, MIDDLE - 1], 40),
        (vec![255, 256, 255, 256], 40),
        (vec![0x0100_0000, 0x0000_00FF], 32),
    ] {
        refused(&Samples::Pairs(numbers), 23, within);
    }
    for numbers in [
        vec![0],
        vec![u32::MAX],
        vec![0, MIDDLE - 1, MIDDLE, u32::MAX],
        vec![255, 256, 65_535, 65_536],
    ] {
        let values = numbers.len() as u64;
        sound(&Samples::Pairs(numbers), values);
    }
}

/// The count at 24, words from 28 on, 4 bytes each.
#[test]
fn words_by_hand() {
    const RUN: u32 = 0xFFFF_0000;
    const MOST: u32 = 0x7FFE_FFFF;
    for (count, words, code, within) in [
        (1, vec![0x7FFF_0000], 24, 28),
        (1, vec![0x8000_FFFF], 24, 28),
        (3, vec![0x8000_0000, 1, 1], 24, 28),
        (3, vec![1, 0x7FFF_FFFF, 1], 24, 32),
        (3, vec![1, MOST, 0x7FFF_0000], 24, 36),
        // runs are words, too
        (2, vec![RUN, RUN | 9, 1, 0x7FFF_0000], 24, 40),
        // several: the first counts
        (3, vec![1, 0x8000_0000, 0x7FFF_0000], 24, 32),
        (2, vec![0x7FFF_0000, RUN, 0x7FFF_0000], 24, 28),
        // the word before the count
        (0, vec![0x7FFF_0000], 24, 28),
        (9, vec![RUN, 1, 0x8000_FFFF], 24, 36),
        (2, vec![1, RUN, 0x8000_FFFF, RUN, 1], 24, 36),
        // the count
        (0, vec![1], 25, 24),
        (2, vec![1], 25, 24),
        (1, vec![RUN], 25, 24),
        (4, vec![1, RUN, 1, RUN], 25, 24),
        (0x0100_0000, vec![1], 25, 24),
        (0x8000_0001, vec![1], 25, 24),
        (u32::MAX, vec![RUN], 25, 24),
    ] {
        refused(&Samples::Words(count, words), code, within);
    }
    for words in [
        vec![MOST, 0x8001_0000, 0xFFFE_FFFF],
        vec![RUN, 0xFFFF_FFFF, 0xFFFF_7FFF, 0xFFFF_8000],
        // bad ones and runs, were their bytes turned about
        vec![0x0000_FF7F, 0x0000_0080, 0x0000_FFFF, 0xFFFF_0080],
    ] {
        let count = values(&words);
        sound(&Samples::Words(count, words), count.into());
    }
}

/// Each number, and each two of them, of a ping.
#[test]
fn every_two_numbers() {
    const COUNT: usize = 10;
    for first in 1..COUNT {
        for second in first..COUNT {
            let mut number = 1000;
            let fallen = (0..COUNT).map(|nth| {
                number = if nth == first || nth == second {
                    number - 3
                } else {
                    number + 7
                };
                number
            });
            refused(&Samples::Pairs(fallen.collect()), 23, 24 + 8 * first);
        }
    }
}

/// Each word, and each two of them, of a ping, rightly counted and not.
#[test]
fn every_two_words() {
    const WORDS: [u32; 10] = [
        7,
        0xFFFF_0003,
        8,
        9,
        0xFFFF_FFFF,
        0xFFFF_0000,
        1,
        2,
        3,
        0xFFFF_0000,
    ];
    for first in 0..WORDS.len() {
        for second in first..WORDS.len() {
            let mut words = WORDS.to_vec();
            words[first] = 0x7FFF_1234;
            words[second] = 0x8000_1234;
            let right = values(&words);
            for count in [right, right + 1, right - 1, 0] {
                let samples = Samples::Words(count, words.clone());
                refused(&samples, 24, 28 + 4 * first);
            }
        }
    }
}

/// Pings as long as there are, the offender far behind: 32,764 pairs, 32,764
/// values, and 65,527 words of which the last is the one value.
#[test]
fn long_pings() {
    let rising: Vec<u32> = (0..32_764).collect();
    for nth in [1, 16_000, 32_763] {
        let mut numbers = rising.clone();
        numbers[nth] = numbers[nth - 1];
        refused(&Samples::Pairs(numbers), 23, 24 + 8 * nth);
        let mut words = rising.clone();
        words[nth] = 0x7FFF_0000;
        refused(&Samples::Words(32_764, words.clone()), 24, 28 + 4 * nth);
        words.push(0xFFFF_0000);
        refused(&Samples::Words(32_765, words), 24, 28 + 4 * nth);
    }
    refused(&Samples::Words(32_763, rising), 25, 24);
    let mut words = vec![0xFFFF_FFFF; 65_527];
    refused(&Samples::Words(1, words.clone()), 25, 24);
    words[65_526] = 0x8000_FFFF;
    refused(&Samples::Words(1, words), 24, 262_132);
}

/// 11 comes first and has the tuple's place, whatever else is wrong.
#[test]
fn eleven_has_the_tuples_place() {
    for bad in [None, Some(0), Some(20_000), Some(32_764)] {
        let mut words = vec![5; 32_765];
        if let Some(nth) = bad {
            words[nth] = 0x7FFF_0000;
        }
        for count in [32_765, 32_764, 0] {
            refused(&Samples::Words(count, words.clone()), 11, 0);
        }
    }
    refused(&Samples::Words(9, vec![0x8000_0000; 65_527]), 11, 0);
}

/// The first broken ping of a file counts for the file, each for its readers.
#[test]
fn several_pings() {
    let pair = Samples::Pairs(vec![1, 2, 2]); // 56 bytes
    let word = Samples::Words(1, vec![0xFFFF_0000, 0x7FFF_0000]); // 44 bytes
    let count = Samples::Words(9, vec![4]); // 40 bytes
    let good = Samples::Pairs(vec![1]); // 40 bytes
    for order in Order::BOTH {
        let file = whole(
            order,
            &[good.clone(), count.clone(), word.clone(), pair.clone()],
        );
        let told = Answer::refused(25, PING as u64 + 40 + 24);
        assert_eq!(check(&file), told);
        writer_refuses(normalise, &file, told, "several");
        assert!(Ping::read(&file, PING as u64).is_ok());
        for (place, code, within) in [(40, 25, 24), (80, 24, 32), (124, 23, 40)] {
            let place = PING + place;
            let refusal = Answer::refused(code, (place + within) as u64);
            readers_refuse(&file, place, refusal, "several");
        }
        let file = whole(order, &[pair.clone(), word.clone(), count.clone()]);
        assert_eq!(check(&file), Answer::refused(23, PING as u64 + 40));
    }
}

/// Numbers that mostly rise, words that are mostly good.
fn any_samples(rng: &mut Rng) -> Samples {
    let length = 1 + rng.index(40);
    let edge = |rng: &mut Rng| rng.chance(4);
    if rng.chance(50) {
        let mut number = rng.number() as u32 >> rng.below(32);
        let numbers = (0..length).map(|_| {
            let step = if edge(rng) {
                rng.number() as u32
            } else {
                1 + rng.below(300) as u32
            };
            number = number.wrapping_add(step);
            number
        });
        return Samples::Pairs(numbers.collect());
    }
    let words: Vec<u32> = (0..length)
        .map(|_| {
            let upper = if edge(rng) {
                [0x7FFE, 0x7FFF, 0x8000, 0x8001][rng.index(4)]
            } else {
                [0, 1, 0xFF7F, 0x0080, 0xFFFE, 0xFFFF][rng.index(6)]
            };
            upper << 16 | rng.below(65_536) as u32
        })
        .collect();
    let wrong = u32::from(rng.chance(20));
    Samples::Words(values(&words) + wrong, words)
}

/// Any samples are refused as the definition says, or taken where it has no
/// fault.
#[test]
fn places_are_the_definitions() {
    let seed = seed();
    let mut seen: BTreeMap<u32, u64> = BTreeMap::new();
    for index in 0..count(6000) {
        let samples = any_samples(&mut Rng::of_case(seed ^ 0x706C_6163, index));
        let name = format!("seed {seed} samples {index}");
        let single = alone(Order::Lsb, &samples);
        let file = File::new(&single).expect("a mark");
        match first_sample_fault(&file, 4) {
            Some((code, place)) => {
                refused(&samples, code, place as usize - 4);
                *seen.entry(code).or_insert(0) += 1;
            }
            None => assert!(Ping::read(&single, 4).is_ok(), "{name}"),
        }
    }
    let enough = |code| seen.get(&code).is_some_and(|n| n * 50 > count(6000));
    assert!([23, 24, 25].into_iter().all(enough), "{seen:?}");
}

/// Each tuple of a damaged file that is a ping whose length fits is refused by its
/// readers and alone as the definition says.
#[test]
fn pings_of_damaged_files() {
    let seed = seed();
    let mut broken = 0;
    for index in 0..count(3000) {
        let mut rng = Rng::of_case(seed ^ 0x7069_6E67, index);
        let kind = FAULT_KINDS[index as usize % FAULT_KINDS.len()];
        let Case { bytes, name, .. } = fault(&mut rng, kind);
        let name = format!("seed {seed} file {index} {name}");
        let Some(file) = File::new(&bytes) else {
            continue;
        };
        for tuple in tuples_found(&bytes) {
            if Ping::read(&bytes, tuple.place) == Err(Answer::refused(9, tuple.place)) {
                continue;
            }
            let place = tuple.place as usize;
            let Some((code, told)) = first_sample_fault(&file, place) else {
                assert!(Ping::read(&bytes, tuple.place).is_ok(), "{name}");
                continue;
            };
            readers_refuse(&bytes, place, Answer::refused(code, told), &name);
            let single = [&bytes[..4], tuple.bytes(&bytes)].concat();
            let refusal = Answer::refused(code, 4 + told - tuple.place);
            writer_refuses(normalise_tuple, &single, refusal, &name);
            broken += 1;
        }
    }
    assert!(broken * 8 > count(3000), "{broken}");
}

/// Where the first sample or word of a ping that can offend stands behind its start, and
/// how many bytes a sample or word has.
fn stride(code: u64) -> (usize, usize) {
    match code {
        10000 | 10001 => (32, 8),
        10030 => (28, 4),
        10031 => (30, 6),
        _ => (28, word_width(code)),
    }
}

/// All places of a ping's samples that offend.
fn offending(file: &File, at: usize) -> Vec<usize> {
    let end = at + file.number(at, 4) as usize + 2;
    let code = file.number(at + 4, 2);
    let (first, bytes) = stride(code);
    let width = match code {
        10000 | 10001 => 4,
        _ => 2,
    };
    if ![10010, 10040, 10050].contains(&code) {
        let number = |place: usize| file.number(place, width);
        let places = (at + first..=end - bytes).step_by(bytes);
        return places
            .filter(|place| number(*place) <= number(*place - bytes))
            .collect();
    }
    let mut places = word_places(file, at, end, code);
    places.retain(|place| {
        let word = file.number(*place, bytes);
        let (value, limits) = word_value(code, word);
        !is_run(code, word) && !limits.contains(&value)
    });
    places
}

/// A generated ping with broken samples: its told code, how far behind its start
/// the told place and its samples' end lie, how many of them offend, and whether
/// its count is wrong.
struct Broken {
    msb: bool,
    code: u32,
    within: usize,
    /// Where its last sample or word starts, a space left out.
    last: usize,
    offending: usize,
    miscounted: bool,
}

/// How far behind a ping's start its last sample or word starts.
fn last_within(file: &File, at: usize) -> usize {
    let end = file.number(at, 4) as usize + 2;
    let code = file.number(at + 4, 2);
    let (first, bytes) = stride(code);
    match code {
        10010 | 10040 | 10050 => *word_places(file, at, at + end, code).last().unwrap() - at,
        _ => first + (end - first) / bytes * bytes - bytes,
    }
}

/// A ping of a kind; where a file has no channel, its fault is another one.
fn broken(rng: &mut Rng, kind: Kind) -> Broken {
    let Case {
        bytes, expected, ..
    } = fault(rng, kind);
    let (code, told) = expected.expect("a told answer");
    if code == 6 {
        return broken(rng, kind);
    }
    let tuples = tuples_found(&bytes);
    let ping = tuples.iter().find(|tuple| tuple.end() > told).unwrap();
    let at = ping.place as usize;
    let file = File::new(&bytes).expect("a mark");
    assert_eq!(first_sample_fault(&file, at), Some((code, told)));
    Broken {
        msb: file.msb,
        code,
        within: told as usize - at,
        last: last_within(&file, at),
        offending: offending(&file, at).len(),
        miscounted: sample_faults(&file, at).contains_key("25"),
    }
}

/// So many pings of a kind, in both orders. Gives how many of them have several
/// offenders.
fn several(kind: Kind, judge: impl Fn(&Broken) -> bool) -> usize {
    let mut rng = Rng::new(seed());
    let pings: Vec<Broken> = (0..200).map(|_| broken(&mut rng, kind)).collect();
    assert!(pings.iter().all(judge), "{kind:?}");
    let msb = pings.iter().filter(|ping| ping.msb).count();
    assert!((50..150).contains(&msb), "{kind:?} {msb}");
    pings.iter().filter(|ping| ping.offending > 1).count()
}

const LISTED: [PingKind; 4] = [
    PingKind::U32,
    PingKind::U32_16Angles,
    PingKind::U16,
    PingKind::U16Angles,
];
const PACKED: [PingKind; 3] = [PingKind::C32, PingKind::C16, PingKind::Ce16];

/// The generator's broken pings of a kind of damage at each spot.
fn has_all_spots(code: u32, first: usize, kind: impl Fn(Spot) -> Kind) {
    let of_code = |ping: &Broken| ping.code == code && !ping.miscounted;
    let at_first = several(kind(Spot::First), |ping| {
        of_code(ping) && ping.within == first
    });
    let between = several(kind(Spot::Middle), |ping| {
        of_code(ping) && ping.within > first && ping.within < ping.last
    });
    let at_last = several(kind(Spot::Last), |ping| {
        of_code(ping) && ping.within == ping.last && ping.within > first
    });
    assert!(at_first > 50 && between > 50 && at_last == 0, "{code}");
}

/// The generator's broken pings have their first offender where their kind says,
/// and many have others behind it.
#[test]
fn the_generator_has_all_spots() {
    for kind in LISTED {
        let (first, _) = stride(kind.row().code.into());
        has_all_spots(23, first, |spot| Kind::Pairs(kind, spot));
    }
    for kind in PACKED {
        has_all_spots(24, 28, |spot| Kind::Word(kind, spot));
    }
}

/// Count and words broken at once, and too many values with both.
#[test]
fn the_generator_has_several_faults_at_once() {
    for kind in PACKED {
        several(Kind::Count(kind), |ping| {
            ping.code == 25 && ping.offending == 0 && ping.miscounted
        });
        let words = several(Kind::WordAndCount(kind), |ping| {
            ping.code == 24 && ping.offending > 0
        });
        assert!(words > 50, "{words}");
        let mut rng = Rng::new(seed());
        let all = |ping: &Broken| ping.offending > 0 && ping.miscounted;
        let many = (0..100).filter(|_| all(&broken(&mut rng, Kind::TooMany(kind))));
        assert!(many.count() > 20);
    }
    for kind in [PACKED.as_slice(), &LISTED[2..]].concat() {
        several(Kind::TooMany(kind), |ping| {
            ping.code == 11 && ping.within == 0
        });
    }
}

/// The second program's lines have broken pings of all three codes.
#[test]
fn the_generator_has_broken_pings_alone() {
    let seed = seed();
    let mut seen = BTreeMap::new();
    for index in (14..16_000).step_by(16) {
        let Ok(file) = decode(&line_case(seed, index).text) else {
            panic!("seed {seed} lines {index}")
        };
        let answer = normalise_tuple(&file, &mut lent(BYTE_LIMIT));
        *seen.entry(answer.code).or_insert(0) += 1;
    }
    let enough = |code| seen.get(&code).is_some_and(|n| *n > 10);
    assert!([23, 24, 25].into_iter().all(enough), "{seen:?}");
}
