//! Silence has a length: which pings have one, that it is content, the normal form that
//! keeps it, and the writer that takes it. Words and bytes are written here by TR's
//! Table 20 and by documents 01 and 02.

use crate::deposit::{Deposit, ORDERS};
use crate::edits::reindexed;
use crate::known::{decode, four_bytes, stored_bytes, two_bytes, Stored, RUN};
use crate::room::{hac, run, Room};
use hac::*;

/// The run of the most samples, 65,536.
const FULL: u32 = 0xFFFF_FFFF;

/// A value that has a word, and that word.
const VALUE: i32 = -70_000;
const WORD: u32 = 0xFFFE_EE90;

/// The most words of a ping.
const MOST_WORDS: usize = (TUPLE_LIMIT - 36) / 4;

pub fn header() -> PingHeader {
    PingHeader {
        time_fraction: 0x0102,
        time_cpu: 0x0304_0506,
        software_channel_identifier: SoftwareChannel(1),
        transmitter_mode: 0x0708,
        ping_number: 0x090A_0B0C,
        detected_bottom_range: -2,
    }
}

pub const ATTRIBUTE: i32 = -3;

/// A ping of a type, with what stands between its header and its attribute, four bytes
/// each.
fn ping(order: Order, kind: u16, stored: &[u32]) -> Vec<u8> {
    let stored: Vec<Stored> = stored.iter().map(|number| (4, *number)).collect();
    ping_of(order, kind, &stored)
}

/// The same of numbers of two bytes or of four.
pub fn ping_of(order: Order, kind: u16, stored: &[Stored]) -> Vec<u8> {
    let stored = stored_bytes(order, stored);
    let length = 32 + stored.len() as u32;
    let four = |number| four_bytes(order, number);
    let two = |number| two_bytes(order, number);
    let mut tuple = [&four(length - 10)[..], &two(kind), &two(0x0102)].concat();
    tuple.extend(four(0x0304_0506));
    tuple.extend([two(1), two(0x0708)].concat());
    tuple.extend([four(0x090A_0B0C), four(-2_i32 as u32)].concat());
    tuple.extend(stored);
    tuple.extend([four(ATTRIBUTE as u32), four(length)].concat());
    tuple
}

/// A ping of words, the number of samples before them.
fn c32(order: Order, words: &[u32]) -> Vec<u8> {
    let values = words.iter().filter(|word| **word < RUN).count();
    ping(order, 10010, &[&[values as u32], words].concat())
}

/// A ping of pairs, numbers and values by turns.
fn u32_ping(order: Order, pairs: &[u32]) -> Vec<u8> {
    ping(order, 10000, pairs)
}

/// A mark and a tuple.
pub fn alone(order: Order, tuple: &[u8]) -> Vec<u8> {
    [&order.mark()[..], tuple].concat()
}

/// The normal form of one tuple, without the mark.
pub fn normal_tuple(order: Order, tuple: &[u8]) -> Vec<u8> {
    let mut out = vec![0; 2 * tuple.len() + FIRST_PLACE];
    let normal = normalise_tuple(&alone(order, tuple), &mut out).expect("a normal form");
    out[FIRST_PLACE..normal.length].to_vec()
}

/// A whole file of some pings of channel 1, each of them as it is.
pub fn deposit(order: Order, pings: &[Vec<u8>]) -> Vec<u8> {
    let mut deposit = Deposit::begun(order);
    deposit.sounder(1, 1);
    deposit.channel(1, 1);
    for ping in pings {
        deposit.put_bytes(ping);
    }
    deposit.ended().to_vec()
}

/// Words, and the length of the ping that they are.
fn lengths() -> Vec<(Vec<u32>, Option<u32>)> {
    vec![
        // the last word is a value: 0 and the one just under the runs too
        (vec![100], None),
        (vec![RUN + 4, 0], None),
        (vec![FULL, RUN, 0xFFFE_FFFF], None),
        // it is a run
        (vec![100, RUN], Some(2)),
        (vec![0, RUN, RUN], Some(3)),
        (vec![RUN + 2, 100, FULL, RUN, WORD, RUN + 9], Some(65_552)),
        (
            vec![RUN, RUN + 1, 100, RUN, FULL, WORD, RUN + 3, RUN + 5],
            Some(65_552),
        ),
        (vec![100, FULL], Some(65_537)),
        (vec![100, FULL, FULL], Some(131_073)),
        // there are only runs
        (vec![RUN], Some(1)),
        (vec![RUN, RUN, RUN], Some(3)),
        (vec![FULL], Some(65_536)),
        (vec![FULL, RUN], Some(65_537)),
        (vec![RUN, FULL], Some(65_537)),
        (vec![FULL; MOST_WORDS], Some(4_294_377_472)),
    ]
}

#[test]
fn a_length_is_read() {
    for order in ORDERS {
        for (words, length) in lengths() {
            let values = words.iter().filter(|word| **word < RUN).count();
            let expected = Ping {
                header: header(),
                attribute: ATTRIBUTE,
                kind: PingKind::C32,
                values,
                length,
            };
            let file = alone(order, &c32(order, &words));
            assert_eq!(read_ping(&file, FIRST_PLACE), Ok(expected));
            // a run behind the last value gives no sample
            let read = samples(&file, FIRST_PLACE).expect("samples");
            assert_eq!(read.values.len(), values);
        }
        let file = alone(order, &u32_ping(order, &[2, 100, 3, WORD]));
        let read = read_ping(&file, FIRST_PLACE).expect("a ping");
        assert_eq!((read.kind, read.length), (PingKind::U32, None));
    }
}

/// Words, and the words or the pairs that their ping's normal form has.
struct Form {
    words: Vec<u32>,
    normal: Vec<u8>,
}

fn stays_c32(words: &[u32], fewest: &[u32]) -> Form {
    Form {
        words: words.to_vec(),
        normal: c32(Order::Lsb, fewest),
    }
}

fn becomes_u32(words: &[u32], pairs: &[u32]) -> Form {
    Form {
        words: words.to_vec(),
        normal: u32_ping(Order::Lsb, pairs),
    }
}

fn forms() -> Vec<Form> {
    vec![
        // a value last: pairs
        becomes_u32(&[100], &[0, 100]),
        becomes_u32(&[RUN, RUN + 1, 100, FULL, 0], &[3, 100, 65_540, 0]),
        // a run last: each gap by full runs first and the remainder last
        stays_c32(&[100, RUN], &[100, RUN]),
        stays_c32(&[RUN, RUN + 1, 100, RUN, RUN], &[RUN + 2, 100, RUN + 1]),
        stays_c32(&[RUN, FULL, 0, RUN + 8], &[FULL, RUN, 0, RUN + 8]),
        stays_c32(&[100, RUN, FULL], &[100, FULL, RUN]),
        stays_c32(&[100, RUN + 0x7FFF, RUN + 0x7FFF], &[100, FULL]),
        stays_c32(&[100, RUN + 0xFFFE, RUN + 2], &[100, FULL, RUN + 1]),
        stays_c32(
            &[RUN, RUN + 1, 100, RUN, FULL, WORD, RUN + 3, RUN + 5],
            &[RUN + 2, 100, FULL, RUN, WORD, RUN + 9],
        ),
        // runs alone
        stays_c32(&[RUN], &[RUN]),
        stays_c32(&[RUN, RUN], &[RUN + 1]),
        stays_c32(&[RUN + 0x7FFF, RUN + 0x7FFF], &[FULL]),
        stays_c32(&[RUN, FULL], &[FULL, RUN]),
        stays_c32(&[RUN, FULL, FULL, RUN], &[FULL, FULL, RUN + 1]),
    ]
}

/// The normal form of each, alone and in a file, in both orders.
#[test]
fn normal_forms() {
    for order in ORDERS {
        for Form { words, normal } in forms() {
            let stored = c32(order, &words);
            assert_eq!(normal_tuple(order, &stored), normal, "{words:08X?}");
            // it is written again as it is
            assert_eq!(normal_tuple(Order::Lsb, &normal), normal);
            let file = deposit(order, &[stored]);
            let expected = reindexed(&deposit(Order::Lsb, &[normal]));
            assert_eq!(normal_form(&file), Ok(expected));
        }
    }
}

/// As many runs as a ping can have, each of 1: one run is left.
#[test]
fn the_most_runs() {
    for order in ORDERS {
        let stored = c32(order, &[RUN; MOST_WORDS]);
        let normal = c32(Order::Lsb, &[RUN + MOST_WORDS as u32 - 1]);
        assert_eq!(normal_tuple(order, &stored), normal);
        let full = c32(order, &[FULL; MOST_WORDS]);
        let normal = c32(Order::Lsb, &[FULL; MOST_WORDS]);
        assert_eq!(normal_tuple(order, &full), normal);
    }
}

/// Silent pings of 1, 65,536 and 65,537 samples, byte by byte.
#[test]
fn silent_pings() {
    for (length, lines) in [
        (
            1,
            "1e000000 1a27 0201 06050403 0100 0807 0c0b0a09 feffffff \
             00000000 0000ffff fdffffff 28000000",
        ),
        (
            65_536,
            "1e000000 1a27 0201 06050403 0100 0807 0c0b0a09 feffffff \
             00000000 ffffffff fdffffff 28000000",
        ),
        (
            65_537,
            "22000000 1a27 0201 06050403 0100 0807 0c0b0a09 feffffff \
             00000000 ffffffff 0000ffff fdffffff 2c000000",
        ),
    ] {
        let expected = decode(lines);
        assert_eq!(written(Order::Lsb, &[], Some(length)), expected);
        assert_eq!(normal_tuple(Order::Lsb, &expected), expected);
        let turned = written(Order::Msb, &[], Some(length));
        assert_eq!(normal_tuple(Order::Msb, &turned), expected);
    }
}

/// Of each two of these pings those of one content have one normal form, and no others.
#[test]
fn a_length_is_content() {
    let value = vec![0, 100];
    let contents: Vec<(Vec<u32>, u32)> = vec![
        // silent pings of 1, 2, 65,536 and 65,537 samples, some cut in two ways
        (vec![RUN], 1),
        (vec![RUN, RUN], 2),
        (vec![RUN + 1], 2),
        (vec![FULL], 3),
        (vec![RUN + 0xFFFE, RUN], 3),
        (vec![FULL, RUN], 4),
        (vec![RUN, FULL], 4),
        // one value and no length, then the lengths 2, 3 and 65,537
        (vec![100], 5),
        (vec![100, RUN], 6),
        (vec![100, RUN, RUN], 7),
        (vec![100, RUN + 1], 7),
        (vec![100, RUN, RUN + 0xFFFE], 8),
        (vec![100, FULL], 8),
    ];
    for order in ORDERS {
        let form = |stored| normal_form(&deposit(order, &[stored])).expect("a normal form");
        let pairs = (form(u32_ping(order, &value)), 5);
        let forms = contents
            .iter()
            .map(|(words, content)| (form(c32(order, words)), *content));
        let forms: Vec<(Vec<u8>, u32)> = forms.chain([pairs]).collect();
        for (one, of_one) in &forms {
            for (other, of_other) in &forms {
                assert_eq!(one == other, of_one == of_other, "{of_one} {of_other}");
            }
        }
    }
}

/// What the writer is handed: numbers, values, and a length or none.
type List<'a> = (&'a [u32], &'a [i32], Option<u32>);

fn write(list: List, order: Order, out: &mut [u8]) -> Result<usize, Refusal> {
    let (numbers, values, length) = list;
    write_c32(&header(), ATTRIBUTE, numbers, values, length, order, out)
}

/// A ping of one value at each number, written.
fn written(order: Order, numbers: &[u32], length: Option<u32>) -> Vec<u8> {
    let values = vec![VALUE; numbers.len()];
    let mut out = vec![0; TUPLE_LIMIT];
    let bytes = write((numbers, &values, length), order, &mut out).expect("a ping");
    out.truncate(bytes);
    out
}

/// The fewest words, and what was written read back: fields, samples, length.
#[test]
fn written_with_a_length() {
    let cases: [(&[u32], Option<u32>, &[u32]); 11] = [
        (&[], Some(1), &[RUN]),
        (&[], Some(65_536), &[FULL]),
        (&[], Some(65_537), &[FULL, RUN]),
        (&[], Some(131_072), &[FULL, FULL]),
        (&[0], None, &[WORD]),
        (&[0], Some(2), &[WORD, RUN]),
        (&[5], Some(7), &[RUN + 4, WORD, RUN]),
        (&[5], Some(65_542), &[RUN + 4, WORD, FULL]),
        (&[5], Some(65_543), &[RUN + 4, WORD, FULL, RUN]),
        (&[5, 6], Some(8), &[RUN + 4, WORD, WORD, RUN]),
        (
            &[3, 65_541],
            Some(65_552),
            &[RUN + 2, WORD, FULL, RUN, WORD, RUN + 9],
        ),
    ];
    for order in ORDERS {
        for (numbers, length, words) in cases {
            let tuple = written(order, numbers, length);
            assert_eq!(tuple, c32(order, words), "{numbers:?} {length:?}");
            let file = alone(order, &tuple);
            let expected = Ping {
                header: header(),
                attribute: ATTRIBUTE,
                kind: PingKind::C32,
                values: numbers.len(),
                length,
            };
            assert_eq!(read_ping(&file, FIRST_PLACE), Ok(expected));
            let read = Samples {
                numbers: numbers.to_vec(),
                values: vec![VALUE; numbers.len()],
            };
            assert_eq!(samples(&file, FIRST_PLACE), Ok(read));
        }
    }
}

/// Without a length, pairs and words of one list are one content; with one they differ.
#[test]
fn written_in_two_ways() {
    let (numbers, values) = ([2, 70_000], [100, VALUE]);
    for order in ORDERS {
        let mut out = [0; 64];
        let bytes = write_u32(&header(), ATTRIBUTE, &numbers, &values, order, &mut out);
        let pairs = normal_tuple(order, &out[..bytes.expect("a ping")]);
        let mut form = |length| {
            let bytes = write((&numbers, &values, length), order, &mut out).expect("a ping");
            normal_tuple(order, &out[..bytes])
        };
        assert_eq!(form(None), pairs);
        assert_ne!(form(Some(70_002)), pairs);
        assert_ne!(form(Some(70_002)), form(Some(70_003)));
    }
}

/// Refused, and lent memory left as it was.
fn refuses(list: List, code: Code, place: usize) {
    for order in ORDERS {
        let mut out = [7; 64];
        let answer = write(list, order, &mut out);
        assert_eq!(answer, Err(Refusal { code, place }), "{list:?}");
        assert_eq!(out, [7; 64]);
    }
}

/// A length that leaves no silence behind the last value, and one of 0 without samples:
/// 26 at 0, up to the last length that is too short.
#[test]
fn lengths_too_short() {
    refuses((&[], &[], Some(0)), Code::ShortLength, 0);
    refuses((&[], &[], None), Code::NoSamples, 0);
    for last in [0, 5, 65_535, 65_536, 140_000] {
        for short in [0, 1, last, last + 1] {
            refuses((&[last], &[VALUE], Some(short)), Code::ShortLength, 0);
        }
        // just enough
        let tuple = written(Order::Lsb, &[last], Some(last + 2));
        let file = alone(Order::Lsb, &tuple);
        let read = read_ping(&file, FIRST_PLACE).expect("a ping");
        assert_eq!(read.length, Some(last + 2));
    }
    // the last number alone is looked at
    refuses((&[3, 9], &[VALUE; 2], Some(10)), Code::ShortLength, 0);
}

/// The last number plus 2 passes 32 bits: no length is enough.
#[test]
fn the_highest_numbers() {
    for last in [u32::MAX, u32::MAX - 1] {
        for length in [0, 1, 2, last - 1, last, u32::MAX] {
            refuses((&[last], &[VALUE], Some(length)), Code::ShortLength, 0);
        }
        // without one there is nothing to be short of
        refuses((&[last], &[VALUE], None), Code::Overfull, 0);
    }
    // the highest number whose length can be said has more runs than a tuple holds
    let last = u32::MAX - 2;
    refuses((&[last], &[VALUE], Some(u32::MAX)), Code::Overfull, 0);
    refuses(
        (&[last], &[VALUE], Some(u32::MAX - 1)),
        Code::ShortLength,
        0,
    );
}

/// A length has as much room as a tuple's words.
#[test]
fn the_longest() {
    let most = MOST_WORDS as u32 * 65_536;
    for order in ORDERS {
        let silent = written(order, &[], Some(most));
        assert_eq!(silent, c32(order, &[FULL; MOST_WORDS]));
        // a value takes a word, and leaves that many fewer runs
        let voiced = written(order, &[0], Some(most - 65_535));
        assert_eq!(voiced.len(), TUPLE_LIMIT);
    }
    refuses((&[], &[], Some(most + 1)), Code::Overfull, 0);
    refuses((&[], &[], Some(u32::MAX)), Code::Overfull, 0);
    refuses((&[0], &[VALUE], Some(most - 65_534)), Code::Overfull, 0);
}

/// 23 (counts), 11 (count), 22, 23, 21, 26, 11 (bytes), 19: each before all behind it.
#[test]
fn order_of_refusals() {
    let many: Vec<u32> = (0..=VALUE_LIMIT as u32).collect();
    let fall = many.iter().rev().copied().collect::<Vec<u32>>();
    let wordless = vec![-1; many.len()];
    // unequal counts, before 11, 22, 23, 21 and 26
    let unequal = wordless.len() - 1;
    refuses(
        (&fall, &wordless[..unequal], Some(0)),
        Code::NotRising,
        unequal,
    );
    refuses((&[], &[-1], None), Code::NotRising, 0);
    refuses((&[5], &[], None), Code::NotRising, 0);
    refuses((&[5], &[], Some(0)), Code::NotRising, 0);
    // too many, before 23, 21 and 26
    refuses((&fall, &wordless, Some(0)), Code::Overfull, 0);
    // a number that doesn't rise, before 21 and 26
    refuses((&[5, 5], &[-1, -1], Some(0)), Code::NotRising, 1);
    // a value without a word, before 26
    refuses((&[5, 6], &[1, -1], Some(0)), Code::NoWord, 1);
    refuses((&[u32::MAX], &[-65_536], Some(0)), Code::NoWord, 0);
    // a short length, before 11 (bytes) and 19
    refuses((&[u32::MAX], &[1], Some(9)), Code::ShortLength, 0);
    for length in [None, Some(0), Some(1)] {
        let code = match length {
            None => Code::NoSamples,
            Some(0) => Code::ShortLength,
            Some(_) => Code::NoRoom,
        };
        let answer = write((&[], &[], length), Order::Msb, &mut [0; 39]);
        assert_eq!(answer, Err(Refusal { code, place: 0 }));
    }
    // too many bytes, before 19
    let answer = write((&[], &[], Some(u32::MAX)), Order::Lsb, &mut []);
    let refusal = Refusal {
        code: Code::Overfull,
        place: 0,
    };
    assert_eq!(answer, Err(refusal));
}

/// `hac samples` of a silent ping tells its length alone.
#[test]
fn silence_by_the_command() {
    let room = Room::new();
    for order in ORDERS {
        let silent = written(order, &[], Some(1200));
        let path = room.put("silent.hac", &alone(order, &silent));
        let ran = run(hac(["samples"]).arg(&path).arg("4"));
        let line = "length 1200 samples, runs counted\n";
        assert_eq!(
            (ran.status, ran.out.as_str(), ran.err.as_str()),
            (0, line, "")
        );
        let ran = run(hac(["samples", "--json"]).arg(&path).arg("4"));
        assert_eq!(ran.out, "{\"length\":1200}\n");

        let voiced = written(order, &[3], None);
        let path = room.put("voiced.hac", &alone(order, &voiced));
        let ran = run(hac(["samples"]).arg(&path).arg("4"));
        assert_eq!(ran.out, "         3       -70000\n");
        let ran = run(hac(["samples", "--json"]).arg(&path).arg("4"));
        let lines = "{\"number\":3,\"value\":-70000}\n{\"length\":null}\n";
        assert_eq!(ran.out, lines);
    }
}
