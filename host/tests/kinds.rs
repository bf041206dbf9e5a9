//! The kinds of ping beside U-32 and C-32: read, written and brought to their normal forms.
//! Bytes and words are written here by TR's Tables 19 and 21 to 24 and by documents 01 and
//! 02; docs/PINGS.md says how these are read.

use crate::deposit::{Deposit, ORDERS};
use crate::edits::reindexed;
use crate::json;
use crate::known::{decode, Known, Stored, Tuple};
use crate::lengths::{alone, deposit, header, normal_tuple, ping_of, ATTRIBUTE};
use crate::room::{hac, run};
use hac::PingKind::{Ce16, U16Angles, U32_16Angles, C16, C32, U16, U32};
use hac::*;
use std::slice;

/// The survey that has all of them, and its normal form.
pub const SPELLINGS: [&str; 2] = ["encodings-lsb", "encodings-msb"];
const NORMAL: &str = "encodings-normal";

/// The shortest and the longest run of two bytes.
const RUN: u32 = 0xFF00;
const FULL: u32 = 0xFFFF;

/// Numbers of two bytes each.
fn twos(numbers: &[u32]) -> Vec<Stored> {
    numbers.iter().map(|number| (2, *number)).collect()
}

/// A ping of a kind that numbers its samples in two bytes, with the space if there is one.
fn of_two(order: Order, kind: PingKind, numbers: &[u32]) -> Vec<u8> {
    ping_of(order, kind.code(), &twos(numbers))
}

/// A ping of words of two bytes, with the space if there is one, behind a number of samples.
fn of_words(order: Order, kind: PingKind, count: u32, words: &[u32]) -> Vec<u8> {
    let stored = [vec![(4, count)], twos(words)].concat();
    ping_of(order, kind.code(), &stored)
}

/// What a ping holds, as its reader hands it over.
#[derive(Debug, PartialEq)]
enum Held {
    Samples(Vec<u32>, Vec<i32>),
    Angles(Vec<u32>, Vec<i16>, Vec<i16>),
}

fn held(file: &[u8], place: usize) -> Held {
    if read_ping(file, place).expect("a ping").kind.has_angles() {
        let Angles {
            numbers,
            alongship,
            athwartship,
        } = angles(file, place).expect("angles");
        Held::Angles(numbers, alongship, athwartship)
    } else {
        let Samples { numbers, values } = samples(file, place).expect("samples");
        Held::Samples(numbers, values)
    }
}

/// The samples and the length of a ping alone.
fn read(order: Order, tuple: &[u8]) -> (Held, Option<u32>) {
    let file = alone(order, tuple);
    let length = read_ping(&file, FIRST_PLACE).expect("a ping").length;
    (held(&file, FIRST_PLACE), length)
}

/// Samples and length, as `read` gives them.
fn told(samples: &[(u32, i32)], length: Option<u32>) -> (Held, Option<u32>) {
    let (numbers, values) = samples.iter().copied().unzip();
    (Held::Samples(numbers, values), length)
}

/// Writes a ping into memory that has room.
fn written(write: impl FnOnce(&mut [u8]) -> Result<usize, Refusal>) -> Vec<u8> {
    let mut out = vec![0; TUPLE_LIMIT];
    let bytes = write(&mut out).expect("a ping");
    out.truncate(bytes);
    out
}

/// Writes a ping in an order.
type Write<'a> = &'a dyn Fn(Order, &mut [u8]) -> Result<usize, Refusal>;

/// A ping, byte by byte in LSB order.
struct ByHand<'a> {
    kind: PingKind,
    size: &'a str,
    code: &'a str,
    /// Behind the header.
    rest: &'a str,
    held: Held,
    write: Write<'a>,
}

impl ByHand<'_> {
    fn lsb(&self) -> Vec<u8> {
        let ByHand {
            size, code, rest, ..
        } = self;
        let head = "0201 06050403 0100 0807 0c0b0a09 feffffff";
        decode(&format!("{size}000000 {code} {head} {rest}"))
    }
}

/// A ping of each kind in both orders: written, read, and its normal form.
#[test]
fn by_hand() {
    let (header, attribute) = (&header(), ATTRIBUTE);
    let (along, athwart) = (&[-15, 32_767], &[1800, -32_768]);
    for by_hand in [
        ByHand {
            kind: U32_16Angles,
            size: "26",
            code: "1127",
            rest: "00000000 f1ff 0807 00000100 ff7f 0080 fdffffff 30000000",
            held: Held::Angles(vec![0, 65_536], along.to_vec(), athwart.to_vec()),
            write: &|order, out| {
                let numbers = &[0, 65_536];
                write_u32_16_angles(header, attribute, numbers, along, athwart, order, out)
            },
        },
        ByHand {
            kind: U16,
            size: "1e",
            code: "2e27",
            rest: "0200 ffff ffff 0080 fdffffff 28000000",
            held: Held::Samples(vec![2, 65_535], vec![-1, -32_768]),
            write: &|order, out| {
                write_u16(header, attribute, &[2, 65_535], &[-1, -32_768], order, out)
            },
        },
        ByHand {
            kind: U16Angles,
            size: "22",
            code: "2f27",
            rest: "0100 f1ff 0807 ffff ff7f 0080 fdffffff 2c000000",
            held: Held::Angles(vec![1, 65_535], along.to_vec(), athwart.to_vec()),
            write: &|order, out| {
                let numbers = &[1, 65_535];
                write_u16_angles(header, attribute, numbers, along, athwart, order, out)
            },
        },
        // an odd number of samples, and a space
        ByHand {
            kind: U16Angles,
            size: "1e",
            code: "2f27",
            rest: "ffff 0100 ffff 0000 fdffffff 28000000",
            held: Held::Angles(vec![65_535], vec![1], vec![-1]),
            write: &|order, out| {
                write_u16_angles(header, attribute, &[65_535], &[1], &[-1], order, out)
            },
        },
        // runs of 256 and of 3
        ByHand {
            kind: C16,
            size: "22",
            code: "3827",
            rest: "02000000 ffff 02ff 6400 fffe fdffffff 2c000000",
            held: Held::Samples(vec![259, 260], vec![100, -257]),
            write: &|order, out| {
                write_c16(
                    header,
                    attribute,
                    &[259, 260],
                    &[100, -257],
                    None,
                    order,
                    out,
                )
            },
        },
        // an odd number of words, and a space
        ByHand {
            kind: Ce16,
            size: "1e",
            code: "4227",
            rest: "01000000 0120 0000 fdffffff 28000000",
            held: Held::Samples(vec![0], vec![8194]),
            write: &|order, out| write_ce16(header, attribute, &[0], &[8194], None, order, out),
        },
    ] {
        let (kind, lsb) = (by_hand.kind, by_hand.lsb());
        assert_eq!(written(|out| (by_hand.write)(Order::Lsb, out)), lsb);
        for order in ORDERS {
            let tuple = written(|out| (by_hand.write)(order, out));
            let file = alone(order, &tuple);
            let ping = read_ping(&file, FIRST_PLACE).expect("a ping");
            assert_eq!((ping.kind, ping.length), (kind, None));
            assert_eq!((ping.header, ping.attribute), (*header, attribute));
            assert_eq!(held(&file, FIRST_PLACE), by_hand.held);
            let normal = match kind {
                C16 => of_two(Order::Lsb, U16, &[259, 100, 260, 0xFEFF]),
                _ => lsb.clone(),
            };
            assert_eq!(normal_tuple(order, &tuple), normal);
        }
    }
    // most significant byte first
    let msb = "0000001e 2742 0102 03040506 0001 0708 090a0b0c fffffffe \
               00000001 2001 0000 fffffffd 00000028";
    let tuple = written(|out| write_ce16(header, attribute, &[0], &[8194], None, Order::Msb, out));
    assert_eq!(tuple, decode(msb));
}

/// Words and their values: at the limits of both kinds, about the runs, and CE-16's two
/// zeros.
#[test]
fn values_of_words() {
    let cases: [(PingKind, &[(u32, i32)]); 2] = [
        (
            C16,
            &[
                (0x7EFF, 32_511),
                (0x8101, -32_511),
                (0xFEFF, -257),
                (0, 0),
                (0x00FF, 255),
            ],
        ),
        (
            Ce16,
            &[
                (0x0FFF, 4095),
                (0x1000, 4096),
                (0x1FFF, 8191),
                (0x2001, 8194),
                (0x7EFF, 507_840),
                (0xFEFF, -507_840),
                (0x8001, -1),
                (0x80FF, -255),
                (0x9000, -4096),
                (0, 0),
                (0x8000, 0),
            ],
        ),
    ];
    for order in ORDERS {
        for (kind, words) in cases {
            for (word, value) in words {
                // the word, and a run that makes the number of words even
                let tuple = of_words(order, kind, 1, &[*word, RUN]);
                assert_eq!(read(order, &tuple), told(&[(0, *value)], Some(2)));
            }
        }
    }
}

/// The last two bytes before the attribute: a word where the number of samples is right
/// with them, a space where it is right only without them, else a word.
#[test]
fn spaces() {
    for (order, kind) in ORDERS.into_iter().flat_map(|o| [(o, C16), (o, Ce16)]) {
        let words = |count, words: &[u32]| of_words(order, kind, count, words);
        // a space of any bytes but a run's, also such as no word may have
        for space in [0, 1, 0x1234, 0x7F00, 0x8000, 0xFEFF] {
            let tuple = words(1, &[RUN, RUN + 3, 100, space]);
            assert_eq!(read(order, &tuple), told(&[(5, 100)], None), "{space:04X}");
            let clean = words(1, &[RUN, RUN + 3, 100, 0]);
            assert_eq!(normal_tuple(order, &tuple), normal_tuple(order, &clean));
        }
        // the same bytes with the other count
        let tuple = words(2, &[RUN, RUN + 3, 100, 0]);
        assert_eq!(read(order, &tuple), told(&[(5, 100), (6, 0)], None));
        // a run there is a word, whatever was meant
        let tuple = words(1, &[RUN, RUN + 3, 100, RUN + 0x20]);
        assert_eq!(read(order, &tuple), told(&[(5, 100)], Some(39)));
        // a run and a space behind it
        let tuple = words(0, &[RUN + 9, 0]);
        assert_eq!(read(order, &tuple), told(&[], Some(10)));
        // neither count: the bytes are a word, and the count is wrong
        for count in [0, 3, 9] {
            let file = alone(order, &words(count, &[RUN, RUN + 3, 100, 0]));
            let refusal = Refusal {
                code: Code::Miscounted,
                place: FIRST_PLACE + 24,
            };
            assert_eq!(read_ping(&file, FIRST_PLACE), Err(refusal));
        }
    }
    // behind angles a space holds anything
    for (order, space) in ORDERS.into_iter().flat_map(|o| [(o, 0), (o, 0xFF20)]) {
        let tuple = of_two(order, U16Angles, &[7, 1, 2, space]);
        let expected = Held::Angles(vec![7], vec![1], vec![2]);
        assert_eq!(read(order, &tuple), (expected, None));
        let clean = of_two(Order::Lsb, U16Angles, &[7, 1, 2, 0]);
        assert_eq!(normal_tuple(order, &tuple), clean);
    }
}

/// Lengths that no number of samples makes: 9 at the ping.
#[test]
fn lengths_of_tuples() {
    for order in ORDERS {
        for numbers in 1..=24 {
            let stored: Vec<u32> = (0..2 * numbers).collect();
            let file = alone(order, &of_two(order, U16Angles, &stored));
            let bytes = 4 * numbers;
            // 12 a pair of samples; one more and its space 8
            let fits = [0, 8].contains(&(bytes % 12));
            let refusal = Refusal {
                code: Code::Unfit,
                place: FIRST_PLACE,
            };
            match read_ping(&file, FIRST_PLACE) {
                Err(refused) => assert_eq!((refused, fits), (refusal, false)),
                Ok(_) => assert!(fits, "{bytes}"),
            }
        }
    }
}

/// Words, and what is their normal form: pairs or words.
#[test]
fn normal_forms() {
    let far = |mut words: Vec<u32>, last: &[u32]| {
        // 65,536 samples of silence
        words.extend(vec![FULL; 256]);
        words.extend(last);
        words
    };
    for order in ORDERS {
        let stays = |kind, count, stored: &[u32], normal: &[u32]| {
            let tuple = of_words(order, kind, count, stored);
            let normal = of_words(Order::Lsb, kind, count, normal);
            assert_eq!(normal_tuple(order, &tuple), normal, "{kind} {stored:04X?}");
            assert_eq!(normal_tuple(Order::Lsb, &normal), normal);
            let file = deposit(order, &[tuple]);
            let expected = reindexed(&deposit(Order::Lsb, &[normal]));
            assert_eq!(normal_form(&file), Ok(expected));
        };
        let numbered = |count, stored: &[u32], pairs: &[u32]| {
            let tuple = of_words(order, C16, count, stored);
            let normal = of_two(Order::Lsb, U16, pairs);
            assert_eq!(normal_tuple(order, &tuple), normal, "{stored:04X?}");
            let file = deposit(order, &[tuple]);
            let expected = reindexed(&deposit(Order::Lsb, &[normal]));
            assert_eq!(normal_form(&file), Ok(expected));
        };
        // a value last: U-16, up to sample 65,535
        numbered(1, &[100, 0], &[0, 100]);
        numbered(2, &[RUN, RUN + 1, 100, 0], &[3, 100, 4, 0]);
        let most = [&vec![FULL; 255][..], &[FULL - 1, 100, 0x1234]].concat();
        numbered(1, &most, &[65_535, 100]);
        // past it, or a run last, or runs alone: C-16 in the fewest words
        for kind in [C16, Ce16] {
            stays(
                kind,
                1,
                &far(vec![], &[100, 0x7F00]),
                &far(vec![], &[100, 0]),
            );
            stays(
                kind,
                2,
                &far(vec![RUN], &[0, 0, RUN + 9]),
                &far(vec![], &[RUN, 0, 0, RUN + 9]),
            );
            stays(kind, 1, &[100, RUN], &[100, RUN]);
            stays(kind, 1, &[100, RUN, FULL, 0], &[100, FULL, RUN, 0]);
            stays(kind, 1, &[RUN, RUN + 1, 100, RUN], &[RUN + 2, 100, RUN, 0]);
            stays(kind, 0, &[RUN, 5], &[RUN, 0]);
            stays(kind, 0, &[RUN, RUN + 0xFE], &[FULL, 0]);
            stays(kind, 0, &[RUN, FULL], &[FULL, RUN]);
        }
        // CE-16 has nothing else, and one 0
        stays(Ce16, 1, &[100, 5], &[100, 0]);
        stays(
            Ce16,
            2,
            &[0x8000, RUN, RUN, 0x8001],
            &[0, RUN + 1, 0x8001, 0],
        );
        stays(Ce16, 1, &[0x8000, 0x8000], &[0, 0]);
        stays(Ce16, 2, &[0x8000, 0x8000], &[0, 0]);
    }
}

/// One list of samples in every family: U-32 and C-32 are one content, U-16 and C-16
/// another, CE-16 a third; of angles the two kinds are two.
#[test]
fn families_are_content() {
    let (header, attribute) = (&header(), ATTRIBUTE);
    let (numbers, narrow) = ([2, 3], [2_u16, 3]);
    let (wide, values) = ([100, 200], [100_i16, 200]);
    for order in ORDERS {
        let pings = [
            (
                0,
                written(|out| write_u32(header, attribute, &numbers, &wide, order, out)),
            ),
            (
                0,
                written(|out| write_c32(header, attribute, &numbers, &wide, None, order, out)),
            ),
            (
                1,
                written(|out| write_u16(header, attribute, &narrow, &values, order, out)),
            ),
            (
                1,
                written(|out| write_c16(header, attribute, &numbers, &values, None, order, out)),
            ),
            (
                2,
                written(|out| write_ce16(header, attribute, &numbers, &wide, None, order, out)),
            ),
            (
                3,
                written(|out| {
                    write_u16_angles(header, attribute, &narrow, &values, &values, order, out)
                }),
            ),
            (
                4,
                written(|out| {
                    write_u32_16_angles(header, attribute, &numbers, &values, &values, order, out)
                }),
            ),
            // a length more, and another
            (
                5,
                written(|out| write_c16(header, attribute, &numbers, &values, Some(5), order, out)),
            ),
            (
                6,
                written(|out| write_c16(header, attribute, &numbers, &values, Some(6), order, out)),
            ),
            (
                7,
                written(|out| write_ce16(header, attribute, &numbers, &wide, Some(5), order, out)),
            ),
        ];
        let forms: Vec<_> = pings
            .iter()
            .map(|(content, ping)| (content, normal_form(&deposit(order, slice::from_ref(ping)))))
            .collect();
        for (one, of_one) in &forms {
            assert!(of_one.is_ok());
            for (other, of_other) in &forms {
                assert_eq!(one == other, of_one == of_other, "{one} {other}");
            }
        }
    }
}

/// A refusal of a writer.
fn refused(code: Code, place: usize) -> Result<usize, Refusal> {
    Err(Refusal { code, place })
}

/// The writers of angles and of U-16: 23, 11, 22, 23, 19, and lent memory left as it was.
#[test]
fn refused_numbers() {
    let (header, attribute) = (&header(), ATTRIBUTE);
    let refuses = |numbers: &[u16], along: &[i16], athwart: &[i16], code, place| {
        let wide: Vec<u32> = numbers.iter().map(|number| (*number).into()).collect();
        for order in ORDERS {
            let mut out = [7; 30];
            let answers = [
                write_u16_angles(header, attribute, numbers, along, athwart, order, &mut out),
                write_u32_16_angles(header, attribute, &wide, along, athwart, order, &mut out),
            ];
            assert_eq!(answers, [refused(code, place); 2]);
            if along.len() == athwart.len() {
                let answer = write_u16(header, attribute, numbers, along, order, &mut out);
                assert_eq!(answer, refused(code, place));
            }
            assert_eq!(out, [7; 30]);
        }
    };
    let many: Vec<u16> = (0..=VALUE_LIMIT as u16).collect();
    let values = vec![-1; many.len()];
    refuses(&[5, 4, 3], &[1, 1], &[1, 1], Code::NotRising, 2);
    refuses(&[5, 4, 3], &[1, 1], &[1], Code::NotRising, 1);
    refuses(&[5, 4], &[1, 1], &[], Code::NotRising, 0);
    refuses(&[5, 4], &[1, 1, 1], &[1, 1], Code::NotRising, 2);
    refuses(&[], &[1], &[1], Code::NotRising, 0);
    refuses(&many, &values, &values, Code::Overfull, 0);
    refuses(&[], &[], &[], Code::NoSamples, 0);
    refuses(&[5, 6, 6], &[1; 3], &[1; 3], Code::NotRising, 2);
    refuses(&[5, 5, 4], &[1; 3], &[1; 3], Code::NotRising, 1);
    refuses(&[5], &[1], &[1], Code::NoRoom, 0);
}

/// The most samples that these have.
#[test]
fn the_most_numbers() {
    let (header, attribute) = (&header(), ATTRIBUTE);
    let numbers: Vec<u16> = (0..VALUE_LIMIT as u16).collect();
    let values = vec![-1; VALUE_LIMIT];
    let pings = [
        written(|out| write_u16(header, attribute, &numbers, &values, Order::Msb, out)),
        written(|out| {
            write_u16_angles(
                header,
                attribute,
                &numbers,
                &values,
                &values,
                Order::Msb,
                out,
            )
        }),
    ];
    assert_eq!(pings.each_ref().map(Vec::len), [131_088, 196_616]);
    for ping in pings {
        let file = alone(Order::Msb, &ping);
        let read = read_ping(&file, FIRST_PLACE).expect("a ping");
        assert_eq!(read.values, VALUE_LIMIT);
    }
}

/// The C-16 and CE-16 writers: 23, 11, 22, 23, 21, 26, 11, 19.
#[test]
fn refused_words() {
    let (header, attribute) = (&header(), ATTRIBUTE);
    let c16 = |numbers: &[u32], values: &[i32], length, order, out: &mut [u8]| {
        let values: Vec<i16> = values.iter().map(|value| *value as i16).collect();
        write_c16(header, attribute, numbers, &values, length, order, out)
    };
    let ce16 = |numbers: &[u32], values: &[i32], length, order, out: &mut [u8]| {
        write_ce16(header, attribute, numbers, values, length, order, out)
    };
    let refuses = |numbers: &[u32], values: &[i32], length, code, place| {
        for order in ORDERS {
            let mut out = [7; 30];
            let answers = [
                c16(numbers, values, length, order, &mut out),
                ce16(numbers, values, length, order, &mut out),
            ];
            assert_eq!(answers, [refused(code, place); 2], "{numbers:?} {length:?}");
            assert_eq!(out, [7; 30]);
        }
    };
    // neither has a word for it
    let wordless = 32_767;
    let many: Vec<u32> = (0..=VALUE_LIMIT as u32).rev().collect();
    let values = vec![wordless; many.len()];
    refuses(&many, &values[1..], Some(0), Code::NotRising, VALUE_LIMIT);
    refuses(&many, &values, Some(0), Code::Overfull, 0);
    refuses(&[], &[], None, Code::NoSamples, 0);
    refuses(&[5, 5], &[wordless; 2], Some(0), Code::NotRising, 1);
    refuses(&[5, 6], &[1, wordless], Some(0), Code::NoWord, 1);
    refuses(&[], &[], Some(0), Code::ShortLength, 0);
    refuses(&[3, 9], &[1, 1], Some(10), Code::ShortLength, 0);
    refuses(&[u32::MAX], &[1], Some(9), Code::ShortLength, 0);
    refuses(&[u32::MAX - 1], &[1], Some(u32::MAX), Code::ShortLength, 0);
    refuses(&[u32::MAX], &[1], None, Code::Overfull, 0);
    refuses(&[5], &[1], None, Code::NoRoom, 0);
    // each value without a word, alone
    for value in [-1, -256, 32_512, 32_767, -32_512, -32_768] {
        let answer = c16(&[5, 6], &[1, value], None, Order::Lsb, &mut [0; 64]);
        assert_eq!(answer, refused(Code::NoWord, 1), "{value}");
    }
    for value in [
        8193,
        -8193,
        16_386,
        262_145,
        507_841,
        507_904,
        -507_904,
        1 << 19,
        i32::MIN,
    ] {
        let answer = ce16(&[5, 6], &[1, value], None, Order::Lsb, &mut [0; 64]);
        assert_eq!(answer, refused(Code::NoWord, 1), "{value}");
    }
}

/// The fewest words, and what was written read back with its length.
#[test]
fn written_with_a_length() {
    let (header, attribute) = (&header(), ATTRIBUTE);
    let cases: [(&[u32], Option<u32>, &[u32]); 9] = [
        (&[], Some(1), &[RUN, 0]),
        (&[], Some(256), &[FULL, 0]),
        (&[], Some(257), &[FULL, RUN]),
        (&[0], None, &[100, 0]),
        (&[0], Some(2), &[100, RUN]),
        (&[5], Some(7), &[RUN + 4, 100, RUN, 0]),
        (&[5], Some(262), &[RUN + 4, 100, FULL, 0]),
        (&[5], Some(263), &[RUN + 4, 100, FULL, RUN]),
        (
            &[3, 261],
            Some(272),
            &[RUN + 2, 100, FULL, RUN, 100, RUN + 9],
        ),
    ];
    for order in ORDERS {
        for (numbers, length, words) in cases {
            let count = numbers.len();
            let (values, wide) = (vec![100; count], vec![100; count]);
            let c16 =
                written(|out| write_c16(header, attribute, numbers, &values, length, order, out));
            let ce16 =
                written(|out| write_ce16(header, attribute, numbers, &wide, length, order, out));
            assert_eq!(c16, of_words(order, C16, count as u32, words));
            assert_eq!(ce16, of_words(order, Ce16, count as u32, words));
            for tuple in [c16, ce16] {
                let samples: Vec<_> = numbers.iter().map(|number| (*number, 100)).collect();
                assert_eq!(read(order, &tuple), told(&samples, length));
            }
        }
        // as many runs as a tuple has room for
        let most = (TUPLE_LIMIT as u32 - 36) / 2;
        let silent =
            written(|out| write_c16(header, attribute, &[], &[], Some(256 * most), order, out));
        assert_eq!(silent.len(), TUPLE_LIMIT);
        let answer = write_c16(
            header,
            attribute,
            &[],
            &[],
            Some(256 * most + 1),
            order,
            &mut [0; 64],
        );
        assert_eq!(answer, refused(Code::Overfull, 0));
    }
}

/// Slices for angles: entries past them stay, one too short is 19 at 0, and pings of
/// another kind of sample are 9, whatever is lent.
#[test]
fn lent_slices() {
    for order in ORDERS {
        let file = alone(order, &of_two(order, U16Angles, &[7, 1, 2, 9, 3, 4]));
        let (mut numbers, mut along, mut athwart) = ([6; 3], [6; 2], [6; 4]);
        let answer = read_angles(&file, FIRST_PLACE, &mut numbers, &mut along, &mut athwart);
        assert_eq!(answer, Ok(2));
        assert_eq!((numbers, along, athwart), ([7, 9, 6], [1, 3], [2, 4, 6, 6]));
        for [few, less, least] in [[1, 2, 2], [2, 1, 2], [2, 2, 1], [0, 0, 0]] {
            let (mut numbers, mut along, mut athwart) =
                (vec![6; few], vec![6; less], vec![6; least]);
            let answer = read_angles(&file, FIRST_PLACE, &mut numbers, &mut along, &mut athwart);
            assert_eq!(answer, refused(Code::NoRoom, 0));
            assert!(numbers.iter().all(|number| *number == 6));
            assert!(along.iter().chain(&athwart).all(|angle| *angle == 6));
        }
        let unfit = Refusal {
            code: Code::Unfit,
            place: FIRST_PLACE,
        };
        assert_eq!(samples(&file, FIRST_PLACE), Err(unfit));
        assert_eq!(
            read_samples(&file, FIRST_PLACE, &mut [], &mut []),
            Err(unfit)
        );
        let file = alone(order, &of_words(order, C16, 1, &[100, 0]));
        assert_eq!(angles(&file, FIRST_PLACE), Err(unfit));
        assert_eq!(
            read_angles(&file, FIRST_PLACE, &mut [], &mut [], &mut []),
            Err(unfit)
        );
    }
}

/// Pings of each kind are linked: their parents are told, one of a channel that wasn't
/// declared is 13, and none gives 18 in MSB order.
#[test]
fn links() {
    for order in ORDERS {
        for kind in PingKind::ALL {
            let ping = one_sample(order, *kind, 1);
            let mut deposit = Deposit::begun(order);
            deposit.sounder(1, 1);
            let channel = deposit.channel(1, 1);
            let place = deposit.put_bytes(&ping);
            let file = deposit.ended().to_vec();
            let parents = ask(&file, place).expect("parents");
            assert_eq!(parents.channel_place, channel);
            assert!(normal_form(&file).is_ok(), "{kind}");

            let orphan = one_sample(order, *kind, 2);
            let mut deposit = Deposit::begun(order);
            deposit.sounder(1, 1);
            deposit.channel(1, 1);
            let place = deposit.put_bytes(&orphan);
            deposit.refused(Code::NoParent, place);
        }
    }
}

/// A ping of a kind with one sample, of a channel.
fn one_sample(order: Order, kind: PingKind, channel: u16) -> Vec<u8> {
    let header = &PingHeader {
        software_channel_identifier: SoftwareChannel(channel),
        ..PingHeader::default()
    };
    written(|out| match kind {
        U32 => write_u32(header, 0, &[9], &[5], order, out),
        C32 => write_c32(header, 0, &[9], &[5], None, order, out),
        U32_16Angles => write_u32_16_angles(header, 0, &[9], &[5], &[6], order, out),
        U16 => write_u16(header, 0, &[9], &[5], order, out),
        U16Angles => write_u16_angles(header, 0, &[9], &[5], &[6], order, out),
        C16 => write_c16(header, 0, &[9], &[5], None, order, out),
        Ce16 => write_ce16(header, 0, &[9], &[5], None, order, out),
    })
}

/// Numbers of two bytes from a place on, up to the attribute.
fn twos_of(tuple: &Tuple, from: usize) -> Vec<u16> {
    let places = (from..tuple.bytes.len() - 8).step_by(2);
    places.map(|place| tuple.two(place)).collect()
}

/// The counts of a CE-16 word: TR's words on Table 24.
fn counts(word: u16) -> i32 {
    let (exponent, mantissa) = (word >> 12 & 7, i32::from(word & 0xFFF));
    let counts = match exponent {
        0 => mantissa,
        _ => (0x1000 + mantissa) << (exponent - 1),
    };
    if word < 0x8000 {
        counts
    } else {
        -counts
    }
}

/// What a ping of the survey's normal form holds, from its line.
fn known_of(tuple: &Tuple) -> (Held, Option<u32>) {
    let signed = |numbers: Vec<u16>| numbers.into_iter().map(|n| n as i16).collect::<Vec<i16>>();
    match tuple.kind() {
        10030 => {
            let pairs = twos_of(tuple, 24);
            let pairs = pairs.chunks(2).map(|pair| (pair[0].into(), pair[1] as i16));
            told(&pairs.map(|(n, v)| (n, v.into())).collect::<Vec<_>>(), None)
        }
        10001 | 10031 => {
            let wide = tuple.kind() == 10001;
            let width = if wide { 8 } else { 6 };
            let samples = (tuple.bytes.len() - 32) / width;
            let at: Vec<usize> = (0..samples).map(|nth| 24 + nth * width).collect();
            let angle = |behind| at.iter().map(|at| tuple.two(at + width - behind)).collect();
            let number = |at: &usize| match wide {
                true => tuple.four(*at),
                false => tuple.two(*at).into(),
            };
            let numbers = at.iter().map(number).collect();
            (
                Held::Angles(numbers, signed(angle(4)), signed(angle(2))),
                None,
            )
        }
        kind => {
            let value = |word: u16| match kind {
                10040 => (word as i16).into(),
                _ => counts(word),
            };
            let mut words = twos_of(tuple, 28);
            let is_run = |word: &u16| *word >= 0xFF00;
            let values = words.iter().filter(|word| !is_run(word)).count();
            if values as u32 != tuple.four(24) {
                assert_eq!(words.pop(), Some(0), "the space of a normal form");
            }
            let (mut samples, mut number) = (Vec::new(), 0);
            for word in &words {
                if is_run(word) {
                    number += u32::from(*word & 0xFF) + 1;
                } else {
                    samples.push((number, value(*word)));
                    number += 1;
                }
            }
            let length = words.last().is_some_and(is_run).then_some(number);
            told(&samples, length)
        }
    }
}

/// The kinds and the lengths of the survey's pings, in both spellings and in the normal
/// form; all of them hold the same.
#[test]
fn the_survey() {
    let normal = Known::sample(NORMAL);
    let kinds: Vec<u16> = normal.pings().iter().map(|ping| ping.kind()).collect();
    let expected = [
        10030, 10001, 10031, 10031, 10040, 10040, 10040, 10040, 10030, 10050, 10050,
    ];
    assert_eq!(kinds, expected);
    let known: Vec<_> = normal.pings().into_iter().map(known_of).collect();
    let lengths: Vec<_> = known.iter().filter_map(|(_, length)| *length).collect();
    assert_eq!(lengths, [982, 982, 1389, 1905]);
    for name in SPELLINGS.iter().chain([&NORMAL]) {
        let spelled = Known::sample(name);
        assert_eq!(spelled.pings().len(), known.len());
        for (ping, known) in spelled.pings().iter().zip(&known) {
            let read = read_ping(&spelled.bytes, ping.place).expect("a ping");
            assert_eq!(read.kind.code(), ping.kind());
            let told = (held(&spelled.bytes, ping.place), read.length);
            assert_eq!(told, *known);
        }
        let counts = Counts {
            tuples: spelled.tuples.len(),
            compared: 35,
        };
        assert_eq!(check(&spelled.bytes), Ok(counts));
        assert_eq!(normal_form(&spelled.bytes), Ok(normal.bytes.clone()));
    }
    // where it can be C-16 in one spelling it is U-16 in the other, and 0 is 8000
    let [lsb, msb] = SPELLINGS.map(Known::sample);
    assert_eq!(
        (lsb.pings()[0].kind(), msb.pings()[0].kind()),
        (10040, 10030)
    );
    assert!(twos_of(msb.pings()[9], 28).contains(&0x8000));
}

/// The command shows them by their names, and angles where there are no values.
#[test]
fn printed() {
    let normal = Known::sample(NORMAL);
    let ran = run(hac(["walk"]).arg(&normal.path));
    for (kind, name) in [
        (10001, "ping U-32-16-angles"),
        (10030, "ping U-16 "),
        (10031, "ping U-16-angles"),
        (10040, "ping C-16 "),
        (10050, "ping CE-16 "),
    ] {
        let place = normal.first(kind).place;
        let line = format!("{place:>8}  {kind}  {name}");
        assert!(ran.out.contains(&line), "{line}");
    }
    for ping in normal.pings() {
        let (held, length) = known_of(ping);
        let place = ping.place.to_string();
        let mut expected: Vec<String> = match &held {
            Held::Samples(numbers, values) => numbers
                .iter()
                .zip(values)
                .map(|(number, value)| format!("{number:>10}  {value:>11}"))
                .collect(),
            Held::Angles(numbers, along, athwart) => (0..numbers.len())
                .map(|nth| {
                    let (number, along, athwart) = (numbers[nth], along[nth], athwart[nth]);
                    format!("{number:>10}  {along:>6}  {athwart:>6}")
                })
                .collect(),
        };
        expected.extend(length.map(|length| format!("length {length} samples, runs counted")));
        let ran = run(hac(["samples"]).arg(&normal.path).arg(&place));
        assert_eq!(ran.lines(), expected);
        assert_eq!((ran.status, ran.err.as_str()), (0, ""));

        let ran = run(hac(["samples", "--json"]).arg(&normal.path).arg(&place));
        let mut objects = json::objects(&ran.out);
        let last = objects.pop().expect("the length");
        assert_eq!(last.number_or_null("length"), length.map(i128::from));
        let keys: &[&str] = match held {
            Held::Samples(..) => &["number", "value"],
            Held::Angles(..) => &["number", "alongship", "athwartship"],
        };
        for (object, line) in objects.iter().zip(&expected) {
            assert_eq!(object.keys(), keys);
            let told: Vec<String> = keys
                .iter()
                .map(|key| object.number(key).to_string())
                .collect();
            let line: Vec<&str> = line.split_whitespace().collect();
            assert_eq!(told, line);
        }
    }
}
