//! The thirteen records, read and written, held to document 01's rows and, where 02
//! lists their types, to TR's tables.

use crate::known::{decode, e3, four_bytes, two_bytes, Known, Tuple, SPELLINGS};
use hac::*;

/// 01's rows, and those of TR's Tables 3 and 5: the widths behind the type, `s` signed,
/// `c` characters, `z` a space, `i` the signature's identifier, `n` what the length
/// leaves. Attribute and backlink end every row.
const ROWS: [(u16, &str); 13] = [
    (65535, "i2 2 2 4"),
    (100, "2 4 2 2 s2 2 s2 2 2 s2 2 2 c30 z2"),
    (
        1000,
        "2 4 4 2 2 2 z2 4 4 s2 s2 s2 s2 2 2 2 2 2 2 2 s2 s2 s2 4 4 c30 z2",
    ),
    (200, "2 4 2 2 2 2 2 2 2 2 2 s4 2 s2 4 c30"),
    (
        2000,
        "2 4 4 2 2 4 4 s2 s2 s2 s2 2 2 2 2 2 2 2 2 s2 2 s2 z2 4 4 c30 z2",
    ),
    (20, "s2 4 4 2 z2 s4 s4"),
    (30, "2 4 2 s2 2 z2"),
    (40, "2 4 2 2 s2 s2 s2 s2 s2 z2"),
    (10100, "2 4 2 2 2 2 2 2 4 4 4"),
    (10110, "2 4 n"),
    (65516, "2 4"),
    (65517, "2 4"),
    (65534, "2 4 2 n"),
];

/// A tuple by its row: its numbers, its characters, the tuple with its spaces 0, and
/// this in the other byte order.
struct ByRow {
    numbers: Vec<i64>,
    characters: Vec<u8>,
    plain: Vec<u8>,
    turned: Vec<u8>,
}

/// The bytes of a width that names them.
fn bytes_of(width: &str) -> usize {
    let digits = width.trim_start_matches(|c: char| !c.is_ascii_digit());
    digits.parse().expect("a width")
}

fn by_row(tuple: &Tuple, row: &str) -> ByRow {
    let mut told = ByRow {
        numbers: Vec::new(),
        characters: Vec::new(),
        plain: tuple.bytes.clone(),
        turned: Vec::new(),
    };
    let (attribute, backlink) = (tuple.bytes.len() - 8, tuple.bytes.len() - 4);
    let mut numbers = vec![0..4, 4..6, attribute..backlink, backlink..backlink + 4];
    let mut at = 6;
    for width in row.split(' ') {
        let end = match width {
            "n" => attribute,
            _ => at + bytes_of(width),
        };
        match width {
            "2" => told.numbers.push(tuple.two(at).into()),
            "4" => told.numbers.push(tuple.four(at).into()),
            "s2" => told.numbers.push((tuple.two(at) as i16).into()),
            "s4" => told.numbers.push((tuple.four(at) as i32).into()),
            "z2" => told.plain[at..end].fill(0),
            "c30" | "n" => told.characters = tuple.bytes[at..end].to_vec(),
            "i2" => assert_eq!(tuple.two(at), 44204),
            _ => panic!("no width: {width}"),
        }
        if !["c30", "n"].contains(&width) {
            numbers.push(at..end);
        }
        at = end;
    }
    assert_eq!(at, attribute);
    told.numbers.push((tuple.four(attribute) as i32).into());
    told.turned = told.plain.clone();
    for number in numbers {
        told.turned[number].reverse();
    }
    told
}

/// A tuple of a record with its spaces 0.
pub fn plain(tuple: &Tuple) -> Vec<u8> {
    by_row(tuple, row_of(tuple.kind())).plain
}

/// The numbers of a record's tuple, the attribute last, and its characters.
pub fn told(tuple: &Tuple) -> (Vec<i64>, Vec<u8>) {
    let told = by_row(tuple, row_of(tuple.kind()));
    (told.numbers, told.characters)
}

fn row_of(kind: u16) -> &'static str {
    let found = ROWS.iter().find(|(code, _)| *code == kind);
    found.expect("a record's type").1
}

/// The numbers of a record, in the order of its fields.
fn numbers(record: &impl std::fmt::Debug) -> Vec<i64> {
    let text = format!("{record:?}");
    let fields = text.split(": ").skip(1).map(|field| {
        let value = field.split(", ").next().expect("a value");
        let digits: String = value
            .chars()
            .filter(|c| c.is_ascii_digit() || *c == '-')
            .collect();
        digits.parse().expect("a number")
    });
    fields.collect()
}

/// What comes of reading a record and writing it again.
struct Again {
    numbers: Vec<i64>,
    characters: Vec<u8>,
    written: Vec<u8>,
}

/// Reads a record, by itself or with the characters beside it, and writes it into
/// memory that is just enough, with them where they are written too.
macro_rules! again {
    ($record:ident, $file:ident, $tuple:ident) => {{
        let record = $record::read($file, $tuple.place).expect("a record");
        again!(record, &[], $tuple, |order, out| record.write(order, out))
    }};
    ($record:ident beside, $file:ident, $tuple:ident) => {{
        let (record, beside) = $record::read($file, $tuple.place).expect("a record");
        again!(record, beside, $tuple, |order, out| record
            .write(order, out))
    }};
    ($record:ident beside written, $file:ident, $tuple:ident) => {{
        let (record, beside) = $record::read($file, $tuple.place).expect("a record");
        again!(record, beside, $tuple, |order, out| record
            .write(beside, order, out))
    }};
    ($record:expr, $beside:expr, $tuple:ident, |$order:ident, $out:ident| $write:expr) => {{
        let ($order, mut written) = ($tuple.order, vec![7; $tuple.bytes.len()]);
        let $out = &mut written[..];
        assert_eq!($write, Ok($tuple.bytes.len()));
        Again {
            numbers: numbers(&$record),
            characters: $beside.to_vec(),
            written,
        }
    }};
}

fn again(file: &[u8], tuple: &Tuple) -> Again {
    match tuple.kind() {
        65535 => again!(Signature, file, tuple),
        100 => again!(Sounder beside written, file, tuple),
        1000 => again!(Channel beside written, file, tuple),
        200 => again!(Ek500Sounder beside written, file, tuple),
        2000 => again!(Ek500Channel beside written, file, tuple),
        20 => again!(Position, file, tuple),
        30 => again!(Navigation, file, tuple),
        40 => again!(Attitude, file, tuple),
        10100 => again!(Threshold, file, tuple),
        10110 => again!(Event beside written, file, tuple),
        65516 => again!(RunStart, file, tuple),
        65517 => again!(RunEnd, file, tuple),
        65534 => again!(FileEnd beside, file, tuple),
        kind => panic!("{kind} is no record's type"),
    }
}

/// A record has the numbers and the characters of its row, and is written again as it
/// stands there but for its spaces.
fn holds_row(file: &[u8], tuple: &Tuple) {
    let kind = tuple.kind();
    let mut told = by_row(tuple, row_of(kind));
    let again = again(file, tuple);
    assert_eq!(again.numbers, told.numbers, "{kind}");
    assert_eq!(again.characters, told.characters, "{kind}");
    if kind == FileEnd::CODE {
        // its data are written as 0
        let data = tuple.bytes.len() - 10;
        told.plain[data..data + 2].fill(0);
    }
    assert_eq!(again.written, told.plain, "{kind}");
}

/// The types of the EK-500, which a cruise may lack.
const EK500: [u16; 2] = [200, 2000];

#[test]
fn all_records_of_all_spellings() {
    for name in SPELLINGS {
        let known = Known::sample(name);
        for (kind, _) in ROWS {
            assert!(
                known.of(kind).count() > 0 || EK500.contains(&kind),
                "{kind}"
            );
            for tuple in known.of(kind) {
                holds_row(&known.bytes, tuple);
            }
        }
    }
}

/// A tuple of a row, alone behind the mark. Each of its bytes behind the type tells its
/// place, spaces too, and has its highest bit set: so every signed number is negative,
/// in either order, and no two bytes can be taken for each other.
fn counted(order: Order, kind: u16, row: &str) -> Tuple {
    let widths = row.split(' ').map(|width| match width {
        // the least that makes the length a multiple of 4
        "n" if kind == FileEnd::CODE => 2,
        "n" => 4,
        _ => bytes_of(width),
    });
    // behind data size and type the fields, then attribute and backlink
    let length = 6 + widths.sum::<usize>() + 8;
    let mut bytes: Vec<u8> = (0..length).map(|at| 0x80 | at as u8).collect();
    bytes[..4].copy_from_slice(&four_bytes(order, length as u32 - 10));
    bytes[4..6].copy_from_slice(&two_bytes(order, kind));
    bytes[length - 4..].copy_from_slice(&four_bytes(order, length as u32));
    if kind == Signature::CODE {
        bytes[6..8].copy_from_slice(&two_bytes(order, 44204));
    }
    Tuple {
        order,
        place: FIRST_PLACE,
        bytes,
    }
}

#[test]
fn every_byte_of_all_records() {
    for order in [Order::Lsb, Order::Msb] {
        for (kind, row) in ROWS {
            let tuple = counted(order, kind, row);
            let file = [&order.mark()[..], &tuple.bytes].concat();
            holds_row(&file, &tuple);
            // alone it has a normal form: LSB order, its spaces 0
            let told = by_row(&tuple, row);
            let normal = match order {
                Order::Lsb => told.plain,
                Order::Msb => told.turned,
            };
            let mut out = vec![7; file.len()];
            let written = normalise_tuple(&file, &mut out).expect("a normal form");
            assert_eq!(written.length, file.len());
            assert_eq!(out, [Order::Lsb.mark().to_vec(), normal].concat(), "{kind}");
        }
    }
}

const EK500_REMARKS: [u8; REMARK] = *b"Remarks of exactly 30 letters.";

/// TR's Table 3 by hand, a field or two a line: size, type and number of channels; the
/// document identifier; sound speed 1490.0 m/s, ping mode, interval, power; noise margin,
/// sample range; the super layer's type, number and range; at 30 its start, four bytes;
/// its margin and its threshold; the version. Behind the remarks attribute and backlink.
const SOUNDER_MSB: [&str; 2] = [
    "00000046 00c8 0003
     0000c365
     3a34 0001 0064 0001
     000a 00fa
     0003 0007 01f4
     fffeff9c
     0005 ffba
     00000208",
    "fffffffe 00000050",
];
const SOUNDER_LSB: [&str; 2] = [
    "46000000 c800 0300
     65c30000
     343a 0100 6400 0100
     0a00 fa00
     0300 0700 f401
     9cfffeff
     0500 baff
     08020000",
    "feffffff 50000000",
];

fn ek500_sounder() -> Ek500Sounder {
    Ek500Sounder {
        number_of_software_channels: 3,
        echosounder_document_identifier: DocumentId(50021),
        sound_speed: 14900,
        ping_mode: 1,
        ping_interval: 100,
        transmit_power: 1,
        noise_margin: 10,
        sample_range: 250,
        super_layer_type: 3,
        super_layer_number: 7,
        super_layer_range: 500,
        super_layer_start: -65636,
        super_layer_margin: 5,
        super_layer_sv_threshold: -70,
        ek_500_version: 520,
        tuple_attribute: -2,
    }
}

/// TR's Table 5 by hand: size, type and software channel; the document identifier; the
/// sampling rate; type of data sample and transceiver; frequency and depth; four angles;
/// absorption, pulse length, bandwidth, power; sensitivities and beamwidths; the two way
/// beam angle, the gain, the minimum level, a space; the bottom window. Behind the
/// remarks a space, attribute and backlink.
const CHANNEL_MSB: [&str; 2] = [
    "00000062 07d0 000c
     0000c365
     00004e20
     0002 0003
     00009470 000001c2
     fffb 0007 fff4 0009
     03e8 0002 0001 07d0
     00db 00dc 0047 0046
     f7f4 0a5a ec78 0000
     000001f4 0000c350",
    "0000 00000001 0000006c",
];
const CHANNEL_LSB: [&str; 2] = [
    "62000000 d007 0c00
     65c30000
     204e0000
     0200 0300
     70940000 c2010000
     fbff 0700 f4ff 0900
     e803 0200 0100 d007
     db00 dc00 4700 4600
     f4f7 5a0a 78ec 0000
     f4010000 50c30000",
    "0000 01000000 6c000000",
];

fn ek500_channel() -> Ek500Channel {
    Ek500Channel {
        software_channel_identifier: SoftwareChannel(12),
        echosounder_document_identifier: DocumentId(50021),
        sampling_rate: 20000,
        type_of_data_sample: 2,
        transceiver_channel_number: Transceiver(3),
        acoustic_frequency: 38000,
        installation_depth_of_transducer: 450,
        alongship_angle_offset_of_the_transducer_face: -5,
        athwartship_angle_offset_of_the_transducer_face: 7,
        alongship_angle_offset_of_the_main_axis_of_the_acoustic_beam: -12,
        athwartship_angle_offset_of_the_main_axis_of_the_acoustic_beam: 9,
        absorption_of_sound: 1000,
        pulse_length_mode: 2,
        bandwidth_mode: 1,
        max_power: 2000,
        alongship_angle_sensitivity: 219,
        athwartship_angle_sensitivity: 220,
        alongship_3_db_beamwidth_of_the_transducer: 71,
        athwartship_3_db_beamwidth_of_the_transducer: 70,
        two_way_beam_angle: -2060,
        calibration_transducer_gain: 2650,
        bottom_detection_minimum_level: -5000,
        bottom_window_min_depth: 500,
        bottom_window_max_depth: 50000,
        tuple_attribute: 1,
    }
}

/// The mark, and the tuple of the EK-500 between whose parts its remarks stand.
fn by_hand(order: Order, [before, behind]: [&str; 2]) -> Vec<u8> {
    let tuple = [decode(before), EK500_REMARKS.to_vec(), decode(behind)];
    [order.mark().to_vec(), tuple.concat()].concat()
}

/// The two records of the EK-500 are read from bytes written by hand, and written as
/// they stand there; the readers of the other maker's refuse them by 9.
#[test]
fn ek500_by_hand() {
    let unfit = Refusal {
        code: Code::Unfit,
        place: FIRST_PLACE,
    };
    for (order, sounder, channel) in [
        (Order::Lsb, SOUNDER_LSB, CHANNEL_LSB),
        (Order::Msb, SOUNDER_MSB, CHANNEL_MSB),
    ] {
        let file = by_hand(order, sounder);
        let read = Ek500Sounder::read(&file, FIRST_PLACE);
        assert_eq!(read, Ok((ek500_sounder(), &EK500_REMARKS[..])));
        let mut out = [7; 81];
        let written = ek500_sounder().write(&EK500_REMARKS, order, &mut out);
        assert_eq!(written, Ok(80));
        assert_eq!((&out[..80], out[80]), (&file[FIRST_PLACE..], 7));
        assert_eq!(Sounder::read(&file, FIRST_PLACE), Err(unfit));

        let file = by_hand(order, channel);
        let read = Ek500Channel::read(&file, FIRST_PLACE);
        assert_eq!(read, Ok((ek500_channel(), &EK500_REMARKS[..])));
        let mut out = [7; 109];
        let written = ek500_channel().write(&EK500_REMARKS, order, &mut out);
        assert_eq!(written, Ok(108));
        assert_eq!((&out[..108], out[108]), (&file[FIRST_PLACE..], 7));
        assert_eq!(Channel::read(&file, FIRST_PLACE), Err(unfit));
    }
    for (kind, row) in ROWS.iter().filter(|(kind, _)| [100, 1000].contains(kind)) {
        let tuple = counted(Order::Msb, *kind, row);
        let file = [&Order::Msb.mark()[..], &tuple.bytes].concat();
        assert_eq!(Ek500Sounder::read(&file, FIRST_PLACE), Err(unfit));
        assert_eq!(Ek500Channel::read(&file, FIRST_PLACE), Err(unfit));
    }
}

/// 'Super layer: Start' is the four bytes from 30 on, whatever stands around it.
#[test]
fn super_layer_start() {
    for (number, msb) in [
        (-1, [0xFF, 0xFF, 0xFF, 0xFF]),
        (-100, [0xFF, 0xFF, 0xFF, 0x9C]),
        (-65536, [0xFF, 0xFF, 0x00, 0x00]),
        (i32::MIN, [0x80, 0x00, 0x00, 0x00]),
        (i32::MAX, [0x7F, 0xFF, 0xFF, 0xFF]),
        (0x0102_0304, [0x01, 0x02, 0x03, 0x04]),
    ] {
        let sounder = Ek500Sounder {
            super_layer_start: number,
            ..Ek500Sounder::default()
        };
        for order in [Order::Lsb, Order::Msb] {
            let mut start = msb;
            if order == Order::Lsb {
                start.reverse();
            }
            let mut file = order.mark().to_vec();
            file.resize(FIRST_PLACE + 80, 0);
            let out = &mut file[FIRST_PLACE..];
            assert_eq!(sounder.write(&[0; REMARK], order, out), Ok(80));
            assert_eq!(out[30..34], start);
            // between the type and the backlink nothing else was handed over
            assert!(out[6..30].iter().chain(&out[34..76]).all(|byte| *byte == 0));
            let (read, _) = Ek500Sounder::read(&file, FIRST_PLACE).expect("a sounder");
            assert_eq!(read, sounder);
        }
    }
}

/// What stands in lent numbers before a call.
const FILLED: u32 = 0xA5A5_A5A5;

/// More numbers than any record has.
const MANY: usize = 26;

/// Types that no record has: both pings, the index class, and what isn't listed.
const NO_RECORDS: [u16; 6] = [10000, 10010, 65406, 65515, 0, 12345];

/// Numbers as they are told: a signed one as its pattern in its own width.
fn patterns(numbers: &[i64], row: &str) -> Vec<u32> {
    let widths = row.split(' ').chain(["s4"]);
    let widths = widths.filter(|width| ["2", "4", "s2", "s4"].contains(width));
    let patterns = numbers.iter().zip(widths).map(|(number, width)| {
        if width.ends_with('2') {
            (*number as u16).into()
        } else {
            *number as u32
        }
    });
    patterns.collect()
}

/// By its type each record has its row's numbers and characters, and from these it is
/// written again as it stands but for its spaces: with numbers past its own, which
/// nobody looks at or alters, and with more than a field's width, which isn't taken.
#[test]
fn numbers_of_all_records() {
    for name in SPELLINGS {
        let Known { bytes, tuples, .. } = Known::sample(name);
        for tuple in tuples.iter().filter(|tuple| !tuple.is_ping()) {
            if types::INDEX.contains(&tuple.kind()) {
                continue;
            }
            let row = row_of(tuple.kind());
            let told = by_row(tuple, row);
            let own = patterns(&told.numbers, row);
            for lent in [own.len(), MANY] {
                let mut numbers = vec![FILLED; lent];
                let text = read_record(&bytes, tuple.place, tuple.kind(), &mut numbers);
                assert_eq!(text, Ok(&told.characters[..]), "{}", tuple.kind());
                assert_eq!(numbers[..own.len()], own, "{}", tuple.kind());
                assert!(numbers[own.len()..].iter().all(|number| *number == FILLED));
                for (number, field) in numbers.iter_mut().zip(&told.numbers) {
                    *number = *field as u32;
                }
                let mut out = vec![7; tuple.bytes.len() + 1];
                let text = &told.characters;
                let length = write_record(tuple.kind(), &numbers, text, tuple.order, &mut out);
                assert_eq!(length, Ok(tuple.bytes.len()));
                assert_eq!(out.pop(), Some(7));
                assert_eq!(out, told.plain, "{}", tuple.kind());
            }
        }
    }
}

/// The end of file is written with the data handed over.
#[test]
fn data_of_an_end() {
    for order in [Order::Lsb, Order::Msb] {
        for data in [&b"ab"[..], b"abcdef", b"abcdefghij"] {
            let mut file = order.mark().to_vec();
            file.resize(FIRST_PLACE + 22 + data.len(), 7);
            let out = &mut file[FIRST_PLACE..];
            let written = write_record(FileEnd::CODE, &[1, 2, 3, 4], data, order, out);
            assert_eq!(written, Ok(22 + data.len()));
            let (end, read) = FileEnd::read(&file, FIRST_PLACE).expect("an end");
            assert_eq!((end.closing_mode, end.tuple_attribute), (3, 4));
            assert_eq!(read, data);
        }
    }
}

/// Reading by type is refused as reading is; by 9 for what is no record, and last by
/// 19 for too few numbers.
#[test]
fn refused_numbers_to_read() {
    let refused = |code, place| Err(Refusal { code, place });
    let Known { bytes, tuples, .. } = Known::sample("cruise-msb");
    let mut numbers = [FILLED; MANY];
    for tuple in &tuples {
        for code in NO_RECORDS {
            let read = read_record(&bytes, tuple.place, code, &mut numbers);
            assert_eq!(read, refused(Code::Unfit, tuple.place), "{code}");
        }
    }
    for code in [NO_RECORDS[0], Navigation::CODE] {
        let end = bytes.len();
        let read = read_record(&bytes, end, code, &mut numbers);
        assert_eq!(read, refused(Code::CutShort, end));
        assert_eq!(
            read_record(&[], 9, code, &mut numbers),
            refused(Code::NoMark, 9)
        );
    }
    let place = |code| {
        let found = tuples.iter().find(|tuple| tuple.kind() == code);
        found.expect("a tuple").place
    };
    for (code, own) in [
        (Channel::CODE, Channel::NUMBERS),
        (Event::CODE, Event::NUMBERS),
    ] {
        for lent in [0, own - 1] {
            let read = read_record(&bytes, place(code), code, &mut numbers[..lent]);
            assert_eq!(read, refused(Code::NoRoom, 0));
            let other = read_record(&bytes, place(code), RunEnd::CODE, &mut numbers[..lent]);
            assert_eq!(other, refused(Code::Unfit, place(code)));
        }
    }
    assert_eq!(numbers, [FILLED; MANY]);
}

/// Writing by type is refused by 9 for what is no record, for too few numbers and for
/// characters that don't fit, then by 11, then by 19.
#[test]
fn refused_numbers_to_write() {
    let numbers = [FILLED; MANY];
    let text = vec![b' '; TUPLE_LIMIT + 2];
    let mut out = SHORT;
    let mut holds = |code, of: usize, characters: usize, refused| {
        let written = write_record(
            code,
            &numbers[..of],
            &text[..characters],
            Order::Lsb,
            &mut out,
        );
        let refused = Err(Refusal {
            code: refused,
            place: 0,
        });
        assert_eq!(written, refused, "{code} {of} {characters}");
    };
    for code in NO_RECORDS {
        holds(code, MANY, 0, Code::Unfit);
    }
    for (code, own, fits, others) in [
        (Navigation::CODE, 6, 0, &[1, 2, 4, TUPLE_LIMIT][..]),
        (Channel::CODE, 25, 30, &[0, 29, 31, 34, TUPLE_LIMIT]),
        (Ek500Sounder::CODE, 16, 30, &[0, 29, 31, 34, TUPLE_LIMIT]),
        (Ek500Channel::CODE, 25, 30, &[0, 29, 31, 34, TUPLE_LIMIT]),
        (Event::CODE, 3, 8, &[0, 1, 3, 5, TUPLE_LIMIT - 19]),
        (FileEnd::CODE, 4, 6, &[0, 1, 3, 4, 5, 8, TUPLE_LIMIT]),
    ] {
        for few in [0, own - 1] {
            holds(code, few, fits, Code::Unfit);
        }
        for other in others {
            holds(code, own, *other, Code::Unfit);
        }
        holds(code, own, fits, Code::NoRoom);
        holds(code, MANY, fits, Code::NoRoom);
    }
    for (code, framed) in [(Event::CODE, 20), (FileEnd::CODE, 22)] {
        holds(code, MANY, TUPLE_LIMIT - framed, Code::NoRoom);
        holds(code, MANY, TUPLE_LIMIT - framed + 4, Code::Overfull);
    }
    assert_eq!(out, SHORT);
}

/// E3's record: heading -905.
fn e3_record() -> Navigation {
    Navigation {
        time_fraction: 5000,
        time_cpu: 60,
        navigation_system: 1,
        heading: -905,
        navigation_speed: 5144,
        tuple_attribute: 0,
    }
}

#[test]
fn example_3() {
    let file = e3();
    assert_eq!(Navigation::read(&file, FIRST_PLACE), Ok(e3_record()));
    let mut out = [7; 32];
    assert_eq!(e3_record().write(Order::Msb, &mut out), Ok(28));
    assert_eq!(out[..28], file[FIRST_PLACE..]);
    assert_eq!(out[28..], [7; 4]);
}

/// Extreme numbers of every width come back as they were.
#[test]
fn extremes() {
    let position = Position {
        time_fraction: i16::MIN,
        time_cpu: u32::MAX,
        gps_time: 0,
        positioning_system: u16::MAX,
        latitude: i32::MIN,
        longitude: i32::MAX,
        tuple_attribute: -1,
    };
    for order in [Order::Lsb, Order::Msb] {
        let mut file = order.mark().to_vec();
        file.resize(40, 0);
        assert_eq!(position.write(order, &mut file[FIRST_PLACE..]), Ok(36));
        assert_eq!(Position::read(&file, FIRST_PLACE), Ok(position));
    }
}

/// Readers refuse as a forward step is refused, then by 9 for another type; a
/// signature of another identifier by 8.
#[test]
fn refused_readers() {
    let refused = |code, place| Refusal { code, place };
    let Known { bytes, tuples, .. } = Known::sample("cruise-lsb");
    for tuple in tuples
        .iter()
        .filter(|tuple| tuple.kind() != Navigation::CODE)
    {
        let answer = Navigation::read(&bytes, tuple.place);
        assert_eq!(answer, Err(refused(Code::Unfit, tuple.place)));
    }
    let end = bytes.len();
    assert_eq!(Event::read(&bytes, end), Err(refused(Code::CutShort, end)));
    assert_eq!(Event::read(&[], 9), Err(refused(Code::NoMark, 9)));
    let mut signature = bytes[..28].to_vec();
    signature[FIRST_PLACE + 6] = 0;
    let answer = Signature::read(&signature, FIRST_PLACE);
    assert_eq!(answer, Err(refused(Code::UnknownIdentifier, FIRST_PLACE)));
}

/// The cruise with another number for its signature's identifier.
fn identified(name: &str, number: u16) -> Vec<u8> {
    let mut known = Known::sample(name);
    let written = two_bytes(known.order, number);
    known.bytes[FIRST_PLACE + 6..FIRST_PLACE + 8].copy_from_slice(&written);
    known.bytes
}

/// Files with 44201, the number that TR's table prints, are read in both byte
/// orders as those with 44204, and have their normal form; a third is refused.
#[test]
fn two_identifiers() {
    let normal = normal_form(&identified("cruise-lsb", 44204)).expect("a normal form");
    for name in ["cruise-lsb", "cruise-msb"] {
        let [known, printed] = [44204, 44201].map(|number| identified(name, number));
        assert_ne!(known, printed);
        assert_eq!(check(&printed), check(&known));
        let read = Signature::read(&printed, FIRST_PLACE);
        assert_eq!(read, Signature::read(&known, FIRST_PLACE));
        assert_eq!(normal_form(&printed).expect("a normal form"), normal);
        for number in [
            0,
            44200,
            44202,
            44203,
            44205,
            0xACA9_u16.swap_bytes(),
            u16::MAX,
        ] {
            let refused = Refusal {
                code: Code::UnknownIdentifier,
                place: FIRST_PLACE,
            };
            let third = identified(name, number);
            assert_eq!(check(&third), Err(refused));
            assert_eq!(Signature::read(&third, FIRST_PLACE), Err(refused));
            assert_eq!(normal_form(&third).err(), Some(refused));
        }
    }
}

/// Memory one byte short of the least tuple written here, and what stands in it.
const SHORT: [u8; 27] = [7; 27];

/// Remarks that don't fit are refused by 9, before memory that is too short by 19;
/// nothing is written then.
#[test]
fn refused_remarks() {
    let refused = |code| Err(Refusal { code, place: 0 });
    let known = Known::sample("cruise-lsb");
    let place = |kind| known.first(kind).place;
    let (sounder, _) = Sounder::read(&known.bytes, place(100)).expect("a sounder");
    let (channel, _) = Channel::read(&known.bytes, place(1000)).expect("a channel");
    let mut out = SHORT;
    for (length, code) in [
        (0, Code::Unfit),
        (REMARK - 1, Code::Unfit),
        (REMARK + 1, Code::Unfit),
        (REMARK, Code::NoRoom),
    ] {
        let remarks = vec![b' '; length];
        let written = sounder.write(&remarks, Order::Lsb, &mut out);
        assert_eq!(written, refused(code), "{length}");
        let written = channel.write(&remarks, Order::Msb, &mut out);
        assert_eq!(written, refused(code), "{length}");
        let written = ek500_sounder().write(&remarks, Order::Msb, &mut out);
        assert_eq!(written, refused(code), "{length}");
        let written = ek500_channel().write(&remarks, Order::Lsb, &mut out);
        assert_eq!(written, refused(code), "{length}");
    }
    let written = e3_record().write(Order::Lsb, &mut out);
    assert_eq!(written, refused(Code::NoRoom));
    assert_eq!(out, SHORT);
}

/// A text that doesn't fit is refused by 9, one that is too long by 11, both before
/// memory that is too short by 19.
#[test]
fn refused_texts() {
    let event = Event {
        time_fraction: 1,
        time_cpu: 2,
        tuple_attribute: 3,
    };
    let mut out = SHORT;
    for (length, code) in [
        (0, Code::Unfit),
        (5, Code::Unfit),
        (TUPLE_LIMIT - 19, Code::Unfit),
        (TUPLE_LIMIT - 16, Code::Overfull),
        (8, Code::NoRoom),
    ] {
        let text = vec![b' '; length];
        let written = event.write(&text, Order::Lsb, &mut out);
        assert_eq!(written, Err(Refusal { code, place: 0 }), "{length}");
    }
    assert_eq!(out, SHORT);
}

/// The longest text that an event marker takes.
#[test]
fn the_longest_text() {
    let event = Event {
        time_fraction: 1,
        time_cpu: 2,
        tuple_attribute: 3,
    };
    let text: Vec<u8> = (0..TUPLE_LIMIT - 20).map(|nth| nth as u8).collect();
    let mut file = decode("000000ac");
    file.resize(FIRST_PLACE + TUPLE_LIMIT, 0);
    let written = event.write(&text, Order::Msb, &mut file[FIRST_PLACE..]);
    assert_eq!(written, Ok(TUPLE_LIMIT));
    assert_eq!(Event::read(&file, FIRST_PLACE), Ok((event, &text[..])));
}
