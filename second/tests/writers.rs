//! Readers read what writers wrote; writers refuse in 01's order and leave
//! lent memory as 01 says.

mod common;

use common::{count, lent, limit_case, ping_header, seed, tuples};
use second::gen::{any_length, sample_list, sound_drafts, Rng, Style, Wish};
use second::layout;
use second::pings::*;
use second::records::*;
use second::words::fewest_words;
use second::{
    check, Answer, DocumentId, Family, Order, PingKind, SoftwareChannel, TransceiverNumber,
};
use std::collections::BTreeSet;

/// Calls a writer with room enough, room exactly, and a byte too little, and
/// gives what it wrote.
fn written(length: usize, write: impl Fn(&mut [u8]) -> Answer) -> Vec<u8> {
    let mut long = lent(length + 9);
    assert_eq!(write(&mut long), Answer::accepted(1, length as u64));
    assert_eq!(long[length..], lent(length + 9)[length..]);
    let mut exact = lent(length);
    assert_eq!(write(&mut exact), Answer::accepted(1, length as u64));
    assert_eq!(exact, long[..length]);
    let mut short = lent(length - 1);
    assert_eq!(write(&mut short), Answer::refused(19, 0));
    assert_eq!(short, lent(length - 1));
    exact
}

/// Calls a writer that must refuse, whatever the room.
fn refused(code: u32, place: u64, write: impl Fn(&mut [u8]) -> Answer) {
    for room in [0, 39, 40, 300_000] {
        let mut out = lent(room);
        assert_eq!(write(&mut out), Answer::refused(code, place));
        assert_eq!(out, lent(room));
    }
}

/// A file of one tuple.
fn behind_mark(order: Order, tuple: &[u8]) -> Vec<u8> {
    [&order.mark()[..], tuple].concat()
}

macro_rules! round_trip {
    ($record:ident, $length:expr, $value:expr) => {
        for order in Order::BOTH {
            let record: $record = $value;
            let tuple = written($length, |out| record.write(order, out));
            assert_eq!(order.read_two(&tuple, 4), Some($record::CODE));
            let file = behind_mark(order, &tuple);
            assert_eq!(
                $record::read(&file, 4),
                Ok((Answer::accepted(1, 0), record))
            );
        }
    };
}

#[test]
fn records_in_both_orders() {
    let seed = seed();
    for index in 0..200 {
        let mut rng = Rng::of_case(seed, index);
        let rng = &mut rng;
        let remarks = rng.bytes(30);
        let attribute = rng.four() as i32;
        let (tf, time) = (rng.two(), rng.four());
        round_trip!(
            Signature,
            24,
            Signature {
                hac_version: tf,
                acquisition_software_version: tf ^ 1,
                acquisition_software_identifier: time,
                tuple_attribute: attribute,
            }
        );
        round_trip!(
            Echosounder,
            72,
            Echosounder {
                number_of_software_channels: tf,
                echosounder_document_identifier: DocumentId(time),
                sound_speed: tf ^ 2,
                ping_interval: tf ^ 3,
                transmitter_attenuation_setting: !tf as i16,
                multiplexing_mode: tf ^ 4,
                blanking_at_tvg_max_range: tf as i16,
                tvg_max_range: tf ^ 5,
                blanking_up_to_range: tf ^ 6,
                calibrator_signal: tf as i16 ^ 7,
                calibrator_mode: tf ^ 8,
                calibrator_separator: tf ^ 9,
                remarks: &remarks,
                tuple_attribute: attribute,
            }
        );
        round_trip!(
            Channel,
            108,
            Channel {
                software_channel_identifier: SoftwareChannel(tf),
                echosounder_document_identifier: DocumentId(time),
                sampling_rate: time ^ 1,
                type_of_data_sample: tf ^ 1,
                time_varied_gain_mode: tf ^ 2,
                transceiver_channel_number: TransceiverNumber(tf ^ 3),
                acoustic_frequency: time ^ 2,
                installation_depth_of_transducer: time ^ 3,
                alongship_angle_offset_of_the_transducer_face: tf as i16 ^ 4,
                athwartship_angle_offset_of_the_transducer_face: tf as i16 ^ 5,
                alongship_angle_offset_of_the_main_axis_of_the_acoustic_beam: tf as i16 ^ 6,
                athwartship_angle_offset_of_the_main_axis_of_the_acoustic_beam: tf as i16 ^ 7,
                absorption_of_sound: tf ^ 8,
                pulse_length: tf ^ 9,
                bandwidth: tf ^ 10,
                calibration_source_level: tf ^ 11,
                beamwidth_3_db_of_the_transducer_beam: tf ^ 12,
                beam_pattern: tf ^ 13,
                wide_beam_drop_off: tf ^ 14,
                calibration_receiving_sensitivity: tf as i16 ^ 15,
                receiver_gain: tf as i16 ^ 16,
                bottom_detection_minimum_level: tf as i16 ^ 17,
                bottom_window_min: time ^ 4,
                bottom_window_max: time ^ 5,
                remarks: &remarks,
                tuple_attribute: attribute,
            }
        );
        round_trip!(
            Ek500Sounder,
            80,
            Ek500Sounder {
                number_of_software_channels: tf,
                echosounder_document_identifier: DocumentId(time),
                sound_speed: tf ^ 1,
                ping_mode: tf ^ 2,
                ping_interval: tf ^ 3,
                transmit_power: tf ^ 4,
                noise_margin: tf ^ 5,
                sample_range: tf ^ 6,
                super_layer_type: tf ^ 7,
                super_layer_number: tf ^ 8,
                super_layer_range: tf ^ 9,
                super_layer_start: !time as i32,
                super_layer_margin: tf ^ 10,
                super_layer_sv_threshold: !tf as i16,
                ek_500_version: time ^ 1,
                remarks: &remarks,
                tuple_attribute: attribute,
            }
        );
        round_trip!(
            Ek500Channel,
            108,
            Ek500Channel {
                software_channel_identifier: SoftwareChannel(tf),
                echosounder_document_identifier: DocumentId(time),
                sampling_rate: time ^ 1,
                type_of_data_sample: tf ^ 1,
                transceiver_channel_number: TransceiverNumber(tf ^ 2),
                acoustic_frequency: time ^ 2,
                installation_depth_of_transducer: time ^ 3,
                alongship_angle_offset_of_the_transducer_face: tf as i16 ^ 3,
                athwartship_angle_offset_of_the_transducer_face: tf as i16 ^ 4,
                alongship_angle_offset_of_the_main_axis_of_the_acoustic_beam: tf as i16 ^ 5,
                athwartship_angle_offset_of_the_main_axis_of_the_acoustic_beam: tf as i16 ^ 6,
                absorption_of_sound: tf ^ 7,
                pulse_length_mode: tf ^ 8,
                bandwidth_mode: tf ^ 9,
                max_power: tf ^ 10,
                alongship_angle_sensitivity: tf ^ 11,
                athwartship_angle_sensitivity: tf ^ 12,
                alongship_3_db_beamwidth_of_the_transducer: tf ^ 13,
                athwartship_3_db_beamwidth_of_the_transducer: tf ^ 14,
                two_way_beam_angle: tf as i16 ^ 15,
                calibration_transducer_gain: tf ^ 16,
                bottom_detection_minimum_level: tf as i16 ^ 17,
                bottom_window_min_depth: time ^ 4,
                bottom_window_max_depth: time ^ 5,
                remarks: &remarks,
                tuple_attribute: attribute,
            }
        );
        round_trip!(
            Position,
            36,
            Position {
                time_fraction: tf as i16,
                time_cpu_ansi_c_standard_time: time,
                gps_time: time ^ 1,
                positioning_system: tf ^ 1,
                latitude: time as i32 ^ 2,
                longitude: !time as i32,
                tuple_attribute: attribute,
            }
        );
        round_trip!(
            Navigation,
            28,
            Navigation {
                time_fraction: tf,
                time_cpu_ansi_c_standard_time: time,
                navigation_system: tf ^ 1,
                heading: tf as i16 ^ 2,
                navigation_speed: tf ^ 3,
                tuple_attribute: attribute,
            }
        );
        round_trip!(
            Attitude,
            36,
            Attitude {
                time_fraction: tf,
                time_cpu_ansi_c_standard_time: time,
                software_channel_identifier: SoftwareChannel(tf ^ 1),
                platform_referred_to: tf ^ 2,
                alongship_offset: tf as i16 ^ 3,
                athwartship_offset: tf as i16 ^ 4,
                pitch: tf as i16 ^ 5,
                roll: tf as i16 ^ 6,
                heave: tf as i16 ^ 7,
                tuple_attribute: attribute,
            }
        );
        round_trip!(
            Threshold,
            44,
            Threshold {
                time_fraction: tf,
                time_cpu_ansi_c_standard_time: time,
                software_channel_identifier: SoftwareChannel(tf ^ 1),
                tvg_max_range: tf ^ 2,
                tvg_min_range: tf ^ 3,
                tvt_evaluation_mode: tf ^ 4,
                tvt_evaluation_interval: tf ^ 5,
                tvt_evaluation_no_of_pings: tf ^ 6,
                tvt_evaluation_starting_tvt_ping_number: time ^ 1,
                tvt_offset_parameter_or_constant_threshold: time ^ 2,
                tvt_amplification_parameter: time ^ 3,
                tuple_attribute: attribute,
            }
        );
        round_trip!(
            StartOfRun,
            20,
            StartOfRun {
                time_fraction: tf,
                time_cpu_ansi_c_standard_time: time,
                tuple_attribute: attribute,
            }
        );
        round_trip!(
            EndOfRun,
            20,
            EndOfRun {
                time_fraction: tf,
                time_cpu_ansi_c_standard_time: time,
                tuple_attribute: attribute,
            }
        );
        round_trip!(
            EndOfFile,
            24,
            EndOfFile {
                time_fraction: tf,
                time_cpu_ansi_c_standard_time: time,
                closing_mode: tf ^ 1,
                data: &[0, 0],
                tuple_attribute: attribute,
            }
        );
        let text = rng.bytes(4 + 4 * (index as usize % 5));
        round_trip!(
            EventMarker,
            20 + text.len(),
            EventMarker {
                time_fraction: tf,
                time_cpu_ansi_c_standard_time: time,
                text: &text,
                tuple_attribute: attribute,
            }
        );
    }
}

/// The generator's own encoder against reader and writer: files without
/// rubbish come out as they went in, tuple by tuple.
#[test]
fn read_and_written_again() {
    let seed = seed();
    let mut seen = BTreeSet::new();
    for index in 0..count(600) {
        let mut rng = Rng::of_case(seed, index);
        let drafts = sound_drafts(&mut rng, &Wish::any());
        let style = Style {
            printed: false,
            rubbish: false,
            cut: false,
            minus_zero: false,
            ..Style::any(&mut rng)
        };
        let file = second::gen::render(&drafts, &style, &mut rng).bytes;
        assert_eq!(check(&file).code, 0, "seed {seed} file {index}");
        for tuple in tuples(&file) {
            let before = tuple.bytes(&file);
            let Some(again) = write_again(&file, tuple.place, tuple.code, style.order) else {
                continue;
            };
            assert_eq!(again, before, "seed {seed} file {index} at {}", tuple.place);
            seen.insert(tuple.code);
        }
    }
    assert_eq!(seen.len(), 20);
}

/// The listed tuple at a place, read and written; none for other types.
fn write_again(file: &[u8], place: u64, code: u16, order: Order) -> Option<Vec<u8>> {
    let mut out = lent(262_144);
    let out_slice = &mut out[..];
    let answer = match code {
        layout::SIGNATURE => Signature::read(file, place)
            .unwrap()
            .1
            .write(order, out_slice),
        layout::SOUNDER => Echosounder::read(file, place)
            .unwrap()
            .1
            .write(order, out_slice),
        layout::CHANNEL => Channel::read(file, place)
            .unwrap()
            .1
            .write(order, out_slice),
        layout::EK500_SOUNDER => Ek500Sounder::read(file, place)
            .unwrap()
            .1
            .write(order, out_slice),
        layout::EK500_CHANNEL => Ek500Channel::read(file, place)
            .unwrap()
            .1
            .write(order, out_slice),
        layout::POSITION => Position::read(file, place)
            .unwrap()
            .1
            .write(order, out_slice),
        layout::NAVIGATION => Navigation::read(file, place)
            .unwrap()
            .1
            .write(order, out_slice),
        layout::ATTITUDE => Attitude::read(file, place)
            .unwrap()
            .1
            .write(order, out_slice),
        layout::THRESHOLD => Threshold::read(file, place)
            .unwrap()
            .1
            .write(order, out_slice),
        layout::EVENT_MARKER => EventMarker::read(file, place)
            .unwrap()
            .1
            .write(order, out_slice),
        layout::START_OF_RUN => StartOfRun::read(file, place)
            .unwrap()
            .1
            .write(order, out_slice),
        layout::END_OF_RUN => EndOfRun::read(file, place)
            .unwrap()
            .1
            .write(order, out_slice),
        layout::END_OF_FILE => {
            let (_, end) = EndOfFile::read(file, place).unwrap();
            let answer = end.write(order, out_slice);
            let mut tuple = out_slice[..answer.length as usize].to_vec();
            if end.data.len() != 2 {
                return None;
            }
            assert_eq!(tuple[14..16], [0, 0]);
            tuple[14..16].copy_from_slice(end.data);
            return Some(tuple);
        }
        code if PingKind::of(code).is_some() => ping_rewritten(file, place, order, out_slice),
        _ => return None,
    };
    assert_eq!((answer.code, answer.tuples), (0, 1));
    out.truncate(answer.length as usize);
    Some(out)
}

/// A ping of any kind, read and written again.
fn ping_rewritten(file: &[u8], place: u64, order: Order, out: &mut [u8]) -> Answer {
    let (_, ping) = Ping::read(file, place).unwrap();
    let (header, attribute, length) = (&ping.header, ping.tuple_attribute, ping.length);
    let n = ping.values as usize;
    let mut numbers = vec![0; n];
    let short: fn(&[u32]) -> Vec<u16> = |list| list.iter().map(|n| *n as u16).collect();
    if ping.kind.row().has_angles() {
        let (mut a, mut b) = (vec![0; n], vec![0; n]);
        let answer = read_angles(file, place, &mut numbers, &mut a, &mut b);
        assert_eq!(answer.length, n as u64);
        return if ping.kind == PingKind::U16Angles {
            write_u16_angles(header, attribute, &short(&numbers), &a, &b, order, out)
        } else {
            write_u32_16_angles(header, attribute, &numbers, &a, &b, order, out)
        };
    }
    let mut values = vec![0; n];
    let answer = read_samples(file, place, &mut numbers, &mut values);
    assert_eq!(answer.length, n as u64);
    let narrow: Vec<i16> = values.iter().map(|value| *value as i16).collect();
    match ping.kind {
        PingKind::U32 => write_u32(header, attribute, &numbers, &values, order, out),
        PingKind::C32 => write_c32(header, attribute, &numbers, &values, length, order, out),
        PingKind::U16 => write_u16(header, attribute, &short(&numbers), &narrow, order, out),
        PingKind::C16 => write_c16(header, attribute, &numbers, &narrow, length, order, out),
        _ => write_ce16(header, attribute, &numbers, &values, length, order, out),
    }
}

/// Whatever the file has that it was read from.
#[test]
fn a_signature_always_has_44204() {
    let lsb = "0e000000 ffff acac 6400 6500 acac01df 00000000 18000000";
    let msb = "0000000e ffff acac 0064 0065 df01acac 00000000 00000018";
    let read = [
        (Order::Lsb, lsb.to_string()),
        (Order::Lsb, lsb.replace("ffff acac", "ffff a9ac")),
        (Order::Msb, msb.to_string()),
        (Order::Msb, msb.replace("ffff acac", "ffff aca9")),
    ];
    for (order, tuple) in read {
        let file = behind_mark(order, &common::bytes(&tuple));
        let (_, signature) = Signature::read(&file, 4).unwrap();
        for (order, expected) in [(Order::Lsb, lsb), (Order::Msb, msb)] {
            let again = written(24, |out| signature.write(order, out));
            assert_eq!(again, common::bytes(expected), "{tuple}");
        }
    }
}

#[test]
fn remarks_not_of_their_width() {
    // full tables of both makers
    let file = limit_case("vessel-ends-named-lsb").bytes;
    let found = tuples(&file);
    let place = |code| found.iter().find(|tuple| tuple.code == code).unwrap().place;
    macro_rules! refused_with {
        ($record:ident, $remarks:ident, $order:ident) => {
            let (_, record) = $record::read(&file, place($record::CODE)).unwrap();
            let record = $record {
                remarks: $remarks,
                ..record
            };
            refused(9, 0, |out| record.write(Order::$order, out));
        };
    }
    for width in [0, 29, 31, 60] {
        let remarks = &vec![b'x'; width];
        refused_with!(Echosounder, remarks, Msb);
        refused_with!(Channel, remarks, Lsb);
        refused_with!(Ek500Sounder, remarks, Lsb);
        refused_with!(Ek500Channel, remarks, Msb);
    }
}

fn marker(text: &[u8]) -> EventMarker<'_> {
    EventMarker {
        time_fraction: 1,
        time_cpu_ansi_c_standard_time: 2,
        text,
        tuple_attribute: 3,
    }
}

#[test]
fn texts_of_any_length() {
    for length in [0, 1, 2, 3, 5, 6, 262_125, 262_126, 262_127, 262_129] {
        refused(9, 0, |out| marker(&vec![1; length]).write(Order::Lsb, out));
    }
    for length in [262_128, 262_132, 300_000] {
        refused(11, 0, |out| marker(&vec![1; length]).write(Order::Lsb, out));
    }
    for length in [4, 8, 262_124] {
        written(length + 20, |out| {
            marker(&vec![1; length]).write(Order::Msb, out)
        });
    }
}

/// The end of file's reader gives data of any length, its writer two zeros.
#[test]
fn end_of_file_data() {
    let file =
        common::bytes("ac000000 12000000 feff 0100 02000000 0300 0a0b0c0d0e0f 04000000 1c000000");
    let (_, end) = EndOfFile::read(&file, 4).unwrap();
    assert_eq!(end.data, [10, 11, 12, 13, 14, 15]);
    assert_eq!(
        (end.time_fraction, end.closing_mode, end.tuple_attribute),
        (1, 3, 4)
    );
    let tuple = written(24, |out| end.write(Order::Lsb, out));
    let expected = "0e000000 feff 0100 02000000 0300 0000 04000000 18000000";
    assert_eq!(tuple, common::bytes(expected));
}

/// Both kinds of a list that suits both read the same, in both orders, but for the
/// length that C-32 alone can have.
#[test]
fn pings_of_both_kinds_read_the_same() {
    let seed = seed();
    let mut with_length = 0;
    for index in 0..count(2000) {
        let mut rng = Rng::of_case(seed, index);
        let samples = sample_list(&mut rng, Family::Bits32, false);
        let length = any_length(&mut rng, Family::Bits32, &samples);
        let name = format!("seed {seed} list {index}");
        let (numbers, values): (Vec<u32>, Vec<i32>) = samples.into_iter().unzip();
        let n = numbers.len();
        with_length += u64::from(length.is_some());
        for order in Order::BOTH {
            // without its length, too, where there are samples
            for length in [length, None].into_iter().take(1 + n.min(1)) {
                let words = fewest(&numbers, length);
                let c32 = written(36 + 4 * words as usize, |out| {
                    write_c32(&ping_header(), -8, &numbers, &values, length, order, out)
                });
                assert_eq!(
                    fewest_words(PingKind::C32, &numbers, length),
                    words,
                    "{name}"
                );
                let file = behind_mark(order, &c32);
                read_back(&file, (PingKind::C32, length), &numbers, &values, &name);
            }
            if n > 0 {
                let u32 = written(32 + 8 * n, |out| {
                    write_u32(&ping_header(), -8, &numbers, &values, order, out)
                });
                let file = behind_mark(order, &u32);
                read_back(&file, (PingKind::U32, None), &numbers, &values, &name);
            }
        }
    }
    assert!(with_length * 3 > count(2000), "{with_length}");
}

/// 01's formula: one word a value and each gap's full runs and remainder; by request d
/// of 02 the last gap ends at the length.
fn fewest(numbers: &[u32], length: Option<u32>) -> u64 {
    let mut words = numbers.len() as i64;
    let mut before = -1;
    let ends = numbers.iter().copied().chain(length).map(i64::from);
    for end in ends {
        words += (end - before - 1 + 65_535) / 65_536;
        before = end;
    }
    words as u64
}

/// A ping read with slices too short, just long enough and longer.
fn read_back(
    file: &[u8],
    (kind, length): (PingKind, Option<u32>),
    numbers: &[u32],
    values: &[i32],
    name: &str,
) {
    let n = numbers.len();
    let (answer, ping) = Ping::read(file, 4).unwrap();
    assert_eq!(answer, Answer::accepted(1, 0), "{name}");
    let expected = Ping {
        header: ping_header(),
        tuple_attribute: -8,
        kind,
        values: n as u32,
        length,
    };
    assert_eq!(ping, expected, "{name}");
    for (more_numbers, more_values) in [(0, 0), (2, 0), (0, 3)] {
        let (mut a, mut b) = (vec![7; n + more_numbers], vec![8; n + more_values]);
        let answer = read_samples(file, 4, &mut a, &mut b);
        assert_eq!(answer, Answer::accepted(1, n as u64), "{name}");
        assert_eq!((&a[..n], &b[..n]), (numbers, values), "{name}");
        assert!(
            a[n..].iter().all(|a| *a == 7) && b[n..].iter().all(|b| *b == 8),
            "{name}"
        );
    }
    if n == 0 {
        return;
    }
    for (short_numbers, short_values) in [(1, 0), (0, 1), (n, 0), (0, n)] {
        let (mut a, mut b) = (vec![7; n - short_numbers], vec![8; n - short_values]);
        let answer = read_samples(file, 4, &mut a, &mut b);
        assert_eq!(answer, Answer::refused(19, 0), "{name}");
        assert!(
            a.iter().all(|a| *a == 7) && b.iter().all(|b| *b == 8),
            "{name}"
        );
    }
}

/// Gaps in their shortest form: full runs first, the remainder last.
#[test]
fn gaps_in_words() {
    for (number, words) in [
        (0, "01000000"),
        (1, "0000ffff 01000000"),
        (65_535, "feffffff 01000000"),
        (65_536, "ffffffff 01000000"),
        (65_537, "ffffffff 0000ffff 01000000"),
        (131_072, "ffffffff ffffffff 01000000"),
        (131_074, "ffffffff ffffffff 0100ffff 01000000"),
    ] {
        let length = 36 + common::bytes(words).len();
        let tuple = written(length, |out| {
            write_c32(&ping_header(), 0, &[number], &[1], None, Order::Lsb, out)
        });
        assert_eq!(tuple[28..length - 8], common::bytes(words), "{number}");
        assert_eq!(tuple[24..28], [1, 0, 0, 0]);
    }
}

type PingWriter = fn(&PingHeader, i32, &[u32], &[i32], Order, &mut [u8]) -> Answer;

fn refuses(writer: PingWriter, numbers: &[u32], values: &[i32], code: u32, place: u64) {
    for order in Order::BOTH {
        refused(code, place, |out| {
            writer(&ping_header(), 0, numbers, values, order, out)
        });
    }
}

/// 23 (unequal lists), 11 (count), 22, 23, 21, 11 (length), 19: each before
/// the next. What a length adds to these is in `lengths.rs`.
#[test]
fn ping_writers_in_order() {
    let u: PingWriter = write_u32;
    let c: PingWriter = |header, attribute, numbers, values, order, out| {
        write_c32(header, attribute, numbers, values, None, order, out)
    };
    let rising: Vec<u32> = (0..32_766).collect();
    let (fallen, minus) = (vec![0; 32_766], vec![-1; 32_766]);

    // unequal, before everything
    for writer in [u, c] {
        refuses(writer, &[], &[1], 23, 0);
        refuses(writer, &[0], &[], 23, 0);
        refuses(writer, &[5, 5, 5], &[-1, -1], 23, 2);
        refuses(writer, &fallen, &minus[..32_765], 23, 32_765);
        refuses(writer, &fallen[..40], &minus, 23, 40);
    }
    // count, before fallen numbers and values without a word
    for writer in [u, c] {
        refuses(writer, &fallen, &minus, 11, 0);
        refuses(writer, &fallen[1..], &minus[1..], 11, 0);
        refuses(writer, &rising, &minus, 11, 0);
    }
    // none
    for writer in [u, c] {
        refuses(writer, &[], &[], 22, 0);
    }
    // a number not above the one before it, before values without a word
    for writer in [u, c] {
        refuses(writer, &[4, 4], &[-1, 0], 23, 1);
        refuses(writer, &[1, 2, 3, 2, 1], &[0, 0, 0, 0, -1], 23, 3);
        refuses(writer, &[u32::MAX, 0], &[0, 0], 23, 1);
        refuses(writer, &fallen[..32_764], &minus[..32_764], 23, 1);
        for nth in [1, 20_000, 32_763] {
            let mut numbers = rising[..32_764].to_vec();
            numbers[nth] = numbers[nth - 1];
            refuses(writer, &numbers, &minus[..32_764], 23, nth as u64);
        }
    }
    // no word, before a length
    for value in [
        -1,
        -65_536,
        -2,
        i32::MIN,
        i32::MAX,
        2_147_418_112,
        -2_147_418_113,
    ] {
        refuses(c, &[0, 1, u32::MAX], &[0, value, value], 21, 1);
        let tuple = written(40, |out| {
            write_u32(&ping_header(), 0, &[0], &[value], Order::Msb, out)
        });
        let file = behind_mark(Order::Msb, &tuple);
        let mut read = [0];
        assert_eq!(read_samples(&file, 4, &mut [0], &mut read).code, 0);
        assert_eq!(read, [value]);
    }
    // length, before the room
    refuses(c, &[u32::MAX], &[0], 11, 0);
    // 65,526 full runs and a value are 65,527 words, the most there is room for
    let last = 65_526 * 65_536;
    written(262_144, |out| {
        c(&ping_header(), 0, &[last], &[0], Order::Lsb, out)
    });
    refuses(c, &[last + 1], &[0], 11, 0);
    // the most values of either kind, dense and with gaps
    let values = vec![3; 32_764];
    written(262_144, |out| {
        write_u32(
            &ping_header(),
            0,
            &rising[..32_764],
            &values,
            Order::Lsb,
            out,
        )
    });
    written(36 + 4 * 32_764, |out| {
        c(
            &ping_header(),
            0,
            &rising[..32_764],
            &values,
            Order::Lsb,
            out,
        )
    });
    let odd: Vec<u32> = (0..32_764).map(|n| 2 * n).collect();
    written(36 + 4 * 65_527, |out| {
        c(&ping_header(), 0, &odd, &values, Order::Msb, out)
    });
    // one more run: over the length
    let odder: Vec<u32> = (0..32_764).map(|n| 2 * n + 1).collect();
    refuses(c, &odder, &values, 11, 0);
    written(262_144, |out| {
        write_u32(&ping_header(), 0, &odder, &values, Order::Lsb, out)
    });
}
