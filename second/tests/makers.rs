//! Request b of 02, the EK-500: its sounder and its channel by TR's Tables 3 and 5,
//! and the links of two makers together.

mod common;

use common::indexed::indexed;
use common::said::{accepted, file, place, rate, refused, sample_type, Said};
use common::{bytes, lent, limit_case, tuples, tuples_found, Bytes, File};
use second::gen::{file_case, frames, Case, Rng};
use second::programs::{normalise_tuple, program_one, program_two};
use second::records::{self, Echosounder, Ek500Channel, Ek500Sounder};
use second::{check, content, normalise, parents, Answer, DocumentId, Order, Parents};
use second::{SoftwareChannel, TransceiverNumber};
use std::collections::BTreeMap;
use Said::*;

// The bytes were written by hand from the tables: the fields in order, each number
// least significant byte first, and most significant byte first.

/// Size 70, type 200; 2 channels, document 0x01020304, sound speed 14870, ping mode
/// 2, interval 250, power 1, noise margin 10, sample range 500; super layer: type 3,
/// number 7, range 1234, start -19088744 (0xFEDCBA98), margin 50, threshold -80;
/// version 520; remarks; attribute -2; backlink 80.
const SOUNDER_LSB: &str = "46000000 c800 0200 04030201 163a 0200 fa00 0100 0a00 f401
    0300 0700 d204 98badcfe 3200 b0ff 08020000
    454b2d353030 20 73657269616c 20 30343137 202020202020202020202020 feffffff 50000000";
const SOUNDER_MSB: &str = "00000046 00c8 0002 01020304 3a16 0002 00fa 0001 000a 01f4
    0003 0007 04d2 fedcba98 0032 ffb0 00000208
    454b2d353030 20 73657269616c 20 30343137 202020202020202020202020 fffffffe 00000050";

fn sounder() -> Ek500Sounder<'static> {
    Ek500Sounder {
        number_of_software_channels: 2,
        echosounder_document_identifier: DocumentId(0x0102_0304),
        sound_speed: 14_870,
        ping_mode: 2,
        ping_interval: 250,
        transmit_power: 1,
        noise_margin: 10,
        sample_range: 500,
        super_layer_type: 3,
        super_layer_number: 7,
        super_layer_range: 1234,
        super_layer_start: -19_088_744,
        super_layer_margin: 50,
        super_layer_sv_threshold: -80,
        ek_500_version: 520,
        remarks: b"EK-500 serial 0417            ",
        tuple_attribute: -2,
    }
}

/// Size 98, type 2000; channel 5 of document 0x01020304, rate 20000, samples of type
/// 2, transceiver 3, 38000 Hz, depth 450; face -900 and -899, axis 20 and -3;
/// absorption 1000, pulse 2, bandwidth 1, power 2000, sensitivities 219 and 220,
/// beamwidths 71 and 70; beam angle -2060, gain 2710, level -5000; a space; window
/// 1000 to 90000; remarks; a space; attribute 1; backlink 108. S stands for a space.
const CHANNEL_LSB: &str = "62000000 d007 0500 04030201 204e0000 0200 0300 70940000 c2010000
    7cfc 7dfc 1400 fdff e803 0200 0100 d007 db00 dc00 4700 4600 f4f7 960a 78ec S e8030000 905f0100
    4553333842 20 73657269616c 20 3330303131 202020202020202020202020 S 01000000 6c000000";
const CHANNEL_MSB: &str = "00000062 07d0 0005 01020304 00004e20 0002 0003 00009470 000001c2
    fc7c fc7d 0014 fffd 03e8 0002 0001 07d0 00db 00dc 0047 0046 f7f4 0a96 ec78 S 000003e8 00015f90
    4553333842 20 73657269616c 20 3330303131 202020202020202020202020 S 00000001 0000006c";

fn channel() -> Ek500Channel<'static> {
    Ek500Channel {
        software_channel_identifier: SoftwareChannel(5),
        echosounder_document_identifier: DocumentId(0x0102_0304),
        sampling_rate: 20_000,
        type_of_data_sample: 2,
        transceiver_channel_number: TransceiverNumber(3),
        acoustic_frequency: 38_000,
        installation_depth_of_transducer: 450,
        alongship_angle_offset_of_the_transducer_face: -900,
        athwartship_angle_offset_of_the_transducer_face: -899,
        alongship_angle_offset_of_the_main_axis_of_the_acoustic_beam: 20,
        athwartship_angle_offset_of_the_main_axis_of_the_acoustic_beam: -3,
        absorption_of_sound: 1000,
        pulse_length_mode: 2,
        bandwidth_mode: 1,
        max_power: 2000,
        alongship_angle_sensitivity: 219,
        athwartship_angle_sensitivity: 220,
        alongship_3_db_beamwidth_of_the_transducer: 71,
        athwartship_3_db_beamwidth_of_the_transducer: 70,
        two_way_beam_angle: -2060,
        calibration_transducer_gain: 2710,
        bottom_detection_minimum_level: -5000,
        bottom_window_min_depth: 1000,
        bottom_window_max_depth: 90_000,
        remarks: b"ES38B serial 30011            ",
        tuple_attribute: 1,
    }
}

/// The other tuples of a small file, with two silent pings of channels 5 and 6, both of
/// length 4,661: a run of 0x1234 + 1.
const LSB: [&str; 2] = [
    "0e000000 ffff acac 6400 6400 acac01df 00000000 18000000
    1a000000 1400 feff 3c000000 4c0e0000 0100 S c0bdf0ff 0090d003 00000000 24000000",
    "1e000000 1a27 0100 3d000000 0500 0000 09000000 ffffff7f 00000000 3412ffff 00000000 28000000
    1e000000 1a27 0100 3d000000 0600 0000 09000000 ffffff7f 00000000 3412ffff 00000000 28000000
    0e000000 feff 0700 3e000000 0000 6f6b 00000000 18000000",
];
const MSB: [&str; 2] = [
    "0000000e ffff acac 0064 0064 df01acac 00000000 00000018
    0000001a 0014 fffe 0000003c 00000e4c 0001 S fff0bdc0 03d09000 00000000 00000024",
    "0000001e 271a 0001 0000003d 0005 0000 00000009 7fffffff 00000000 ffff1234 00000000 00000028
    0000001e 271a 0001 0000003d 0006 0000 00000009 7fffffff 00000000 ffff1234 00000000 00000028
    0000000e fffe 0007 0000003e 0000 6f6b 00000000 00000018",
];

/// With two bytes for each S.
fn spaced(digits: &str, space: &str) -> Vec<u8> {
    bytes(&digits.replace('S', space))
}

/// A sounder and two channels of the EK-500 in a whole file; the second channel, of
/// the same sounder, is number 6. 4 + 24 + 36 + 80 + 108 + 108 + 40 + 40 + 24 bytes.
fn whole(order: Order, space: &str) -> Vec<u8> {
    let (mark, [before, behind], sounder, channel, second) = match order {
        Order::Lsb => (
            "ac000000",
            LSB,
            SOUNDER_LSB,
            CHANNEL_LSB,
            CHANNEL_LSB.replace("d007 0500", "d007 0600"),
        ),
        Order::Msb => (
            "000000ac",
            MSB,
            SOUNDER_MSB,
            CHANNEL_MSB,
            CHANNEL_MSB.replace("07d0 0005", "07d0 0006"),
        ),
    };
    let digits = [mark, before, sounder, channel, &second, behind].concat();
    let file = spaced(&digits, space);
    assert_eq!(file.len(), 464);
    file
}

/// A mark and one tuple.
fn behind_mark(order: Order, tuple: Vec<u8>) -> Vec<u8> {
    [order.mark().to_vec(), tuple].concat()
}

#[test]
fn a_sounder_by_hand() {
    for (order, digits) in [(Order::Lsb, SOUNDER_LSB), (Order::Msb, SOUNDER_MSB)] {
        let file = behind_mark(order, bytes(digits));
        let read = Ek500Sounder::read(&file, 4);
        assert_eq!(read, Ok((Answer::accepted(1, 0), sounder())), "{order:?}");
        let mut out = lent(80);
        let written = sounder().write(order, &mut out);
        assert_eq!(written, Answer::accepted(1, 80), "{order:?}");
        assert_eq!(out, bytes(digits), "{order:?}");
        let mut short = lent(79);
        assert_eq!(sounder().write(order, &mut short), Answer::refused(19, 0));
        assert_eq!(short, lent(79));
    }
}

#[test]
fn a_channel_by_hand() {
    for (order, digits) in [(Order::Lsb, CHANNEL_LSB), (Order::Msb, CHANNEL_MSB)] {
        for space in ["0000", "aa55", "ffff"] {
            let file = behind_mark(order, spaced(digits, space));
            let read = Ek500Channel::read(&file, 4);
            assert_eq!(read, Ok((Answer::accepted(1, 0), channel())), "{order:?}");
        }
        let mut out = lent(108);
        let written = channel().write(order, &mut out);
        assert_eq!(written, Answer::accepted(1, 108), "{order:?}");
        assert_eq!(out, spaced(digits, "0000"), "{order:?}");
        let mut short = lent(107);
        assert_eq!(channel().write(order, &mut short), Answer::refused(19, 0));
        assert_eq!(short, lent(107));
    }
}

/// The start is one field of four bytes at 30, which no multiple of 4 is.
#[test]
fn starts_of_a_super_layer() {
    for (start, lsb, msb) in [
        (-100, "9cffffff", "ffffff9c"),
        (-1, "ffffffff", "ffffffff"),
        (-65_536, "0000ffff", "ffff0000"),
        (-65_535, "0100ffff", "ffff0001"),
        (i32::MIN, "00000080", "80000000"),
        (i32::MAX, "ffffff7f", "7fffffff"),
        (99_999, "9f860100", "0001869f"),
        (0, "00000000", "00000000"),
    ] {
        for (order, expected) in [(Order::Lsb, lsb), (Order::Msb, msb)] {
            let record = Ek500Sounder {
                super_layer_start: start,
                ..sounder()
            };
            let mut out = lent(80);
            assert_eq!(record.write(order, &mut out).code, 0);
            assert_eq!(out[30..34], bytes(expected), "{start} {order:?}");
            let file = behind_mark(order, out);
            let (_, read) = Ek500Sounder::read(&file, 4).unwrap();
            assert_eq!(read.super_layer_start, start, "{order:?}");
        }
    }
}

/// One tuple: turned, its spaces 0, its remarks as they are.
#[test]
fn normal_tuples() {
    for (lsb, msb) in [(SOUNDER_LSB, SOUNDER_MSB), (CHANNEL_LSB, CHANNEL_MSB)] {
        let normal = behind_mark(Order::Lsb, spaced(lsb, "0000"));
        for (order, digits) in [(Order::Lsb, lsb), (Order::Msb, msb)] {
            let file = behind_mark(order, spaced(digits, "7e81"));
            let mut out = lent(normal.len());
            let answer = normalise_tuple(&file, &mut out);
            assert_eq!(answer, Answer::accepted(1, normal.len() as u64));
            assert_eq!(out, normal, "{order:?}");
            let printed = program_two(frames(&file).join("\n").as_bytes());
            let expected = frames(&normal).join("\n") + "\n";
            assert_eq!(printed, expected.as_bytes(), "{order:?}");
        }
    }
    let channel = spaced(CHANNEL_LSB, "7e81");
    assert_eq!([&channel[58..60], &channel[98..100]], [[0x7E, 0x81]; 2]);
}

/// A whole file in both orders, with any spaces: one normal form, byte by byte, and no
/// 18 for the types that once gave it.
#[test]
fn normal_file() {
    let normal = indexed(&whole(Order::Lsb, "0000"));
    let checked = Answer::checked(8, 0, 1 + 1 + 1 + 2);
    for (order, space) in [
        (Order::Lsb, "0000"),
        (Order::Lsb, "aa55"),
        (Order::Msb, "0000"),
        (Order::Msb, "aa55"),
    ] {
        let file = whole(order, space);
        assert_eq!(check(&file), checked, "{order:?}");
        let length = normal.len() as u64;
        let mut out = lent(normal.len());
        assert_eq!(normalise(&file, &mut out), Answer { length, ..checked });
        assert_eq!(out, normal, "{order:?} {space}");
        let printed = program_one(frames(&file).join("\n").as_bytes());
        let expected = frames(&normal).join("\n") + "\n";
        assert_eq!(printed, expected.as_bytes(), "{order:?} {space}");
        assert!(content(&file) == content(&normal), "{order:?} {space}");
    }
}

/// An unlisted type beside them still gives 18.
#[test]
fn types_beside_them_are_not_listed() {
    let sound = [EkSounder(9, 1), EkChannel(5, 9), Ping(5)];
    for code in [199, 201, 299, 1999, 2001, 2999] {
        let said = [&sound[..], &[Unlisted(code)]].concat();
        let msb = file(Order::Msb, &said);
        assert_eq!(check(&msb), Answer::checked(7, 0, 2), "{code}");
        let refusal = Answer::refused(18, place(&said, 3));
        assert_eq!(normalise(&msb, &mut lent(1000)), refusal, "{code}");
    }
}

/// Every allowed length but its own gives 9, in the check, in readers and alone.
#[test]
fn other_lengths() {
    for (code, own) in [(200, 80), (2000, 108)] {
        for (order, length) in Order::BOTH
            .into_iter()
            .flat_map(|order| (16..=160).step_by(4).map(move |length| (order, length)))
        {
            let name = format!("{code} of {length}, {order:?}");
            let mut file = Bytes::new(order);
            file.four(0xAC);
            file.tuple(65535, 24, |bytes| bytes.two(0xACAC));
            file.tuple(code, length, |_| {});
            let read = [
                Ek500Sounder::read(&file.bytes, 28).map_or_else(|no| no, |(yes, _)| yes),
                Ek500Channel::read(&file.bytes, 28).map_or_else(|no| no, |(yes, _)| yes),
            ];
            let alone = [&file.bytes[..4], &file.bytes[28..]].concat();
            let told = normalise_tuple(&alone, &mut lent(200));
            let nine = Answer::refused(9, 28);
            if length != own {
                assert_eq!(check(&file.bytes), nine, "{name}");
                assert_eq!(read, [nine, nine], "{name}");
                assert_eq!(told, Answer::refused(9, 4), "{name}");
                continue;
            }
            // of the channel no sounder is declared; nothing else is behind the sounder
            let end = Answer::refused(4, 28 + own as u64);
            let expected = [end, Answer::refused(13, 28)];
            assert_eq!(check(&file.bytes), expected[usize::from(code == 2000)]);
            let mut taken = [nine, Answer::accepted(1, 0)];
            taken.rotate_left(usize::from(code == 200));
            assert_eq!(read, taken, "{name}");
            assert_eq!(told, Answer::accepted(1, own as u64 + 4), "{name}");
        }
    }
}

/// Worked out by hand: each line's sum has a number for each search, in order, over
/// the sounders and the channels of both makers.
#[test]
fn mixed_makers() {
    let pair = [Sounder(7, 1), EkSounder(9, 1), Channel(5, 7)];
    let turned = [EkSounder(7, 1), Sounder(9, 1), EkChannel(5, 7)];
    #[rustfmt::skip]
    let table: [(&str, Vec<Said>, u64); 8] = [
        ("of Simrad alone", vec![EkSounder(9, 1), EkChannel(5, 9), Ping(5)], 1 + 1),
        ("the second sounder", [&pair[..], &[EkChannel(6, 9), Ping(5), Ping(6)]].concat(), 1 + 2 + 1 + 2),
        ("makers turned", [&turned[..], &[Channel(6, 9), Ping(6), Silent(5)]].concat(), 1 + 2 + 2 + 1),
        (
            "all that names a channel",
            [&pair[..], &[EkChannel(6, 9), Ping(6), Silent(6), Threshold(6), Attitude(6)]].concat(),
            1 + 2 + 2 + 2 + 2 + 2,
        ),
        // a sounder of another maker stands between
        (
            "three sounders",
            vec![EkSounder(1, 1), Sounder(2, 0), EkSounder(3, 1), EkChannel(8, 3), EkChannel(7, 1), Ping(8), Ping(7)],
            3 + 1 + 1 + 2,
        ),
        // a number as document and as channel, of either maker
        (
            "one number of both kinds",
            vec![Sounder(5, 1), EkSounder(6, 1), EkChannel(5, 6), Channel(6, 5), Ping(5), Ping(6)],
            2 + 1 + 1 + 2,
        ),
        (
            "declared behind pings",
            vec![Sounder(1, 1), Channel(1, 1), Ping(1), EkSounder(2, 2), EkChannel(2, 2), Ping(2), EkChannel(3, 2), Ping(3), Ping(1)],
            1 + 1 + 2 + 2 + 2 + 3 + 1,
        ),
        ("a sounder without channels", vec![Sounder(1, 0), EkSounder(2, 1), EkChannel(3, 2), Ping(3)], 2 + 1),
    ];
    for (name, said, compared) in table {
        accepted(name, &said, compared);
    }
}

/// 13 at the channel, whichever maker it is of, and whether or not its own maker has
/// a sounder, too; 0 compared.
#[test]
fn a_sounder_of_the_other_maker() {
    #[rustfmt::skip]
    let table = [
        ("a channel 2000 of a sounder 100", vec![Sounder(9, 1), EkChannel(5, 9), Ping(5)], 1),
        ("a channel 1000 of a sounder 200", vec![EkSounder(9, 1), Channel(5, 9), Ping(5)], 1),
        ("its own maker has another", vec![Sounder(9, 0), EkSounder(8, 1), EkChannel(5, 9), Ping(5)], 2),
        ("behind a sound channel", vec![EkSounder(9, 1), EkChannel(5, 9), Channel(6, 9), Ping(5)], 2),
        ("behind a ping", vec![Sounder(9, 1), Channel(5, 9), Ping(5), EkChannel(6, 9)], 3),
        ("its own maker's comes later", vec![Sounder(9, 0), EkChannel(5, 8), EkSounder(8, 1), Ping(5)], 1),
    ];
    for (name, said, nth) in table {
        refused(name, &said, 13, nth);
    }
}

/// 12 at the second, over both makers; before 13.
#[test]
fn an_identifier_of_both_makers() {
    let sound = [Sounder(7, 1), EkSounder(9, 1), Channel(5, 7)];
    #[rustfmt::skip]
    let table = [
        ("200 like 100", vec![Sounder(9, 0), EkSounder(9, 0)], 1),
        ("100 like 200", vec![EkSounder(9, 0), Sounder(9, 0)], 1),
        ("200 like 200", vec![EkSounder(9, 0), EkSounder(9, 0)], 1),
        ("200 like the first of two", [&sound[..2], &[EkSounder(7, 0)]].concat(), 2),
        ("2000 like 1000", [&sound[..], &[EkChannel(5, 9)]].concat(), 3),
        ("1000 like 2000", vec![Sounder(7, 1), EkSounder(9, 1), EkChannel(5, 9), Channel(5, 7)], 3),
        ("2000 like 2000", vec![EkSounder(9, 2), EkChannel(5, 9), EkChannel(5, 9)], 2),
        ("2000 like 1000, of its sounder", [&sound[..], &[EkChannel(5, 7)]].concat(), 3),
        ("2000 like 1000, of none", [&sound[..], &[EkChannel(5, 8)]].concat(), 3),
    ];
    for (name, said, nth) in table {
        refused(name, &said, 12, nth);
    }
}

/// Sounders 1 and so on, by turns of either maker; the first two with so many
/// channels.
fn sounders(count: u32, of_first: [u16; 2]) -> Vec<Said> {
    let stated = |id: u32| of_first.get(id as usize - 1).copied().unwrap_or(0);
    let turn = |id| match id % 2 {
        1 => Sounder(id, stated(id)),
        _ => EkSounder(id, stated(id)),
    };
    (1..=count).map(turn).collect()
}

/// A channel of the first sounder, or of the second, by turns.
fn by_turns(id: u16) -> Said {
    match id % 2 {
        1 => Channel(id, 1),
        _ => EkChannel(id, 2),
    }
}

/// The 64th sounder is taken, the 65th isn't, whoever made it.
#[test]
fn sounders_of_both_at_the_limit() {
    let more = [Channel(5, 1), EkChannel(6, 2), Ping(6)];
    for count in [2, 16, 17, 63, 64] {
        let said = [&sounders(count, [1, 1])[..], &more].concat();
        accepted(&format!("{count} sounders"), &said, 1 + 2 + 2);
    }
    let last = [
        &sounders(63, [0, 0])[..],
        &[EkSounder(64, 1), EkChannel(6, 64), Ping(6)],
    ]
    .concat();
    accepted("a channel of the 64th", &last, 64 + 1);
    for over in [Sounder(65, 0), EkSounder(65, 0)] {
        let said = [&sounders(64, [1, 1])[..], &[over], &more].concat();
        refused(&format!("{over:?}"), &said, 14, 64);
    }
    for again in [Sounder(64, 0), EkSounder(64, 0), EkSounder(1, 0)] {
        let said = [&sounders(64, [1, 1])[..], &[again], &more].concat();
        refused(&format!("{again:?} again"), &said, 12, 64);
    }
    // 64 of one maker leave no room for one of the other
    let simrad: Vec<Said> = (1..=64).map(|id| EkSounder(id, 0)).collect();
    refused("100", &[&simrad[..], &[Sounder(65, 0)]].concat(), 14, 64);
    let biosonics: Vec<Said> = (1..=64).map(|id| Sounder(id, 0)).collect();
    let over = [&biosonics[..], &[EkSounder(65, 0)]].concat();
    refused("200", &over, 14, 64);
}

/// The 1,024th channel is taken, the 1,025th isn't, whoever made it; 12 comes before
/// 14, and 14 before the 13 of a sounder of the other maker.
#[test]
fn channels_of_both_at_the_limit() {
    let table = |count: u16, more: &[Said]| {
        let mut said = sounders(2, [count.div_ceil(2), count / 2]);
        said.extend((1..=count).map(by_turns));
        [&said[..], more].concat()
    };
    for count in [64, 65, 1023, 1024u16] {
        let all = u64::from(count);
        let linked = u64::from(count.div_ceil(2)) + 2 * u64::from(count / 2);
        let named = [Ping(count), Ping(1), Silent(count), Threshold(count)];
        let compared = linked + all + 1 + all + all;
        let name = format!("{count} channels");
        accepted(&name, &table(count, &named), compared);
    }
    for over in [
        Channel(1025, 1),
        EkChannel(1025, 2),
        Channel(1025, 2),
        EkChannel(1025, 1),
    ] {
        let said = table(1024, &[over, Ping(1)]);
        refused(&format!("{over:?}"), &said, 14, 1026);
    }
    for again in [Channel(1024, 1), Channel(1024, 2), EkChannel(1, 2)] {
        let said = table(1024, &[again, Ping(1)]);
        refused(&format!("{again:?} again"), &said, 12, 1026);
    }
    for wrong in [Channel(1024, 2), EkChannel(1024, 1)] {
        let said = table(1023, &[wrong, Ping(1)]);
        refused(&format!("{wrong:?}"), &said, 13, 1025);
    }
}

/// 17 at the first sounder whose count is wrong, of either maker.
#[test]
fn counts_of_both_makers() {
    let more = [Channel(5, 7), EkChannel(6, 9), EkChannel(4, 9), Ping(5)];
    for (biosonics, simrad, wrong) in [
        (1, 1, Some(1)),
        (1, 3, Some(1)),
        (1, 0, Some(1)),
        (2, 2, Some(0)),
        (0, 2, Some(0)),
        (2, 1, Some(0)),
        // together right, each wrong
        (3, 0, Some(0)),
        (1, 2, None),
    ] {
        let said = [&[Sounder(7, biosonics), EkSounder(9, simrad)], &more[..]].concat();
        let name = format!("{biosonics} and {simrad}");
        match wrong {
            Some(nth) => refused(&name, &said, 17, nth),
            None => accepted(&name, &said, 1 + 2 + 2 + 1),
        }
        let turned = [&[EkSounder(9, simrad), Sounder(7, biosonics)], &more[..]].concat();
        let first = match wrong {
            Some(_) if simrad != 2 => Some(0),
            Some(_) => Some(1),
            None => None,
        };
        match first {
            Some(nth) => refused(&name, &turned, 17, nth),
            None => accepted(&name, &turned, 2 + 1 + 1 + 1),
        }
    }
}

/// A sounder and a channel of the EK-500 are of their classes: no 16.
#[test]
fn classes() {
    let said = [EkSounder(9, 1), EkChannel(5, 9), Ping(5)];
    accepted("all classes", &said, 1 + 1);
    for order in Order::BOTH {
        let only = file(order, &[EkSounder(9, 0), Unlisted(10020)]);
        let length = only.len() as u64;
        assert_eq!(check(&only), Answer::refused(16, length), "{order:?}");
    }
}

/// Asking tells the same of either maker's channel.
#[test]
fn what_asking_tells() {
    let said = [
        EkSounder(70_000, 1),
        EkChannel(300, 70_000),
        Sounder(2, 1),
        Channel(5, 2),
        Ping(300),
        Silent(5),
        Silent(300),
    ];
    let of = |id: u16, channel: usize, document: u32, sounder: usize| Parents {
        channel: SoftwareChannel(id),
        channel_place: place(&said, channel),
        sampling_rate: rate(id),
        type_of_data_sample: sample_type(id),
        sounder: DocumentId(document),
        sounder_place: place(&said, sounder),
    };
    let answer = Answer::checked(10, 0, 1 + 2 + 1 + 2 + 1);
    for order in Order::BOTH {
        let file = file(order, &said);
        let simrad = Ok((answer, of(300, 1, 70_000, 0)));
        assert_eq!(parents(&file, place(&said, 4)), simrad, "{order:?}");
        assert_eq!(parents(&file, place(&said, 6)), simrad, "{order:?}");
        let biosonics = Ok((answer, of(5, 3, 2, 2)));
        assert_eq!(parents(&file, place(&said, 5)), biosonics, "{order:?}");
        for nth in 0..4 {
            let at = place(&said, nth);
            assert_eq!(parents(&file, at), Err(Answer::refused(9, at)));
        }
    }
}

/// A reader of the one maker's type refuses the other's.
#[test]
fn readers_of_the_other_maker() {
    let said = [Sounder(7, 0), EkSounder(9, 0)];
    for order in Order::BOTH {
        let file = file(order, &said);
        let (biosonics, simrad) = (place(&said, 0), place(&said, 1));
        let nine = |at| Answer::refused(9, at);
        assert!(Echosounder::read(&file, biosonics).is_ok());
        assert!(Ek500Sounder::read(&file, simrad).is_ok());
        assert_eq!(Echosounder::read(&file, simrad), Err(nine(simrad)));
        assert_eq!(Ek500Sounder::read(&file, biosonics), Err(nine(biosonics)));
        assert_eq!(records::Channel::read(&file, simrad), Err(nine(simrad)));
        assert_eq!(Ek500Channel::read(&file, simrad), Err(nine(simrad)));
    }
}

/// So many cases of seed 1 are compared in full where every call is (`tests/calls`);
/// those behind them are compared, too.
const COMPARED_CASES: u64 = 100_000u64.div_ceil(41);

/// What a generated file has of request b, in its byte order.
fn of_both(case: &Case) -> Vec<String> {
    let Some(file) = File::new(&case.bytes) else {
        return Vec::new();
    };
    let found = tuples_found(&case.bytes);
    let has = |code| found.iter().any(|tuple| tuple.code == code);
    let two = |at: u64| file.number(at as usize, 2);
    let four = |at: u64| file.number(at as usize, 4);
    let answer = check(&case.bytes);
    let mut seen = Vec::new();
    if answer.code == 0 {
        if [100, 200, 1000, 2000].into_iter().all(has) {
            seen.push("accepted".to_string());
        }
        for tuple in found.iter().filter(|tuple| tuple.code == 200) {
            if four(tuple.place + 30) >= 1 << 31 {
                seen.push("negative start".to_string());
            }
        }
        for tuple in found.iter().filter(|tuple| tuple.code == 2000) {
            if two(tuple.place + 58) != 0 && two(tuple.place + 98) != 0 {
                seen.push("spaces".to_string());
            }
        }
    }
    let offender = found.iter().find(|tuple| tuple.place == answer.place);
    if let Some(offender) = offender.filter(|_| answer.code != 0) {
        let before = found.iter().filter(|tuple| tuple.place < offender.place);
        let (code, at) = (offender.code, offender.place);
        // the type of an earlier tuple with the identifier that counts
        let mut meets = before.filter(|tuple| match (answer.code, code) {
            (12, 100 | 200) => {
                [100, 200].contains(&tuple.code) && four(tuple.place + 8) == four(at + 8)
            }
            (12, 1000 | 2000) => {
                [1000, 2000].contains(&tuple.code) && two(tuple.place + 6) == two(at + 6)
            }
            (13, 1000 | 2000) => {
                [100, 200].contains(&tuple.code) && four(tuple.place + 8) == four(at + 8)
            }
            _ => false,
        });
        let met = meets.next().map_or(0, |tuple| tuple.code);
        seen.push(format!("{} at {code}, met {met}", answer.code));
    }
    let order = if file.msb { "msb" } else { "lsb" };
    seen.iter().map(|what| format!("{what}, {order}")).collect()
}

/// The comparison of every call meets what request b brings, in both orders.
#[test]
fn the_generator_has_both_makers() {
    let mut times: BTreeMap<String, u64> = BTreeMap::new();
    for index in 0..COMPARED_CASES {
        for case in file_case(1, index) {
            for what in of_both(&case) {
                *times.entry(what).or_default() += 1;
            }
        }
    }
    let least = |what: &str, wanted: u64| {
        for order in ["lsb", "msb"] {
            let what = format!("{what}, {order}");
            let met = times.get(&what).copied().unwrap_or(0);
            assert!(met >= wanted, "{what}: {met} times");
        }
    };
    least("accepted", 50);
    least("negative start", 50);
    least("spaces", 50);
    for (first, second) in [(100, 200), (200, 100), (200, 200)] {
        least(&format!("12 at {second}, met {first}"), 2);
    }
    for (first, second) in [(1000, 2000), (2000, 1000), (2000, 2000)] {
        least(&format!("12 at {second}, met {first}"), 2);
    }
    for (channel, sounder) in [(1000, 200), (2000, 100), (2000, 0)] {
        least(&format!("13 at {channel}, met {sounder}"), 2);
    }
    for code in [200, 2000] {
        least(&format!("9 at {code}, met 0"), 2);
        least(&format!("14 at {code}, met 0"), 1);
    }
    least("17 at 200, met 0", 1);
}

/// Files at the limits are of both makers, and what is one too many is of either.
#[test]
fn the_generator_has_full_tables_of_both() {
    let types = |case: &Case, codes: [u16; 2]| {
        let found = tuples(&case.bytes);
        codes.map(|code| found.iter().filter(|tuple| tuple.code == code).count())
    };
    for order in ["lsb", "msb"] {
        let mixed = limit_case(&format!("vessel-ends-named-{order}"));
        assert_eq!(check(&mixed.bytes).code, 0);
        assert_eq!(types(&mixed, [100, 200]), [42, 22]);
        assert_eq!(types(&mixed, [1000, 2000]), [42 * 16, 22 * 16]);
        let simrad = limit_case(&format!("vessel-all-simrad-{order}"));
        assert_eq!(check(&simrad.bytes).code, 0);
        assert_eq!(types(&simrad, [100, 200]), [0, 64]);
        assert_eq!(types(&simrad, [1000, 2000]), [0, 1024]);
    }
}

/// Fields of both records at random, in both orders: what is written is read again
/// after the other order's bytes were made its normal form.
#[test]
fn any_record_turned() {
    for index in 0..500 {
        let mut rng = Rng::of_case(200, index);
        let remarks = rng.bytes(30);
        let sounder = Ek500Sounder {
            echosounder_document_identifier: DocumentId(rng.four()),
            super_layer_start: rng.four() as i32,
            super_layer_margin: rng.two(),
            super_layer_sv_threshold: rng.two() as i16,
            ek_500_version: rng.four(),
            remarks: &remarks,
            tuple_attribute: rng.four() as i32,
            ..sounder()
        };
        let channel = Ek500Channel {
            acoustic_frequency: rng.four(),
            two_way_beam_angle: rng.two() as i16,
            calibration_transducer_gain: rng.two(),
            bottom_detection_minimum_level: rng.two() as i16,
            bottom_window_min_depth: rng.four(),
            remarks: &remarks,
            ..channel()
        };
        let tuple = |order, length, write: &dyn Fn(Order, &mut [u8]) -> Answer| {
            let mut out = lent(length);
            assert_eq!(write(order, &mut out).code, 0);
            behind_mark(order, out)
        };
        let sounders = Order::BOTH.map(|order| tuple(order, 80, &|o, out| sounder.write(o, out)));
        let channels = Order::BOTH.map(|order| tuple(order, 108, &|o, out| channel.write(o, out)));
        for [lsb, msb] in [sounders, channels] {
            let mut out = lent(lsb.len());
            let answer = normalise_tuple(&msb, &mut out);
            assert_eq!(answer, Answer::accepted(1, lsb.len() as u64));
            assert_eq!(out, lsb, "{index}");
        }
    }
}
