//! Request m of 02, bigger vessels: 64 sounders and 1,024 channels, the
//! identifiers compared while linking, and what asking tells of a channel.

mod common;

use common::said::{accepted, file, place, rate, refused, sample_type, Said, ALL};
use common::{count, lent, seed};
use second::gen::{file_case, line_case};
use second::programs::{decode, normalise_tuple};
use second::{check, normalise, parents, Answer, DocumentId, Order, Parents, SoftwareChannel};
use Said::*;

/// Sounders 1 and so on, the first of them with so many channels.
fn sounders(count: u32, of_first: u16) -> Vec<Said> {
    let stated = |id| if id == 1 { of_first } else { 0 };
    (1..=count).map(|id| Sounder(id, stated(id))).collect()
}

/// Channels 1 and so on, all of the first sounder.
fn channels(count: u16) -> impl Iterator<Item = Said> {
    (1..=count).map(|id| Channel(id, 1))
}

/// Worked out by hand: each line's sum has a number for each search, in order.
#[test]
fn comparisons_by_hand() {
    let one = [Sounder(9, 1), Channel(5, 9)];
    let two = [Sounder(9, 2), Channel(5, 9), Channel(6, 9)];
    let third = [Sounder(7, 0), Sounder(8, 0), Sounder(9, 1), Channel(5, 9)];
    let all = [Sounder(9, 2), Channel(ALL, 9), Channel(5, 9)];
    #[rustfmt::skip]
    let table: [(&str, Vec<Said>, u64); 14] = [
        ("one of each", [&one[..], &[Ping(5)]].concat(), 1 + 1),
        ("a channel of the third sounder", [&third[..], &[Ping(5)]].concat(), 3 + 1),
        ("a ping of the second channel", [&two[..], &[Ping(6)]].concat(), 1 + 1 + 2),
        ("a silent ping of it", [&two[..], &[Silent(6)]].concat(), 1 + 1 + 2),
        ("a ping of the first channel", [&two[..], &[Ping(5)]].concat(), 1 + 1 + 1),
        ("a threshold", [&two[..], &[Ping(5), Threshold(6)]].concat(), 1 + 1 + 1 + 2),
        ("an attitude", [&two[..], &[Ping(5), Attitude(6)]].concat(), 1 + 1 + 1 + 2),
        ("an attitude for all", [&two[..], &[Ping(5), Attitude(ALL)]].concat(), 1 + 1 + 1),
        ("an attitude for all before any channel", [&[Attitude(ALL)], &two[..], &[Ping(5)]].concat(), 1 + 1 + 1),
        ("an attitude for all, and channel 65535", [&all[..], &[Ping(5), Attitude(ALL)]].concat(), 1 + 1 + 2),
        ("a ping and a threshold of channel 65535", [&all[..], &[Ping(ALL), Threshold(ALL)]].concat(), 1 + 1 + 1 + 1),
        (
            "declared behind a search",
            [&one[..], &[Ping(5), Sounder(3, 0), Sounder(4, 1), Channel(2, 4), Ping(5), Ping(2)]].concat(),
            1 + 1 + 3 + 1 + 2,
        ),
        ("the same ping again", [&two[..], &[Ping(6), Ping(6), Silent(6)]].concat(), 1 + 1 + 2 + 2 + 2),
        // 5 as a document, and sounder 6 not to be taken for channel 6
        ("a number of both kinds", vec![Sounder(6, 0), Sounder(5, 2), Channel(5, 5), Channel(6, 5), Ping(6)], 2 + 2 + 2),
    ];
    for (name, said, compared) in table {
        accepted(name, &said, compared);
    }
}

/// Unlisted types declare and name nothing: none compared, and yet accepted. In
/// MSB order they have no normal form.
#[test]
fn none_compared() {
    let said = [Unlisted(300), Unlisted(3000), Unlisted(10020)];
    for order in Order::BOTH {
        let answer = check(&file(order, &said));
        assert_eq!(answer, Answer::checked(6, 0, 0), "{order:?}");
    }
}

#[test]
fn a_refusal_compared_none() {
    let sound = [Sounder(9, 1), Channel(5, 9), Ping(5)];
    for (name, more) in [
        ("ping", Ping(6)),
        ("silent ping", Silent(6)),
        ("threshold", Threshold(6)),
        ("attitude", Attitude(6)),
        ("channel", Channel(6, 5)),
    ] {
        refused(name, &[&sound[..], &[more]].concat(), 13, 3);
    }
    refused("twice", &[&sound[..], &[Channel(5, 9)]].concat(), 12, 3);
    let wrong = [Sounder(9, 2), Channel(5, 9), Ping(5)];
    refused("a wrong count", &wrong, 17, 0);
    // the normaliser's own refusals, of an accepted file
    let unlisted = [&sound[..], &[Unlisted(300)]].concat();
    let msb = file(Order::Msb, &unlisted);
    assert_eq!(check(&msb), Answer::checked(7, 0, 2));
    let refusal = Answer::refused(18, place(&unlisted, 3));
    assert_eq!(normalise(&msb, &mut []), refusal);
    let lsb = file(Order::Lsb, &unlisted);
    assert_eq!(normalise(&lsb, &mut []), Answer::refused(19, 0));
    assert_eq!(parents(&lsb, 28), Err(Answer::refused(9, 28)));
}

/// A call that checks no whole file compares none: the channel alone is taken.
#[test]
fn one_tuple_compares_none() {
    let said = [Sounder(9, 1), Channel(5, 9), Ping(5)];
    let whole = file(Order::Lsb, &said);
    for (nth, tuple) in said.iter().enumerate() {
        let start = place(&said, nth) as usize;
        let alone = [&whole[..4], &whole[start..start + tuple.length()]].concat();
        let answer = normalise_tuple(&alone, &mut lent(200));
        assert_eq!(answer, Answer::accepted(1, alone.len() as u64));
        assert_eq!(answer.compared, 0);
    }
}

/// The 64th sounder is taken, the 65th isn't; 12 comes before 14.
#[test]
fn sounders_at_the_limit() {
    let more = [Channel(5, 1), Ping(5)];
    for count in [16, 17, 63, 64] {
        let said = [&sounders(count, 1)[..], &more].concat();
        accepted(&format!("{count} sounders"), &said, 1 + 1);
    }
    let last = [
        &sounders(63, 0)[..],
        &[Sounder(64, 1), Channel(5, 64), Ping(5)],
    ]
    .concat();
    accepted("a channel of the 64th", &last, 64 + 1);
    let over = [&sounders(65, 1)[..], &more].concat();
    refused("65 sounders", &over, 14, 64);
    for again in [1, 33, 64] {
        let twice = [&sounders(64, 1)[..], &[Sounder(again, 0)], &more].concat();
        refused(&format!("{again} again"), &twice, 12, 64);
    }
}

/// The 1,024th channel is taken, the 1,025th isn't; 12 comes before 14, and 14
/// before 13.
#[test]
fn channels_at_the_limit() {
    let table = |count: u16, more: &[Said]| {
        let mut said = sounders(1, count);
        said.extend(channels(count));
        [&said[..], more].concat()
    };
    for count in [64, 65, 1023, 1024] {
        let all = u64::from(count);
        let named = [Ping(count), Ping(1), Silent(count), Threshold(count)];
        let name = format!("{count} channels");
        accepted(&name, &table(count, &named), all + all + 1 + all + all);
    }
    let said = table(1024, &[Channel(1025, 1), Ping(1)]);
    refused("1,025 channels", &said, 14, 1025);
    let orphan = table(1024, &[Channel(1025, 2), Ping(1)]);
    refused("the 1,025th of no sounder", &orphan, 14, 1025);
    for again in [1, 512, 1024] {
        for parent in [1, 2] {
            let twice = table(1024, &[Channel(again, parent), Ping(1)]);
            refused(&format!("{again} again"), &twice, 12, 1025);
        }
    }
    for named in [Ping(1025), Silent(0), Threshold(1025), Attitude(1025)] {
        refused("not in the table", &table(1024, &[named]), 13, 1025);
    }
}

/// Almost 1,024 comparisons a tuple: the last of 1,024 channels is named again
/// and again. It is never more.
#[test]
fn the_bound_is_close() {
    const PINGS: u64 = 50_000;
    let mut said = sounders(1, 1024);
    said.extend(channels(1024));
    said.extend((0..PINGS).map(|_| Ping(1024)));
    let answer = check(&file(Order::Msb, &said));
    let tuples = 1 + 1 + 1024 + PINGS + 1 + 1;
    assert_eq!(answer, Answer::checked(tuples, 0, 1024 + 1024 * PINGS));
    assert!(answer.compared <= 1024 * tuples);
    assert!(answer.compared > 1000 * tuples);
}

#[test]
fn the_bound_holds() {
    let seed = seed();
    let mut most = 0;
    for index in 0..count(8000) {
        for case in file_case(seed, index) {
            let answer = check(&case.bytes);
            let name = format!("seed {seed} case {index} {}", case.name);
            assert!(answer.compared <= 1024 * answer.tuples, "{name}");
            most = most.max(answer.compared);
        }
    }
    assert!(most > 1_000_000, "{most}");
}

/// Asking tells what the channel's record holds, in both orders.
#[test]
fn what_asking_tells() {
    let said = [
        Sounder(70_000, 1),
        Channel(300, 70_000),
        Sounder(2, 1),
        Channel(5, 2),
        Ping(300),
        Silent(5),
    ];
    let of = |channel: usize, sounder: usize| {
        let (Channel(id, _), Sounder(document, _)) = (said[channel], said[sounder]) else {
            panic!("no channel and sounder");
        };
        Parents {
            channel: SoftwareChannel(id),
            channel_place: place(&said, channel),
            sampling_rate: rate(id),
            type_of_data_sample: sample_type(id),
            sounder: DocumentId(document),
            sounder_place: place(&said, sounder),
        }
    };
    // the channels' sounders are the first and the second, the pings' channels too
    let answer = Answer::checked(9, 0, 1 + 2 + 1 + 2);
    for order in Order::BOTH {
        let file = file(order, &said);
        assert_eq!(parents(&file, place(&said, 4)), Ok((answer, of(1, 0))));
        assert_eq!(parents(&file, place(&said, 5)), Ok((answer, of(3, 2))));
    }
}

/// Now and then a sound file of the generator has all sounders that there may be,
/// and hundreds of channels.
#[test]
fn the_generator_has_vessels() {
    let declared = |file: &[u8], codes: [u16; 2]| {
        let found = common::tuples(file);
        let declaring = found.iter().filter(|tuple| codes.contains(&tuple.code));
        declaring.count()
    };
    let (mut sounders, mut channels) = (0, 0);
    for index in (0..40_000).filter(|index| index % 16 < 4) {
        for case in file_case(seed(), index) {
            sounders = sounders.max(declared(&case.bytes, [100, 200]));
            channels = channels.max(declared(&case.bytes, [1000, 2000]));
        }
    }
    assert_eq!(sounders, 64);
    assert!(channels > 200, "{channels}");
}

/// The first program gets files of many sounders and channels, some of them with
/// a sounder too many.
#[test]
fn the_generator_has_lines_of_vessels() {
    let mut codes = Vec::new();
    for index in (0..3200).filter(|index| index % 16 == 11) {
        let case = line_case(seed(), index);
        if case.name == "one-vessel" {
            let file = decode(&case.text).expect("lines");
            codes.push(check(&file).code);
        }
    }
    let times = |code: u32| codes.iter().filter(|given| **given == code).count();
    assert!(times(0) > 10 && times(14) > 2, "{codes:?}");
    assert_eq!(times(0) + times(14), codes.len(), "{codes:?}");
}
