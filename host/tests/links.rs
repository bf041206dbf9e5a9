//! Links: how many sounders and channels a file may have, how many identifiers are
//! compared while it is linked, and what asking tells of a ping's channel.

use crate::deposit::{Deposit, CHANNELS, ORDERS, SOUNDERS};
use hac::*;

/// Three sounders and two channels, declared in another order than their numbers
/// have: channel 700 is the third sounder's, which compares 3, and channel 8 the
/// first one's, which compares 1. Then a ping of the second channel, which compares
/// 2, and its place.
fn small(order: Order) -> (Deposit, usize) {
    let mut deposit = Deposit::begun(order);
    deposit.sounder(90, 1);
    deposit.sounder(20, 0);
    deposit.sounder(50, 1);
    deposit.channel(700, 50);
    deposit.channel(8, 90);
    let ping = deposit.ping_u32(8);
    (deposit, ping)
}

const SMALL: usize = 3 + 1 + 2;

/// A tuple put to the small file, and how many identifiers it compares.
type More = (fn(&mut Deposit) -> usize, usize);

const MORE: [More; 11] = [
    (|deposit| deposit.ping_u32(700), 1),
    (|deposit| deposit.ping_u32(8), 2),
    (|deposit| deposit.ping_c32(700), 1),
    (|deposit| deposit.ping_c32(8), 2),
    (|deposit| deposit.threshold(700), 1),
    (|deposit| deposit.threshold(8), 2),
    (|deposit| deposit.attitude(700), 1),
    (|deposit| deposit.attitude(8), 2),
    (|deposit| deposit.attitude(SoftwareChannel::ALL.0), 0),
    // looking for an identifier declared twice isn't counted
    (|deposit| deposit.sounder(8, 0), 0),
    (|deposit| deposit.sounder(700, 0), 0),
];

#[test]
fn identifiers_compared() {
    for order in ORDERS {
        let (deposit, ping) = small(order);
        deposit.compares(ping, SMALL);
        let (mut all, ping) = small(order);
        for (put, compared) in MORE {
            let (mut deposit, ping) = small(order);
            put(&mut deposit);
            deposit.compares(ping, SMALL + compared);
            put(&mut all);
        }
        let compared: usize = MORE.iter().map(|(_, compared)| compared).sum();
        all.compares(ping, SMALL + compared);
    }
}

/// A channel that is numbered 65535 is one like the others; an attitude that names
/// it is for all channels and compares none.
#[test]
fn a_channel_numbered_as_all() {
    let all = SoftwareChannel::ALL.0;
    for order in ORDERS {
        let mut deposit = Deposit::begun(order);
        deposit.sounder(1, 2);
        deposit.channel(3, 1);
        deposit.channel(all, 1);
        let ping = deposit.ping_u32(all);
        deposit.attitude(all);
        deposit.threshold(all);
        deposit.compares(ping, 1 + 1 + 2 + 2);
    }
}

/// So many sounders, all channels the last one's; a ping of the last channel, and
/// its place.
fn full(order: Order, sounders: u32, channels: u16) -> (Deposit, usize) {
    let mut deposit = Deposit::begun(order);
    for document in 1..=sounders {
        let named = if document == sounders { channels } else { 0 };
        deposit.sounder(document, named);
    }
    for number in 1..=channels {
        deposit.channel(number, sounders);
    }
    let ping = deposit.ping_u32(channels);
    (deposit, ping)
}

#[test]
fn as_many_as_may_be() {
    let (each_channel, each_link) = (SOUNDERS as usize, usize::from(CHANNELS));
    let linked = each_channel * usize::from(CHANNELS);
    for order in ORDERS {
        let (mut deposit, ping) = full(order, SOUNDERS, CHANNELS);
        deposit.clone().compares(ping, linked + each_link);
        deposit.threshold(CHANNELS);
        deposit.attitude(CHANNELS);
        deposit.attitude(SoftwareChannel::ALL.0);
        deposit.ping_c32(CHANNELS);
        deposit.ping_c32(1);
        deposit.compares(ping, linked + 4 * each_link + 1);
    }
}

/// 14 at the 65th sounder and at the 1,025th channel.
#[test]
fn one_too_many() {
    for order in ORDERS {
        let (mut deposit, _) = full(order, SOUNDERS, CHANNELS);
        let place = deposit.sounder(SOUNDERS + 1, 0);
        deposit.refused(Code::TooMany, place);
        let (mut deposit, _) = full(order, SOUNDERS, CHANNELS);
        let place = deposit.channel(CHANNELS + 1, SOUNDERS);
        deposit.refused(Code::TooMany, place);
    }
}

/// 12 before 14, and 14 before 13; of channels that are no more than may be, 13.
#[test]
fn order_of_rules() {
    for order in ORDERS {
        let (mut deposit, _) = full(order, SOUNDERS, CHANNELS);
        let place = deposit.sounder(1, 0);
        deposit.refused(Code::DeclaredTwice, place);
        let (mut deposit, _) = full(order, SOUNDERS, CHANNELS);
        let place = deposit.channel(CHANNELS, SOUNDERS + 1);
        deposit.refused(Code::DeclaredTwice, place);
        let (mut deposit, _) = full(order, SOUNDERS, CHANNELS);
        let place = deposit.channel(CHANNELS + 1, SOUNDERS + 1);
        deposit.refused(Code::TooMany, place);
        let (mut deposit, _) = full(order, SOUNDERS, CHANNELS - 1);
        let place = deposit.channel(CHANNELS, SOUNDERS + 1);
        deposit.refused(Code::NoParent, place);
        let (mut deposit, _) = full(order, SOUNDERS, CHANNELS);
        let place = deposit.ping_u32(CHANNELS + 1);
        deposit.refused(Code::NoParent, place);
    }
}

/// Pings of the last of as many channels as may be come near to the bound; each
/// channel compares but one.
#[test]
fn near_the_bound() {
    const PINGS: usize = 4096;
    for order in ORDERS {
        let (mut deposit, ping) = full(order, 1, CHANNELS);
        for _ in 1..PINGS {
            deposit.ping_u32(CHANNELS);
        }
        let most = usize::from(CHANNELS);
        deposit.compares(ping, most + PINGS * most);
    }
}

/// A channel that says of its samples what no other does.
fn told_apart(nth: u16) -> Channel {
    Channel {
        software_channel_identifier: SoftwareChannel(nth),
        echosounder_document_identifier: DocumentId(9),
        sampling_rate: u32::MAX - u32::from(nth) * 65_537,
        type_of_data_sample: u16::MAX - 257 * nth,
        ..Channel::default()
    }
}

/// Asking tells the rate and the type of the ping's own channel, as its tuple has
/// them.
#[test]
fn rate_and_type() {
    const COUNT: u16 = 5;
    for order in ORDERS {
        let mut deposit = Deposit::begun(order);
        let sounder_place = deposit.sounder(9, COUNT);
        let places: Vec<usize> = (0..COUNT)
            .map(|nth| deposit.channel_of(told_apart(nth)))
            .collect();
        let pings: Vec<(u16, usize)> = (0..COUNT)
            .rev()
            .flat_map(|nth| [(nth, deposit.ping_u32(nth)), (nth, deposit.ping_c32(nth))])
            .collect();
        deposit.ended();
        // a channel compares 1, and two pings of each compare 1 to 5
        let compared = 5 + 2 * (1 + 2 + 3 + 4 + 5);
        for (nth, ping) in pings {
            let channel = told_apart(nth);
            let parents = Parents {
                channel: SoftwareChannel(nth),
                channel_place: places[usize::from(nth)],
                sampling_rate: channel.sampling_rate,
                type_of_data_sample: channel.type_of_data_sample,
                sounder: DocumentId(9),
                sounder_place,
                tuples: deposit.tuples,
                compared,
            };
            assert_eq!(ask(&deposit.bytes, ping), Ok(parents));
            let (read, _) = Channel::read(&deposit.bytes, parents.channel_place).expect("it");
            assert_eq!(read, channel);
        }
    }
}
