//! Two makers in one file: sounders and channels of Biosonics (100 and 1000) and of the
//! Simrad EK-500 (200 and 2000).

use crate::deposit::{Deposit, CHANNELS, ORDERS, SOUNDERS};
use crate::edits::reindexed;
use crate::json;
use crate::pings::printed;
use crate::room::{hac, run, Room};
use hac::*;

const MAKERS: [Maker; 2] = [Maker::Biosonics, Maker::Simrad];

fn other(maker: Maker) -> Maker {
    match maker {
        Maker::Biosonics => Maker::Simrad,
        Maker::Simrad => Maker::Biosonics,
    }
}

/// The types of a maker's sounder and channel.
fn types_of(maker: Maker) -> (u16, u16) {
    match maker {
        Maker::Biosonics => (100, 1000),
        Maker::Simrad => (200, 2000),
    }
}

/// Each order with each maker.
fn all_ways() -> impl Iterator<Item = (Order, Maker)> {
    ORDERS
        .into_iter()
        .flat_map(|order| MAKERS.map(|maker| (order, maker)))
}

/// The type of the tuple at a place.
fn type_at(file: &[u8], place: usize) -> u16 {
    match (Walk { at: place }).forward(file) {
        Step::Tuple { tuple, .. } => tuple.kind,
        step => panic!("no tuple at {place}: {step:?}"),
    }
}

/// A tuple put to a file, and the type that it gets in the place of its own.
type Retyped = (fn(&mut Deposit) -> usize, u16);

/// A ping, and the parents that it is to have.
struct Linked {
    ping: usize,
    maker: Maker,
    parents: Parents,
}

/// A channel that says of its samples what no other here does.
fn channel_700() -> Ek500Channel {
    Ek500Channel {
        software_channel_identifier: SoftwareChannel(700),
        echosounder_document_identifier: DocumentId(20),
        sampling_rate: 0x8123_4567,
        type_of_data_sample: 0x89AB,
        // stands between what is told, and isn't told
        transceiver_channel_number: Transceiver(0xCDEF),
        ..Ek500Channel::default()
    }
}

/// What the mixed file compares: its channels 2, 1 and 2, its pings 1, 2 and 3, its
/// threshold 3, its attitudes 1 and 0.
const COMPARED: usize = (2 + 1 + 2) + (1 + 2 + 3) + 3 + 1;

/// A sounder of each maker with their channels by turns, a ping of each channel, and
/// what else names channels. Ended.
fn mixed(order: Order) -> (Deposit, Vec<Linked>) {
    let mut deposit = Deposit::begun(order);
    let sounder_90 = deposit.sounder_by(Maker::Biosonics, 90, 1);
    let sounder_20 = deposit.sounder_by(Maker::Simrad, 20, 2);
    let told = channel_700();
    let channels = [
        (Maker::Simrad, 700, deposit.ek500_channel_of(told)),
        (Maker::Biosonics, 8, deposit.channel(8, 90)),
        (Maker::Simrad, 9, deposit.channel_by(Maker::Simrad, 9, 20)),
    ];
    let mut linked = Vec::new();
    for (maker, channel, channel_place) in channels {
        let (sounder, sounder_place) = match maker {
            Maker::Biosonics => (DocumentId(90), sounder_90),
            Maker::Simrad => (DocumentId(20), sounder_20),
        };
        let (sampling_rate, type_of_data_sample) = match channel {
            700 => (told.sampling_rate, told.type_of_data_sample),
            _ => (0, 0),
        };
        linked.push(Linked {
            ping: deposit.ping_u32(channel),
            maker,
            parents: Parents {
                channel: SoftwareChannel(channel),
                channel_place,
                sampling_rate,
                type_of_data_sample,
                sounder,
                sounder_place,
                tuples: 14,
                compared: COMPARED,
            },
        });
    }
    deposit.threshold(9);
    deposit.attitude(700);
    deposit.attitude(SoftwareChannel::ALL.0);
    deposit.ended();
    assert_eq!(deposit.tuples, 14);
    (deposit, linked)
}

#[test]
fn both_makers_in_one_file() {
    let (lsb, _) = mixed(Order::Lsb);
    for order in ORDERS {
        let (Deposit { bytes, tuples, .. }, linked) = mixed(order);
        let counts = Counts {
            tuples,
            compared: COMPARED,
        };
        assert_eq!(check(&bytes), Ok(counts));
        // as it is written in LSB order, it is its own normal form but for the index
        assert_eq!(normal_form(&bytes), Ok(reindexed(&lsb.bytes)));
        for Linked {
            ping,
            maker,
            parents,
        } in linked
        {
            assert_eq!(ask(&bytes, ping), Ok(parents));
            let places = (parents.sounder_place, parents.channel_place);
            let kinds = (type_at(&bytes, places.0), type_at(&bytes, places.1));
            assert_eq!(kinds, types_of(maker));
            for place in [places.0, places.1] {
                assert_eq!(maker_at(&bytes, place), Some(maker));
            }
            assert_eq!(maker_at(&bytes, ping), None);
        }
        for place in [0, bytes.len(), usize::MAX] {
            assert_eq!(maker_at(&bytes, place), None);
        }
    }
}

/// Each class that a file needs is there, whoever made its only sounder.
#[test]
fn one_maker_alone() {
    for (order, maker) in all_ways() {
        let mut deposit = Deposit::begun(order);
        deposit.sounder_by(maker, 1, 1);
        deposit.channel_by(maker, 2, 1);
        let ping = deposit.ping_c32(2);
        deposit.compares(ping, 2);
    }
}

/// 13 at a channel whose sounder is of the other maker, and not of another that is its
/// own maker's; and where the sounder isn't declared earlier.
#[test]
fn a_sounder_of_the_other_maker() {
    for (order, maker) in all_ways() {
        let mut begun = Deposit::begun(order);
        begun.sounder_by(other(maker), 5, 1);
        begun.sounder_by(maker, 6, 1);
        begun.channel_by(maker, 1, 6);
        for document in [5, 7] {
            let mut deposit = begun.clone();
            let place = deposit.channel_by(maker, 2, document);
            deposit.ping_u32(2);
            deposit.refused(Code::NoParent, place);
        }
        let mut deposit = begun.clone();
        deposit.channel_by(other(maker), 2, 5);
        let ping = deposit.ping_u32(2);
        // the sounders 2 and 1, and the channel 2
        deposit.compares(ping, 2 + 1 + 2);
    }
}

/// Channels of both makers are equally long: the type alone tells whose one is.
#[test]
fn the_type_tells_the_maker() {
    for (order, maker) in all_ways() {
        let mut deposit = Deposit::begun(order);
        deposit.sounder_by(maker, 5, 1);
        let place = deposit.channel_by(maker, 1, 5);
        deposit.ping_u32(1);
        let (_, kind) = types_of(other(maker));
        deposit.retype(place, kind);
        deposit.refused(Code::NoParent, place);
    }
}

/// 12 at an identifier that is declared already, whoever made the two; it comes before
/// the other maker's sounder.
#[test]
fn identifiers_of_both_makers() {
    for order in ORDERS {
        for (first, second) in MAKERS.iter().flat_map(|one| MAKERS.map(|two| (*one, two))) {
            let mut deposit = Deposit::begun(order);
            deposit.sounder_by(first, 5, 1);
            let mut twice = deposit.clone();
            let place = twice.sounder_by(second, 5, 0);
            twice.refused(Code::DeclaredTwice, place);
            deposit.sounder_by(second, 6, 1);
            deposit.channel_by(first, 3, 5);
            for document in [6, 5, 7] {
                let mut twice = deposit.clone();
                let place = twice.channel_by(second, 3, document);
                twice.refused(Code::DeclaredTwice, place);
            }
            // a sounder and a channel may have one number
            deposit.channel_by(second, 5, 6);
            let ping = deposit.ping_u32(5);
            deposit.compares(ping, 1 + 2 + 2);
        }
    }
}

/// The maker whose turn it is.
fn by_turns(number: u32) -> Maker {
    MAKERS[number as usize % 2]
}

/// As many sounders and channels as may be, by turns of both makers; the channels are
/// the last two sounders'. A ping of the last channel, and its place.
fn full(order: Order) -> (Deposit, usize) {
    let mut deposit = Deposit::begun(order);
    for document in 1..=SOUNDERS {
        let named = if document + 2 > SOUNDERS {
            CHANNELS / 2
        } else {
            0
        };
        deposit.sounder_by(by_turns(document), document, named);
    }
    for number in 1..=CHANNELS {
        let document = SOUNDERS - u32::from(number % 2);
        deposit.channel_by(by_turns(document), number, document);
    }
    let ping = deposit.ping_u32(CHANNELS);
    (deposit, ping)
}

/// The limits count both makers' together: 14 at the 65th sounder and at the 1,025th
/// channel, whoever made it, before the other maker's sounder and behind 12.
#[test]
fn limits_over_both_makers() {
    let half = usize::from(CHANNELS) / 2;
    let each = SOUNDERS as usize;
    for order in ORDERS {
        let (full, ping) = full(order);
        let linked = half * (each - 1) + half * each;
        full.clone().compares(ping, linked + usize::from(CHANNELS));
        for maker in MAKERS {
            let mut more = full.clone();
            let place = more.sounder_by(maker, SOUNDERS + 1, 0);
            more.refused(Code::TooMany, place);
            let mut twice = full.clone();
            let place = twice.sounder_by(maker, 1, 0);
            twice.refused(Code::DeclaredTwice, place);
            for document in [SOUNDERS - 1, SOUNDERS] {
                let mut more = full.clone();
                let place = more.channel_by(maker, CHANNELS + 1, document);
                more.refused(Code::TooMany, place);
            }
        }
    }
}

/// 17 at the first sounder, of either maker, whose number of channels is wrong.
#[test]
fn counts_of_both_makers() {
    for (order, maker) in all_ways() {
        for (said, wrong) in [([1, 3], 1), ([1, 1], 1), ([2, 2], 0), ([0, 9], 0)] {
            let mut deposit = Deposit::begun(order);
            let places = [
                deposit.sounder_by(maker, 5, said[0]),
                deposit.sounder_by(other(maker), 6, said[1]),
            ];
            deposit.channel_by(other(maker), 1, 6);
            deposit.channel_by(maker, 2, 5);
            deposit.channel_by(other(maker), 3, 6);
            deposit.ping_u32(3);
            deposit.refused(Code::WrongCount, places[wrong]);
        }
    }
}

/// 200 and 2000 have a normal form in either order; types of their classes that aren't
/// listed still give 18 in a file of MSB order.
#[test]
fn unlisted_types_of_other_makers() {
    for order in ORDERS {
        let mut begun = Deposit::begun(order);
        begun.sounder_by(Maker::Simrad, 5, 1);
        begun.channel_by(Maker::Simrad, 1, 5);
        begun.ping_u32(1);
        assert!(normal_form(begun.clone().ended()).is_ok());
        let more: [Retyped; 4] = [
            (|more| more.sounder_by(Maker::Simrad, 6, 0), 300),
            (|more| more.sounder_by(Maker::Simrad, 6, 0), 201),
            (|more| more.channel_by(Maker::Simrad, 2, 5), 3000),
            (|more| more.channel_by(Maker::Simrad, 2, 5), 2001),
        ];
        for (put, kind) in more {
            let mut deposit = begun.clone();
            let place = put(&mut deposit);
            deposit.retype(place, kind);
            let file = deposit.ended();
            assert!(check(file).is_ok(), "{kind}");
            let refusal = Refusal {
                code: Code::Unturnable,
                place,
            };
            let refused = (order == Order::Msb).then_some(refusal);
            assert_eq!(normal_form(file).err(), refused, "{kind}");
        }
    }
}

/// 9 at a sounder or channel that is as long as another type is.
#[test]
fn unfit_lengths() {
    for order in ORDERS {
        let puts: [Retyped; 4] = [
            (|more| more.sounder_by(Maker::Biosonics, 6, 0), 200),
            (|more| more.sounder_by(Maker::Simrad, 6, 0), 100),
            (|more| more.sounder_by(Maker::Simrad, 6, 0), 2000),
            (|more| more.channel_by(Maker::Simrad, 2, 5), 200),
        ];
        for (put, kind) in puts {
            let mut deposit = Deposit::begun(order);
            deposit.sounder_by(Maker::Simrad, 5, 1);
            let place = put(&mut deposit);
            deposit.retype(place, kind);
            deposit.refused(Code::Unfit, place);
        }
    }
}

/// `hac parents` tells whose the channel and the sounder are.
#[test]
fn parents_by_the_command() {
    for order in ORDERS {
        let (deposit, linked) = mixed(order);
        let room = Room::new();
        let path = room.put("mixed.hac", &deposit.bytes);
        for Linked {
            ping,
            maker,
            parents,
        } in linked
        {
            let named = match maker {
                Maker::Biosonics => "Biosonics",
                Maker::Simrad => "Simrad",
            };
            let ran = run(hac(["parents"]).arg(&path).arg(ping.to_string()));
            let line = printed(&parents, named);
            assert_eq!((ran.status, ran.out, ran.err), (0, line, String::new()));
            let ran = run(hac(["parents", "--json"]).arg(&path).arg(ping.to_string()));
            assert_eq!(json::objects(&ran.out)[0].text("maker"), named);
        }
    }
}

/// `hac walk` names both makers' tuples.
#[test]
fn names_by_the_command() {
    for order in ORDERS {
        let mut deposit = Deposit::begun(order);
        deposit.sounder_by(Maker::Biosonics, 1, 1);
        deposit.sounder_by(Maker::Simrad, 2, 1);
        deposit.channel_by(Maker::Biosonics, 1, 1);
        deposit.channel_by(Maker::Simrad, 2, 2);
        let room = Room::new();
        let path = room.put("both.hac", &deposit.bytes);
        let ran = run(hac(["walk"]).arg(path));
        // behind mark, signature and position
        let lines = [
            "      64    100  echosounder Biosonics      72",
            "     136    200  echosounder EK-500         80",
            "     216   1000  channel Biosonics         108",
            "     324   2000  channel EK-500            108",
        ];
        assert_eq!(ran.lines()[2..], lines);
        assert_eq!((ran.status, ran.err.as_str()), (0, ""));
    }
}

/// What `hac check` says of a channel with the other maker's sounder.
#[test]
fn a_refusal_by_the_command() {
    let mut deposit = Deposit::begun(Order::Msb);
    deposit.sounder_by(Maker::Simrad, 1, 1);
    let place = deposit.channel_by(Maker::Biosonics, 1, 1);
    let room = Room::new();
    let path = room.put("other.hac", deposit.ended());
    let ran = run(hac(["check"]).arg(&path));
    let words = "13: parent not declared earlier, or of the other maker";
    let about = "channel Biosonics 1 names echosounder 1, which Simrad made, at 64: \
                 name one of its own maker";
    let line = format!(
        "{}: refused, {words}, at {place}: {about}\n",
        path.display()
    );
    assert_eq!((ran.status, ran.out, ran.err), (1, line, String::new()));
}
