//! An index that stays true: written, kept while tuples are appended and removed, and in the
//! normal form. Bytes are written here by TR's Table 14 and by 02.

use crate::damage;
use crate::deposit::{Deposit, ORDERS};
use crate::known::{decode, four_bytes, two_bytes, vector, Known, Tuple, NORMAL, SPELLINGS};
use crate::normal::refused;
use hac::*;

/// The index class.
const CLASS: std::ops::RangeInclusive<u16> = 65406..=65515;

/// The bytes of an end of file with two bytes of data.
const END: usize = 24;

/// The shortest tuple of a type, all its data 0.
pub fn least(order: Order, kind: u16) -> Vec<u8> {
    framed(order, kind, 16)
}

/// A tuple of a type and a length, all its data 0.
pub fn framed(order: Order, kind: u16, length: usize) -> Vec<u8> {
    let data = vec![0; length - 10];
    let [size, back] = [length - 10, length].map(|number| four_bytes(order, number as u32));
    [&size[..], &two_bytes(order, kind), &data, &back].concat()
}

/// The Index 1 tuple of some types: time fraction and time, the types, a space where their
/// number is odd, the attribute.
pub fn index_of(order: Order, types: &[u16]) -> Vec<u8> {
    let list = types.iter().flat_map(|kind| two_bytes(order, *kind));
    let list: Vec<u8> = list.collect();
    let space = 2 * (types.len() % 2);
    let mut tuple = framed(order, 65406, 20 + list.len() + space);
    tuple[12..12 + list.len()].copy_from_slice(&list);
    tuple
}

/// A file's tuples, divided by the data sizes that they begin with.
fn divided(file: &[u8]) -> Vec<Tuple> {
    let order = match file[0] {
        0 => Order::Msb,
        _ => Order::Lsb,
    };
    let mut tuples: Vec<Tuple> = Vec::new();
    let mut place = FIRST_PLACE;
    while place < file.len() {
        let size = file[place..place + 4].try_into().expect("four bytes");
        let size = match order {
            Order::Lsb => u32::from_le_bytes(size),
            Order::Msb => u32::from_be_bytes(size),
        };
        let behind = place + size as usize + 10;
        let bytes = file[place..behind].to_vec();
        tuples.push(Tuple {
            order,
            place,
            bytes,
        });
        place = behind;
    }
    tuples
}

/// The types of some tuples outside the index class, each once, ascending.
pub fn types_of(tuples: &[Tuple]) -> Vec<u16> {
    let mut types: Vec<u16> = tuples.iter().map(Tuple::kind).collect();
    types.retain(|kind| !CLASS.contains(kind));
    types.sort();
    types.dedup();
    types
}

/// The file of some tuples: those outside the index class, and their index just before the
/// end of file, or behind all where the last is none.
fn with_index(order: Order, tuples: &[Tuple]) -> Vec<u8> {
    let index = index_of(order, &types_of(tuples));
    let outside = tuples.iter().filter(|tuple| !CLASS.contains(&tuple.kind()));
    let outside: Vec<&Tuple> = outside.collect();
    let ends = outside.last().is_some_and(|last| last.kind() == 65534);
    let before = outside.len() - usize::from(ends);
    let joined = |tuples: &[&Tuple]| {
        let bytes = tuples.iter().map(|tuple| tuple.bytes.clone());
        bytes.collect::<Vec<_>>().concat()
    };
    let (before, last) = outside.split_at(before);
    [&order.mark()[..], &joined(before), &index, &joined(last)].concat()
}

/// A file as it is with its index.
pub fn reindexed(file: &[u8]) -> Vec<u8> {
    with_index(Order::of(file), &divided(file))
}

/// A file as it is without the tuple at a place, which it has, and with its index.
fn without(file: &[u8], place: usize) -> Vec<u8> {
    let mut tuples = divided(file);
    tuples.retain(|tuple| tuple.place != place);
    with_index(Order::of(file), &tuples)
}

/// A file as it is with tuples before its end of file, and with its index.
fn with_more(file: &[u8], more: &[u8]) -> Vec<u8> {
    let order = Order::of(file);
    let mut tuples = divided(file);
    let end = tuples.len() - 1;
    tuples.splice(end..end, divided(&[&order.mark()[..], more].concat()));
    with_index(order, &tuples)
}

/// The shortest file: of each class that is needed the shortest tuple, of a type that isn't
/// listed; without its index, and with it.
const SHORTEST: [(&str, &str); 2] = [
    (
        "ac000000 0e000000 ffff acac 0000 0000 00000000 00000000 18000000 \
         06000000 1d00 0000 00000000 10000000 06000000 e703 0000 00000000 10000000 \
         06000000 0f27 0000 00000000 10000000 06000000 7327 0000 00000000 10000000 \
         0e000000 feff 0000 00000000 0000 0000 00000000 18000000",
        "ac000000 0e000000 ffff acac 0000 0000 00000000 00000000 18000000 \
         06000000 1d00 0000 00000000 10000000 06000000 e703 0000 00000000 10000000 \
         06000000 0f27 0000 00000000 10000000 06000000 7327 0000 00000000 10000000 \
         16000000 7eff 0000 00000000 1d00 e703 0f27 7327 feff ffff 00000000 20000000 \
         0e000000 feff 0000 00000000 0000 0000 00000000 18000000",
    ),
    (
        "000000ac 0000000e ffff acac 0000 0000 00000000 00000000 00000018 \
         00000006 001d 0000 00000000 00000010 00000006 03e7 0000 00000000 00000010 \
         00000006 270f 0000 00000000 00000010 00000006 2773 0000 00000000 00000010 \
         0000000e fffe 0000 00000000 0000 0000 00000000 00000018",
        "000000ac 0000000e ffff acac 0000 0000 00000000 00000000 00000018 \
         00000006 001d 0000 00000000 00000010 00000006 03e7 0000 00000000 00000010 \
         00000006 270f 0000 00000000 00000010 00000006 2773 0000 00000000 00000010 \
         00000016 ff7e 0000 00000000 001d 03e7 270f 2773 fffe ffff 00000000 00000020 \
         0000000e fffe 0000 00000000 0000 0000 00000000 00000018",
    ),
];

/// The shortest file of an order, without its index and with it.
fn shortest(order: Order) -> (Vec<u8>, Vec<u8>) {
    let [lsb, msb] = SHORTEST;
    let (plain, indexed) = if order == Order::Lsb { lsb } else { msb };
    (decode(plain), decode(indexed))
}

#[test]
fn by_hand() {
    for order in ORDERS {
        let (plain, indexed) = shortest(order);
        assert_eq!(reindexed(&plain), indexed);
        assert_eq!(index(&plain), Ok(indexed.clone()));
        // it is written again as it is
        assert_eq!(index(&indexed), Ok(indexed.clone()));
        let counts = Counts {
            tuples: 7,
            compared: 0,
        };
        assert_eq!(check(&indexed), Ok(counts));
    }
}

/// Seven types: a space behind them, which is 0.
#[test]
fn an_odd_number_of_types() {
    for (order, lines) in [
        (
            Order::Lsb,
            "06000000 2c01 0000 00000000 10000000 1a000000 7eff 0000 00000000 \
             1d00 2c01 e703 0f27 7327 feff ffff 0000 00000000 24000000",
        ),
        (
            Order::Msb,
            "00000006 012c 0000 00000000 00000010 0000001a ff7e 0000 00000000 \
             001d 012c 03e7 270f 2773 fffe ffff 0000 00000000 00000024",
        ),
    ] {
        let (plain, _) = shortest(order);
        let (before, end) = plain.split_at(plain.len() - END);
        let expected = [before, &decode(lines), end].concat();
        assert_eq!(append(&plain, &least(order, 300)), Ok(expected));
    }
}

/// What stands in the index class goes, wherever it stands, and is counted in the file
/// handed in alone.
#[test]
fn the_class_is_dropped() {
    for order in ORDERS {
        let (plain, indexed) = shortest(order);
        let stale = index_of(order, &[20, 30, 65535]);
        let class = [65406, 65407, 65500, 65515].map(|kind| least(order, kind));
        let more = [&stale[..], &class.concat(), &stale].concat();
        for place in divided(&plain).iter().skip(1).map(|tuple| tuple.place) {
            let (before, behind) = plain.split_at(place);
            let file = [before, &more, behind].concat();
            let mut out = vec![7; indexed.len() + 9];
            let told = Written {
                tuples: 12,
                length: indexed.len(),
                compared: 0,
            };
            assert_eq!(index_into(&file, &mut out), Ok(told));
            assert_eq!(out, [&indexed[..], &[7; 9]].concat());
            // the same of the tuple that is removed, and of those that are appended
            assert_eq!(remove(&file, place), Ok(indexed.clone()));
            assert_eq!(append(&file, &more), Ok(indexed.clone()));
        }
        // neighbours of the class are types like others
        let beside = [65405, 65516].map(|kind| framed(order, kind, 20)).concat();
        assert_eq!(append(&plain, &beside), Ok(with_more(&plain, &beside)));
    }
}

/// A sample's own tuples, and the types that its lines have.
#[test]
fn samples() {
    for name in SPELLINGS.iter().chain([&NORMAL]) {
        let known = Known::sample(name);
        let indexed = with_index(known.order, &known.tuples);
        let mut out = vec![0; indexed.len()];
        let told = Written {
            tuples: known.tuples.len(),
            length: indexed.len(),
            compared: known.counts().compared,
        };
        assert_eq!(index_into(&known.bytes, &mut out), Ok(told));
        assert_eq!(out, indexed, "{name}");
        let outside = divided(&indexed).len();
        assert_eq!(check(&indexed).map(|counts| counts.tuples), Ok(outside));
        // an index is no content
        let normal = normal_form(&known.bytes).expect("a normal form");
        assert_eq!(normal_form(&indexed), Ok(normal));
        assert_eq!(append(&known.bytes, &[]), Ok(indexed));
    }
}

/// The normal form has the index of its own tuples: a file in LSB order that is its own
/// but for the index.
#[test]
fn normal_forms() {
    let (plain, indexed) = shortest(Order::Lsb);
    assert_eq!(normal_form(&plain), Ok(indexed.clone()));
    assert_eq!(normal_form(&indexed), Ok(indexed.clone()));
    let mut out = vec![7; indexed.len()];
    let told = Normal {
        tuples: 6,
        length: indexed.len(),
        compared: 0,
    };
    assert_eq!(normalise(&plain, &mut out), Ok(told));
    let mut short = vec![7; indexed.len() - 1];
    assert_eq!(normalise(&plain, &mut short), refused(Code::NoRoom, 0));
    assert!(short.iter().all(|byte| *byte == 7));
    // a C-32 ping becomes U-32, and that is the type which is listed
    for order in ORDERS {
        let mut file = Deposit::begun(order);
        file.sounder(1, 1);
        file.channel(1, 1);
        file.ping_c32(1);
        let normal = normal_form(file.ended()).expect("a normal form");
        let types = [20, 100, 1000, 10000, 65534, 65535];
        let index = index_of(Order::Lsb, &types);
        let at = normal.len() - END - index.len();
        assert_eq!(normal[at..normal.len() - END], index);
        assert_eq!(index_types(&normal), [types.to_vec()]);
    }
    // one tuple's has none
    let mut out = [0; 100];
    let alone = vector("tuple-index-class.msb.txt");
    let told = normalise_tuple(&alone, &mut out).expect("a mark");
    assert_eq!(told.length, FIRST_PLACE);
}

/// The types that each Index 1 tuple of a file lists.
fn index_types(file: &[u8]) -> Vec<Vec<u16>> {
    let tuples = Walk::START.forwards(file).map(Result::unwrap);
    tuples
        .filter_map(|tuple| indexed_types(file, tuple))
        .collect()
}

/// Lists as tuples have them: of an even and of an odd number, none at all, too short for
/// one, and one that doesn't rise.
#[test]
fn lists_of_types() {
    for order in ORDERS {
        let (plain, _) = shortest(order);
        let end = plain.len() - END;
        let lists = [
            &[20, 30][..],
            &[20, 30, 65535],
            &[0],
            &[0, 7],
            &[9, 9, 3],
            &[],
        ];
        let tuples = lists.map(|types| index_of(order, types)).concat();
        let file = [&plain[..end], &tuples, &least(order, 65406), &plain[end..]].concat();
        let listed = index_types(&file);
        assert_eq!(listed[..lists.len()], lists.map(<[u16]>::to_vec));
        assert_eq!(listed[lists.len()..], [vec![]]);
    }
    let tuple = hac::Tuple {
        place: 4,
        length: 24,
        kind: 65407,
    };
    assert_eq!(indexed_types(&shortest(Order::Lsb).0, tuple), None);
}

/// What is appended stands before the index and the end of file, as it was handed in; two
/// are two.
#[test]
fn appended() {
    for order in ORDERS {
        let known = Known::sample(match order {
            Order::Lsb => "cruise-lsb",
            Order::Msb => "cruise-msb",
        });
        let event = framed(order, 10110, 24);
        let unlisted = framed(order, 5, 262_144);
        let ping = &known.pings()[0].bytes;
        for more in [
            event.clone(),
            unlisted.clone(),
            [&event[..], &event].concat(),
            [&unlisted[..], ping, &event, ping].concat(),
        ] {
            let expected = with_more(&known.bytes, &more);
            let at = expected.len() - END - more.len();
            let told = append(&known.bytes, &more).expect("a file");
            assert_eq!(told, expected);
            let index = index_of(order, &types_of(&divided(&expected)));
            assert_eq!(told[at - index.len()..][..more.len()], more);
        }
    }
}

/// The place of what was appended last, a tuple of a length.
fn last_place(file: &[u8], length: usize) -> usize {
    let tuples = divided(file);
    tuples[tuples.len() - 2].place - length
}

/// Each tuple of the samples that may stand twice, appended and removed again: the file with
/// its index is left. Removed where it stood first and appended: the same tuples are listed.
#[test]
fn appended_and_removed() {
    for name in SPELLINGS {
        let known = Known::sample(name);
        let indexed = index(&known.bytes).expect("a file");
        let mut done = 0;
        for tuple in &known.tuples {
            let Ok(more) = append(&known.bytes, &tuple.bytes) else {
                continue;
            };
            let place = match CLASS.contains(&tuple.kind()) {
                true => last_place(&more, 0),
                false => last_place(&more, tuple.bytes.len()),
            };
            assert_eq!(remove(&more, place), Ok(indexed.clone()));
            assert_eq!(append(&indexed, &tuple.bytes), Ok(more));
            done += 1;
        }
        assert!(done > known.tuples.len() / 2, "{name}: {done}");
    }
}

/// Each tuple removed from each sample: the file without it, or what the check says of that.
#[test]
fn every_tuple_removed() {
    for name in SPELLINGS.iter().chain([&NORMAL]) {
        let known = Known::sample(name);
        let mut gone = 0;
        for tuple in &known.tuples {
            let expected = without(&known.bytes, tuple.place);
            let told = remove(&known.bytes, tuple.place);
            gone += usize::from(told.is_ok());
            assert_eq!(told, check(&expected).map(|_| expected), "{}", tuple.place);
        }
        assert!(gone > 5 && gone < known.tuples.len(), "{name}: {gone}");
    }
}

/// Each tuple of each sample appended to each in the same order: the file with it, or what
/// the check says of that.
#[test]
fn every_tuple_appended() {
    for order in [
        ["cruise-lsb", "splitbeam-lsb"],
        ["cruise-msb", "splitbeam-msb"],
    ] {
        let [one, other] = order.map(Known::sample);
        for tuple in one.tuples.iter().chain(&other.tuples) {
            let expected = with_more(&one.bytes, &tuple.bytes);
            let told = append(&one.bytes, &tuple.bytes);
            assert_eq!(told, check(&expected).map(|_| expected), "{}", tuple.place);
        }
    }
}

/// All types that aren't listed and are outside the index class, each as short as can be.
#[test]
fn the_most_types() {
    for order in ORDERS {
        let (plain, _) = shortest(order);
        let is_listed = |kind: &u16| types::name(*kind) != "unlisted";
        let kinds = (0..=u16::MAX).rev().filter(|kind| !is_listed(kind));
        let more: Vec<u8> = kinds.flat_map(|kind| least(order, kind)).collect();
        let told = append(&plain, &more).expect("a file");
        assert_eq!(told, with_more(&plain, &more));
        // all but the 110 of the class, and the listed ones but for signature and end
        let listed = index_types(&told);
        assert_eq!(listed[0].len(), 65_536 - 110 - 20 + 2);
        assert!(index_of(order, &listed[0]).len() < INDEX_ROOM);
    }
}

/// Nothing is written of what is refused, whatever is lent.
fn is_refused(file: &[u8], edit: Edit, code: Code, place: usize) {
    let refusal = Refusal { code, place };
    for room in [0, 1, file.len(), file.len() + 1000] {
        let mut out = vec![7; room];
        assert_eq!(edit.edit_into(file, &mut out), Err(refusal), "{room}");
        assert!(out.iter().all(|byte| *byte == 7));
    }
    assert_eq!(edit.edit(file), Err(refusal));
}

/// The check's refusals of the file handed in, before all others.
#[test]
fn damaged_copies() {
    for copy in damage::all(&Known::sample("cruise-lsb")) {
        let code = Code::of(copy.code).expect("a code");
        for edit in [
            Edit::Index,
            Edit::Append(&[]),
            Edit::Append(&[0]),
            Edit::Append(&least(Order::Lsb, 5)),
            Edit::Remove(FIRST_PLACE),
            Edit::Remove(usize::MAX),
        ] {
            is_refused(&copy.bytes, edit, code, copy.place);
            let (judged, advice) = edit_refused(
                &copy.bytes,
                edit,
                Refusal {
                    code,
                    place: copy.place,
                },
            );
            let words = advice.map(|advice| format!(": {advice}"));
            assert_eq!(judged, Judged::File);
            assert_eq!(words.unwrap_or_default(), copy.advice);
        }
    }
}

/// 3 at the place where no tuple starts.
#[test]
fn no_tuple_at_a_place() {
    for name in ["cruise-lsb", "cruise-msb"] {
        let known = Known::sample(name);
        let length = known.bytes.len();
        let starts: Vec<usize> = known.tuples.iter().map(|tuple| tuple.place).collect();
        let within = (0..=length).filter(|place| !starts.contains(place));
        let past = [length + 1, length + 4, 1 << 32, usize::MAX - 15, usize::MAX];
        for place in within.chain(past) {
            let refusal = Refusal {
                code: Code::CutShort,
                place,
            };
            assert_eq!(remove_into(&known.bytes, place, &mut []), Err(refusal));
            let (judged, advice) = edit_refused(&known.bytes, Edit::Remove(place), refusal);
            assert_eq!(judged, Judged::File);
            let words = advice.expect("words").words;
            assert!(words.starts_with("no tuple starts there"), "{words}");
        }
    }
}

/// A deposit of a sounder with two channels, of which the first has a ping, and its tuples'
/// places.
struct Linked {
    file: Vec<u8>,
    sounder: usize,
    channels: [usize; 2],
    ping: usize,
    end: usize,
}

impl Linked {
    fn new(order: Order) -> Linked {
        let mut deposit = Deposit::begun(order);
        let sounder = deposit.sounder(7, 2);
        let channels = [1, 2].map(|number| deposit.channel(number, 7));
        let ping = deposit.ping_u16(1);
        let end = deposit.bytes.len();
        Linked {
            sounder,
            channels,
            ping,
            end,
            file: deposit.ended().to_vec(),
        }
    }
}

/// What is said of the file as it would be, by code, place and words.
fn would_be(file: &[u8], edit: Edit, code: Code, place: usize, words: &str) {
    is_refused(file, edit, code, place);
    let (judged, advice) = edit_refused(file, edit, Refusal { code, place });
    assert_eq!(judged, Judged::WouldBe);
    assert_eq!(advice.expect("words").words, words);
}

/// Of these types: signature 24 bytes, position 36, sounder 72, channels 108 each, U-16 ping
/// 36, end of file 24. What is judged is the file without the tuple and with its index.
#[test]
fn what_must_not_be_removed() {
    for order in ORDERS {
        let all = Linked::new(order);
        let file = &all.file;
        // five types are left: the index has 32 bytes, a space among them
        would_be(
            file,
            Edit::Remove(all.end),
            Code::NoEnd,
            file.len() - END + 32,
            "a file keeps its end of file: remove another tuple",
        );
        would_be(
            file,
            Edit::Remove(FIRST_PLACE),
            Code::MisplacedSignature,
            FIRST_PLACE,
            "position comes first: write a signature before it",
        );
        would_be(
            file,
            Edit::Remove(all.sounder),
            Code::NoParent,
            all.channels[0] - 72,
            "channel Biosonics 1 names echosounder 7, which no tuple before it declares",
        );
        would_be(
            file,
            Edit::Remove(all.channels[0]),
            Code::NoParent,
            all.ping - 108,
            "ping U-16 names channel 1, which no tuple before it declares",
        );
        would_be(
            file,
            Edit::Remove(all.channels[1]),
            Code::WrongCount,
            all.sounder,
            "echosounder 7 says 2 channels, 1 channel tuples name it",
        );
        // five types again
        would_be(
            file,
            Edit::Remove(all.ping),
            Code::ClassAbsent,
            file.len() - 36 + 32,
            "no ping: a recording has at least one each of position, echosounder, channel, ping",
        );
    }
}

#[test]
fn what_must_not_be_appended() {
    for order in ORDERS {
        let all = Linked::new(order);
        let file = &all.file;
        let copy = |place: usize, length: usize| file[place..place + length].to_vec();
        let signature = copy(FIRST_PLACE, 24);
        would_be(
            file,
            Edit::Append(&signature),
            Code::MisplacedSignature,
            all.end,
            "a second signature: keep the one at 4 alone",
        );
        let end = copy(all.end, END);
        would_be(
            file,
            Edit::Append(&end),
            Code::BehindEnd,
            all.end + END,
            "an end of file is appended, and the file has its own: leave it out",
        );
        // the same where bytes follow it that are no tuple
        would_be(
            file,
            Edit::Append(&[&end[..], &[0]].concat()),
            Code::BehindEnd,
            all.end + END,
            "an end of file is appended, and the file has its own: leave it out",
        );
        let channel = copy(all.channels[0], 108);
        let place = all.channels[0];
        would_be(
            file,
            Edit::Append(&channel),
            Code::DeclaredTwice,
            all.end,
            &format!(
                "channel 1 is declared at {place} already: give one of them another identifier"
            ),
        );
        let mut third = channel;
        third[6..8].copy_from_slice(&two_bytes(order, 3));
        would_be(
            file,
            Edit::Append(&third),
            Code::WrongCount,
            all.sounder,
            "echosounder 7 says 2 channels, 3 channel tuples name it",
        );
        let mut ping = copy(all.ping, 36);
        ping[12..14].copy_from_slice(&two_bytes(order, 9));
        let event = framed(order, 10110, 24);
        would_be(
            file,
            Edit::Append(&[&event[..], &ping].concat()),
            Code::NoParent,
            all.end + 24,
            "ping U-16 names channel 9, which no tuple before it declares",
        );
        would_be(
            file,
            Edit::Append(&least(order, 30)),
            Code::Unfit,
            all.end,
            "navigation has 16 bytes where 28 fit: its type or its length is wrong",
        );
        // an index tuple before what is refused goes, and is counted in no place
        let index = index_of(order, &[20, 30]);
        would_be(
            file,
            Edit::Append(&[&index[..], &signature].concat()),
            Code::MisplacedSignature,
            all.end,
            "a second signature: keep the one at 4 alone",
        );
    }
}

/// Bytes that don't divide into tuples: judged behind the tuples before the end of file.
#[test]
fn undivided_bytes() {
    for order in ORDERS {
        let all = Linked::new(order);
        let event = framed(order, 10110, 24);
        let with = |at: usize, byte: u8| {
            let mut tuple = event.clone();
            tuple[at] = byte;
            tuple
        };
        let lowest = |at: usize| match order {
            Order::Lsb => at,
            Order::Msb => at + 3,
        };
        for (bytes, code) in [
            (event[..1].to_vec(), Code::CutShort),
            (event[..15].to_vec(), Code::CutShort),
            (event[..20].to_vec(), Code::CutShort),
            (with(lowest(0), 15), Code::BadLength),
            (with(lowest(0), 2), Code::BadLength),
            (with(lowest(20), 28), Code::BadBacklink),
        ] {
            would_be(
                &all.file,
                Edit::Append(&bytes),
                code,
                all.end,
                "byte 0 of what is appended: no tuple of the file's order",
            );
            let behind = [&event[..], &bytes].concat();
            would_be(
                &all.file,
                Edit::Append(&behind),
                code,
                all.end + 24,
                "byte 24 of what is appended: no tuple of the file's order",
            );
            // an index tuple before them goes, and is counted in no place
            let behind = [&index_of(order, &[20, 30])[..], &bytes].concat();
            would_be(
                &all.file,
                Edit::Append(&behind),
                code,
                all.end,
                "byte 24 of what is appended: no tuple of the file's order",
            );
            // a rule that is broken before it
            let signature = &all.file[FIRST_PLACE..FIRST_PLACE + 24];
            would_be(
                &all.file,
                Edit::Append(&[signature, &bytes].concat()),
                Code::MisplacedSignature,
                all.end,
                "a second signature: keep the one at 4 alone",
            );
        }
    }
}

/// Whose a refusal is that no edit of the file gives is answered too.
#[test]
fn refusals_of_nothing() {
    let (plain, _) = shortest(Order::Lsb);
    for file in [&[][..], &[0xAC], &plain[..4], &plain[..30], &plain] {
        for edit in [Edit::Index, Edit::Append(&[1]), Edit::Remove(4)] {
            for code in Code::ALL {
                let refusal = Refusal {
                    code: *code,
                    place: 77,
                };
                assert_ne!(edit_refused(file, edit, refusal).0, Judged::Tuples);
            }
        }
    }
}

/// Up to the limit and not past it, the index counted.
#[test]
fn the_limit() {
    let (plain, indexed) = shortest(Order::Lsb);
    let longest = framed(Order::Lsb, 29, TUPLE_LIMIT);
    let most = FILE_LIMIT / TUPLE_LIMIT - 1;
    let rest = FILE_LIMIT - indexed.len() - most * TUPLE_LIMIT;
    let more = [longest.repeat(most), framed(Order::Lsb, 29, rest)].concat();
    let told = append(&plain, &more).expect("a file");
    assert_eq!((told.len(), check(&told).is_ok()), (FILE_LIMIT, true));
    let over = refused(Code::OverLimit, 0);
    let one_more = [&more[..], &least(Order::Lsb, 29)].concat();
    assert_eq!(append(&plain, &one_more), over);
    // the limit is judged before what stands in the file
    let signature = &plain[FIRST_PLACE..FIRST_PLACE + 24];
    assert_eq!(append(&plain, &[&more[..], signature].concat()), over);
    // a file that has no room for its index
    let full = [
        &plain[..plain.len() - END],
        &more,
        &framed(Order::Lsb, 29, 32),
        &plain[plain.len() - END..],
    ]
    .concat();
    assert_eq!((full.len(), check(&full).is_ok()), (FILE_LIMIT, true));
    assert_eq!(index(&full), over);
    assert_eq!(append(&full, &[]), over);
    let judged = |edit| {
        let refusal = Refusal {
            code: Code::OverLimit,
            place: 0,
        };
        edit_refused(&full, edit, refusal)
    };
    assert_eq!(judged(Edit::Index).0, Judged::WouldBe);
    let removed = remove(&full, full.len() - END - 32).expect("a file");
    assert_eq!(removed.len(), FILE_LIMIT);
    // tuples that no file could hold
    let huge = vec![0; FILE_LIMIT + 1];
    assert_eq!(append(&plain, &huge), over);
    assert_eq!(judged(Edit::Append(&huge)).0, Judged::Tuples);
}

/// Just enough is enough; one byte less is 19, behind all other refusals.
#[test]
fn lent_memory() {
    for order in ORDERS {
        let all = Linked::new(order);
        let event = framed(order, 10110, 24);
        let file = with_more(&all.file, &event);
        let Counts { tuples, compared } = check(&file).expect("a file");
        for (edit, expected) in [
            (Edit::Index, file.clone()),
            (Edit::Append(&event), with_more(&file, &event)),
            (Edit::Remove(all.end), reindexed(&all.file)),
        ] {
            let length = expected.len();
            let told = Written {
                tuples,
                length,
                compared,
            };
            let mut out = vec![7; length + 5];
            assert_eq!(edit.edit_into(&file, &mut out), Ok(told));
            assert_eq!(out, [&expected[..], &[7; 5]].concat());
            let mut just = vec![7; length];
            assert_eq!(edit.edit_into(&file, &mut just), Ok(told));
            assert_eq!(just, expected);
            let mut short = vec![7; length - 1];
            let no_room = refused(Code::NoRoom, 0);
            assert_eq!(edit.edit_into(&file, &mut short), no_room);
            assert!(short.iter().all(|byte| *byte == 7));
        }
    }
}
