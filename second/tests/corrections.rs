//! Corrections beside the deposit: against 02's sentences, said once more and slowly; what
//! must hold of every pair; and pairs made by hand.

mod common;

use common::said::{file, place, Said};
use common::{count, every_refusal, seed, survey, Bytes, File, FIRST_PING, PINGS};
use second::gen::{correction_case, file_case, limit, limit_count, Case, CorrectionCase, Question};
use second::{check, corrected, Answer, Corrected, Order, SoftwareChannel, WhichFile};
use std::collections::{BTreeMap, BTreeSet};
use Said::*;

/// A deposit and a corrections file.
type Pair<'a> = [&'a [u8]; 2];

/// What a call tells: the mark, the code, the place, and from where to where the part stands
/// in its file.
#[derive(Clone, Copy, PartialEq, Eq, Debug)]
struct Told {
    mark: u32,
    code: u32,
    place: u64,
    part: (usize, usize),
}

impl Told {
    fn part(mark: u32, part: (usize, usize)) -> Told {
        Told {
            mark,
            code: 0,
            place: 0,
            part,
        }
    }

    fn refused(mark: u32, code: u32, place: u64) -> Told {
        Told {
            mark,
            code,
            place,
            part: (0, 0),
        }
    }
}

/// What the call tells. A part isn't like its file's bytes, it is them; the counts are its own;
/// a refusal has none, and an empty part.
fn told(pair: Pair, (channel, number): Question, name: &str) -> Told {
    let [deposit, corrections] = pair;
    let given = corrected(deposit, corrections, SoftwareChannel(channel), number);
    let Corrected { answer, mark, .. } = given;
    let (from, length) = (given.from as usize, given.part.len());
    if answer.is_accepted() {
        let file = match mark {
            WhichFile::Deposit => deposit,
            WhichFile::Corrections => corrections,
            WhichFile::Neither => panic!("{name}: from neither file"),
        };
        let own = &file[from..from + length];
        assert!(std::ptr::eq(given.part, own), "{name}: no part of its file");
        assert_eq!(answer, Answer::accepted(1, length as u64), "{name}");
    } else {
        let refusal = Answer::refused(answer.code, answer.place);
        assert_eq!((answer, from, length), (refusal, 0, 0), "{name}");
    }
    Told {
        mark: mark as u32,
        code: answer.code,
        place: answer.place,
        part: (from, from + length),
    }
}

/// A tuple with what is read as its name and attribute where it is a ping.
#[derive(Clone, Copy)]
struct Seen {
    code: u64,
    from: usize,
    to: usize,
    name: (u64, u64),
    attribute: i32,
}

impl Seen {
    fn is_ping(&self) -> bool {
        PINGS.contains(&self.code)
    }

    fn is_of(&self, (channel, number): Question) -> bool {
        self.name == (channel.into(), number.into())
    }
}

/// All tuples of an accepted file, in order, as far as they are as long as a ping.
fn seen(bytes: &[u8]) -> Vec<Seen> {
    let file = File::new(bytes).expect("a mark");
    let mut all = Vec::new();
    let mut from = 4;
    while from < bytes.len() {
        let to = from + file.number(from, 4) as usize + 10;
        all.push(Seen {
            code: file.number(from + 4, 2),
            from,
            to,
            name: (file.number(from + 12, 2), file.number(from + 16, 4)),
            attribute: file.number(to - 8, 4) as u32 as i32,
        });
        from = to;
    }
    all
}

/// The pings of an accepted file.
fn pings(bytes: &[u8]) -> Vec<Seen> {
    let mut pings = seen(bytes);
    pings.retain(Seen::is_ping);
    pings
}

/// 02's sentences. Both files must pass the check: the deposit's own code, then the
/// corrections'. The ping tuple's own bytes from the corrections file if it has one there with
/// attribute 1, and from the deposit otherwise; the first such in file order counts. 31 at 0 if
/// neither holds it.
fn defined([deposit, corrections]: Pair, question: Question) -> Told {
    for (mark, file) in [(1, deposit), (2, corrections)] {
        let Answer { code, place, .. } = check(file);
        if code != 0 {
            return Told::refused(mark, code, place);
        }
    }
    let first = |mut pings: Vec<Seen>| {
        pings.retain(|ping| ping.is_of(question));
        pings.first().map(|ping| (ping.from, ping.to))
    };
    let mut edited = pings(corrections);
    edited.retain(|ping| ping.attribute == 1);
    match (first(edited), first(pings(deposit))) {
        (Some(part), _) => Told::part(2, part),
        (None, Some(part)) => Told::part(1, part),
        (None, None) => Told::refused(0, 31, 0),
    }
}

fn judge(pair: Pair, question: Question, name: &str) -> Told {
    let told = told(pair, question, name);
    assert_eq!(told, defined(pair, question), "{name} {question:?}");
    told
}

#[test]
fn corrections_are_what_02_says() {
    let seed = seed();
    for number in 0..count(12_000) {
        let case = correction_case(seed, number);
        let name = format!("seed {seed} pair {number} {}", case.name);
        for question in &case.questions {
            judge([&case.deposit, &case.corrections], *question, &name);
        }
    }
}

/// The names of some pings of a file that may be refused, and some that it hardly has.
fn some_names(bytes: &[u8]) -> Vec<Question> {
    let mut names = vec![(1, 1), (u16::MAX, u32::MAX)];
    if check(bytes).is_accepted() {
        let pings = pings(bytes);
        let ends = pings.iter().take(2).chain(pings.last());
        names.extend(ends.map(|ping| (ping.name.0 as u16, ping.name.1 as u32)));
    }
    names
}

/// Any two files, sound or not, each beside the one before it and beside itself.
#[test]
fn any_two_files() {
    let seed = seed();
    let cases = (0..count(3000)).flat_map(|index| file_case(seed, index));
    let limits = (0..limit_count()).flat_map(limit);
    let mut before = Vec::new();
    for Case { name, bytes, .. } in cases.chain(limits) {
        let name = format!("seed {seed} {name}");
        for pair in [[&before, &bytes], [&bytes, &before], [&bytes, &bytes]] {
            for question in some_names(&bytes) {
                judge(pair.map(Vec::as_slice), question, &name);
            }
        }
        before = bytes;
    }
}

/// A ping of a type: its channel, its number and its attribute.
#[derive(Clone, Copy)]
struct Shot(u16, u16, u32, i32);

/// The name of most pings below, as U-32 and with an attribute.
const NAME: Question = (5, 1);

fn u32_shot(attribute: i32) -> Shot {
    Shot(10000, NAME.0, NAME.1, attribute)
}

/// Declarations before the first shot, with a tuple of the class of pings among them.
const DECLARED: [Said; 5] = [
    Sounder(9, 3),
    Channel(5, 9),
    Channel(6, 9),
    Channel(u16::MAX, 9),
    Unlisted(10020),
];

fn said(shots: &[Shot]) -> Vec<Said> {
    let pings = shots.iter().map(|shot| PingOf(shot.0, shot.1));
    DECLARED.into_iter().chain(pings).collect()
}

/// Gives a tuple said a ping's number and attribute.
fn put_name(file: &mut [u8], order: Order, part: (usize, usize), number: u32, attribute: i32) {
    let (from, to) = part;
    file[from + 16..from + 20].copy_from_slice(&order.from_four(number));
    file[to - 8..to - 4].copy_from_slice(&order.from_four(attribute as u32));
}

/// From where to where a tuple said stands; empty behind the last.
fn part_of(said: &[Said], nth: usize) -> (usize, usize) {
    let from = place(said, nth) as usize;
    (from, from + said.get(nth).map_or(0, |said| said.length()))
}

/// From where to where a shot stands.
fn shot_part(shots: &[Shot], nth: usize) -> (usize, usize) {
    part_of(&said(shots), DECLARED.len() + nth)
}

/// A sound file of these shots.
fn shot_file(order: Order, shots: &[Shot]) -> Vec<u8> {
    let mut bytes = file(order, &said(shots));
    let mut from = shot_part(shots, 0).0;
    for Shot(code, channel, number, attribute) in shots {
        let to = from + PingOf(*code, *channel).length();
        put_name(&mut bytes, order, (from, to), *number, *attribute);
        from = to;
    }
    assert!(check(&bytes).is_accepted());
    bytes
}

/// The two orders of two files.
fn orders() -> impl Iterator<Item = (Order, Order)> {
    let second = |one| Order::BOTH.into_iter().map(move |other| (one, other));
    Order::BOTH.into_iter().flat_map(second)
}

/// Whose ping it is: the nth shot of a file, or none.
#[derive(Clone, Copy)]
enum Whose {
    Deposit(usize),
    Corrections(usize),
    Neither,
}
use Whose::{Corrections, Deposit, Neither};

/// What the call tells of two files of shots, in either order each.
fn comes(deposit: &[Shot], corrections: &[Shot], question: Question, whose: Whose) {
    let expected = match whose {
        Deposit(nth) => Told::part(1, shot_part(deposit, nth)),
        Corrections(nth) => Told::part(2, shot_part(corrections, nth)),
        Neither => Told::refused(0, 31, 0),
    };
    for (one, other) in orders() {
        let pair = [shot_file(one, deposit), shot_file(other, corrections)];
        let pair = [&pair[0][..], &pair[1]];
        let told = judge(pair, question, "shots");
        assert_eq!(told, expected, "{one:?} {other:?} {question:?}");
    }
}

#[test]
fn a_correction_or_the_original() {
    comes(&[u32_shot(0)], &[u32_shot(1)], NAME, Corrections(0));
    comes(&[u32_shot(0)], &[], NAME, Deposit(0));
    comes(&[], &[u32_shot(1)], NAME, Corrections(0));
    comes(&[], &[], NAME, Neither);
}

/// Attributes that aren't 1: TR's others, and those that have a 1 in some of their bytes, or
/// would have it in the other order.
#[rustfmt::skip]
const NOT_1: [i32; 11] = [
    0, -1, 2, -2, 3, 256, 257, 0x0001_0000, 0x0100_0000, i32::MIN, i32::MIN + 1,
];

/// In the corrections 1 alone counts; others are passed over, and leave the original.
#[test]
fn attribute_1_in_the_corrections() {
    for attribute in NOT_1 {
        let other = u32_shot(attribute);
        comes(&[u32_shot(0)], &[other], NAME, Deposit(0));
        comes(&[u32_shot(1)], &[other, other], NAME, Deposit(0));
        comes(&[], &[other], NAME, Neither);
        comes(&[], &[other, u32_shot(1), other], NAME, Corrections(1));
    }
}

/// In the deposit each counts, 1 like the others.
#[test]
fn any_attribute_in_the_deposit() {
    for attribute in NOT_1.into_iter().chain([1, i32::MAX]) {
        let shot = u32_shot(attribute);
        comes(&[shot], &[], NAME, Deposit(0));
        comes(&[shot, u32_shot(1)], &[u32_shot(0)], NAME, Deposit(0));
        comes(&[shot], &[u32_shot(1)], NAME, Corrections(0));
    }
}

/// Of several in the file that it is from, the first.
#[test]
fn the_first_of_several() {
    let [unedited, edited, marked] = [0, 1, 2].map(u32_shot);
    let mut corrections = vec![unedited, marked, edited, unedited, edited, edited];
    comes(&[unedited], &corrections, NAME, Corrections(2));
    corrections.retain(|shot| shot.3 != 1);
    let other = Shot(10000, 6, 1, 1);
    let deposit = [other, Shot(10000, 5, 2, 1), marked, edited, unedited];
    comes(&deposit, &corrections, NAME, Deposit(2));
    // kinds don't matter either
    let kinds: Vec<Shot> = PINGS.map(|code| Shot(code as u16, 5, 1, 1)).to_vec();
    for first in 0..kinds.len() {
        comes(&[unedited], &kinds[first..], NAME, Corrections(0));
        comes(&kinds[first..], &[other], NAME, Deposit(0));
    }
}

/// A ping's name is its channel together with its number.
#[test]
fn channel_and_number() {
    let deposit = [u32_shot(0), Shot(10000, 6, 7, 0)];
    let corrections = [Shot(10000, 6, 1, 1), Shot(10000, 5, 7, 1)];
    for (question, whose) in [
        (NAME, Deposit(0)),
        ((6, 7), Deposit(1)),
        ((6, 1), Corrections(0)), // the deposit lacks these
        ((5, 7), Corrections(1)),
        ((5, 2), Neither),
        ((6, 2), Neither),
        ((4, 1), Neither), // no such channel
        ((1, 5), Neither),
        ((0, 0), Neither), // those of the unlisted tuple
        ((5, 0x0100_0000), Neither),
        ((5, 0x0001_0000), Neither),
        ((5, 0x0001_0001), Neither),
        ((0x0500, 1), Neither),
    ] {
        comes(&deposit, &corrections, question, whose);
    }
}

/// Numbers at their ends; 65535 is a channel like others.
#[test]
fn ends_of_the_numbers() {
    for channel in [5, u16::MAX] {
        let numbers = [0, 1, 0x7FFF_FFFF, 0x8000_0000, u32::MAX - 1, u32::MAX];
        let deposit = numbers.map(|number| Shot(10000, channel, number, 0));
        let corrections = [0, 0x8000_0000, u32::MAX].map(|n| Shot(10010, channel, n, 1));
        for (nth, number) in numbers.into_iter().enumerate() {
            let edited = corrections.iter().position(|shot| shot.2 == number);
            let whose = edited.map_or(Deposit(nth), Corrections);
            comes(&deposit, &corrections, (channel, number), whose);
            comes(&deposit, &[], (channel, number), Deposit(nth));
            comes(&[], &deposit, (channel, number), Neither);
            comes(&deposit, &corrections, (6, number), Neither);
        }
    }
}

/// Each kind of ping from either file, and a correction of another kind than its original.
#[test]
fn every_kind_of_ping() {
    let of_kind = |code: u64, attribute| Shot(code as u16, 6, 9, attribute);
    for code in PINGS {
        comes(&[of_kind(code, 0)], &[u32_shot(1)], (6, 9), Deposit(0));
        for other in PINGS {
            let (original, edited) = (of_kind(other, 0), of_kind(code, 1));
            comes(&[original], &[edited], (6, 9), Corrections(0));
        }
    }
}

/// One file as both: its first ping with attribute 1, or its first.
#[test]
fn the_same_file_twice() {
    let [unedited, edited] = [0, 1].map(u32_shot);
    let shots = [unedited, Shot(10040, 5, 2, -1), edited, edited];
    comes(&shots, &shots, NAME, Corrections(2));
    comes(&shots, &shots, (5, 2), Deposit(1));
    comes(&shots, &shots, (5, 3), Neither);
    for order in Order::BOTH {
        let file = shot_file(order, &shots);
        let told = judge([&file, &file], NAME, "the same bytes");
        assert_eq!(told, Told::part(2, shot_part(&shots, 2)));
        let told = judge([&file, &file], (5, 2), "the same bytes");
        assert_eq!(told, Told::part(1, shot_part(&shots, 1)));
    }
}

/// A tuple handed back from a place of a file.
fn handed(mark: WhichFile, part: &[u8], from: u64) -> Corrected<'_> {
    Corrected {
        answer: Answer::accepted(1, part.len() as u64),
        mark,
        part,
        from,
    }
}

/// The answer in full, with the tuple's bytes from data size to backlink as they stand in the
/// file, in its own order.
#[test]
fn the_answer() {
    let deposit = shot_file(Order::Msb, &[Shot(10030, 5, 1, -1)]);
    let corrections = shot_file(Order::Lsb, &[u32_shot(0), u32_shot(1)]);
    // behind mark and signature, a sounder, three channels, the unlisted tuple
    let first = 4 + 24 + 72 + 3 * 108 + 40;
    let original = common::bytes(
        "0000001a 272e 0000 00000000 0005 0000 00000001 00000000 0000 0000 ffffffff 00000024",
    );
    let edited = common::bytes(
        "1e000000 1027 0000 00000000 0500 0000 01000000 00000000
        00000000 00000000 01000000 28000000",
    );
    let neither = Corrected {
        answer: Answer::refused(31, 0),
        mark: WhichFile::Neither,
        part: &[],
        from: 0,
    };
    let ask = |corrections, number| corrected(&deposit, corrections, SoftwareChannel(5), number);
    let edited = handed(WhichFile::Corrections, &edited, first + 40);
    assert_eq!(ask(&corrections, 1), edited);
    let original = handed(WhichFile::Deposit, &original, first);
    assert_eq!(ask(&deposit, 1), original);
    assert_eq!(ask(&corrections, 2), neither);
    let marks = [neither, original, edited].map(|given| given.mark as u32);
    assert_eq!(marks, [0, 1, 2]);
}

/// Types that aren't listed pings: unlisted ones, of the class of pings, private ones and of the
/// index class. They hold no ping, in either file, though their bytes are one.
#[test]
fn unlisted_types() {
    for code in [0, 9999, 10002, 10011, 10020, 10032, 10099, 65400, 65406] {
        for (order, other) in orders() {
            let ping = [u32_shot(1)];
            let mut alike = shot_file(order, &ping);
            let from = shot_part(&ping, 0).0;
            alike[from + 4..from + 6].copy_from_slice(&order.from_two(code));
            assert!(check(&alike).is_accepted(), "{code}");
            let name = format!("{code} {order:?} {other:?}");
            let sound = shot_file(other, &[u32_shot(0)]);
            let told = judge([&sound, &alike], NAME, &name);
            assert_eq!(told, Told::part(1, shot_part(&ping, 0)), "{name}");
            let told = judge([&alike, &sound], NAME, &name);
            assert_eq!(told, Told::refused(0, 31, 0), "{name}");
        }
    }
}

/// Thresholds and attitudes name their channel where pings do, and may have any numbers where
/// these have theirs.
#[test]
fn settings_are_no_pings() {
    for (order, other) in orders() {
        let mut said = DECLARED.to_vec();
        said.extend([Threshold(5), Attitude(5), Threshold(5), PingOf(10050, 5)]);
        let mut alike = file(order, &said);
        for nth in DECLARED.len()..said.len() {
            put_name(&mut alike, order, part_of(&said, nth), 1, 1);
        }
        let sound = shot_file(other, &[u32_shot(0)]);
        let part = part_of(&said, said.len() - 1);
        let told = judge([&sound, &alike], NAME, "settings");
        assert_eq!(told, Told::part(2, part), "{order:?} {other:?}");
        let told = judge([&alike, &sound], NAME, "settings");
        assert_eq!(told, Told::part(1, part), "{order:?} {other:?}");
    }
}

/// A U-32 ping of channel 1 and number 1, of so many samples.
fn put_ping(bytes: &mut Bytes, samples: u32, attribute: u32) {
    bytes.tuple(10000, 32 + 8 * samples as usize, |bytes| {
        bytes.two(0);
        bytes.four(0);
        bytes.two(1);
        bytes.two(0);
        bytes.four(1);
        bytes.four(0);
        for sample in 0..samples {
            bytes.four(sample);
            bytes.four(sample);
        }
        bytes.four(attribute);
    });
}

/// A ping that is a text, or the data of an unlisted tuple, is none: only tuples count.
#[test]
fn a_ping_inside_another_tuple() {
    for code in [10110, 10020] {
        for (order, other) in orders() {
            let around = |file: &mut Bytes| {
                file.tuple(code, 12 + 40 + 8, |bytes| {
                    bytes.two(0);
                    bytes.four(0);
                    put_ping(bytes, 1, 1);
                });
            };
            let inside = survey(order, |file| {
                around(file);
                file.tuple(10020, 16, |_| {});
            });
            let sound = survey(other, |file| put_ping(file, 1, 0));
            let first = FIRST_PING as usize;
            let told = judge([&sound, &inside], (1, 1), "inside");
            assert_eq!(told, Told::part(1, (first, first + 40)));
            let told = judge([&inside, &sound], (1, 1), "inside");
            assert_eq!(told, Told::refused(0, 31, 0));
            let both = survey(order, |file| {
                around(file);
                put_ping(file, 1, 1);
            });
            let told = judge([&sound, &both], (1, 1), "behind");
            assert_eq!(told, Told::part(2, (first + 60, first + 100)));
        }
    }
}

/// No other field is taken for the name: neither the ping's time, mode, bottom's range and
/// sample, nor its channel's transceiver number.
#[test]
fn nothing_else_names_a_ping() {
    let shots = [Shot(10000, 6, 7, 1)];
    for (order, other) in orders() {
        let mut corrections = shot_file(order, &shots);
        let (from, _) = shot_part(&shots, 0);
        let transceiver = place(&DECLARED, 2) as usize + 20;
        for at in [from + 6, from + 14, transceiver] {
            corrections[at..at + 2].copy_from_slice(&order.from_two(NAME.0));
        }
        for at in [8, 20, 24, 28].map(|offset| from + offset) {
            corrections[at..at + 4].copy_from_slice(&order.from_four(NAME.1));
        }
        let sound = shot_file(other, &[u32_shot(0)]);
        let told = judge([&sound, &corrections], NAME, "other fields");
        assert_eq!(told, Told::part(1, shot_part(&shots, 0)));
        let told = judge([&corrections, &corrections], NAME, "other fields");
        assert_eq!(told, Told::refused(0, 31, 0));
    }
}

/// A channel is its identifier, whoever declares it in either file, and however late.
#[test]
fn channels_declared_otherwise() {
    for (order, other) in orders() {
        let said = [
            EkSounder(4, 2),
            EkChannel(6, 4),
            PingOf(10000, 6),
            EkChannel(5, 4),
            PingOf(10050, 5),
        ];
        let mut corrections = file(order, &said);
        for nth in [2, 4] {
            put_name(&mut corrections, order, part_of(&said, nth), 1, 1);
        }
        let deposit = shot_file(other, &[u32_shot(0)]);
        let told = judge([&deposit, &corrections], NAME, "another maker's");
        assert_eq!(told, Told::part(2, part_of(&said, 4)));
    }
}

/// A ping as long as a tuple can be is handed back whole.
#[test]
fn the_longest_ping() {
    let long = |order, attribute| survey(order, |file| put_ping(file, 32_764, attribute));
    let from = FIRST_PING as usize;
    for (order, other) in orders() {
        let (edited, original) = (long(order, 1), long(other, 0));
        let told = judge([&original, &edited], (1, 1), "long");
        assert_eq!(told, Told::part(2, (from, from + 262_144)));
        let told = judge([&edited, &original], (1, 1), "long");
        assert_eq!(told, Told::part(1, (from, from + 262_144)));
    }
}

/// The last ping of as many as there is room for.
#[test]
fn the_last_of_many() {
    let said = said(&[]);
    let used = file(Order::Lsb, &said).len();
    let pings = (16_777_216 - used) / 36;
    let shots = vec![Shot(10030, 5, 1, 0); pings];
    let part = shot_part(&shots, pings - 1);
    for order in Order::BOTH {
        let mut bytes = shot_file(order, &shots);
        put_name(&mut bytes, order, part, 2, 1);
        assert!(check(&bytes).is_accepted());
        let sound = shot_file(Order::Lsb, &[]);
        let told = judge([&sound, &bytes], (5, 2), "last of the corrections");
        assert_eq!(told, Told::part(2, part));
        let told = judge([&bytes, &sound], (5, 2), "last of the deposit");
        assert_eq!(told, Told::part(1, part));
        let told = judge([&bytes, &bytes], (5, 3), "neither");
        assert_eq!(told, Told::refused(0, 31, 0));
    }
}

/// The deposit's own refusal comes first, then that of the corrections, each with its place in
/// its own file, and whatever is asked; 31 only where both are accepted.
#[test]
fn order_of_refusals() {
    for (one, other) in orders() {
        let shots = [u32_shot(0), u32_shot(1)];
        let deposit = shot_file(one, &shots[..1]);
        let corrections = shot_file(other, &shots);
        let cut = &deposit[..deposit.len() - 4];
        let cut_at = deposit.len() as u64 - 24;
        let behind = [&corrections[..], &[0; 2]].concat();
        let behind_at = corrections.len() as u64;
        for question in [NAME, (5, 3), (4, 4)] {
            for (pair, expected) in [
                ([cut, &behind[..]], Told::refused(1, 3, cut_at)),
                ([&behind[..], cut], Told::refused(1, 15, behind_at)),
                ([cut, &corrections], Told::refused(1, 3, cut_at)),
                ([&deposit, &behind], Told::refused(2, 15, behind_at)),
                ([&corrections, cut], Told::refused(2, 3, cut_at)),
                ([&[], &[]], Told::refused(1, 2, 0)),
                ([&deposit, &[]], Told::refused(2, 2, 0)),
                ([&deposit, &deposit[..4]], Told::refused(2, 4, 4)),
                ([cut, cut], Told::refused(1, 3, cut_at)),
            ] {
                assert_eq!(judge(pair, question, "refused"), expected);
            }
        }
        let absent = judge([&deposit, &corrections], (5, 3), "absent");
        assert_eq!(absent, Told::refused(0, 31, 0));
    }
}

/// A file beside others, as the deposit and as the corrections: its refusal is passed on with
/// the mark of what it is there.
fn passes_on(refused: &[u8], name: &str) -> Answer {
    let answer = check(refused);
    assert!(!answer.is_accepted(), "{name}");
    let by = |mark| Told::refused(mark, answer.code, answer.place);
    for order in Order::BOTH {
        let sound = shot_file(order, &[u32_shot(1)]);
        let other = &sound[..sound.len() - 1];
        for question in [NAME, (5, 2)] {
            for beside in [&sound[..], other, refused, &[]] {
                assert_eq!(judge([refused, beside], question, name), by(1));
            }
            assert_eq!(judge([&sound, refused], question, name), by(2));
            let end = Told::refused(1, 3, sound.len() as u64 - 24);
            assert_eq!(judge([other, refused], question, name), end);
        }
    }
    answer
}

/// Every refusal of the check, in both orders, of either file.
#[test]
fn refusals_of_the_check() {
    every_refusal(0xBE51DE, 10, passes_on);
}

/// What is met, and what it is called.
type Met = (bool, &'static str);

/// What there is to tell of a question to two accepted files.
struct Asked {
    told: Told,
    question: Question,
    deposit: Vec<Seen>,
    corrections: Vec<Seen>,
}

impl Asked {
    fn new(pair: Pair, question: Question, told: Told) -> Asked {
        let [deposit, corrections] = pair.map(seen);
        Asked {
            told,
            question,
            deposit,
            corrections,
        }
    }

    /// The attributes of a file's pings of the name.
    fn attributes(&self, file: &[Seen]) -> Vec<i32> {
        let named = file
            .iter()
            .filter(|tuple| tuple.is_ping() && tuple.is_of(self.question));
        named.map(|ping| ping.attribute).collect()
    }

    /// Whether a file has what looks like a ping of the name, with attribute 1, before a place.
    fn has_look_alike(&self, file: &[Seen], before: usize, listed: bool) -> bool {
        file.iter().any(|tuple| {
            let alike = !tuple.is_ping() && tuple.is_of(self.question) && tuple.attribute == 1;
            alike && tuple.from < before && [20, 40, 10100, 10110].contains(&tuple.code) == listed
        })
    }

    fn of_a_correction(&self) -> [Met; 7] {
        let (edited, own) = (
            self.attributes(&self.corrections),
            self.attributes(&self.deposit),
        );
        let several = edited.iter().filter(|attribute| **attribute == 1).count() > 1;
        let alike = |listed| self.has_look_alike(&self.corrections, self.told.part.0, listed);
        [
            (several, "corrected more than once"),
            (edited[0] != 1, "corrected behind others"),
            (own.is_empty(), "corrected, not in the deposit"),
            (
                own.contains(&1),
                "corrected, attribute 1 in the deposit too",
            ),
            (alike(false), "corrected behind a look-alike"),
            (alike(true), "corrected behind a listed look-alike"),
            (self.question.0 == u16::MAX, "corrected, of 65535"),
        ]
    }

    fn of_an_original(&self) -> [Met; 14] {
        let (others, own) = (
            self.attributes(&self.corrections),
            self.attributes(&self.deposit),
        );
        let alike = |listed| self.has_look_alike(&self.corrections, usize::MAX, listed);
        [
            (others.is_empty(), "original, none beside it"),
            (others.contains(&0), "original beside 0"),
            (others.contains(&2), "original beside 2"),
            (others.contains(&-1), "original beside -1"),
            (
                others.contains(&0x0100_0000),
                "original beside 1 turned about",
            ),
            (own.len() > 1, "original, the first of several"),
            (own[0] == 0, "original of 0"),
            (own[0] == 1, "original of 1"),
            (own[0] == 2, "original of 2"),
            (own[0] == -1, "original of -1"),
            (own[0] != 1 && own.contains(&1), "original before one of 1"),
            (alike(false), "original beside a look-alike"),
            (alike(true), "original beside a listed look-alike"),
            (
                self.question.1 == u32::MAX,
                "original of the largest number",
            ),
        ]
    }

    fn of_neither(&self) -> [Met; 6] {
        let (channel, number) = (self.question.0.into(), self.question.1.into());
        let pings = || self.deposit.iter().filter(|tuple| tuple.is_ping());
        let others = self.attributes(&self.corrections);
        [
            (!others.is_empty(), "neither, but unedited"),
            (
                pings().any(|ping| ping.name.0 == channel),
                "neither, the channel",
            ),
            (
                pings().any(|ping| ping.name.1 == number),
                "neither, the number",
            ),
            (pings().next().is_none(), "neither, no listed ping"),
            (
                self.has_look_alike(&self.deposit, usize::MAX, false),
                "neither, but a look-alike",
            ),
            (number == u64::from(u32::MAX), "neither, the largest number"),
        ]
    }

    /// All that is met, and the kind of the ping that is handed back.
    fn met(&self) -> Vec<String> {
        let (all, file) = match self.told.mark {
            2 => (self.of_a_correction().to_vec(), &self.corrections),
            1 => (self.of_an_original().to_vec(), &self.deposit),
            _ => (self.of_neither().to_vec(), &self.deposit),
        };
        let met = all.iter().filter(|met| met.0).map(|met| met.1.to_string());
        let handed = file.iter().find(|tuple| tuple.from == self.told.part.0);
        let kind = handed.map(|ping| format!("{} from {}", ping.code, self.told.mark));
        met.chain(kind).collect()
    }
}

/// The orders of the two files, as a number below 4; none without two marks.
fn orders_of(case: &CorrectionCase) -> Option<usize> {
    let [one, other] = [&case.deposit, &case.corrections].map(|file| Order::of(file));
    Some(2 * usize::from(one? == Order::Msb) + usize::from(other? == Order::Msb))
}

/// So many pairs meet everything that is told below, in each pair of orders.
const COMPARED_PAIRS: u64 = 3000;

#[test]
fn the_generator_has_corrections() {
    let mut times: BTreeMap<String, [u64; 4]> = BTreeMap::new();
    for number in 0..COMPARED_PAIRS {
        let case = correction_case(1, number);
        let pair = [&case.deposit[..], &case.corrections];
        let Some(orders) = orders_of(&case) else {
            continue;
        };
        for question in &case.questions {
            let told = told(pair, *question, &case.name);
            if told.code == 0 || told.code == 31 {
                for what in Asked::new(pair, *question, told).met() {
                    times.entry(what).or_default()[orders] += 1;
                }
            }
        }
    }
    let wanted = 7 + 14 + 6 + 2 * PINGS.len();
    assert_eq!(times.len(), wanted, "{times:?}");
    for (what, times) in &times {
        assert!(times.iter().all(|times| *times >= 5), "{what}: {times:?}");
    }
}

/// Each file is refused by every code that the check has for files as short as these, the
/// deposit before the corrections and together with them; pairs of one file are made of one.
#[test]
fn the_generator_has_refusals() {
    let mut seen: BTreeSet<(u32, u32)> = BTreeSet::new();
    for number in 0..COMPARED_PAIRS {
        let case = correction_case(1, number);
        let pair = [&case.deposit[..], &case.corrections];
        assert!(!case.questions.is_empty(), "{}", case.name);
        let told = told(pair, case.questions[0], &case.name);
        let refused = case.name.starts_with("corrections-refused");
        assert_eq!(!refused, [0, 31].contains(&told.code), "{}", case.name);
        assert_eq!(
            pair[0] == pair[1],
            case.name.ends_with("-same"),
            "{}",
            case.name
        );
        let codes = pair.map(|file| check(file).code);
        seen.extend((1..).zip(codes));
    }
    let others = [1, 10, 18, 19, 20, 21, 22];
    for mark in [1, 2] {
        for code in (0..=25).filter(|code| !others.contains(code)) {
            assert!(seen.contains(&(mark, code)), "{mark} {code}");
        }
    }
}

/// A pair is a function of its seed and number, and its questions differ.
#[test]
fn pairs_come_again() {
    for number in 0..300 {
        let [one, again, other] = [1, 1, 2].map(|seed| correction_case(seed, number));
        assert_eq!(one.deposit, again.deposit, "{number}");
        assert_eq!(one.corrections, again.corrections, "{number}");
        assert_eq!(one.questions, again.questions, "{number}");
        assert!(one.questions != other.questions, "{number}");
        let questions: BTreeSet<&Question> = one.questions.iter().collect();
        assert_eq!(questions.len(), one.questions.len(), "{number}");
    }
}
