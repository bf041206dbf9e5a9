//! Which sample is wrong: 23, 24 and 25 at the byte of the first offender, by every
//! call that judges a ping, and what the library and the program tell of it.

use crate::damage::Draft;
use crate::json::{self, Value};
use crate::known::{four_bytes, stored_bytes, two_bytes, Known, Stored, Tuple};
use crate::room::{hac, run, Room};
use hac::*;

/// Runs of 1 and of 65,536, and words outside the limits: the four that lie on them.
const RUN: u32 = 0xFFFF_0000;
const LONG_RUN: u32 = 0xFFFF_FFFF;
const BAD: [u32; 4] = [0x7FFF_0000, 0x7FFF_FFFF, 0x8000_0000, 0x8000_FFFF];

/// Samples that break a rule.
struct Case {
    kind: PingKind,
    /// What stands between the ping's header and its attribute.
    stored: Vec<Stored>,
    code: Code,
    /// The first offender's byte in the ping.
    at: usize,
    fault: SampleFault,
    /// What the program says of it, and the members of its object.
    words: String,
    members: Vec<(&'static str, u32)>,
}

/// A sample of a kind that numbers them, by TR's Tables 6, 19, 21 and 22.
fn numbered(kind: PingKind, number: u32) -> Vec<Stored> {
    match kind {
        PingKind::U32 => vec![(4, number), (4, u32::MAX)],
        PingKind::U32_16Angles => vec![(4, number), (2, 0x8000), (2, 0x7FFF)],
        PingKind::U16 => vec![(2, number), (2, 0xFFFF)],
        PingKind::U16Angles => vec![(2, number), (2, 0x8000), (2, 0x7FFF)],
        _ => panic!("{kind} has words"),
    }
}

/// The bytes of some stored numbers.
fn bytes(stored: &[Stored]) -> usize {
    stored.iter().map(|(width, _)| width).sum()
}

/// The pair whose number isn't above the one before it.
fn falls(kind: PingKind, numbers: &[u32], pair: usize) -> Case {
    let (number, before) = (numbers[pair], numbers[pair - 1]);
    let mut stored: Vec<Stored> = numbers
        .iter()
        .flat_map(|number| numbered(kind, *number))
        .collect();
    // a space
    if bytes(&stored) % 4 == 2 {
        stored.push((2, 0));
    }
    Case {
        stored,
        code: Code::NotRising,
        at: 24 + pair * bytes(&numbered(kind, 0)),
        fault: SampleFault::NotRising {
            pair,
            number,
            before,
        },
        words: format!("pair {pair} has number {number} behind {before}"),
        members: vec![
            ("pair", pair as u32),
            ("number", number),
            ("before", before),
        ],
        kind,
    }
}

fn not_rising(numbers: &[u32], pair: usize) -> Case {
    falls(PingKind::U32, numbers, pair)
}

/// The bytes of a word.
fn width(kind: PingKind) -> usize {
    match kind {
        PingKind::C32 => 4,
        _ => 2,
    }
}

/// A number of samples, and words.
fn packed(kind: PingKind, count: u32, words: &[u32]) -> Vec<Stored> {
    let width = width(kind);
    let words = words.iter().map(|word| (width, *word));
    [(4, count)].into_iter().chain(words).collect()
}

/// The word that is outside the limits, and the sample that it is.
fn outside(kind: PingKind, count: u32, words: &[u32], word: usize, number: u32) -> Case {
    let (pattern, bytes) = (words[word], width(kind));
    let digits = 2 * bytes;
    Case {
        kind,
        stored: packed(kind, count, words),
        code: Code::BadWord,
        at: 28 + bytes * word,
        fault: SampleFault::BadWord {
            word,
            number,
            pattern,
            bytes,
        },
        words: format!("word {word} is {pattern:0digits$X} for sample {number}"),
        members: vec![
            ("word", word as u32),
            ("number", number),
            ("pattern", pattern),
        ],
    }
}

fn bad_word(count: u32, words: &[u32], word: usize, number: u32) -> Case {
    outside(PingKind::C32, count, words, word, number)
}

/// A number of samples that isn't the one found.
fn counted(kind: PingKind, said: u32, words: &[u32], found: u32) -> Case {
    Case {
        kind,
        stored: packed(kind, said, words),
        code: Code::Miscounted,
        at: 24,
        fault: SampleFault::Miscounted {
            said,
            found: found as usize,
        },
        words: format!("{said} said and {found} found"),
        members: vec![("said", said), ("found", found)],
    }
}

fn miscounted(said: u32, words: &[u32], found: u32) -> Case {
    counted(PingKind::C32, said, words, found)
}

/// The first, a middle and the last sample; more than one; numbers that another
/// order of bytes, or a sign, would let rise.
fn cases() -> Vec<Case> {
    let [above, most, least, below] = BAD;
    let mut cases = vec![
        not_rising(&[5, 5, 6], 1),
        not_rising(&[1, 0], 1),
        not_rising(&[1, 2, 9, 7, 8], 3),
        not_rising(&[1, 2, 3, 4, 0], 4),
        not_rising(&[3, 2, 1, 1], 1),
        not_rising(&[0, 256, 255, 65_536], 2),
        not_rising(&[7, 0x8000_0000, 0x7FFF_FFFF], 2),
        not_rising(&[u32::MAX, u32::MAX], 1),
        bad_word(1, &[above], 0, 0),
        bad_word(3, &[5, LONG_RUN, RUN + 3, below, 7], 3, 65_541),
        bad_word(2, &[100, RUN, least], 2, 2),
        bad_word(2, &[most, least], 0, 0),
        bad_word(3, &[0x7FFE_FFFF, 0x8001_0000, above], 2, 2),
        bad_word(1, &[RUN, RUN, RUN, below, LONG_RUN], 3, 3),
        // with a wrong count too, which is judged behind it
        bad_word(9, &[1, RUN + 9, least, most], 2, 11),
        bad_word(0, &[below], 0, 0),
        miscounted(9, &[100, RUN, 200], 2),
        miscounted(0, &[100], 1),
        miscounted(1, &[LONG_RUN], 0),
        miscounted(3, &[100, RUN, 200], 2),
        miscounted(0x0200_0000, &[100, 0], 2),
        miscounted(u32::MAX, &[RUN, 0xFFFE_FFFF], 1),
    ];
    cases.extend(narrow_cases());
    cases
}

/// The same of the other kinds.
fn narrow_cases() -> Vec<Case> {
    use PingKind::{Ce16, U16Angles, U32_16Angles, C16, U16};
    let mut cases = vec![
        falls(U32_16Angles, &[5, 5, 6], 1),
        falls(U32_16Angles, &[7, 0x8000_0000, 0x7FFF_FFFF], 2),
        falls(U32_16Angles, &[0, 65_536, 65_537, 3], 3),
        falls(U16, &[5, 5, 6], 1),
        falls(U16, &[1, 2, 9, 7, 8], 3),
        falls(U16, &[0, 256, 255, 300], 2),
        falls(U16, &[7, 0x8000, 0x7FFF], 2),
        falls(U16, &[65_535, 65_535], 1),
        // with a space behind the last and without
        falls(U16Angles, &[5, 5, 6], 1),
        falls(U16Angles, &[0, 256, 255], 2),
        falls(U16Angles, &[7, 0x8000, 0x7FFF, 2], 2),
        falls(U16Angles, &[65_535, 0], 1),
    ];
    for kind in [C16, Ce16] {
        cases.extend([
            outside(kind, 1, &[0x7F00, 0xFFFF], 0, 0),
            outside(kind, 2, &[0xFFFF, 5, 0xFF03, 0x7FFF], 3, 261),
            // a space behind it
            outside(kind, 2, &[5, 0x7F00, 0xFF01, 0x1234], 1, 1),
            // with a wrong count too: the last two bytes are a word then
            outside(kind, 9, &[5, 0xFF09, 6, 0x7FFF], 3, 12),
            counted(kind, 0, &[100, 0xFF00], 1),
            counted(kind, 1, &[0xFFFF, 0xFF00], 0),
            counted(kind, 4, &[100, 0xFF00, 200, 0xFEFF], 3),
            // wrong with the last two bytes and without them
            counted(kind, 1, &[100, 0, 200, 0], 4),
            counted(kind, 5, &[100, 0, 200, 0], 4),
            counted(kind, 0x0200_0000, &[100, 0], 2),
        ]);
    }
    // Table 23's lowest values; what CE-16 has for them are values
    for word in [0x8000, 0x80FF, 0x8100] {
        cases.push(outside(C16, 3, &[0x8101, 0xFF00, 5, word], 3, 3));
    }
    cases
}

/// A ping with the header of another, in its order.
fn ping(like: &Tuple, kind: PingKind, stored: &[Stored]) -> Vec<u8> {
    let order = like.order;
    let length = 32 + bytes(stored) as u32;
    let mut tuple = four_bytes(order, length - 10).to_vec();
    tuple.extend(two_bytes(order, kind.code()));
    tuple.extend(&like.bytes[6..24]);
    tuple.extend(stored_bytes(order, stored));
    tuple.extend([0; 4]);
    tuple.extend(four_bytes(order, length));
    tuple
}

/// A sample with another first ping, and where that stands.
fn with_ping(known: &Known, ping: &[u8]) -> (Vec<u8>, usize) {
    let mut draft = Draft::of(known);
    let nth = known.tuples.iter().position(Tuple::is_ping);
    let nth = nth.expect("a ping");
    draft.tuples[nth] = ping.to_vec();
    (draft.bytes(), draft.place(nth))
}

/// A mark and a tuple.
fn alone(order: Order, tuple: &[u8]) -> Vec<u8> {
    [&order.mark()[..], tuple].concat()
}

fn both_orders() -> [Known; 2] {
    ["cruise-lsb", "cruise-msb"].map(Known::sample)
}

fn refused(code: Code, place: usize) -> Refusal {
    Refusal { code, place }
}

/// The refusal that each call gives a file whose ping at a place is wrong, and
/// that it leaves lent memory as it was.
fn refuses(file: &[u8], place: usize, refusal: Refusal) {
    assert_eq!(check(file), Err(refusal));
    let mut out = [7; 64];
    assert_eq!(normalise(file, &mut out), Err(refusal));
    assert_eq!(out, [7; 64]);
    for asked in [place, 0, file.len(), usize::MAX] {
        assert_eq!(ask(file, asked), Err(refusal));
    }
    reads(file, place, refusal);
}

/// The refusal that the readers give a ping; that of another kind of sample has 9 before
/// it, at the place.
fn reads(file: &[u8], place: usize, refusal: Refusal) {
    assert_eq!(read_ping(file, place), Err(refusal));
    let Step::Tuple { tuple, .. } = (Walk { at: place }).forward(file) else {
        panic!("no tuple at {place}");
    };
    let kind = PingKind::of_type(tuple.kind).expect("a ping");
    let (of_samples, of_angles) = match kind.has_angles() {
        false => (refusal, refused(Code::Unfit, place)),
        true => (refused(Code::Unfit, place), refusal),
    };
    assert_eq!(samples(file, place), Err(of_samples));
    assert_eq!(angles(file, place), Err(of_angles));
    // 19 comes last
    for entries in [0, 8] {
        let (mut numbers, mut values) = (vec![7; entries], vec![7; entries]);
        let answer = read_samples(file, place, &mut numbers, &mut values);
        assert_eq!(answer, Err(of_samples));
        assert_eq!((&numbers, values), (&vec![7; entries], vec![7; entries]));
        let (mut alongship, mut athwartship) = (vec![7; entries], vec![7; entries]);
        let answer = read_angles(file, place, &mut numbers, &mut alongship, &mut athwartship);
        assert_eq!(answer, Err(of_angles));
        assert_eq!(numbers, vec![7; entries]);
        assert_eq!(
            (alongship, athwartship),
            (vec![7; entries], vec![7; entries])
        );
    }
}

/// The byte of the first offender, in both orders, by every call; and what is told.
#[test]
fn first_offenders() {
    for known in both_orders() {
        for case in cases() {
            let ping = ping(known.pings()[0], case.kind, &case.stored);
            let (file, place) = with_ping(&known, &ping);
            let refusal = refused(case.code, place + case.at);
            refuses(&file, place, refusal);
            let told = |ping_place| {
                let fault = case.fault;
                Some(WrongSample { ping_place, fault })
            };
            for from in [Walk::START, Walk { at: place }] {
                assert_eq!(wrong_sample(&file, from, refusal), told(place));
            }

            let file = alone(known.order, &ping);
            let refusal = refused(case.code, FIRST_PLACE + case.at);
            let mut out = [7; 64];
            assert_eq!(normalise_tuple(&file, &mut out), Err(refusal));
            assert_eq!(out, [7; 64]);
            let told = told(FIRST_PLACE).expect("it is told");
            assert_eq!(wrong_sample(&file, Walk::START, refusal), Some(told));
            assert_eq!(told.to_string(), format!("ping at 4, {}", case.words));
        }
    }
}

/// What is judged before a ping's samples, behind them, and between pings.
#[test]
fn order_of_rules() {
    for known in both_orders() {
        let like = known.pings()[0];
        // 11, at the ping, before 24 and 25
        let overfull = |kind, bad| {
            let mut words = vec![7; VALUE_LIMIT + 2];
            words[0] = bad;
            // of C-16 and CE-16 an even number, one of them a run
            words[1] = RUN >> (8 * (4 - width(kind)));
            let said = words.len() as u32;
            packed(kind, said, &words)
        };
        for (kind, bad) in [
            (PingKind::C32, BAD[0]),
            (PingKind::C16, 0x8100),
            (PingKind::Ce16, 0x7F00),
        ] {
            let (file, place) = with_ping(&known, &ping(like, kind, &overfull(kind, bad)));
            let refusal = refused(Code::Overfull, place);
            refuses(&file, place, refusal);
            assert_eq!(wrong_sample(&file, Walk::START, refusal), None);
        }
        // of the kinds of two bytes that number their samples, before 23
        for kind in [PingKind::U16, PingKind::U16Angles] {
            let fall = vec![7; VALUE_LIMIT + 2];
            let (file, place) = with_ping(&known, &ping(like, kind, &falls(kind, &fall, 1).stored));
            refuses(&file, place, refused(Code::Overfull, place));
        }

        // 13 before 24 by the check; a reader doesn't ask for the channel
        let mut orphan = ping(like, PingKind::C32, &[(4, 1), (4, BAD[1])]);
        orphan[12..14].copy_from_slice(&two_bytes(known.order, 99));
        let (file, place) = with_ping(&known, &orphan);
        assert_eq!(check(&file), Err(refused(Code::NoParent, place)));
        reads(&file, place, refused(Code::BadWord, place + 28));

        // 24 before 15 in one tuple's normal form
        let behind = [alone(known.order, &orphan), vec![0]].concat();
        let answer = normalise_tuple(&behind, &mut [0; 64]);
        assert_eq!(answer, Err(refused(Code::BadWord, FIRST_PLACE + 28)));

        // of two pings the first
        let mut draft = Draft::of(&known);
        let pings = known.tuples.iter().enumerate();
        let pings: Vec<usize> = pings
            .filter(|(_, tuple)| tuple.is_ping())
            .map(|(nth, _)| nth)
            .collect();
        draft.tuples[pings[1]] = ping(like, PingKind::C32, &[(4, 5), (4, 7)]);
        let falling = [(4, 4), (4, 0), (4, 3), (4, 0)];
        draft.tuples[pings[2]] = ping(like, PingKind::U32, &falling);
        let (first, later) = (draft.place(pings[1]), draft.place(pings[2]));
        let file = draft.bytes();
        assert_eq!(check(&file), Err(refused(Code::Miscounted, first + 24)));
        // the readers tell of either, and so does a walk to it
        reads(&file, first, refused(Code::Miscounted, first + 24));
        let refusal = refused(Code::NotRising, later + 32);
        reads(&file, later, refusal);
        let wrong = wrong_sample(&file, Walk::START, refusal);
        assert_eq!(wrong.map(|wrong| wrong.ping_place), Some(later));
    }
}

/// The last sample of pings that are as long as can be.
#[test]
fn at_the_limits() {
    for known in both_orders() {
        let mut numbers: Vec<u32> = (0..VALUE_LIMIT as u32).collect();
        numbers[VALUE_LIMIT - 1] = 0;
        let mut values = vec![7; VALUE_LIMIT];
        values[VALUE_LIMIT - 1] = BAD[3];
        // as many words as a tuple holds, all runs but for the last
        let mut runs = vec![LONG_RUN; (TUPLE_LIMIT - 36) / 4];
        let last = runs.len() - 1;
        runs[last] = BAD[2];
        for case in [
            not_rising(&numbers, VALUE_LIMIT - 1),
            bad_word(
                VALUE_LIMIT as u32,
                &values,
                VALUE_LIMIT - 1,
                VALUE_LIMIT as u32 - 1,
            ),
            bad_word(1, &runs, last, 4_294_311_936),
            miscounted(0, &values[..VALUE_LIMIT - 1], VALUE_LIMIT as u32 - 1),
        ] {
            let ping = ping(known.pings()[0], case.kind, &case.stored);
            let (file, place) = with_ping(&known, &ping);
            let refusal = refused(case.code, place + case.at);
            refuses(&file, place, refusal);
            let wrong = wrong_sample(&file, Walk::START, refusal);
            assert_eq!(wrong.map(|wrong| wrong.fault), Some(case.fault));
        }
    }
}

/// Nothing is told of any other refusal, of a file's or of none.
#[test]
fn nothing_else_is_told() {
    let codes = [Code::NotRising, Code::BadWord, Code::Miscounted];
    for known in both_orders() {
        for code in Code::ALL {
            for place in (0..known.bytes.len() + 8).chain([usize::MAX]) {
                let wrong = wrong_sample(&known.bytes, Walk::START, refused(*code, place));
                assert_eq!(wrong, None);
            }
        }
        for case in cases() {
            let ping = ping(known.pings()[0], case.kind, &case.stored);
            let file = alone(known.order, &ping);
            let refusal = refused(case.code, FIRST_PLACE + case.at);
            for place in (0..file.len() + 8).chain([usize::MAX]) {
                for code in codes {
                    let other = refused(code, place);
                    let wrong = wrong_sample(&file, Walk::START, other);
                    assert_eq!(wrong.is_some(), other == refusal);
                }
            }
            // from where no walk comes to the ping
            for at in [0, FIRST_PLACE + 4, file.len(), usize::MAX] {
                assert_eq!(wrong_sample(&file, Walk { at }, refusal), None);
            }
            assert_eq!(wrong_sample(&[], Walk::START, refusal), None);
        }
    }
}

/// A reader's ping need not be one that a walk from the file's start finds.
#[test]
fn off_the_walk() {
    for known in both_orders() {
        for case in cases() {
            let ping = ping(known.pings()[0], case.kind, &case.stored);
            let place = FIRST_PLACE + 4;
            let file = alone(known.order, &[&[0; 4][..], &ping].concat());
            let refusal = refused(case.code, place + case.at);
            reads(&file, place, refusal);
            assert_eq!(wrong_sample(&file, Walk::START, refusal), None);
            let wrong = wrong_sample(&file, Walk { at: place }, refusal);
            assert_eq!(wrong.map(|wrong| wrong.fault), Some(case.fault));
        }
    }
}

/// An object's members between those that every refusal has and the words on it.
fn members(object: &Value) -> Vec<(&str, i128)> {
    let keys = object.keys();
    assert_eq!(keys[..5], ["file", "outcome", "code", "words", "place"]);
    let (last, numbers) = keys[5..].split_last().expect("a member");
    assert_eq!(*last, "advice");
    let members = numbers.iter().map(|key| (*key, object.number(key)));
    members.collect()
}

/// The program says which sample is wrong, wherever a file or a ping is refused for
/// its samples.
#[test]
fn said() {
    let room = Room::new();
    let out = room.at("out.hac");
    let out = out.to_str().expect("a plain name");
    for known in both_orders() {
        for case in cases() {
            let ping = ping(known.pings()[0], case.kind, &case.stored);
            let (file, place) = with_ping(&known, &ping);
            let path = room.put("in.hac", &file);
            let line = format!(
                "{}: refused, {}, at {}: ping at {place}, {}\n",
                path.display(),
                case.code,
                place + case.at,
                case.words
            );
            let mut expected = vec![("ping_place", place as i128)];
            expected.extend(
                case.members
                    .iter()
                    .map(|(key, value)| (*key, *value as i128)),
            );

            let ran = run(hac(["check"]).arg(&path));
            assert_eq!((ran.status, &ran.out, ran.err.as_str()), (1, &line, ""));
            let ran = run(hac(["check", "--json"]).arg(&path));
            assert_eq!(members(&json::objects(&ran.out)[0]), expected);

            let at = place.to_string();
            let line = format!("hac: {line}");
            let commands: [&[&str]; 3] = [&["normal", "-o", out], &["parents"], &["samples"]];
            for command in commands {
                let place = (command[0] != "normal").then_some(&at);
                let ran = run(hac(command).arg(&path).args(place));
                assert_eq!((ran.status, ran.out.as_str(), &ran.err), (1, "", &line));
                let ran = run(hac(command).arg("--json").arg(&path).args(place));
                assert_eq!(members(&json::objects(&ran.out)[0]), expected);
                assert_eq!((ran.status, &ran.err), (1, &line));
            }
            // a walk doesn't look at samples
            assert_eq!(run(hac(["walk"]).arg(&path)).status, 0);
        }
    }
    assert_eq!(room.names(), ["in.hac"]);
}

/// Of a ping that only its own place finds, too.
#[test]
fn said_off_the_walk() {
    let room = Room::new();
    let known = Known::sample("cruise-msb");
    let case = &cases()[0];
    let ping = ping(known.pings()[0], case.kind, &case.stored);
    let file = alone(known.order, &[&[0; 4][..], &ping].concat());
    let path = room.put("in.hac", &file);
    let ran = run(hac(["samples"]).arg(&path).arg("8"));
    let line = format!(
        "hac: {}: refused, 23: sample number not rising, at 40: \
         ping at 8, pair 1 has number 5 behind 5\n",
        path.display()
    );
    assert_eq!((ran.status, ran.err), (1, line));
}
