//! What a refusal is about: of every code that a whole file is refused by, in words and in
//! the members of an object. `damage` has words for each code in LSB order; here stand
//! those that need other files, both orders, and what isn't told.

use crate::damage;
use crate::deposit::{Deposit, ORDERS};
use crate::json;
use crate::known::{four_bytes, two_bytes, Known, Stored};
use crate::lengths::ping_of;
use crate::room::{hac, run, Room};
use hac::*;

/// What is told of the refusal of a file, which has to be this one.
fn told(file: &[u8], code: Code, place: usize) -> Advice {
    let refusal = Refusal { code, place };
    assert_eq!(check(file), Err(refusal));
    advice(file, refusal).unwrap_or_else(|| panic!("nothing is told of {refusal}"))
}

/// Holds the words on the refusal of a deposit, which is ended before.
fn says(mut deposit: Deposit, code: Code, place: usize, words: &str) {
    assert_eq!(told(deposit.ended(), code, place).words, words);
}

/// A deposit with a sounder and its channels, all Biosonics', from 1 on.
fn begun(order: Order, channels: u16) -> Deposit {
    let mut deposit = Deposit::begun(order);
    deposit.sounder(500, channels);
    for number in 1..=channels {
        deposit.channel(number, 500);
    }
    deposit
}

/// A tuple of a type and a length, all else 0.
fn tuple(order: Order, kind: u16, length: usize) -> Vec<u8> {
    let mut tuple = vec![0; length];
    tuple[..4].copy_from_slice(&four_bytes(order, length as u32 - 10));
    tuple[4..6].copy_from_slice(&two_bytes(order, kind));
    tuple[length - 4..].copy_from_slice(&four_bytes(order, length as u32));
    tuple
}

/// The library tells what the program says of each damaged copy. What it tells besides, by
/// name, stands in its words, a word's pattern in hexadecimal.
#[test]
fn damaged_copies() {
    for copy in damage::all(&Known::sample("cruise-lsb")) {
        let code = Code::of(copy.code).expect("a code");
        let told = told(&copy.bytes, code, copy.place);
        assert_eq!(format!(": {told}"), copy.advice, "{}", copy.name);
        for (name, fact) in &told.facts {
            let part = match fact {
                Fact::Number(pattern) if *name == "pattern" => format!("{pattern:08X}"),
                // of a listed type the name is said alone, and not always its maker
                Fact::Number(_) if *name == "type" => continue,
                Fact::Text(text) if *name == "name" => {
                    text.split(' ').next().expect("a word").into()
                }
                Fact::Number(number) => number.to_string(),
                Fact::Text(text) => text.clone(),
            };
            assert!(told.words.contains(&part), "{name}: {told}");
        }
    }
}

/// The members of an object behind the place, for each code.
fn members(code: u8) -> &'static [&'static [&'static str]] {
    match code {
        1 => &[&["limit"]],
        2 => &[&["found"]],
        3 => &[&["left"], &["type", "name", "length", "left"]],
        4 => &[&[], &["type", "name", "last_place"]],
        5 => &[&["type", "name", "length"]],
        6 => &[&["type", "name", "length", "backlink"]],
        7 => &[&["type", "name"], &["type", "name", "first_place"]],
        8 => &[&["identifier"]],
        9 => &[&["type", "name", "length", "fitting"]],
        11 => &[&["type", "name", "values"]],
        12 => &[&["type", "name", "channel", "first_place"]],
        13 => &[&["type", "name", "channel"], &["type", "name", "sounder"]],
        14 => &[
            &["type", "name", "channel", "limit"],
            &["type", "name", "sounder", "limit"],
        ],
        15 => &[&["end_place", "behind"]],
        16 => &[&["absent"]],
        17 => &[&["type", "name", "sounder", "said", "found"]],
        23 => &[&["ping_place", "pair", "number", "before"]],
        24 => &[&["ping_place", "word", "number", "pattern"]],
        25 => &[&["ping_place", "said", "found"]],
        _ => panic!("{code} is no code of the check"),
    }
}

#[test]
fn objects() {
    let room = Room::new();
    for copy in damage::all(&Known::sample("cruise-lsb")) {
        let path = room.put(copy.name, &copy.bytes);
        let ran = run(hac(["check", "--json"]).arg(&path));
        let object = &json::objects(&ran.out)[0];
        let keys = object.keys();
        let (last, others) = keys[5..].split_last().expect("a member");
        assert!(members(copy.code).contains(&others), "{}", ran.out);
        assert_eq!(*last, "advice");
        assert_eq!(format!(": {}", object.text("advice")), copy.advice);
    }
}

/// Of an accepted file nothing is told, whatever refusal is asked for, nor of none.
#[test]
fn nothing_is_told() {
    for name in ["cruise-lsb", "cruise-msb"] {
        let known = Known::sample(name);
        for code in Code::ALL {
            for place in (0..known.bytes.len() + 8).chain([usize::MAX]) {
                let code = *code;
                assert_eq!(advice(&known.bytes, Refusal { code, place }), None);
            }
        }
    }
}

/// The codes that a writer or another call gives are told nothing of.
#[test]
fn other_calls() {
    let file = Order::Lsb.mark();
    for code in [19, 20, 21, 22, 26, 27, 31] {
        let code = Code::of(code).expect("a code");
        assert_eq!(advice(&file, Refusal { code, place: 0 }), None);
    }
}

/// The lengths that fit each listed type but the signature, by TR's tables.
const FITTING: [(u16, &str); 19] = [
    (20, "36"),
    (30, "28"),
    (40, "36"),
    (100, "72"),
    (200, "80"),
    (1000, "108"),
    (2000, "108"),
    (10000, "40, 48, 56 .."),
    (10001, "40, 48, 56 .."),
    (10010, "40, 44, 48 .."),
    (10030, "36, 40, 44 .."),
    (10031, "40, 44, 52, 56 .."),
    (10040, "40, 44, 48 .."),
    (10050, "40, 44, 48 .."),
    (10100, "44"),
    (10110, "24, 28, 32 .."),
    (65516, "20"),
    (65517, "20"),
    (65534, "24, 28, 32 .."),
];

/// Whether a length is one of those that are listed, or follows them.
fn is_among(fitting: &str, length: usize) -> bool {
    let lengths = fitting.trim_end_matches(" ..").split(", ");
    let lengths: Vec<usize> = lengths.map(|one| one.parse().expect("a length")).collect();
    let [first, second, third, ..] = lengths[..] else {
        return lengths == [length];
    };
    let after = |start| length >= start && (length - start).is_multiple_of(third - first);
    after(first) || after(second)
}

/// The lengths told are those that the check lets pass.
#[test]
fn fitting_lengths() {
    for order in ORDERS {
        for (kind, fitting) in FITTING {
            for length in (TUPLE_LEAST..=160).step_by(4) {
                let mut deposit = Deposit::begun(order);
                let place = deposit.put_bytes(&tuple(order, kind, length));
                let file = deposit.ended();
                let unfit = Refusal {
                    code: Code::Unfit,
                    place,
                };
                let is_fitting = check(file) != Err(unfit);
                assert_eq!(is_fitting, is_among(fitting, length), "{kind} {length}");
                let words = advice(file, unfit).map(|told| told.words);
                let name = types::name(kind);
                let expected = format!(
                    "{name} has {length} bytes where {fitting} fit: its type or its length is wrong"
                );
                assert_eq!(words, (!is_fitting).then_some(expected));
            }
        }
        let file = [&order.mark()[..], &tuple(order, 65535, 28)].concat();
        let words = "signature has 28 bytes where 24 fit: its type or its length is wrong";
        assert_eq!(told(&file, Code::Unfit, FIRST_PLACE).words, words);
    }
}

/// Tuples that can't be framed, in either order and of types that aren't listed.
#[test]
fn frames() {
    for order in ORDERS {
        let deposit = Deposit::begun(order);
        let place = deposit.bytes.len();
        let with = |tuple: &[u8]| [&deposit.bytes[..], tuple].concat();
        let unlisted = tuple(order, 300, 40);
        let words = "unlisted type 300 says 40 bytes, 36 are left: cut short or damaged; \
                     hac salvage keeps what is sound";
        let cut = with(&unlisted[..36]);
        assert_eq!(told(&cut, Code::CutShort, place).words, words);

        let mut linked = unlisted.clone();
        linked[36..].copy_from_slice(&four_bytes(order, 44));
        let words = "unlisted type 300 says 40 bytes, its backlink 44: damaged; \
                     hac salvage keeps what is sound";
        assert_eq!(told(&with(&linked), Code::BadBacklink, place).words, words);

        // past 32 bits
        let mut long = tuple(order, 65406, 40);
        long[..4].copy_from_slice(&four_bytes(order, u32::MAX));
        let words = "index type 65406 says 4294967305 bytes, \
                     allowed are multiples of 4 from 16 to 262144: damaged; \
                     hac salvage keeps what is sound";
        assert_eq!(told(&with(&long), Code::BadLength, place).words, words);

        let words = "ends behind unlisted type 300 at 64, with no end of file: \
                     cut short, ask for all of it";
        let endless = with(&unlisted);
        assert_eq!(told(&endless, Code::NoEnd, place + 40).words, words);
    }
}

/// How many values a ping over the limit has, of every kind that can have as many; a space
/// is no value.
#[test]
fn overfull() {
    const MANY: usize = VALUE_LIMIT + 2;
    let numbers = |width, count| -> Vec<Stored> { vec![(width, 7); count] };
    let words = |said: u32, width, count| [vec![(4, said)], numbers(width, count)].concat();
    let cases = [
        (10010, words(9, 4, MANY), MANY),
        (10030, numbers(2, 2 * MANY), MANY),
        (10031, numbers(2, 3 * MANY), MANY),
        (10040, words(9, 2, MANY), MANY),
        (10040, words(MANY as u32 - 1, 2, MANY), MANY - 1),
        (10050, words(MANY as u32, 2, MANY), MANY),
        (10050, words(MANY as u32 - 1, 2, MANY), MANY - 1),
    ];
    for order in ORDERS {
        for (kind, stored, values) in &cases {
            let mut deposit = begun(order, 1);
            let place = deposit.put_bytes(&ping_of(order, *kind, stored));
            let name = types::name(*kind);
            let words = format!("{name} has {values} values, at most 32764: make it shorter");
            says(deposit, Code::Overfull, place, &words);
        }
    }
}

/// What is declared twice, over both makers.
#[test]
fn declared_twice() {
    let words = |what, place| {
        format!("{what} is declared at {place} already: give one of them another identifier")
    };
    for order in ORDERS {
        for maker in [Maker::Biosonics, Maker::Simrad] {
            let mut deposit = begun(order, 2);
            let place = deposit.sounder_by(maker, 500, 0);
            says(
                deposit,
                Code::DeclaredTwice,
                place,
                &words("echosounder 500", 64),
            );
            let mut deposit = begun(order, 2);
            let place = deposit.channel_by(maker, 2, 500);
            says(
                deposit,
                Code::DeclaredTwice,
                place,
                &words("channel 2", 244),
            );
        }
    }
}

/// What names something that isn't declared, or only behind it.
#[test]
fn undeclared() {
    let words = |what, named| format!("{what} names {named}, which no tuple before it declares");
    for order in ORDERS {
        for kind in [10000, 10030, 10100, 40] {
            let mut deposit = begun(order, 1);
            let place = match kind {
                10000 => deposit.ping_u32(9),
                10030 => deposit.ping_u16(9),
                10100 => deposit.threshold(9),
                _ => deposit.attitude(9),
            };
            deposit.channel(9, 500);
            let words = words(types::name(kind), "channel 9");
            says(deposit, Code::NoParent, place, &words);
        }
        let mut deposit = begun(order, 0);
        let place = deposit.channel_by(Maker::Simrad, 3, 65_536);
        let words = words("channel EK-500 3", "echosounder 65536");
        says(deposit, Code::NoParent, place, &words);
        let mut deposit = begun(order, 0);
        let place = deposit.channel_by(Maker::Simrad, 3, 500);
        let words = "channel EK-500 3 names echosounder 500, which Biosonics made, at 64: \
                     name one of its own maker";
        says(deposit, Code::NoParent, place, words);
    }
}

/// Which classes are absent; an unlisted type of a class is one of it.
#[test]
fn absent() {
    const NEEDED: &str =
        "a recording has at least one each of position, echosounder, channel, ping";
    for order in ORDERS {
        for (kind, absent) in [
            (65406, "no echosounder, no channel, no ping"),
            (101, "no channel, no ping"),
            (9999, "no echosounder, no ping"),
            (10002, "no echosounder, no channel"),
        ] {
            let mut deposit = Deposit::begun(order);
            deposit.put_bytes(&tuple(order, kind, 20));
            let end = deposit.ended().len();
            let words = told(&deposit.bytes, Code::ClassAbsent, end).words;
            assert_eq!(words, format!("{absent}: {NEEDED}"));
        }
    }
}

/// Channels are counted behind the sounder's place, too.
#[test]
fn counted() {
    for order in ORDERS {
        for (said, found) in [(0, 2), (1, 2), (65_535, 0)] {
            let mut deposit = Deposit::begun(order);
            deposit.sounder(1, 1);
            deposit.channel(1, 1);
            let place = deposit.sounder_by(Maker::Simrad, 7, said);
            for number in 0..found {
                deposit.channel_by(Maker::Simrad, 100 + number, 7);
            }
            deposit.ping_u32(1);
            let words =
                format!("echosounder 7 says {said} channels, {found} channel tuples name it");
            says(deposit, Code::WrongCount, place, &words);
        }
    }
}

/// The normaliser's own refusal: the type, and what would be taken.
#[test]
fn unturnable() {
    let mut deposit = begun(Order::Msb, 1);
    let place = deposit.put_bytes(&tuple(Order::Msb, 300, 40));
    deposit.ping_u32(1);
    let file = deposit.ended();
    let refusal = Refusal {
        code: Code::Unturnable,
        place,
    };
    assert_eq!(normal_form(file), Err(refusal));
    let words = "nobody knows how to turn type 300: a deposit in LSB order would be taken";
    let told = advice(file, refusal).expect("it is told");
    assert_eq!(told.words, words);
    assert_eq!(told.facts, [("type", Fact::Number(300))]);

    let room = Room::new();
    let path = room.put("in.hac", file);
    let ran = run(hac(["normal", "-o"]).arg(room.at("out.hac")).arg(&path));
    let said = format!("hac: {}: refused, {refusal}: {words}\n", path.display());
    assert_eq!((ran.status, ran.err), (1, said));
}

/// What a question, a reader or a walk refuses by itself is left as it is.
#[test]
fn refused_otherwise() {
    let room = Room::new();
    let known = Known::sample("cruise-lsb");
    let damaged = damage::all(&known);
    let frame = damaged.iter().find(|copy| copy.code == 5).expect("a copy");
    let path = room.put("in.hac", &frame.bytes);
    let place = frame.place.to_string();
    for arguments in [&["walk"][..], &["record", &place], &["samples", &place]] {
        let (command, place) = arguments.split_first().expect("a command");
        let ran = run(hac([command]).arg(&path).args(place));
        let refusal = format!("refused, {}, at {}\n", Code::BadLength, frame.place);
        assert!(ran.err.ends_with(&refusal), "{}", ran.err);
    }
}
