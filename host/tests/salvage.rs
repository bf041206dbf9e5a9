//! Salvage: which tuples of a damaged file are kept, which ranges are told, what is lent;
//! and `hac salvage`. Bytes are written here by TR and by document 01, and ranges and
//! counts worked out by hand from 02, or from the samples' lines.

use crate::damage::{self, long_ping, Draft};
use crate::deposit::{Deposit, ORDERS};
use crate::json::{self, Value};
use crate::kinds::SPELLINGS as ENCODINGS;
use crate::known::{
    accepted, four_bytes, repository, two_bytes, Known, Tuple, COMPARED, SPELLINGS,
};
use crate::lengths::{alone, ping_of};
use crate::normal::refused;
use crate::room::{hac, run, Ran, Room};
use hac::*;
use std::fs;
use std::io;
use std::path::Path;
use std::process::Stdio;

/// A type that isn't listed, and one of the index class.
const UNLISTED: u16 = 5;
const INDEX: u16 = 65406;

/// The identifiers of a signature that are known, and one that isn't.
const WRITTEN: u16 = 44204;
const PRINTED: u16 = 44201;
const UNKNOWN: u16 = 44200;

/// The bytes of a navigation's tuple, and of the least of all.
const NAVIGATION: usize = 28;
const LEAST: usize = 16;

/// The step of the search where nothing is kept.
const STEP: usize = 4;

/// A tuple of a type and a whole length, its data 0.
fn tuple(order: Order, kind: u16, length: usize) -> Vec<u8> {
    let whole = four_bytes(order, length as u32);
    let size = four_bytes(order, length as u32 - 10);
    let data = vec![0; length - 10];
    [&size[..], &two_bytes(order, kind), &data, &whole].concat()
}

/// A tuple whose backlink is 0.
fn unlinked(mut tuple: Vec<u8>) -> Vec<u8> {
    let backlink = tuple.len() - 4;
    tuple[backlink..].fill(0);
    tuple
}

fn signature(order: Order, identifier: u16) -> Vec<u8> {
    let mut signature = tuple(order, types::SIGNATURE, 24);
    signature[6..8].copy_from_slice(&two_bytes(order, identifier));
    signature
}

/// A mark, and behind it some bytes.
fn file(order: Order, parts: &[Vec<u8>]) -> Vec<u8> {
    alone(order, &parts.concat())
}

fn kept(from: usize, to: usize) -> Range {
    let kept = true;
    Range { kept, from, to }
}

fn dropped(from: usize, to: usize) -> Range {
    let kept = false;
    Range { kept, from, to }
}

/// What a salvage of a file gives that has these ranges: the kept ones are its output, and
/// salvaging that keeps everything.
fn gives(file: &[u8], ranges: &[Range], tuples: usize, tried: usize) {
    let parts = ranges.iter().filter(|range| range.kept);
    let parts = parts.map(|range| &file[range.from..range.to]);
    let bytes = [&file[..FIRST_PLACE], &parts.collect::<Vec<_>>().concat()].concat();
    let expected = Salvage {
        bytes: bytes.clone(),
        ranges: ranges.to_vec(),
        tuples,
        tried,
    };
    assert_eq!(salvage(file), Ok(expected));
    let again = salvage(&bytes).expect("an output has a mark");
    assert_eq!((&again.bytes, again.tuples), (&bytes, tuples));
    assert_eq!(again.lost().count(), 0);
}

/// Kept whole: one range, and a tuple at each place tried.
fn gives_all(file: &[u8], tuples: usize) {
    gives(file, &[kept(FIRST_PLACE, file.len())], tuples, tuples);
}

/// Dropped whole: one range, and each place tried in vain.
fn gives_nothing(file: &[u8]) {
    let tried = (file.len() - FIRST_PLACE).div_ceil(STEP);
    gives(file, &[dropped(FIRST_PLACE, file.len())], 0, tried);
}

/// Every sample is sound: of both makers, in both orders, with all kinds of ping.
#[test]
fn sound_files_are_kept_whole() {
    let others = ["splitbeam-lsb", "splitbeam-msb"];
    for name in SPELLINGS.iter().chain(&others).chain(&ENCODINGS) {
        let known = Known::sample(name);
        gives_all(&known.bytes, known.tuples.len());
    }
}

/// Four bytes that are no tuple, and a tuple whose backlink is gone, among sound ones; and
/// up to three bytes behind the last.
#[test]
fn damaged_by_hand() {
    for order in ORDERS {
        let navigation = tuple(order, types::NAVIGATION, NAVIGATION);
        let parts = [
            signature(order, WRITTEN),
            vec![0; 4],
            navigation.clone(),
            unlinked(navigation),
            tuple(order, types::POSITION, 36),
        ];
        let ranges = [
            kept(4, 28),
            dropped(28, 32),
            kept(32, 60),
            dropped(60, 88),
            kept(88, 124),
        ];
        // the seven words of the unlinked tuple, the four bytes and the three kept
        let tried = 11;
        let sound = file(order, &parts);
        gives(&sound, &ranges, 3, tried);
        for left in 1..=3 {
            let longer = [&sound[..], &vec![0xFF; left]].concat();
            let behind = [&ranges[..], &[dropped(124, 124 + left)]].concat();
            gives(&longer, &behind, 3, tried + 1);
            // behind bytes that are dropped they are no range of their own
            let joined = [&sound[..], &vec![0xFF; 8 + left]].concat();
            let behind = [&ranges[..], &[dropped(124, 132 + left)]].concat();
            gives(&joined, &behind, 3, tried + 3);
        }
    }
}

/// A mark alone has no range; behind it bytes of which none are a tuple.
/// The damaged cruise among the samples, and what its paper says of it.
#[test]
fn the_damaged_sample() {
    let damaged = fs::read(repository("samples/damaged-lsb.hac")).unwrap();
    let sound = fs::read(repository("samples/damaged-salvaged.hac")).unwrap();
    let ranges = [
        kept(4, 872),
        dropped(872, 1008),
        kept(1008, 1084),
        dropped(1084, 1172),
        kept(1172, 1380),
    ];
    let salvage = salvage(&damaged).unwrap();
    assert_eq!((salvage.tuples, salvage.tried), (23, 79));
    assert_eq!(salvage.ranges, ranges);
    assert_eq!(salvage.bytes, sound);
    assert!(check(&sound).is_ok());
}

#[test]
fn nothing_to_keep() {
    for order in ORDERS {
        gives(&order.mark(), &[], 0, 0);
        for length in [1, 2, 3, 4, 5, 15, 16, 17, 1000] {
            gives_nothing(&alone(order, &vec![0xFF; length]));
            gives_nothing(&alone(order, &vec![0; length]));
        }
    }
}

/// The rules of the frame, each of them broken by a tuple that else keeps them.
#[test]
fn frames() {
    for order in ORDERS {
        let size = |length: u32| {
            let mut tuple = tuple(order, UNLISTED, 20);
            tuple[..4].copy_from_slice(&four_bytes(order, length.wrapping_sub(10)));
            let backlink = tuple.len() - 4;
            tuple[backlink..].copy_from_slice(&four_bytes(order, length));
            alone(order, &tuple)
        };
        gives_all(&size(20), 1);
        for length in [0, 12, 18, 21, 24, 262_148, u32::MAX] {
            gives_nothing(&size(length));
        }
        gives_nothing(&alone(order, &unlinked(tuple(order, UNLISTED, LEAST))));
        // fewer than 16 bytes left, and a tuple that passes the end
        let least = alone(order, &tuple(order, UNLISTED, LEAST));
        gives_all(&least, 1);
        gives_nothing(&least[..FIRST_PLACE + LEAST - 1]);
        let longest = alone(order, &tuple(order, UNLISTED, TUPLE_LIMIT));
        gives_all(&longest, 1);
        gives_nothing(&longest[..longest.len() - 4]);
    }
}

/// Pings of two samples, in each kind that numbers them: the numbers rise, or are equal
/// (23).
fn numbered(order: Order) -> Vec<(Vec<u8>, bool)> {
    let kinds = [
        (types::PING_U, 4, 4),
        (types::PING_U32_16_ANGLES, 4, 4),
        (types::PING_U16, 2, 2),
        (types::PING_U16_ANGLES, 2, 4),
    ];
    let pings = kinds.into_iter().flat_map(|(kind, number, value)| {
        [(3, true), (2, false)].map(|(second, rises)| {
            let stored = [(number, 2), (value, 9), (number, second), (value, 9)];
            (ping_of(order, kind, &stored), rises)
        })
    });
    pings.collect()
}

/// Pings of two words, in each kind that has words, behind a number of samples.
fn worded(order: Order) -> Vec<(Vec<u8>, bool)> {
    let pings = [
        // within the limits, and outside them (24)
        (types::PING_C, 4, 2, 0x7FFE_FFFF, true),
        (types::PING_C, 4, 2, 0x7FFF_0000, false),
        (types::PING_C16, 2, 2, 0x7EFF, true),
        (types::PING_C16, 2, 2, 0x7F00, false),
        (types::PING_CE16, 2, 2, 0x8000, true),
        (types::PING_CE16, 2, 2, 0x7F00, false),
        // the first is a run, and a wrong number of samples (25)
        (types::PING_C, 4, 1, 0xFFFF_0000, true),
        (types::PING_C, 4, 2, 0xFFFF_0000, false),
        (types::PING_C16, 2, 1, 0xFF00, true),
        (types::PING_C16, 2, 2, 0xFF00, false),
        (types::PING_CE16, 2, 1, 0xFF00, true),
        (types::PING_CE16, 2, 3, 1, false),
    ];
    let pings = pings.map(|(kind, width, count, first, keeps)| {
        let stored = [(4, count), (width, first), (width, 1)];
        (ping_of(order, kind, &stored), keeps)
    });
    pings.to_vec()
}

/// Tuples that keep the frame's rules, and whether they keep their own.
#[test]
fn own_rules() {
    for order in ORDERS {
        let mut tuples = vec![
            (signature(order, WRITTEN), true),
            (signature(order, PRINTED), true),
            (signature(order, UNKNOWN), false),
            (tuple(order, types::NAVIGATION, NAVIGATION), true),
            (tuple(order, types::NAVIGATION, NAVIGATION + 4), false),
            (tuple(order, types::EVENT, 20), false),
            (tuple(order, types::EK500_SOUNDER, 72), false),
            (tuple(order, types::EK500_SOUNDER, 80), true),
            (tuple(order, types::FILE_END, 24), true),
            // of these nothing but the frame is asked for
            (tuple(order, UNLISTED, NAVIGATION + 4), true),
            (tuple(order, INDEX, LEAST), true),
        ];
        tuples.extend(numbered(order));
        tuples.extend(worded(order));
        for (bytes, keeps) in tuples {
            let file = alone(order, &bytes);
            match keeps {
                true => gives_all(&file, 1),
                false => gives_nothing(&file),
            }
        }
    }
}

/// 11: a ping of one value more than the most is dropped.
#[test]
fn overfull() {
    let known = Known::sample("cruise-lsb");
    let ping = known.first(types::PING_C);
    let of = |values| alone(Order::Lsb, &long_ping(ping, values));
    gives_all(&of(VALUE_LIMIT), 1);
    gives_nothing(&of(VALUE_LIMIT + 1));
}

/// What stands between tuples isn't judged: all is kept, and the check refuses it.
#[test]
fn links_are_not_judged() {
    for order in ORDERS {
        let end = tuple(order, types::FILE_END, 24);
        let named = Deposit::begun(order);
        let linkless = |put: &dyn Fn(&mut Deposit)| {
            let mut deposit = named.clone();
            put(&mut deposit);
            deposit.ended().to_vec()
        };
        for (bytes, code) in [
            (named.bytes.clone(), Code::NoEnd),
            (alone(order, &end), Code::MisplacedSignature),
            (
                linkless(&|deposit| {
                    deposit.sounder(1, 0);
                    deposit.sounder(1, 0);
                }),
                Code::DeclaredTwice,
            ),
            (
                linkless(&|deposit| {
                    deposit.ping_u32(9);
                }),
                Code::NoParent,
            ),
            ([linkless(&|_| ()), end].concat(), Code::BehindEnd),
            (linkless(&|_| ()), Code::ClassAbsent),
        ] {
            let salvage = salvage(&bytes).expect("a mark");
            assert_eq!(salvage.bytes, bytes);
            assert_eq!(check(&bytes).map_err(|refusal| refusal.code), Err(code));
        }
    }
}

/// Bytes that look like a tuple are kept: here the text of an event whose frame is
/// damaged. In a sound event they are text.
#[test]
fn chance_tuples_are_kept() {
    for order in ORDERS {
        let mut event = tuple(order, types::EVENT, 36);
        event[12..28].copy_from_slice(&tuple(order, UNLISTED, LEAST));
        gives_all(&alone(order, &event), 1);
        let ranges = [dropped(4, 16), kept(16, 32), dropped(32, 40)];
        gives(&alone(order, &unlinked(event)), &ranges, 1, 6);
    }
}

/// A ping of the cruise that is dropped by its samples, of which some are zeroed, or one is
/// wrong; nothing else is.
#[test]
fn a_ping_lost() {
    let known = Known::sample("cruise-lsb");
    let copies = damage::all(&known).into_iter();
    let copies = copies.filter(|copy| copy.is_in_samples()).map(|copy| {
        let mut pings = known.pings().into_iter().map(range_of);
        let ping = pings.find(|ping| copy.place < ping.to);
        (copy.bytes, ping.expect("its ping"))
    });
    for (bytes, ping) in copies.chain([without_ping(&known)]) {
        let ranges = [kept(4, ping.from), ping, kept(ping.to, bytes.len())];
        let tuples = known.tuples.len() - 1;
        gives(&bytes, &ranges, tuples, tuples + ping.bytes() / STEP);
    }
}

/// The range of a tuple that is dropped.
fn range_of(tuple: &Tuple) -> Range {
    dropped(tuple.place, tuple.place + tuple.bytes.len())
}

/// The cruise in LSB order with forty bytes of its first C-32 ping zeroed, its number of
/// samples among them, and the range of that ping. Zeroed words are values, so that the
/// number is wrong; and no word of it is the size of a tuple whose backlink agrees.
fn without_ping(known: &Known) -> (Vec<u8>, Range) {
    let ping = known.first(types::PING_C);
    let mut bytes = known.bytes.clone();
    bytes[ping.place + 24..ping.place + 64].fill(0);
    (bytes, range_of(ping))
}

/// Lent memory: entries and bytes past what is written stay; too little is 27 before 19,
/// both at 0, and nothing is written.
#[test]
fn lent_memory() {
    const SPARE: usize = 9;
    let known = Known::sample("cruise-lsb");
    let (bytes, ping) = without_ping(&known);
    let expected = salvage(&bytes).expect("a mark");
    let (length, entries) = (bytes.len() - ping.bytes(), 3 * Range::NUMBERS);
    let try_with = |out_length: usize, table_length: usize| {
        let (mut out, mut table) = (vec![7; out_length], vec![7; table_length]);
        let salvaged = salvage_into(&bytes, &mut out, &mut table);
        (salvaged, out, table)
    };
    let (salvaged, out, table) = try_with(length + SPARE, entries + SPARE);
    let told = Salvaged {
        tuples: expected.tuples,
        length,
        ranges: 3,
        tried: expected.tried,
    };
    assert_eq!(salvaged, Ok(told));
    assert_eq!(out[..length], expected.bytes[..]);
    assert_eq!(out[length..], [7; SPARE]);
    let rows = [1, 4, ping.from, 0, ping.from, ping.to, 1, ping.to, 1380];
    assert_eq!(table[..entries], rows);
    assert_eq!(table[entries..], [7; SPARE]);
    assert_eq!(try_with(length, entries).0, Ok(told));
    for (out_length, table_length, code) in [
        (length, entries - 1, Code::ShortTable),
        (length - 1, entries - 1, Code::ShortTable),
        (0, 0, Code::ShortTable),
        (length - 1, entries, Code::NoRoom),
        (0, entries, Code::NoRoom),
    ] {
        let (salvaged, out, table) = try_with(out_length, table_length);
        assert_eq!(salvaged, refused(code, 0));
        assert!(out.iter().all(|byte| *byte == 7));
        assert!(table.iter().all(|entry| *entry == 7));
    }
}

/// 1 and 2 come before all else, with whatever is lent.
#[test]
fn no_files() {
    let mut long = Known::sample("cruise-lsb").bytes;
    long.resize(FILE_LIMIT + 1, 0);
    assert_eq!(
        salvage_into(&long, &mut [], &mut []),
        refused(Code::OverLimit, 0)
    );
    assert_eq!(salvage(&long), refused(Code::OverLimit, 0));
    for bytes in [&b""[..], &[0xAC, 0, 0], &[0xAC, 0, 0, 1], &[0; 100]] {
        assert_eq!(
            salvage_into(bytes, &mut [], &mut []),
            refused(Code::NoMark, 0)
        );
        assert_eq!(salvage(bytes), refused(Code::NoMark, 0));
    }
    // a mark has no range, and is written itself
    let mark = Order::Msb.mark();
    assert_eq!(
        salvage_into(&mark, &mut [0; 3], &mut []),
        refused(Code::NoRoom, 0)
    );
    assert!(salvage_into(&mark, &mut [0; 4], &mut []).is_ok());
}

/// No file has more ranges than are lent: by turns the least tuple and four bytes of none,
/// begun with either and cut anywhere.
#[test]
fn most_ranges() {
    for order in ORDERS {
        let least = tuple(order, UNLISTED, LEAST);
        let turns = [least, vec![0; STEP]].concat().repeat(9);
        for bytes in [&turns[..], &turns[LEAST..]] {
            for length in 0..=bytes.len() {
                let file = alone(order, &bytes[..length]);
                let ranges = salvage(&file).expect("enough was lent").ranges.len();
                assert!(ranges <= file.len() / 10 + 1);
            }
        }
        // the least file that has three ranges: 4 bytes, 16 and 1
        let file = alone(order, &turns[LEAST..LEAST + 21]);
        assert_eq!(file.len() / 10 + 1, 3);
        gives(&file, &[dropped(4, 8), kept(8, 24), dropped(24, 25)], 1, 3);
    }
}

/// Runs `hac salvage`.
fn salvaged(input: &Path, out: &Path) -> Ran {
    run(hac(["salvage"]).arg(input).arg("-o").arg(out))
}

/// How many tuples of each type of the cruise in LSB order there are, but for one C-32
/// ping: by its lines.
const KEPT: [(usize, u16, &str); 14] = [
    (2, 20, "position"),
    (2, 30, "navigation"),
    (2, 40, "attitude"),
    (2, 100, "echosounder Biosonics"),
    (3, 1000, "channel Biosonics"),
    (1, 10000, "ping U-32"),
    (4, 10010, "ping C-32"),
    (2, 10100, "threshold"),
    (2, 10110, "event marker"),
    (1, 65406, "index"),
    (1, 65516, "start of run"),
    (1, 65517, "end of run"),
    (1, 65534, "end of file"),
    (1, 65535, "signature"),
];

/// The report on the cruise with a ping lost: the ping has 92 bytes of 1380, at 780, and
/// its 23 words are tried in vain. It named the first channel, and so compared one
/// identifier.
#[test]
fn reported() {
    let room = Room::new();
    let known = Known::sample("cruise-lsb");
    let (bytes, ping) = without_ping(&known);
    let input = room.put("in.hac", &bytes);
    // what stands there is replaced
    let out = room.put("out.hac", b"older");
    let ran = salvaged(&input, &out);
    assert_eq!((ran.status, ran.err.as_str()), (3, ""));
    let mut lines = vec![
        format!(
            "{}: kept in part, 1288 bytes written to {}",
            input.display(),
            out.display()
        ),
        "lost ranges 1, bytes 92 of 1380, 6.67 %".into(),
        "     780 to      872        92 bytes    6.67 %".into(),
        "kept tuples 25, types 14, places tried 48".into(),
    ];
    for (tuples, kind, name) in KEPT {
        lines.push(format!("{tuples:>8}  {kind:>5}  {name}"));
    }
    let counts = Counts {
        tuples: 25,
        compared: COMPARED - 1,
    };
    lines.push(format!("{}: {}", out.display(), accepted(counts)));
    assert_eq!(ran.lines(), lines);
    let sound = [&bytes[..ping.from], &bytes[ping.to..]].concat();
    assert_eq!(fs::read(&out).expect("OUT"), sound);
    assert_eq!(room.names(), ["in.hac", "out.hac"]);
}

/// The same as an object.
#[test]
fn reported_as_an_object() {
    let room = Room::new();
    let (bytes, _) = without_ping(&Known::sample("cruise-lsb"));
    let input = room.put("in.hac", &bytes);
    let out = room.at("out.hac");
    let ran = run(hac(["salvage", "--json", "-o"]).arg(&out).arg(&input));
    assert_eq!((ran.status, ran.err.as_str()), (3, ""));
    let objects = json::objects(&ran.out);
    let [object] = &objects[..] else {
        panic!("one object: {objects:?}");
    };
    let keys = [
        "file", "outcome", "out", "length", "tuples", "tried", "lost", "kept", "check",
    ];
    assert_eq!(object.keys(), keys);
    let path = |path: &Path| path.to_str().expect("a plain name").to_string();
    assert_eq!(object.text("file"), path(&input));
    assert_eq!(object.text("out"), path(&out));
    assert_eq!(object.text("outcome"), "in part");
    let numbers = ["length", "tuples", "tried"].map(|key| object.number(key));
    assert_eq!(numbers, [1288, 25, 48]);
    tells_lost(object.get("lost"));
    tells_kept(object.list("kept"));
    let check = object.get("check");
    assert_eq!(check.keys(), ["outcome", "tuples", "compared"]);
    assert_eq!(check.text("outcome"), "accepted");
}

fn tells_lost(lost: &Value) {
    assert_eq!(lost.keys(), ["bytes", "of", "percent", "ranges"]);
    assert_eq!(["bytes", "of"].map(|key| lost.number(key)), [92, 1380]);
    assert_eq!(lost.get("percent"), &Value::Decimal("6.67".into()));
    let [range] = lost.list("ranges") else {
        panic!("one range: {lost:?}");
    };
    assert_eq!(range.keys(), ["from", "to", "bytes", "percent"]);
    let numbers = ["from", "to", "bytes"].map(|key| range.number(key));
    assert_eq!(numbers, [780, 872, 92]);
    assert_eq!(range.get("percent"), lost.get("percent"));
}

fn tells_kept(kept: &[Value]) {
    assert_eq!(kept.len(), KEPT.len());
    for ((tuples, kind, name), told) in KEPT.into_iter().zip(kept) {
        assert_eq!(told.keys(), ["type", "name", "tuples"]);
        let numbers = ["type", "tuples"].map(|key| told.number(key));
        assert_eq!(numbers, [kind.into(), tuples as i128]);
        assert_eq!(told.text("name"), name);
    }
}

/// docs/SALVAGE.md shows what the command prints of the cruise with a sector zeroed.
#[test]
fn the_paper() {
    const SECTOR: usize = 512;
    let paper = fs::read_to_string(repository("docs/SALVAGE.md")).expect("the paper");
    let (_, shown) = paper
        .split_once("    $ hac salvage damaged.hac -o sound.hac\n")
        .expect("the command");
    let shown = shown.lines().map_while(|line| line.strip_prefix("    "));
    let mut bytes = Known::sample("cruise-lsb").bytes;
    bytes[SECTOR..2 * SECTOR].fill(0);
    let room = Room::new();
    room.put("damaged.hac", &bytes);
    let mut command = hac(["salvage", "damaged.hac", "-o", "sound.hac"]);
    let ran = run(command.current_dir(room.path()));
    assert_eq!((ran.status, ran.err.as_str()), (3, ""));
    assert_eq!(ran.lines(), shown.collect::<Vec<_>>());
}

/// Everything kept: status 0, also where the check refuses OUT, for it judges more.
#[test]
fn kept_whole() {
    let room = Room::new();
    let known = Known::sample("cruise-lsb");
    let mut draft = Draft::of(&known);
    draft.tuples.remove(0);
    let headless = draft.bytes();
    let refusal = "refused, 7: first is no signature, or a later one is, at 4: \
                   start of run comes first: write a signature before it"
        .to_string();
    for (bytes, verdict) in [
        (known.bytes.clone(), accepted(known.counts())),
        (headless, refusal),
    ] {
        let input = room.put("in.hac", &bytes);
        let out = room.at("out.hac");
        let ran = salvaged(&input, &out);
        assert_eq!((ran.status, ran.err.as_str()), (0, ""));
        let lines = ran.lines();
        let (length, name) = (bytes.len(), out.display());
        let first = format!(": kept whole, {length} bytes written to {name}");
        assert!(lines[0].ends_with(&first), "{}", lines[0]);
        assert_eq!(
            lines[1],
            format!("lost ranges 0, bytes 0 of {length}, 0.00 %")
        );
        assert_eq!(lines.last(), Some(&format!("{name}: {verdict}").as_str()));
        assert_eq!(fs::read(&out).expect("OUT"), bytes);
        let ran = run(hac(["salvage", "--json", "-o"]).arg(&out).arg(&input));
        let object = &json::objects(&ran.out)[0];
        assert_eq!((ran.status, object.text("outcome")), (0, "whole"));
        assert!(object.get("lost").list("ranges").is_empty());
    }
}

/// A file that is too long, or has no mark, leaves no OUT, and one that is there as it was.
#[test]
fn refused_inputs() {
    let mut long = Known::sample("cruise-lsb").bytes;
    long.resize(FILE_LIMIT + 1, 0);
    for (bytes, code, advice) in [
        (
            &long[..],
            Code::OverLimit,
            "more than 16777216 bytes: split the recording",
        ),
        (
            b"no mark",
            Code::NoMark,
            "begins with 6E 6F 20 6D, not with AC 00 00 00 or 00 00 00 AC: no HAC recording",
        ),
    ] {
        let room = Room::new();
        let input = room.put("in.hac", bytes);
        let out = room.at("out.hac");
        let ran = salvaged(&input, &out);
        let said = format!(
            "hac: {}: refused, {code}, at 0: {advice}\n",
            input.display()
        );
        assert_eq!((ran.status, ran.out, ran.err), (1, String::new(), said));
        assert_eq!(room.names(), ["in.hac"]);
        room.put("out.hac", b"older");
        let ran = run(hac(["salvage", "--json"]).arg(&input).arg("-o").arg(&out));
        let object = &json::objects(&ran.out)[0];
        assert_eq!((ran.status, object.text("outcome")), (1, "refused"));
        assert_eq!(object.number("code"), i128::from(code.number()));
        assert_eq!(fs::read(&out).expect("OUT"), b"older");
    }
}

/// OUT is never the input, and what can't be written is said: status 2.
#[test]
fn other_outs() {
    let room = Room::new();
    let (bytes, _) = without_ping(&Known::sample("cruise-lsb"));
    let input = room.put("in.hac", &bytes);
    for out in [
        room.at("in.hac"),
        room.at("none/out.hac"),
        room.path().into(),
    ] {
        let ran = salvaged(&input, &out);
        assert_eq!((ran.status, ran.out.as_str()), (2, ""));
        let start = format!("hac: {}: ", out.display());
        assert!(ran.err.starts_with(&start), "{}", ran.err);
        assert_eq!(fs::read(&input).expect("the input"), bytes);
        assert_eq!(room.names(), ["in.hac"]);
    }
}

/// Nobody reads the report: OUT is written, and the status tells that something was lost.
#[test]
fn closed_output() {
    let room = Room::new();
    let (bytes, ping) = without_ping(&Known::sample("cruise-lsb"));
    let input = room.put("in.hac", &bytes);
    let out = room.at("out.hac");
    let (reader, writer) = io::pipe().expect("a pipe");
    drop(reader);
    let mut command = hac(["salvage", "-o"]);
    command.arg(&out).arg(&input).stdout(writer);
    let ran = run(command.stderr(Stdio::piped()));
    assert_eq!((ran.status, ran.err.as_str()), (3, ""));
    let length = fs::read(&out).expect("OUT").len();
    assert_eq!(length, bytes.len() - ping.bytes());
}
