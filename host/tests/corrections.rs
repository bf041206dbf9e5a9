//! Corrections beside the deposit: by the library, and by `hac ping`. What is found is
//! written down here by hand from 02, of files put together tuple by tuple; of the samples
//! it is told by their lines.

use crate::damage::{self, Damaged};
use crate::deposit::{header, Deposit, ORDERS};
use crate::json;
use crate::known::{repository, Known, Tuple, NORMAL, SPELLINGS};
use crate::room::{hac, run, Ran, Room};
use hac::*;
use std::fs;
use std::path::Path;

/// TR's attribute of an edited tuple; attributes that are none, some of them 1 in the other
/// order or in some of their bytes.
const EDITED: i32 = 1;
const OTHERS: [i32; 7] = [0, 2, -1, 257, 0x0001_0000, 0x0100_0000, i32::MIN];

/// A type of the class of pings that isn't listed.
const LIKE_PING: u16 = 10002;

/// A ping to put to a file: channel, number, attribute.
type Shot = (u16, u32, i32);

/// A sounder with channels 1, 2 and 65535.
fn begun(order: Order) -> Deposit {
    let mut deposit = Deposit::begun(order);
    deposit.sounder(7, 3);
    for channel in [1, 2, u16::MAX] {
        deposit.channel(channel, 7);
    }
    deposit
}

fn put(file: &mut Deposit, (channel, ping_number, attribute): Shot) -> usize {
    let header = PingHeader {
        ping_number,
        ..header(channel)
    };
    file.put(|order, out| write_u16(&header, attribute, &[3], &[5], order, out))
}

/// A whole file of these pings, and their places.
fn file_of(order: Order, shots: &[Shot]) -> (Vec<u8>, Vec<usize>) {
    let mut file = begun(order);
    let places = shots.iter().map(|shot| put(&mut file, *shot)).collect();
    file.ended();
    (file.bytes, places)
}

/// The bytes of a U-16 ping of one sample.
const SHOT: usize = 36;

/// Which file a ping is from, and which of its shots it is.
type Whose = (Source, usize);

/// In all four pairs of orders: the ping of channel 1 and number 5 is this one, and it is
/// handed back as it lies in its file.
fn comes(deposit: &[Shot], corrections: &[Shot], (from, nth): Whose) {
    for (order, other) in ORDERS
        .map(|order| ORDERS.map(|other| (order, other)))
        .concat()
    {
        let (deposit, own) = file_of(order, deposit);
        let (corrections, theirs) = file_of(other, corrections);
        let found = corrected(&deposit, &corrections, SoftwareChannel(1), 5).expect("a ping");
        let (file, places) = match from {
            Source::Deposit => (&deposit, own),
            Source::Corrections => (&corrections, theirs),
        };
        let part = &file[places[nth]..places[nth] + SHOT];
        assert_eq!((found.from, found.place), (from, places[nth]));
        assert!(std::ptr::eq(found.bytes, part), "the file's own bytes");
    }
}

/// A ping of the corrections with attribute 1 comes in the place of the deposit's own,
/// whether there is one or not.
#[test]
fn a_correction() {
    let correction = &[(1, 4, EDITED), (2, 5, EDITED), (1, 5, EDITED)];
    let whose = (Source::Corrections, 2);
    comes(&[(1, 4, 0), (1, 5, 0)], correction, whose);
    comes(&[(1, 5, EDITED)], correction, whose);
    comes(&[(2, 5, 0), (1, 6, 0)], correction, whose);
}

/// No other attribute corrects anything.
#[test]
fn other_attributes() {
    for attribute in OTHERS {
        let unedited = (1, 5, attribute);
        comes(&[(2, 5, 0), (1, 5, 0)], &[unedited], (Source::Deposit, 1));
        let both = &[unedited, (1, 5, EDITED)];
        comes(&[(1, 5, 0)], both, (Source::Corrections, 1));
    }
}

/// Of several the first in file order; in the deposit whatever its attribute.
#[test]
fn the_first_of_several() {
    let edited = (1, 5, EDITED);
    comes(
        &[edited],
        &[(1, 5, 0), edited, edited],
        (Source::Corrections, 1),
    );
    for attribute in OTHERS {
        let originals = &[(2, 5, EDITED), (1, 5, attribute), edited, (1, 5, 0)];
        comes(originals, &[(2, 5, EDITED)], (Source::Deposit, 1));
    }
}

/// A ping of each kind, from either file.
#[test]
fn every_kind_of_ping() {
    type Write = fn(&PingHeader, i32, Order, &mut [u8]) -> Result<usize, Refusal>;
    let writers: [Write; 7] = [
        |header, edited, order, out| write_u32(header, edited, &[3], &[5], order, out),
        |header, edited, order, out| write_c32(header, edited, &[3], &[5], None, order, out),
        |header, edited, order, out| {
            write_u32_16_angles(header, edited, &[3], &[5], &[6], order, out)
        },
        |header, edited, order, out| write_u16(header, edited, &[3], &[5], order, out),
        |header, edited, order, out| write_u16_angles(header, edited, &[3], &[5], &[6], order, out),
        |header, edited, order, out| write_c16(header, edited, &[], &[], Some(9), order, out),
        |header, edited, order, out| write_ce16(header, edited, &[3], &[5], None, order, out),
    ];
    for order in ORDERS {
        let mut file = begun(order);
        let places = writers.map(|write| {
            let header = PingHeader {
                ping_number: file.tuples as u32,
                ..header(2)
            };
            file.put(|order, out| write(&header, EDITED, order, out))
        });
        file.ended();
        for (place, kind) in places.into_iter().zip(PingKind::ALL) {
            let ping = read_ping(&file.bytes, place).expect("a ping");
            assert_eq!(ping.kind, *kind);
            let number = ping.header.ping_number;
            for (corrections, from) in [
                (NO_CORRECTIONS, Source::Deposit),
                (&file.bytes[..], Source::Corrections),
            ] {
                let found = corrected(&file.bytes, corrections, SoftwareChannel(2), number);
                let found = found.expect("a ping");
                assert_eq!((found.from, found.place), (from, place));
            }
        }
    }
}

/// A tuple of a type that isn't listed is no ping, in neither file.
#[test]
fn unlisted_types() {
    for order in ORDERS {
        let mut file = begun(order);
        let unlisted = put(&mut file, (1, 5, EDITED));
        file.retype(unlisted, LIKE_PING);
        let (deposit, _) = file_of(order, &[(1, 5, 0)]);
        file.ended();
        let found = corrected(&deposit, &file.bytes, SoftwareChannel(1), 5);
        assert_eq!(found.map(|found| found.from), Ok(Source::Deposit));
        assert_eq!(
            corrected(&file.bytes, &deposit, SoftwareChannel(1), 5),
            NEITHER
        );
    }
}

/// What 02 says where both files are accepted and neither holds the ping.
const NEITHER: Result<Corrected, NotFound> = Err(NotFound {
    whose: None,
    refusal: Refusal {
        code: Code::NotHeld,
        place: 0,
    },
});

/// Channel and number are looked at whole: neighbours and numbers turned about are others.
#[test]
fn channel_and_number() {
    let last = (u16::MAX, u32::MAX, EDITED);
    for order in ORDERS {
        let (file, places) = file_of(order, &[(1, 0x0102_0304, EDITED), (1, 0, EDITED), last]);
        for corrections in [NO_CORRECTIONS, &file] {
            let ask = |channel, number| {
                let found = corrected(&file, corrections, SoftwareChannel(channel), number);
                found.map(|found| found.place)
            };
            assert_eq!(ask(1, 0x0102_0304), Ok(places[0]));
            assert_eq!(ask(1, 0), Ok(places[1]));
            assert_eq!(ask(u16::MAX, u32::MAX), Ok(places[2]));
            for (channel, number) in [
                (1, 0x0403_0201),
                (1, 0x0304),
                (256, 0),
                (2, 0),
                (0, 0),
                (1, u32::MAX),
                (u16::MAX, 0),
            ] {
                assert_eq!(ask(channel, number), NEITHER.map(|found| found.place));
            }
        }
    }
}

fn refused(whose: Source, copy: &Damaged) -> Result<Corrected<'static>, NotFound> {
    Err(NotFound {
        whose: Some(whose),
        refusal: Refusal {
            code: Code::of(copy.code).expect("a code"),
            place: copy.place,
        },
    })
}

/// The deposit's own refusal, then that of the corrections, then 31.
#[test]
fn damaged_copies() {
    let known = Known::sample("cruise-lsb");
    let copies = damage::all(&known);
    let channel = SoftwareChannel(1);
    for copy in &copies {
        let deposit = refused(Source::Deposit, copy);
        for beside in [&known.bytes[..], &copy.bytes, NO_CORRECTIONS, b"no mark"] {
            for number in [1, 9] {
                assert_eq!(corrected(&copy.bytes, beside, channel, number), deposit);
            }
        }
        let corrections = refused(Source::Corrections, copy);
        for number in [1, 9] {
            let told = corrected(&known.bytes, &copy.bytes, channel, number);
            assert_eq!(told, corrections, "{}", copy.name);
        }
    }
    assert_eq!(corrected(&known.bytes, &known.bytes, channel, 9), NEITHER);
}

/// The file that corrects nothing: accepted, without a listed ping, and short.
#[test]
fn no_corrections() {
    let counts = Counts {
        tuples: 6,
        compared: 0,
    };
    assert_eq!(check(NO_CORRECTIONS), Ok(counts));
    assert_eq!(settings(NO_CORRECTIONS), Ok(vec![]));
    let tuples = Walk::START.forwards(NO_CORRECTIONS).map(Result::unwrap);
    let kinds: Vec<u16> = tuples.map(|tuple| tuple.kind).collect();
    assert_eq!(kinds, [65535, 29, 999, 9999, 10099, 65534]);
    assert!(kinds.iter().all(|kind| PingKind::of_type(*kind).is_none()));
    for channel in [0, 1, u16::MAX] {
        let channel = SoftwareChannel(channel);
        assert_eq!(
            corrected(NO_CORRECTIONS, NO_CORRECTIONS, channel, 0),
            NEITHER
        );
    }
}

/// With it a deposit is asked alone; so it is with corrections that hold none with
/// attribute 1, whatever else they hold.
#[test]
fn the_deposit_alone() {
    for name in SPELLINGS.iter().chain([&NORMAL]) {
        let known = Known::sample(name);
        for ping in known.pings() {
            assert_eq!(attribute(ping), 0);
            let (channel, number) = (SoftwareChannel(ping.two(12)), ping.four(16));
            let alone = corrected(&known.bytes, NO_CORRECTIONS, channel, number);
            let expected = Corrected {
                from: Source::Deposit,
                place: ping.place,
                bytes: &ping.bytes,
            };
            assert_eq!(alone, Ok(expected));
            assert_eq!(
                corrected(&known.bytes, &known.bytes, channel, number),
                alone
            );
        }
    }
}

/// A ping's attribute, which stands before the backlink.
fn attribute(ping: &Tuple) -> i32 {
    ping.four(ping.bytes.len() - 8) as i32
}

#[test]
fn in_words() {
    let known = Known::sample("cruise-lsb");
    let said = |deposit: &[u8], corrections: &[u8]| {
        let told = corrected(deposit, corrections, SoftwareChannel(1), 9);
        told.expect_err("no ping").to_string()
    };
    let no_mark = Code::NoMark.to_string();
    let file = &known.bytes[..];
    assert_eq!(said(b"", file), format!("deposit: {no_mark}, at 0"));
    assert_eq!(said(file, b""), format!("corrections: {no_mark}, at 0"));
    let neither = "31: neither file holds the ping, at 0";
    assert_eq!(said(file, file), neither);
    assert_eq!(Source::Corrections.to_string(), "corrections");
}

/// A sample with a sample of its own as corrections: a copy whose n-th ping is an edited one.
fn edited(known: &Known, nth: usize) -> Vec<u8> {
    let mut bytes = known.bytes.clone();
    let ping = known.pings()[nth];
    let at = ping.place + ping.bytes.len() - 8;
    let one = match known.order {
        Order::Lsb => at,
        Order::Msb => at + 3,
    };
    bytes[one] = 1;
    bytes
}

/// What the program prints first of a sample's ping, in the file of a name.
fn lines(ping: &Tuple, name: &Path, from: &str, written: &str) -> [String; 2] {
    let kind = if ping.kind() == 10000 { "U-32" } else { "C-32" };
    let length = ping.length().map_or(String::new(), |length| {
        format!(", length {length} samples, runs counted")
    });
    [
        format!(
            "{}: {from}, ping {kind} at {}, {} bytes{written}",
            name.display(),
            ping.place,
            ping.bytes.len()
        ),
        format!(
            "time fraction {}, time cpu {}, channel {}, transmitter mode {}, ping number {}, \
             detected bottom range {}, attribute {}, values {}{length}",
            ping.two(6),
            ping.four(8),
            ping.two(12),
            ping.two(14),
            ping.four(16),
            ping.four(20) as i32,
            attribute(ping),
            ping.samples().numbers.len()
        ),
    ]
}

/// The program's run for a sample's ping, with more arguments.
fn ran(deposit: &Path, ping: &Tuple, more: &[&str]) -> Ran {
    let name = [ping.two(12).to_string(), ping.four(16).to_string()];
    run(hac(["ping"]).arg(deposit).args(name).args(more))
}

#[test]
fn printed() {
    for name in SPELLINGS.iter().chain([&NORMAL]) {
        let known = Known::sample(name);
        for ping in known.pings() {
            let expected = lines(ping, &known.path, "deposit", "");
            let told = ran(&known.path, ping, &[]);
            assert_eq!(told.lines(), expected);
            assert_eq!((told.status, told.err.as_str()), (0, ""));

            // with its samples, as hac samples prints them
            let place = ping.place.to_string();
            let samples = run(hac(["samples"]).arg(&known.path).arg(place));
            let told = ran(&known.path, ping, &["--samples"]);
            assert_eq!(told.lines(), [expected.to_vec(), plain(&samples)].concat());
            assert_eq!((told.status, told.err.as_str()), (0, ""));
        }
    }
}

fn plain(ran: &Ran) -> Vec<String> {
    ran.lines().into_iter().map(String::from).collect()
}

/// From the corrections, whose name is printed, or else from the deposit.
#[test]
fn beside_a_deposit() {
    let room = Room::new();
    for name in SPELLINGS {
        let known = Known::sample(name);
        let path = room.put(format!("{name}.hac"), &edited(&known, 2));
        let beside = ["--corrections", path.to_str().expect("a plain name")];
        for (nth, ping) in known.pings().into_iter().enumerate() {
            let told = ran(&known.path, ping, &beside);
            let mut ping = ping.clone();
            let expected = if nth == 2 {
                let end = ping.place + ping.bytes.len();
                ping.bytes = edited(&known, 2)[ping.place..end].to_vec();
                assert_eq!(attribute(&ping), EDITED);
                lines(&ping, &path, "corrections", "")
            } else {
                lines(&ping, &known.path, "deposit", "")
            };
            assert_eq!(told.lines(), expected);
            assert_eq!((told.status, told.err.as_str()), (0, ""));
        }
    }
}

#[test]
fn objects() {
    let room = Room::new();
    let known = Known::sample("cruise-msb");
    let path = room.put("edited.hac", &edited(&known, 0));
    let ping = known.pings()[0];
    let beside = path.to_str().expect("a plain name");
    let told = ran(&known.path, ping, &["--json", "--corrections", beside]);
    assert_eq!((told.status, told.err.as_str()), (0, ""));
    let objects = json::objects(&told.out);
    let [object] = &objects[..] else {
        panic!("one object: {objects:?}");
    };
    let texts = ["file", "from", "name"].map(|key| object.text(key));
    assert_eq!(texts, [beside, "corrections", "ping C-32"]);
    for (key, number) in [
        ("place", ping.place as i128),
        ("type", 10010),
        ("length", ping.bytes.len() as i128),
        ("time_fraction", ping.two(6).into()),
        ("time_cpu", ping.four(8).into()),
        ("channel", ping.two(12).into()),
        ("transmitter_mode", ping.two(14).into()),
        ("ping_number", ping.four(16).into()),
        ("detected_bottom_range", (ping.four(20) as i32).into()),
        ("attribute", 1),
        ("values", ping.samples().numbers.len() as i128),
    ] {
        assert_eq!(object.number(key), number, "{key}");
    }
    let length = object.number_or_null("ping_length");
    assert_eq!(length, ping.length().map(i128::from));
}

/// Behind the ping's object one for each sample, and the length last.
#[test]
fn objects_of_samples() {
    let known = Known::sample("cruise-msb");
    let ping = known.pings()[0];
    let told = ran(&known.path, ping, &["--json", "--samples"]);
    let objects = json::objects(&told.out);
    assert_eq!(objects.len(), ping.samples().numbers.len() + 2);
    assert_eq!(objects[0].text("from"), "deposit");
    assert_eq!(objects[1].keys(), ["number", "value"]);
    assert_eq!(objects[objects.len() - 1].keys(), ["length"]);
}

/// OUT gets the tuple's own bytes, in the order of their file.
#[test]
fn out() {
    let room = Room::new();
    for name in SPELLINGS {
        let known = Known::sample(name);
        for ping in known.pings() {
            let out = room.put("ping", b"something before");
            let path = out.to_str().expect("a plain name");
            let told = ran(&known.path, ping, &["-o", path]);
            let written = format!(" written to {path}");
            assert_eq!(told.lines(), lines(ping, &known.path, "deposit", &written));
            assert_eq!((told.status, told.err.as_str()), (0, ""));
            assert_eq!(fs::read(&out).expect("OUT"), ping.bytes);
            let told = ran(&known.path, ping, &["-o", path, "--json"]);
            assert_eq!(json::objects(&told.out)[0].text("out"), path);
        }
    }
    assert_eq!(room.names(), ["ping"]);
}

/// The program's run for a ping of channel 1, with corrections and OUT.
fn writes(deposit: &Path, number: &str, corrections: &Path, out: &Path) -> Ran {
    let mut command = hac(["ping"]);
    command.arg(deposit).args(["1", number, "--corrections"]);
    run(command.arg(corrections).arg("-o").arg(out))
}

/// OUT is neither of the inputs, and stays as it was where there is no ping to write.
#[test]
fn no_out() {
    let room = Room::new();
    let known = Known::sample("cruise-lsb");
    let [deposit, corrections, damaged, kept] = [
        room.put("deposit.hac", &known.bytes),
        room.put("corrections.hac", &edited(&known, 0)),
        room.put("damaged.hac", b"no mark"),
        room.put("kept", b"before"),
    ];
    let before = room.names();
    for (ran, status) in [
        (writes(&deposit, "1", &corrections, &deposit), 2),
        (writes(&deposit, "1", &corrections, &corrections), 2),
        (writes(&deposit, "9", &corrections, &kept), 1),
        (writes(&damaged, "1", &corrections, &kept), 1),
        (writes(&deposit, "1", &damaged, &kept), 1),
    ] {
        assert_eq!((ran.status, ran.out.as_str()), (status, ""), "{}", ran.err);
    }
    let holds = |path: &Path, bytes: &[u8]| assert_eq!(fs::read(path).expect("a file"), bytes);
    holds(&deposit, &known.bytes);
    holds(&corrections, &edited(&known, 0));
    holds(&kept, b"before");
    assert_eq!(room.names(), before);
}

/// A refusal is said of the file that is refused, with what it is about, and as an
/// object on standard output too.
#[test]
fn refused_inputs() {
    let room = Room::new();
    let known = Known::sample("cruise-lsb");
    for copy in damage::all(&known) {
        let path = room.put(copy.name, &copy.bytes);
        let code = Code::of(copy.code).expect("a code");
        let said = format!(
            "hac: {}: refused, {code}, at {}{}\n",
            path.display(),
            copy.place,
            copy.advice
        );
        for (deposit, corrections) in [(&path, &known.path), (&known.path, &path)] {
            let mut command = hac(["ping", "--json"]);
            command
                .arg(deposit)
                .args(["1", "1", "--corrections"])
                .arg(corrections);
            let ran = run(&mut command);
            assert_eq!((ran.status, &ran.err), (1, &said));
            let objects = json::objects(&ran.out);
            let [object] = &objects[..] else {
                panic!("one object: {objects:?}");
            };
            assert_eq!(Path::new(object.text("file")), path);
            let numbers = ["code", "place"].map(|key| object.number(key));
            assert_eq!(numbers, [copy.code.into(), copy.place as i128]);
        }
    }
}

/// That neither holds the ping is said of the deposit; it is a refusal, too.
#[test]
fn neither_holds_it() {
    let known = Known::sample("cruise-lsb");
    let name = known.path.display();
    let said = format!("hac: {name}: refused, {}, at 0\n", Code::NotHeld);
    for more in [&[][..], &["--corrections", "samples/cruise-msb.hac"]] {
        for asked in [["1", "3"], ["4", "1"], ["65535", "4294967295"]] {
            let mut command = hac(["ping"]);
            command.arg(&known.path).args(asked).args(more);
            let ran = run(command.current_dir(repository("")));
            assert_eq!((ran.status, ran.out.as_str(), &ran.err), (1, "", &said));
        }
    }
}

/// Corrections that can't be read are said, with status 2.
#[test]
fn unread_corrections() {
    let room = Room::new();
    let known = Known::sample("cruise-lsb");
    for path in [room.at("none.hac"), room.path().to_path_buf()] {
        let mut command = hac(["ping"]);
        command
            .arg(&known.path)
            .args(["1", "1", "--corrections"])
            .arg(&path);
        let ran = run(&mut command);
        assert_eq!((ran.status, ran.out.as_str()), (2, ""));
        let start = format!("hac: {}: ", path.display());
        assert!(ran.err.starts_with(&start) && ran.err.lines().count() == 1);
    }
}

/// The host's paper shows what the command prints of the cruise.
#[test]
fn the_paper() {
    let paper = fs::read_to_string(repository("host/README.md")).expect("the paper");
    let (_, shown) = paper
        .split_once("    $ hac ping samples/cruise-lsb.hac 1 1\n")
        .expect("the command");
    let shown = shown.lines().map_while(|line| line.strip_prefix("    "));
    let mut command = hac(["ping", "samples/cruise-lsb.hac", "1", "1"]);
    let ran = run(command.current_dir(repository("")));
    assert_eq!((ran.status, ran.err.as_str()), (0, ""));
    assert_eq!(ran.lines(), shown.collect::<Vec<_>>());
}
