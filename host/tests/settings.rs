//! Which settings held at each ping: by the library, and by `hac settings`. What held is
//! written down here by hand from 02, of files put together tuple by tuple; of the samples
//! it is told by their lines.

use crate::damage;
use crate::deposit::{header, Deposit, ORDERS};
use crate::json;
use crate::kinds::SPELLINGS as ENCODINGS;
use crate::known::{repository, Known, Tuple, COMPARED, NORMAL, SPELLINGS};
use crate::normal::refused;
use crate::room::{hac, run, Room};
use hac::*;
use std::fs;

/// Types that aren't listed: beside the threshold's, beside the attitude's, and one of the
/// class of pings.
const LIKE_THRESHOLD: u16 = 10101;
const LIKE_ATTITUDE: u16 = 41;
const LIKE_PING: u16 = 10002;

/// What means all channels in an attitude, and there alone.
const ALL: u16 = SoftwareChannel::ALL.0;

/// The bytes of the shortest ping, which is U-16 and has one sample.
const SHORTEST: usize = 36;

/// What lent slices hold before a call: no place of a tuple here.
const FILLED: usize = 7;

/// What held at a ping.
fn at(
    ping: usize,
    threshold: impl Into<Option<usize>>,
    attitude: impl Into<Option<usize>>,
) -> Setting {
    Setting {
        ping,
        threshold: threshold.into(),
        attitude: attitude.into(),
    }
}

/// The three slices, of so many entries each.
type Lent = [Vec<usize>; 3];

/// The call with slices of so many entries, and what it leaves of them.
fn try_with(file: &[u8], entries: [usize; 3]) -> (Result<Filled, Refusal>, Lent) {
    let mut lent = entries.map(|entries| vec![FILLED; entries]);
    let [pings, thresholds, attitudes] = &mut lent;
    let told = settings_into(file, pings, thresholds, attitudes);
    (told, lent)
}

/// What is counted, with as many entries as a file of this length can need.
pub fn told(file: &[u8]) -> Result<Filled, Refusal> {
    try_with(file, [file.len() / SHORTEST; 3]).0
}

/// A sounder with channels 1 and 2.
fn begun(order: Order) -> Deposit {
    let mut deposit = Deposit::begun(order);
    deposit.sounder(7, 2);
    deposit.channel(1, 7);
    deposit.channel(2, 7);
    deposit
}

/// What is told of a deposit, once it is ended; the check's counts are told beside it.
fn tells(mut deposit: Deposit, expected: &[Setting]) {
    let file = deposit.ended();
    assert_eq!(settings(file), Ok(expected.to_vec()));
    let Counts { tuples, compared } = check(file).expect("an accepted file");
    let counted = Filled {
        tuples,
        entries: expected.len(),
        compared,
    };
    assert_eq!(told(file), Ok(counted));
}

/// Of several thresholds the last before a ping; none before the first, and none of
/// another channel.
#[test]
fn the_last_threshold_of_the_channel() {
    for order in ORDERS {
        let mut file = begun(order);
        let before_all = file.ping_u32(1);
        let first = file.threshold(1);
        let [one, other] = [file.ping_u32(1), file.ping_c32(2)];
        let of_other = file.threshold(2);
        file.threshold(1);
        let last = file.threshold(1);
        let [again, other_again] = [file.ping_c32(1), file.ping_u32(2)];
        // behind the last ping
        file.threshold(1);
        tells(
            file,
            &[
                at(before_all, None, None),
                at(one, first, None),
                at(other, None, None),
                at(again, last, None),
                at(other_again, of_other, None),
            ],
        );
    }
}

/// An attitude is for a channel or for all: of both the last before a ping counts.
#[test]
fn the_last_attitude_of_the_channel_or_of_all() {
    for order in ORDERS {
        let mut file = begun(order);
        let before_all = file.ping_u32(2);
        let own = file.attitude(1);
        let [one, other] = [file.ping_u32(1), file.ping_u32(2)];
        let for_all = file.attitude(ALL);
        let [one_behind, other_behind] = [file.ping_u32(1), file.ping_u32(2)];
        let own_again = file.attitude(1);
        let [one_last, other_last] = [file.ping_u32(1), file.ping_u32(2)];
        // for all behind the last ping
        file.attitude(ALL);
        tells(
            file,
            &[
                at(before_all, None, None),
                at(one, None, own),
                at(other, None, None),
                at(one_behind, None, for_all),
                at(other_behind, None, for_all),
                at(one_last, None, own_again),
                at(other_last, None, for_all),
            ],
        );
    }
}

/// For all are also channels that are declared behind it, of either maker.
#[test]
fn for_channels_declared_later() {
    for order in ORDERS {
        let mut file = Deposit::begun(order);
        let for_all = file.attitude(ALL);
        file.sounder_by(Maker::Simrad, 8, 1);
        file.channel_by(Maker::Simrad, 500, 8);
        let ping = file.ping_u32(500);
        tells(file, &[at(ping, None, for_all)]);
    }
}

/// 65535 is a channel like others for a ping and for a threshold; in an attitude it is all
/// channels even where it is declared.
#[test]
fn a_channel_65535() {
    for order in ORDERS {
        let mut file = Deposit::begun(order);
        file.sounder(7, 2);
        file.channel(1, 7);
        file.channel(ALL, 7);
        let threshold = file.threshold(ALL);
        let for_all = file.attitude(ALL);
        let [one, all] = [file.ping_u32(1), file.ping_u32(ALL)];
        let own = file.attitude(1);
        let [one_again, all_again] = [file.ping_u32(1), file.ping_u32(ALL)];
        tells(
            file,
            &[
                at(one, None, for_all),
                at(all, threshold, for_all),
                at(one_again, None, own),
                at(all_again, threshold, for_all),
            ],
        );
    }
}

/// Clocks that run backward: the file's order decides.
#[test]
fn clocks_are_not_looked_at() {
    let channel = SoftwareChannel(1);
    for order in ORDERS {
        let mut file = begun(order);
        let mut set = |time_cpu| {
            let threshold = Threshold {
                time_cpu,
                software_channel_identifier: channel,
                ..Threshold::default()
            };
            let attitude = Attitude {
                time_cpu,
                software_channel_identifier: channel,
                ..Attitude::default()
            };
            let threshold = file.put(|order, out| threshold.write(order, out));
            (threshold, file.put(|order, out| attitude.write(order, out)))
        };
        set(u32::MAX);
        set(900);
        let (threshold, attitude) = set(800);
        let header = PingHeader {
            time_cpu: 850,
            ..header(1)
        };
        let ping = file.put(|order, out| write_u32(&header, 0, &[0], &[5], order, out));
        // by their clocks, 0, before the ping
        file.threshold(1);
        file.attitude(1);
        tells(file, &[at(ping, threshold, attitude)]);
    }
}

/// A ping of each kind is told.
#[test]
fn every_kind_of_ping() {
    type Write = fn(&PingHeader, Order, &mut [u8]) -> Result<usize, Refusal>;
    let writers: [Write; 7] = [
        |header, order, out| write_u32(header, 0, &[3], &[5], order, out),
        |header, order, out| write_c32(header, 0, &[3], &[5], None, order, out),
        |header, order, out| write_u32_16_angles(header, 0, &[3], &[5], &[6], order, out),
        |header, order, out| write_u16(header, 0, &[3], &[5], order, out),
        |header, order, out| write_u16_angles(header, 0, &[3], &[5], &[6], order, out),
        |header, order, out| write_c16(header, 0, &[], &[], Some(9), order, out),
        |header, order, out| write_ce16(header, 0, &[3], &[5], None, order, out),
    ];
    for order in ORDERS {
        let mut file = begun(order);
        let (threshold, attitude) = (file.threshold(2), file.attitude(2));
        let pings = writers.map(|write| file.put(|order, out| write(&header(2), order, out)));
        let kinds = pings.map(|place| read_ping(&file.bytes, place).expect("a ping").kind);
        assert_eq!(kinds[..], PingKind::ALL[..]);
        tells(file, &pings.map(|ping| at(ping, threshold, attitude)));
    }
}

/// Tuples of types that aren't listed set nothing, and are no pings.
#[test]
fn unlisted_types() {
    for order in ORDERS {
        let mut file = begun(order);
        let (threshold, attitude) = (file.threshold(1), file.attitude(1));
        let put = [
            (file.threshold(1), LIKE_THRESHOLD),
            (file.attitude(ALL), LIKE_ATTITUDE),
            (file.ping_u32(1), LIKE_PING),
        ];
        for (place, kind) in put {
            file.retype(place, kind);
        }
        let ping = file.ping_u32(1);
        tells(file, &[at(ping, threshold, attitude)]);
    }
}

/// A file without a listed ping needs no room.
#[test]
fn no_listed_ping() {
    for order in ORDERS {
        let mut file = begun(order);
        file.threshold(1);
        let place = file.ping_u32(1);
        file.retype(place, LIKE_PING);
        let (told, _) = try_with(file.clone().ended(), [0; 3]);
        assert_eq!(told.map(|filled| filled.entries), Ok(0));
        tells(file, &[]);
    }
}

/// As many pings as bytes can hold: none is left out for want of room.
#[test]
fn the_shortest_pings() {
    for order in ORDERS {
        let mut file = begun(order);
        let attitude = file.attitude(ALL);
        let pings: Vec<usize> = (0..3000).map(|_| file.ping_u16(1)).collect();
        assert!(pings.windows(2).all(|two| two[1] - two[0] == SHORTEST));
        let expected: Vec<Setting> = pings.iter().map(|ping| at(*ping, None, attitude)).collect();
        tells(file, &expected);
    }
}

/// All samples: of both makers, in both orders, with all kinds of ping.
fn samples() -> Vec<Known> {
    let others = [
        NORMAL,
        "splitbeam-lsb",
        "splitbeam-msb",
        "splitbeam-normal",
        "encodings-normal",
    ];
    let names = SPELLINGS.iter().chain(&ENCODINGS).chain(&others);
    names.map(|name| Known::sample(name)).collect()
}

/// Where the last of some tuples of a type stands that names one of these channels.
fn last_of(tuples: &[Tuple], kind: u16, channels: &[u16]) -> Option<usize> {
    let mut backwards = tuples.iter().rev();
    let names = |tuple: &Tuple| channels.contains(&tuple.two(12));
    let last = backwards.find(|tuple| tuple.kind() == kind && names(tuple));
    last.map(|tuple| tuple.place)
}

/// 02's sentence, said of a sample's lines: of the tuples before each ping the last that
/// sets something for its channel.
fn held(known: &Known) -> Vec<Setting> {
    let tuples = known.tuples.iter().enumerate();
    let settings = tuples
        .filter(|(_, tuple)| tuple.is_ping())
        .map(|(nth, ping)| {
            let (before, channel) = (&known.tuples[..nth], ping.two(12));
            let threshold = last_of(before, types::THRESHOLD, &[channel]);
            let attitude = last_of(before, types::ATTITUDE, &[channel, ALL]);
            at(ping.place, threshold, attitude)
        });
    settings.collect()
}

#[test]
fn of_the_samples() {
    for known in samples() {
        let expected = held(&known);
        assert_eq!(expected.len(), known.pings().len());
        assert!(expected.iter().any(|setting| setting.threshold.is_none()));
        assert!(expected.iter().any(|setting| setting.threshold.is_some()));
        assert_eq!(settings(&known.bytes), Ok(expected));
    }
}

/// What the three slices get.
fn written(settings: &[Setting]) -> Lent {
    let rows = settings.iter().map(|setting| {
        let [threshold, attitude] = [setting.threshold, setting.attitude];
        [setting.ping, threshold.unwrap_or(0), attitude.unwrap_or(0)]
    });
    let rows: Vec<[usize; 3]> = rows.collect();
    [0, 1, 2].map(|slice| rows.iter().map(|row| row[slice]).collect())
}

/// Entries past those written stay, in slices of whatever lengths.
#[test]
fn lent_slices() {
    let known = Known::sample("cruise-msb");
    let expected = held(&known);
    let pings = expected.len();
    let counted = Filled {
        tuples: known.tuples.len(),
        entries: pings,
        compared: COMPARED,
    };
    for entries in [[pings; 3], [pings + 9, pings, pings + 1]] {
        let (told, lent) = try_with(&known.bytes, entries);
        assert_eq!(told, Ok(counted));
        for (slice, written) in lent.iter().zip(written(&expected)) {
            assert_eq!(slice[..pings], written);
            assert!(slice[pings..].iter().all(|entry| *entry == FILLED));
        }
    }
}

/// A slice that is too short, whichever it is, is 19 at 0.
#[test]
fn short_slices() {
    let known = Known::sample("cruise-msb");
    let pings = known.pings().len();
    let (short, room) = (pings - 1, pings + 9);
    for entries in [
        [short, pings, pings],
        [pings, short, pings],
        [pings, pings, short],
        [0, room, room],
        [room, 0, room],
        [room, room, 0],
        [short; 3],
        [0; 3],
    ] {
        leaves(&known.bytes, entries, Code::NoRoom, 0);
    }
}

/// Refused, and nothing is written.
fn leaves(file: &[u8], entries: [usize; 3], code: Code, place: usize) {
    let (told, lent) = try_with(file, entries);
    assert_eq!(told, refused(code, place), "{entries:?}");
    let mut left = lent.iter().flatten();
    assert!(left.all(|entry| *entry == FILLED), "{entries:?}");
}

/// Refusals are the check's, and come before 19.
#[test]
fn damaged_copies() {
    for copy in damage::all(&Known::sample("cruise-lsb")) {
        let code = Code::of(copy.code).expect("a code");
        assert_eq!(
            settings(&copy.bytes),
            refused(code, copy.place),
            "{}",
            copy.name
        );
        for entries in [[0; 3], [0, 9, 9], [9; 3]] {
            leaves(&copy.bytes, entries, code, copy.place);
        }
    }
}

/// What the program prints of a setting.
fn line(known: &Known, setting: &Setting) -> String {
    let ping = ping_at(known, setting.ping);
    let shown = |place: Option<usize>| place.map_or("-".to_string(), |place| place.to_string());
    format!(
        "{:>8}  {:>5}  {:>10}  {:>8}  {:>8}",
        setting.ping,
        ping.two(12),
        ping.four(16),
        shown(setting.threshold),
        shown(setting.attitude)
    )
}

/// The sample's tuple at a place.
fn ping_at(known: &Known, place: usize) -> &Tuple {
    let mut tuples = known.tuples.iter();
    tuples.find(|tuple| tuple.place == place).expect("a tuple")
}

#[test]
fn lines() {
    for known in samples() {
        let held = held(&known);
        let expected: Vec<String> = held.iter().map(|setting| line(&known, setting)).collect();
        let ran = run(hac(["settings"]).arg(&known.path));
        assert_eq!(ran.lines(), expected);
        assert_eq!((ran.status, ran.err.as_str()), (0, ""));
    }
}

/// What the host's paper shows below a command of its own line.
pub fn shown(command: &str) -> Vec<String> {
    let paper = fs::read_to_string(repository("host/README.md")).expect("the paper");
    let (_, shown) = paper
        .split_once(&format!("    $ hac {command}\n"))
        .expect("the command");
    let shown = shown.lines().map_while(|line| line.strip_prefix("    "));
    shown.map(String::from).collect()
}

/// The host's paper shows what the command prints of the cruise.
#[test]
fn the_paper() {
    let mut command = hac(["settings", "samples/cruise-lsb.hac"]);
    let ran = run(command.current_dir(repository("")));
    assert_eq!((ran.status, ran.err.as_str()), (0, ""));
    assert_eq!(ran.lines(), shown("settings samples/cruise-lsb.hac"));
}

#[test]
fn objects() {
    let known = Known::sample("splitbeam-msb");
    let ran = run(hac(["settings", "--json"]).arg(&known.path));
    assert_eq!((ran.status, ran.err.as_str()), (0, ""));
    let (objects, expected) = (json::objects(&ran.out), held(&known));
    assert_eq!(objects.len(), expected.len());
    let keys = [
        "place",
        "channel",
        "ping_number",
        "threshold_place",
        "attitude_place",
    ];
    for (object, setting) in objects.iter().zip(&expected) {
        let ping = ping_at(&known, setting.ping);
        assert_eq!(object.keys(), keys);
        assert_eq!(object.number("place"), setting.ping as i128);
        assert_eq!(object.number("channel"), ping.two(12).into());
        assert_eq!(object.number("ping_number"), ping.four(16).into());
        let places = ["threshold_place", "attitude_place"].map(|key| object.number_or_null(key));
        let told = [setting.threshold, setting.attitude];
        assert_eq!(places, told.map(|place| place.map(|place| place as i128)));
    }
}

/// A file without listed pings has no lines.
#[test]
fn no_lines() {
    let room = Room::new();
    let mut file = begun(Order::Msb);
    let place = file.ping_u32(1);
    file.retype(place, LIKE_PING);
    let path = room.put("none.hac", file.ended());
    for arguments in [&["settings"][..], &["settings", "--json"]] {
        let ran = run(hac(arguments).arg(&path));
        assert_eq!(
            (ran.status, ran.out.as_str(), ran.err.as_str()),
            (0, "", "")
        );
    }
}

/// Of a refused file no line comes: the refusal is said on standard error, with what it
/// is about, and as an object on standard output too.
#[test]
fn refused_inputs() {
    let room = Room::new();
    for copy in damage::all(&Known::sample("cruise-lsb")) {
        let path = room.put(copy.name, &copy.bytes);
        let (name, place) = (path.display(), copy.place);
        let code = Code::of(copy.code).expect("a code");
        let said = format!("hac: {name}: refused, {code}, at {place}{}\n", copy.advice);
        let ran = run(hac(["settings"]).arg(&path));
        assert_eq!((ran.status, ran.out.as_str(), &ran.err), (1, "", &said));
        let ran = run(hac(["settings", "--json"]).arg(&path));
        assert_eq!((ran.status, &ran.err), (1, &said));
        let objects = json::objects(&ran.out);
        let [object] = &objects[..] else {
            panic!("one object: {objects:?}");
        };
        assert_eq!(object.text("outcome"), "refused");
        let numbers = ["code", "place"].map(|key| object.number(key));
        assert_eq!(numbers, [copy.code.into(), place as i128]);
    }
}
