//! `hac show`: what the samples hold, told from their lines; and files among others that
//! are refused or can't be read.

use crate::damage;
use crate::deposit::{header, Deposit};
use crate::edits::{index_of, types_of};
use crate::json::{self, Value};
use crate::known::{accepted, repository, Known, Tuple};
use crate::room::{hac, run, Ran, Room};
use hac::*;
use std::collections::BTreeMap;
use std::ffi::OsStr;
use std::fs;
use std::os::unix::ffi::OsStrExt;
use std::os::unix::fs::symlink;
use std::path::Path;

const SAMPLES: [&str; 11] = [
    "cruise-lsb",
    "cruise-lsb-cut",
    "cruise-msb",
    "cruise-msb-cut",
    "cruise-normal",
    "splitbeam-lsb",
    "splitbeam-msb",
    "splitbeam-normal",
    "encodings-lsb",
    "encodings-msb",
    "encodings-normal",
];

/// The seconds since 1970 of the morning of 14 July 1998, on which the samples begin.
const MORNING: u32 = 900_406_800;
const DAY: u32 = 86_400;

/// A time within a minute of a morning of the samples, by a calendar.
fn date((seconds, fraction): (u32, i64)) -> String {
    let since = seconds - MORNING;
    let (day, second) = (14 + since / DAY, since % DAY);
    assert!(second < 60 && (0..10_000).contains(&fraction));
    format!("1998-07-{day}T09:00:{second:02}.{fraction:04}")
}

/// A position's degrees, from millionths.
fn degrees(millionths: i32) -> String {
    let sign = if millionths < 0 { "-" } else { "" };
    let digits = format!("{:0>7}", millionths.unsigned_abs());
    let (whole, part) = digits.split_at(digits.len() - 6);
    format!("{sign}{whole}.{part}")
}

/// TR's words for a type of data sample, Table 4 for type 1000 and Table 5 for 2000.
fn words(kind: u16, type_of_data_sample: u16) -> &'static str {
    match (kind, type_of_data_sample) {
        (1000, 0) => "volts",
        (1000, 1) => "Sv (scattering volume in dB)",
        (1000, 2) => "TS (target strength of single targets in dB)",
        (1000, 3) => "offaxis mechanical angles of single targets",
        (2000, 0) => "electrical phase angle from the split-beam analysis",
        (2000, 1) => "power (raw Sv before the TVG)",
        (2000, 2) => "Sv (scattering volume)",
        (2000, 3) => "TS (target strength)",
        other => panic!("not in TR: {other:?}"),
    }
}

fn maker(kind: u16) -> &'static str {
    match kind {
        100 | 1000 => "Biosonics",
        200 | 2000 => "Simrad",
        _ => panic!("{kind} has no maker"),
    }
}

/// A ping's samples: told of words, by the tuple's length of numbered samples.
fn samples_of(ping: &Tuple) -> usize {
    let bytes = ping.bytes.len() - 32;
    match ping.kind() {
        10000 | 10001 => bytes / 8,
        10030 => bytes / 4,
        10031 => bytes / 6,
        _ => ping.four(24) as usize,
    }
}

/// What a sample holds, as its lines tell it.
struct Held {
    first: (u32, i64),
    last: (u32, i64),
    latitudes: Vec<i32>,
    longitudes: Vec<i32>,
    /// Pings and samples by channel and type.
    pings: BTreeMap<(u16, u16), (usize, usize)>,
}

impl Held {
    fn by(known: &Known) -> Held {
        let positions = || known.of(20);
        let pings = known.pings();
        let times = pings.iter().map(|ping| (ping.four(8), ping.two(6).into()));
        let times = times.chain(positions().map(|at| (at.four(8), i64::from(at.two(6) as i16))));
        let times: Vec<_> = times.collect();
        let mut tallies = BTreeMap::new();
        for ping in pings {
            let tally: &mut (usize, usize) =
                tallies.entry((ping.two(12), ping.kind())).or_default();
            tally.0 += 1;
            tally.1 += samples_of(ping);
        }
        let [mut latitudes, mut longitudes] = [20, 24].map(|place| {
            let numbers = positions().map(|at| at.four(place) as i32);
            numbers.collect::<Vec<_>>()
        });
        latitudes.sort();
        longitudes.sort();
        Held {
            first: *times.iter().min().expect("a time"),
            last: *times.iter().max().expect("a time"),
            latitudes,
            longitudes,
            pings: tallies,
        }
    }

    /// The kinds of ping of a channel.
    fn of(&self, channel: u16) -> impl Iterator<Item = (u16, usize, usize)> + '_ {
        let range = (channel, 0)..=(channel, u16::MAX);
        let tallies = self.pings.range(range);
        tallies.map(|((_, kind), (pings, samples))| (*kind, *pings, *samples))
    }
}

/// The sounders or the channels of a sample, by the identifier at a place.
fn sorted<'a>(
    tuples: impl Iterator<Item = &'a Tuple>,
    identifier: fn(&Tuple) -> u32,
) -> Vec<&'a Tuple> {
    let mut tuples: Vec<&Tuple> = tuples.collect();
    tuples.sort_by_key(|tuple| identifier(tuple));
    tuples
}

fn sounders(known: &Known) -> Vec<&Tuple> {
    sorted(known.sounders(), |tuple| tuple.four(8))
}

fn channels(known: &Known) -> Vec<&Tuple> {
    sorted(known.channels(), |tuple| tuple.two(6).into())
}

fn frequency(channel: &Tuple) -> u32 {
    match channel.kind() {
        1000 => channel.four(24),
        _ => channel.four(20),
    }
}

/// How many other tuples there are, in the page's order and under its names.
fn counted(known: &Known) -> Vec<(&'static str, usize)> {
    let of = |kind| known.of(kind).count();
    let index = known.tuples.iter().map(Tuple::kind);
    let index = index.filter(|kind| (65406..=65515).contains(kind));
    vec![
        ("positions", of(20)),
        ("navigations", of(30)),
        ("attitudes", of(40)),
        ("thresholds", of(10100)),
        ("event markers", of(10110)),
        ("starts of run", of(65516)),
        ("ends of run", of(65517)),
        ("index tuples", index.count()),
        ("unlisted tuples", 0),
    ]
}

/// The Index 1 tuples of a sample: place, whether they list what they have to, and what they
/// list.
fn indexes(known: &Known) -> Vec<(usize, &'static str, Vec<u16>)> {
    let types = types_of(&known.tuples);
    let indexes = known.of(65406).map(|index| {
        let list = (12..index.bytes.len().saturating_sub(8)).step_by(2);
        let mut list: Vec<u16> = list.map(|at| index.two(at)).collect();
        // the space behind an odd number
        list.pop_if(|last| *last == 0);
        let truth = if list == types { "true" } else { "stale" };
        (index.place, truth, list)
    });
    indexes.collect()
}

/// What the page says of them.
fn index_lines(known: &Known) -> Vec<String> {
    let indexes = indexes(known).into_iter().map(|(place, truth, types)| {
        let types = types.iter();
        let types: Vec<String> = types
            .map(|kind| format!("{kind} {}", types::name(*kind)))
            .collect();
        let types = match types.is_empty() {
            true => "no types".into(),
            false => types.join(", "),
        };
        format!("  index        at {place}, {truth}: {types}")
    });
    let lines: Vec<String> = indexes.collect();
    match lines.is_empty() {
        true => vec!["  index        none".into()],
        false => lines,
    }
}

fn channel_lines(channel: &Tuple, held: &Held) -> Vec<String> {
    let identifier = channel.two(6);
    let first = format!(
        "  channel      {identifier}, echosounder {}, {} Hz, {} samples/s, {}",
        channel.four(8),
        frequency(channel),
        channel.four(12),
        words(channel.kind(), channel.two(16))
    );
    let pings = held.of(identifier).map(|(kind, pings, samples)| {
        let name = types::name(kind);
        format!("{:15}{name}: pings {pings}, samples {samples}", "")
    });
    [first].into_iter().chain(pings).collect()
}

/// The page of a sample behind its first line, which is the check's.
fn page(known: &Known) -> Vec<String> {
    let held = Held::by(known);
    let order = match known.order {
        Order::Lsb => "least",
        Order::Msb => "most",
    };
    let (length, first, last) = (known.bytes.len(), date(held.first), date(held.last));
    let ends = |numbers: &[i32]| {
        let [least, most] =
            [numbers.first(), numbers.last()].map(|end| degrees(*end.expect("one")));
        format!("{least} to {most} degrees")
    };
    let mut lines = vec![
        format!("  length       {length} bytes, {order} significant byte first"),
        format!("  time         {first} to {last}, by the recorder's clock"),
        format!("  latitude     {}", ends(&held.latitudes)),
        format!("  longitude    {}", ends(&held.longitudes)),
    ];
    for sounder in sounders(known) {
        let (document, maker) = (sounder.four(8), maker(sounder.kind()));
        lines.push(format!("  echosounder  {document}, {maker}"));
    }
    for channel in channels(known) {
        lines.extend(channel_lines(channel, &held));
    }
    lines.extend(index_lines(known));
    let counted = counted(known).into_iter();
    let counted: Vec<String> = counted
        .map(|(name, count)| format!("{name} {count}"))
        .collect();
    lines.push(format!("  tuples       {}", counted.join(", ")));
    lines
}

fn show(path: &Path) -> Ran {
    run(hac(["show"]).arg(path))
}

#[test]
fn pages() {
    for sample in SAMPLES {
        let known = Known::sample(sample);
        let ran = show(&known.path);
        assert_eq!((ran.status, ran.err.as_str()), (0, ""));
        let (first, rest) = ran.out.split_once('\n').expect("a line");
        assert_eq!(
            format!("{first}\n"),
            run(hac(["check"]).arg(&known.path)).out
        );
        assert_eq!(rest.lines().collect::<Vec<_>>(), page(&known));
    }
}

/// A number of seconds or degrees as an object spells it.
fn decimal(object: &Value, key: &str) -> String {
    match object.get(key) {
        Value::Decimal(digits) => digits.clone(),
        other => panic!("no decimal: {other:?}"),
    }
}

fn holds_channel(object: &Value, channel: &Tuple, held: &Held) {
    let keys = ["channel", "sounder", "acoustic_frequency", "sampling_rate"];
    let told: [u32; 4] = [
        channel.two(6).into(),
        channel.four(8),
        frequency(channel),
        channel.four(12),
    ];
    assert_eq!(keys.map(|key| object.number(key)), told.map(i128::from));
    let kind = channel.two(16);
    assert_eq!(object.number("type_of_data_sample"), kind.into());
    assert_eq!(object.text("data_sample"), words(channel.kind(), kind));
    assert_eq!(object.text("maker"), maker(channel.kind()));
    let pings = object.list("pings").iter().map(|tally| {
        let numbers = ["type", "pings", "samples"].map(|key| tally.number(key));
        assert_eq!(tally.text("name"), types::name(numbers[0] as u16));
        numbers
    });
    let expected = held
        .of(channel.two(6))
        .map(|(kind, pings, samples)| [kind.into(), pings as i128, samples as i128]);
    assert_eq!(pings.collect::<Vec<_>>(), expected.collect::<Vec<_>>());
}

fn holds_times(object: &Value, held: &Held) {
    for (end, time) in [("first", held.first), ("last", held.last)] {
        let seconds = format!("{}.{:04}", time.0, time.1);
        assert_eq!(decimal(object, &format!("{end}_time")), seconds);
        assert_eq!(object.text(&format!("{end}_date")), date(time));
    }
}

fn holds_box(object: &Value, held: &Held) {
    for (way, numbers) in [
        ("latitude", &held.latitudes),
        ("longitude", &held.longitudes),
    ] {
        let [least, most] = ["least", "most"].map(|end| decimal(object, &format!("{end}_{way}")));
        assert_eq!(least, degrees(numbers[0]));
        assert_eq!(most, degrees(numbers[numbers.len() - 1]));
    }
}

/// The indexes that an object tells.
fn told_indexes(object: &Value) -> Vec<(usize, &str, Vec<u16>)> {
    let told = object.list("indexes").iter().map(|index| {
        let types = index.list("types").iter().map(|kind| {
            let number = kind.number("type") as u16;
            assert_eq!(kind.text("name"), types::name(number));
            number
        });
        let place = index.number("place") as usize;
        (place, index.text("list"), types.collect())
    });
    told.collect()
}

fn holds_lists(object: &Value, known: &Known, held: &Held) {
    let (made, fed) = (object.list("sounders"), object.list("channels"));
    assert_eq!(made.len(), known.sounders().count());
    for (told, sounder) in made.iter().zip(sounders(known)) {
        assert_eq!(told.number("sounder"), sounder.four(8).into());
        assert_eq!(told.text("maker"), maker(sounder.kind()));
    }
    assert_eq!(fed.len(), known.channels().count());
    for (told, channel) in fed.iter().zip(channels(known)) {
        holds_channel(told, channel, held);
    }
}

#[test]
fn objects() {
    for sample in SAMPLES {
        let known = Known::sample(sample);
        let held = Held::by(&known);
        let ran = run(hac(["show", "--json"]).arg(&known.path));
        assert_eq!((ran.status, ran.err.as_str()), (0, ""));
        let objects = json::objects(&ran.out);
        let [object] = &objects[..] else {
            panic!("one object: {objects:?}");
        };
        assert_eq!(object.text("file"), known.path.to_str().expect("a name"));
        assert_eq!(object.text("outcome"), "accepted");
        assert_eq!(object.number("tuples"), known.tuples.len() as i128);
        assert_eq!(object.number("length"), known.bytes.len() as i128);
        let order = format!("{:?}", known.order).to_uppercase();
        assert_eq!(object.text("byte_order"), order);
        holds_times(object, &held);
        holds_box(object, &held);
        holds_lists(object, &known, &held);
        assert_eq!(told_indexes(object), indexes(&known));
        for (name, count) in counted(&known) {
            assert_eq!(object.number(&name.replace(' ', "_")), count as i128);
        }
    }
}

/// A deposit whose clock was set back, with a position before 1970, a type of data sample
/// that TR doesn't list, a channel without pings, and unlisted tuples.
fn odd() -> Deposit {
    let mut file = Deposit::begun(Order::Msb);
    file.sounder_by(Maker::Simrad, u32::MAX, 2);
    file.ek500_channel_of(Ek500Channel {
        software_channel_identifier: SoftwareChannel(u16::MAX),
        echosounder_document_identifier: DocumentId(u32::MAX),
        sampling_rate: u32::MAX,
        type_of_data_sample: 4,
        acoustic_frequency: u32::MAX,
        ..Ek500Channel::default()
    });
    file.channel_by(Maker::Simrad, 0, u32::MAX);
    let late = PingHeader {
        time_fraction: 9999,
        time_cpu: u32::MAX,
        ..header(u16::MAX)
    };
    file.put(|order, out| write_u16(&late, 0, &[0], &[5], order, out));
    file.ping_c32(u16::MAX);
    let place = file.ping_u32(u16::MAX);
    file.retype(place, 10099);
    let before = Position {
        time_fraction: -1,
        latitude: i32::MIN,
        longitude: -1,
        ..Position::default()
    };
    file.put(|order, out| before.write(order, out));
    file
}

#[test]
fn odd_deposits() {
    let room = Room::new();
    let mut file = odd();
    let path = room.put("odd.hac", file.ended());
    let ran = show(&path);
    assert_eq!((ran.status, ran.err.as_str()), (0, ""));
    let length = file.bytes.len();
    let expected = [
        format!("  length       {length} bytes, most significant byte first"),
        "  time         1969-12-31T23:59:59.9999 to 2106-02-07T06:28:15.9999, by the recorder's clock".into(),
        "  latitude     -2147.483648 to 0.000000 degrees".into(),
        "  longitude    -0.000001 to 0.000000 degrees".into(),
        "  echosounder  4294967295, Simrad".into(),
        "  channel      0, echosounder 4294967295, 0 Hz, 0 samples/s, electrical phase angle from the split-beam analysis".into(),
        "  channel      65535, echosounder 4294967295, 4294967295 Hz, 4294967295 samples/s, type of data sample 4, which TR doesn't list".into(),
        "               ping C-32: pings 1, samples 1".into(),
        "               ping U-16: pings 1, samples 1".into(),
        "  index        none".into(),
        "  tuples       positions 2, navigations 0, attitudes 0, thresholds 0, event markers 0, starts of run 0, ends of run 0, index tuples 0, unlisted tuples 1".into(),
    ];
    assert_eq!(ran.lines()[1..], expected);
    let ran = run(hac(["show", "--json"]).arg(&path));
    let object = &json::objects(&ran.out)[0];
    assert_eq!(decimal(object, "first_time"), "-0.0001");
    assert_eq!(decimal(object, "least_longitude"), "-0.000001");
    let channels = object.list("channels");
    assert_eq!(channels[0].list("pings"), []);
    assert_eq!(channels[1].get("data_sample"), &Value::Null);
}

/// A deposit whose only position and only ping are of types that TR doesn't list: nobody
/// knows when and where it was recorded.
#[test]
fn neither_time_nor_place() {
    let room = Room::new();
    let mut file = Deposit::begun(Order::Lsb);
    let position = FIRST_PLACE + 24;
    file.retype(position, 29);
    file.sounder(1, 1);
    file.channel(1, 1);
    let ping = file.ping_u32(1);
    file.retype(ping, 10099);
    let path = room.put("unlisted.hac", file.ended());
    let ran = show(&path);
    assert_eq!((ran.status, ran.err.as_str()), (0, ""));
    let heads: Vec<&str> = ran.lines()[1..]
        .iter()
        .map(|line| line[..13].trim())
        .collect();
    assert_eq!(
        heads,
        ["length", "echosounder", "channel", "index", "tuples"]
    );
    let ran = run(hac(["show", "--json"]).arg(&path));
    let object = &json::objects(&ran.out)[0];
    for key in [
        "first_time",
        "first_date",
        "last_time",
        "last_date",
        "least_latitude",
        "most_latitude",
        "least_longitude",
        "most_longitude",
    ] {
        assert_eq!(object.get(key), &Value::Null, "{key}");
    }
    assert_eq!(object.number("unlisted_tuples"), 2);
}

/// Of more than one index each is told; one that repeats a type, lacks one or has one too
/// many is stale, and so is one in another order of types.
#[test]
fn several_indexes() {
    let room = Room::new();
    for order in [Order::Lsb, Order::Msb] {
        let mut file = Deposit::begun(order);
        let fresh = [20, 100, 1000, 10000, 65534, 65535];
        let mut doubled = fresh.to_vec();
        doubled.insert(1, 20);
        let turned: Vec<u16> = fresh.iter().rev().copied().collect();
        let lists = [&fresh[..], &fresh[..5], &doubled, &turned, &[], &[65406]];
        let mut expected = Vec::new();
        for (list, truth) in lists.iter().zip(["true"].into_iter().chain(["stale"; 5])) {
            let place = file.put_bytes(&index_of(order, list));
            expected.push((place, truth, list.to_vec()));
        }
        file.sounder(1, 1);
        file.channel(1, 1);
        file.ping_u32(1);
        let path = room.put("several.hac", file.ended());
        let ran = run(hac(["show", "--json"]).arg(&path));
        let object = &json::objects(&ran.out)[0];
        assert_eq!(told_indexes(object), expected);
        let ran = show(&path);
        let lines = ran.lines().into_iter();
        let lines: Vec<&str> = lines.filter(|line| line.contains("  index  ")).collect();
        assert_eq!(lines.len(), 6);
        let place = expected[0].0;
        let first = format!(
            "  index        at {place}, true: 20 position, 100 echosounder Biosonics, \
             1000 channel Biosonics, 10000 ping U-32, 65534 end of file, 65535 signature"
        );
        assert_eq!(lines[0], first);
        assert!(lines[4].ends_with(", stale: no types"), "{}", lines[4]);
        assert!(lines[5].ends_with(", stale: 65406 index"), "{}", lines[5]);
    }
}

/// Refused files, and what can't be read, are told as the check tells them, in their
/// turn; the others go on.
#[test]
fn among_others() {
    let room = Room::new();
    let known = Known::sample("cruise-lsb");
    for copy in damage::all(&known) {
        room.put(format!("{}.hac", copy.name), &copy.bytes);
    }
    room.put("a.hac", &known.bytes);
    room.put("z.hac", &known.bytes);
    for (link, status) in [(false, 1), (true, 2)] {
        if link {
            symlink(room.at("a.hac"), room.at("m-link.hac")).expect("a link");
        }
        let checked = run(hac(["check"]).arg(room.path()));
        let shown = show(room.path());
        assert_eq!((shown.status, checked.status), (status, status));
        assert_eq!(shown.err, checked.err);
        let verdicts = shown.out.lines().filter(|line| !line.starts_with(' '));
        let checked = checked.out.lines();
        let checked = checked.take_while(|line| !line.starts_with("files "));
        assert_eq!(verdicts.collect::<Vec<_>>(), checked.collect::<Vec<_>>());
        let pages = shown.out.lines().filter(|line| line.starts_with(' '));
        let both = [page(&known), page(&known)].concat();
        assert_eq!(pages.collect::<Vec<_>>(), both);
    }
}

/// The same as objects, each a file's: no summary stands behind them.
#[test]
fn objects_among_others() {
    let room = Room::new();
    let known = Known::sample("cruise-lsb");
    let names = [&b"a.hac"[..], b"b\xff.hac", b"c.hac"];
    let [sound, odd, broken] = names.map(|name| room.at(OsStr::from_bytes(name)));
    fs::write(&sound, &known.bytes).expect("a file");
    fs::write(&odd, &known.bytes).expect("a file");
    fs::write(&broken, &known.bytes[..100]).expect("a file");
    let ran = run(hac(["show", "--json"])
        .args([&sound, &odd, &broken])
        .arg(room.at("none.hac")));
    assert_eq!(ran.status, 2);
    assert_eq!(ran.err.lines().count(), 1);
    let objects = json::objects(&ran.out);
    let outcomes: Vec<&str> = objects
        .iter()
        .map(|object| object.text("outcome"))
        .collect();
    assert_eq!(outcomes, ["accepted", "accepted", "refused", "unread"]);
    let bytes = odd.as_os_str().as_bytes().iter();
    let digits: String = bytes.map(|byte| format!("{byte:02x}")).collect();
    assert_eq!(objects[1].text("file_bytes"), digits);
    let checked = run(hac(["check", "--json"]).arg(&broken));
    assert_eq!(objects[2], json::objects(&checked.out)[0]);
}

/// A name is shown as the check shows it, and standard input is a deposit too.
#[test]
fn names_and_standard_input() {
    let room = Room::new();
    let known = Known::sample("cruise-lsb");
    let path = room.put(OsStr::from_bytes(b"\x1b[2J\n.hac"), &known.bytes);
    let ran = show(&path);
    let first = format!("{}/\\u{{1b}}[2J\\u{{a}}.hac: ", room.path().display());
    assert!(ran.out.starts_with(&first), "{}", ran.out);
    let input = fs::File::open(&path).expect("a file");
    let ran = run(hac(["show", "-"]).stdin(input));
    let first = format!("-: {}", accepted(known.counts()));
    assert_eq!((ran.status, ran.lines()[0]), (0, first.as_str()));
    assert_eq!(ran.lines()[1..], page(&known));
}

/// The host's paper shows what the command prints of the split-beam survey.
#[test]
fn the_paper() {
    let paper = fs::read_to_string(repository("host/README.md")).expect("the paper");
    let (_, shown) = paper
        .split_once("    $ hac show samples/splitbeam-lsb.hac\n")
        .expect("the command");
    let shown = shown.lines().map_while(|line| line.strip_prefix("    "));
    let mut command = hac(["show", "samples/splitbeam-lsb.hac"]);
    let ran = run(command.current_dir(repository("")));
    assert_eq!((ran.status, ran.err.as_str()), (0, ""));
    assert_eq!(ran.lines(), shown.collect::<Vec<_>>());
}
