//! `hac record`: every tuple of the samples, its fields held to TR's tables.

use crate::damage;
use crate::deposit::{Deposit, ORDERS};
use crate::json::{self, Value};
use crate::known::{repository, Known, Tuple};
use crate::records;
use crate::room::{hac, run, Ran, Room};
use hac::{Channel, Code, DocumentId, Maker, Order, SoftwareChannel, REMARK};
use std::fs;
use std::path::Path;

/// A field: TR's name in small letters, and what one of it is, nothing where TR has it
/// without a unit.
type Field = (&'static str, &'static str);

/// TR's tables, the attribute last: of the thirteen records, and of a ping before its
/// samples. The bottom level of a Biosonics channel is here that of Sv and TS.
const TABLES: [(u16, &[Field]); 14] = [
    (
        65535,
        &[
            ("hac version", "0.01"),
            ("acquisition software version", "0.01"),
            ("acquisition software identifier", ""),
            ("tuple attribute", ""),
        ],
    ),
    (
        100,
        &[
            ("number of software channels", ""),
            ("echosounder document identifier", ""),
            ("sound speed", "0.1 m/s"),
            ("ping interval", "0.01 s"),
            ("transmitter attenuation setting", "0.1 dB"),
            ("multiplexing mode", ""),
            ("blanking at tvg max range", ""),
            ("tvg max range", "0.1 m"),
            ("blanking up to range", "0.1 m"),
            ("calibrator signal", "1 dB"),
            ("calibrator mode", ""),
            ("calibrator separator", "0.1 m"),
            ("tuple attribute", ""),
        ],
    ),
    (
        200,
        &[
            ("number of software channels", ""),
            ("echosounder document identifier", ""),
            ("sound speed", "0.1 m/s"),
            ("ping mode", ""),
            ("ping interval", "0.01 s"),
            ("transmit power", ""),
            ("noise margin", "1 dB"),
            ("sample range", "1 m"),
            ("super layer type", ""),
            ("super layer number", ""),
            ("super layer range", "0.1 m"),
            ("super layer start", "0.1 m"),
            ("super layer margin", "0.1 m"),
            ("super layer sv threshold", "1 dB"),
            ("ek 500 version", "0.01"),
            ("tuple attribute", ""),
        ],
    ),
    (
        1000,
        &[
            ("software channel identifier", ""),
            ("echosounder document identifier", ""),
            ("sampling rate", "1 samples/s"),
            ("type of data sample", ""),
            ("time varied gain mode", ""),
            ("transceiver channel number", ""),
            ("acoustic frequency", "1 Hz"),
            ("installation depth of transducer", "0.01 m"),
            (
                "alongship angle offset of the transducer face",
                "0.1 degrees",
            ),
            (
                "athwartship angle offset of the transducer face",
                "0.1 degrees",
            ),
            (
                "alongship angle offset of the main axis of the acoustic beam",
                "0.1 degrees",
            ),
            (
                "athwartship angle offset of the main axis of the acoustic beam",
                "0.1 degrees",
            ),
            ("absorption of sound", "0.01 dB/km"),
            ("pulse length", "0.1 ms"),
            ("bandwidth", "0.01 kHz"),
            ("calibration source level", "0.01 dB μPa @ 1 m"),
            ("beamwidth 3 db of the transducer beam", "0.1 degrees"),
            ("beam pattern", "0.000001"),
            ("wide beam drop off", "0.0001"),
            ("calibration receiving sensitivity", "0.01 dB v / μPa @ 1 m"),
            ("receiver gain", "0.01 dB"),
            ("bottom detection minimum level", "0.01 dB"),
            ("bottom window min", "0.01 m"),
            ("bottom window max", "0.01 m"),
            ("tuple attribute", ""),
        ],
    ),
    (
        2000,
        &[
            ("software channel identifier", ""),
            ("echosounder document identifier", ""),
            ("sampling rate", "1 samples/s"),
            ("type of data sample", ""),
            ("transceiver channel number", ""),
            ("acoustic frequency", "1 Hz"),
            ("installation depth of transducer", "0.01 m"),
            (
                "alongship angle offset of the transducer face",
                "0.1 degrees",
            ),
            (
                "athwartship angle offset of the transducer face",
                "0.1 degrees",
            ),
            (
                "alongship angle offset of the main axis of the acoustic beam",
                "0.1 degrees",
            ),
            (
                "athwartship angle offset of the main axis of the acoustic beam",
                "0.1 degrees",
            ),
            ("absorption of sound", "0.01 dB/km"),
            ("pulse length mode", ""),
            ("bandwidth mode", ""),
            ("max power", "1 watt"),
            ("alongship angle sensitivity", "0.1"),
            ("athwartship angle sensitivity", "0.1"),
            ("alongship 3 db beamwidth of the transducer", "0.1 degrees"),
            (
                "athwartship 3 db beamwidth of the transducer",
                "0.1 degrees",
            ),
            ("two way beam angle", "0.01 dB"),
            ("calibration transducer gain", "0.01 dB"),
            ("bottom detection minimum level", "0.01 dB"),
            ("bottom window min depth", "0.01 m"),
            ("bottom window max depth", "0.01 m"),
            ("tuple attribute", ""),
        ],
    ),
    (
        20,
        &[
            ("time fraction", "0.0001 s"),
            ("time cpu", "1 s"),
            ("gps time", "1 s"),
            ("positioning system", ""),
            ("latitude", "0.000001 degrees"),
            ("longitude", "0.000001 degrees"),
            ("tuple attribute", ""),
        ],
    ),
    (
        30,
        &[
            ("time fraction", "0.0001 s"),
            ("time cpu", "1 s"),
            ("navigation system", ""),
            ("heading", "0.1 degrees"),
            ("navigation speed", "0.001 m/s"),
            ("tuple attribute", ""),
        ],
    ),
    (
        40,
        &[
            ("time fraction", "0.0001 s"),
            ("time cpu", "1 s"),
            ("software channel identifier", ""),
            ("platform referred to", ""),
            ("alongship offset", "0.01 m"),
            ("athwartship offset", "0.01 m"),
            ("pitch", "0.1 degrees"),
            ("roll", "0.1 degrees"),
            ("heave", "0.01 m"),
            ("tuple attribute", ""),
        ],
    ),
    (
        10100,
        &[
            ("time fraction", "0.0001 s"),
            ("time cpu", "1 s"),
            ("software channel identifier", ""),
            ("tvg max range", "0.1 m"),
            ("tvg min range", "0.1 m"),
            ("tvt evaluation mode", ""),
            ("tvt evaluation interval", "1 s"),
            ("tvt evaluation no of pings", ""),
            ("tvt evaluation starting tvt ping number", ""),
            ("tvt offset parameter or constant threshold", "0.000001"),
            ("tvt amplification parameter", "0.000001"),
            ("tuple attribute", ""),
        ],
    ),
    (
        10110,
        &[
            ("time fraction", "0.0001 s"),
            ("time cpu", "1 s"),
            ("tuple attribute", ""),
        ],
    ),
    (
        65516,
        &[
            ("time fraction", "0.0001 s"),
            ("time cpu", "1 s"),
            ("tuple attribute", ""),
        ],
    ),
    (
        65517,
        &[
            ("time fraction", "0.0001 s"),
            ("time cpu", "1 s"),
            ("tuple attribute", ""),
        ],
    ),
    (
        65534,
        &[
            ("time fraction", "0.0001 s"),
            ("time cpu", "1 s"),
            ("closing mode", ""),
            ("tuple attribute", ""),
        ],
    ),
    (
        10000,
        &[
            ("time fraction", "0.0001 s"),
            ("time cpu", "1 s"),
            ("software channel identifier", ""),
            ("transmitter mode", ""),
            ("ping number", ""),
            ("detected bottom range", "0.001 m"),
            ("tuple attribute", ""),
        ],
    ),
];

const PING: u16 = 10000;

/// What the bottom level of a Biosonics channel of volts is.
const VOLTS: Field = ("bottom detection minimum level", "0.001 volts");

/// A Biosonics channel whose samples are volts, by TR Table 4.
fn is_of_volts(tuple: &Tuple) -> bool {
    tuple.kind() == Channel::CODE && tuple.two(16) == 0
}

fn fields_of(kind: u16) -> Option<&'static [Field]> {
    let found = TABLES.iter().find(|(code, _)| *code == kind);
    found.map(|(_, fields)| *fields)
}

/// A number in a unit, by its digits: `0.01 m` puts the point before the last two.
fn in_unit(number: i64, unit: &str) -> String {
    let (scale, name) = unit.split_once(' ').unwrap_or((unit, ""));
    let places = scale.split_once('.').map_or(0, |(_, digits)| digits.len());
    let sign = if number < 0 { "-" } else { "" };
    let mut digits = format!("{:0>least$}", number.unsigned_abs(), least = places + 1);
    if places > 0 {
        digits.insert(digits.len() - places, '.');
    }
    format!("{sign}{digits} {name}").trim_end().into()
}

/// What is known of a tuple: its fields and their numbers, and the lines behind them.
struct Expected {
    fields: Vec<(Field, i64)>,
    behind: Vec<(&'static str, String)>,
}

/// A ping's numbers by their places, the attribute last.
fn ping_numbers(tuple: &Tuple) -> Vec<i64> {
    vec![
        tuple.two(6).into(),
        tuple.four(8).into(),
        tuple.two(12).into(),
        tuple.two(14).into(),
        tuple.four(16).into(),
        (tuple.four(20) as i32).into(),
        (tuple.four(tuple.bytes.len() - 8) as i32).into(),
    ]
}

/// How many samples a ping has, and its length, are the reader's, whose own tests hold it.
fn expected_of_ping(known: &Known, tuple: &Tuple) -> Expected {
    let ping = hac::read_ping(&known.bytes, tuple.place).expect("a ping");
    let fields = fields_of(PING).expect("a ping's").iter().copied();
    let number = |number: String| format!("{number:>11}");
    let length = ping
        .length
        .map(|length| format!("{length:>11}  samples, runs counted"));
    let behind = [
        ("kind", number(ping.kind.to_string())),
        ("values", number(ping.values.to_string())),
    ];
    Expected {
        fields: fields.zip(ping_numbers(tuple)).collect(),
        behind: behind
            .into_iter()
            .chain(length.map(|length| ("length", length)))
            .collect(),
    }
}

fn expected(known: &Known, tuple: &Tuple) -> Expected {
    if tuple.is_ping() {
        return expected_of_ping(known, tuple);
    }
    let Some(fields) = fields_of(tuple.kind()) else {
        let raw = (tuple.bytes.len() - 10).to_string();
        return Expected {
            fields: Vec::new(),
            behind: vec![("raw bytes", raw)],
        };
    };
    let (numbers, characters) = records::told(tuple);
    assert_eq!(fields.len(), numbers.len());
    let text = String::from_utf8(characters).expect("plain characters");
    let name = match tuple.kind() {
        10110 => "text",
        65534 => "data",
        _ => "remarks",
    };
    let has_text = [100, 200, 1000, 2000, 10110, 65534].contains(&tuple.kind());
    let fields = fields.iter().map(|field| match field.0 {
        name if name == VOLTS.0 && is_of_volts(tuple) => VOLTS,
        _ => *field,
    });
    Expected {
        fields: fields.zip(numbers).collect(),
        behind: has_text
            .then(|| (name, format!("\"{text}\"")))
            .into_iter()
            .collect(),
    }
}

fn lines(tuple: &Tuple, expected: &Expected) -> Vec<String> {
    let kind = tuple.kind();
    let first = format!(
        "{} at {}, type {kind}, {} bytes",
        hac::types::name(kind),
        tuple.place,
        tuple.bytes.len()
    );
    let fields = &expected.fields;
    let width = fields.iter().map(|((name, _), _)| name.len()).max();
    let width = width.unwrap_or_default();
    let fields = fields.iter().map(|((name, unit), number)| {
        let line = format!("{name:<width$}  {number:>11}");
        match *unit {
            "" => line,
            unit => format!("{line}  {}", in_unit(*number, unit)),
        }
    });
    let behind = expected.behind.iter();
    let behind = behind.map(|(name, text)| format!("{name:<width$}  {text}"));
    [first].into_iter().chain(fields).chain(behind).collect()
}

/// All thirteen records and the seven kinds of ping stand in these.
const SAMPLES: [&str; 6] = [
    "cruise-lsb",
    "cruise-msb",
    "splitbeam-lsb",
    "splitbeam-msb",
    "encodings-lsb",
    "encodings-msb",
];

fn record(path: &Path, place: usize) -> Ran {
    run(hac(["record"]).arg(path).arg(place.to_string()))
}

#[test]
fn every_tuple() {
    let mut kinds = Vec::new();
    for sample in SAMPLES {
        let known = Known::sample(sample);
        for tuple in &known.tuples {
            let ran = record(&known.path, tuple.place);
            assert_eq!((ran.status, ran.err.as_str()), (0, ""));
            assert_eq!(ran.lines(), lines(tuple, &expected(&known, tuple)));
            kinds.push(tuple.kind());
        }
    }
    kinds.sort();
    kinds.dedup();
    let listed = kinds.iter().filter(|kind| {
        let name = hac::types::name(**kind);
        !["index", "unlisted"].contains(&name)
    });
    assert_eq!(listed.count(), 13 + 7);
}

/// A value of an object as a line has it.
fn spelled(value: &Value) -> String {
    match value {
        Value::Number(number) => number.to_string(),
        Value::Decimal(digits) => digits.clone(),
        other => panic!("no number: {other:?}"),
    }
}

fn holds_object(object: &Value, tuple: &Tuple, expected: &Expected) {
    let numbers = ["place", "type", "length"].map(|key| object.number(key));
    let told = [tuple.place, tuple.kind().into(), tuple.bytes.len()];
    assert_eq!(numbers, told.map(|number| number as i128));
    assert_eq!(object.text("name"), hac::types::name(tuple.kind()));
    let in_units = object.get("in_units");
    let mut with_units = Vec::new();
    for ((name, unit), number) in &expected.fields {
        let key = name.replace(' ', "_");
        assert_eq!(object.number(&key), i128::from(*number), "{key}");
        if unit.is_empty() {
            continue;
        }
        let told = in_units.get(&key);
        let told = format!("{} {}", spelled(told.get("value")), told.text("unit"));
        assert_eq!(told.trim_end(), in_unit(*number, unit), "{key}");
        with_units.push(key);
    }
    assert_eq!(in_units.keys(), with_units);
}

#[test]
fn objects() {
    for sample in ["splitbeam-msb", "encodings-lsb"] {
        let known = Known::sample(sample);
        for tuple in &known.tuples {
            let place = tuple.place.to_string();
            let ran = run(hac(["record", "--json"]).arg(&known.path).arg(place));
            assert_eq!((ran.status, ran.err.as_str()), (0, ""));
            let objects = json::objects(&ran.out);
            assert_eq!(objects.len(), 1);
            holds_object(&objects[0], tuple, &expected(&known, tuple));
        }
    }
}

/// What an object has beside the numbers: a text, a ping's samples, or raw bytes.
#[test]
fn beside_the_numbers() {
    let known = Known::sample("cruise-lsb");
    let object = |place: &str| {
        let ran = run(hac(["record", "--json"]).arg(&known.path).arg(place));
        json::objects(&ran.out).remove(0)
    };
    assert_eq!(object("740").text("text"), "transect 4 begins   ");
    assert_eq!(object("1356").text("data"), "ok");
    let remarks = format!("{:<1$}", "hull, serial 0417", REMARK);
    assert_eq!(object("112").text("remarks"), remarks);
    let ping = object("780");
    assert_eq!(ping.text("kind"), "C-32");
    assert_eq!(
        (ping.number("values"), ping.number("ping_length")),
        (12, 1905)
    );
    let ping = object("1084");
    assert_eq!(ping.text("kind"), "U-32");
    assert_eq!(ping.number_or_null("ping_length"), None);
    assert_eq!(object("1336").number("raw_bytes"), 10);
}

/// The level that the bottom is found by is volts or dB as the samples are, TR Table 4;
/// for samples that TR has no unit for it is the number alone.
#[test]
fn bottom_levels() {
    let room = Room::new();
    for (kind, told) in [
        (0, "-4200  -4.200 volts"),
        (1, "-4200  -42.00 dB"),
        (2, "-4200  -42.00 dB"),
        (3, "-4200"),
        (4, "-4200"),
    ] {
        let mut file = Deposit::begun(Order::Msb);
        let place = file.channel_of(Channel {
            software_channel_identifier: SoftwareChannel(1),
            echosounder_document_identifier: DocumentId(1),
            type_of_data_sample: kind,
            bottom_detection_minimum_level: -4200,
            ..Channel::default()
        });
        let path = room.put("channel.hac", &file.bytes);
        let ran = record(&path, place);
        let mut lines = ran.lines().into_iter();
        let line = lines.find(|line| line.starts_with("bottom detection minimum level"));
        assert!(line.expect("a level").ends_with(&format!(" {told}")));
    }
}

/// Characters are the depositor's: what steers a terminal is escaped, and in objects what
/// is no UTF-8 stands exactly beside.
#[test]
fn characters() {
    let room = Room::new();
    let mut remarks = [b' '; REMARK];
    remarks[..6].copy_from_slice(b"\x1b[2J\xff\n");
    for order in ORDERS {
        let mut file = Deposit::begun(order);
        let place = file.put(|order, out| Channel::default().write(&remarks, order, out));
        let path = room.put("remarks.hac", &file.bytes);
        let ran = record(&path, place);
        let shown = format!("\"\\u{{1b}}[2J\\xff\\u{{a}}{:24}\"", "");
        assert!(ran.lines().last().expect("remarks").ends_with(&shown));
        let ran = run(hac(["record", "--json"]).arg(&path).arg(place.to_string()));
        let object = &json::objects(&ran.out)[0];
        let digits: String = remarks.iter().map(|byte| format!("{byte:02x}")).collect();
        assert_eq!(object.text("remarks_bytes"), digits);
    }
}

/// A type that TR doesn't list isn't interpreted, whatever its bytes are like.
#[test]
fn unlisted() {
    let room = Room::new();
    let mut file = Deposit::begun(Order::Lsb);
    let place = file.sounder_by(Maker::Simrad, 1, 1);
    file.retype(place, 201);
    let path = room.put("unlisted.hac", &file.bytes);
    let ran = record(&path, place);
    let first = format!("unlisted at {place}, type 201, 80 bytes");
    assert_eq!(ran.lines(), [first.as_str(), "raw bytes  70"]);
    assert_eq!(ran.status, 0);
}

/// A place where no tuple starts is refused as a step from there is, at the end by 3.
#[test]
fn refused_places() {
    let known = Known::sample("cruise-lsb");
    let end = known.bytes.len();
    for (place, code) in [
        (0, Code::CutShort),
        (5, Code::BadLength),
        (end - 4, Code::CutShort),
        (end, Code::CutShort),
        (end + 1, Code::CutShort),
        (usize::MAX, Code::CutShort),
    ] {
        let ran = record(&known.path, place);
        let name = known.path.display();
        let said = format!("hac: {name}: refused, {code}, at {place}\n");
        assert_eq!((ran.status, ran.out.as_str(), &ran.err), (1, "", &said));
    }
}

/// Of a ping whose samples are wrong the refusal says which; the tuples around it can
/// still be read, for a record looks at its place alone.
#[test]
fn damaged_pings() {
    let room = Room::new();
    let known = Known::sample("cruise-lsb");
    let copies = damage::all(&known).into_iter();
    let copies = copies.filter(|copy| copy.is_in_samples());
    let mut seen = 0;
    for copy in copies {
        let path = room.put(copy.name, &copy.bytes);
        let mut pings = known.pings().into_iter().rev();
        let ping = pings.find(|ping| ping.place <= copy.place).expect("a ping");
        let ran = record(&path, ping.place);
        let code = Code::of(copy.code).expect("a code");
        let (name, at) = (path.display(), copy.place);
        let said = format!("hac: {name}: refused, {code}, at {at}{}\n", copy.advice);
        assert_eq!((ran.status, ran.out.as_str(), &ran.err), (1, "", &said));
        assert_eq!(record(&path, known.first(1000).place).status, 0);
        seen += 1;
    }
    assert!(seen >= 3, "one of each code");
}

/// The host's paper shows what the command prints of the cruise.
#[test]
fn the_paper() {
    let paper = fs::read_to_string(repository("host/README.md")).expect("the paper");
    let (_, shown) = paper
        .split_once("    $ hac record samples/cruise-lsb.hac 112\n")
        .expect("the command");
    let shown = shown.lines().map_while(|line| line.strip_prefix("    "));
    let mut command = hac(["record", "samples/cruise-lsb.hac", "112"]);
    let ran = run(command.current_dir(repository("")));
    assert_eq!((ran.status, ran.err.as_str()), (0, ""));
    assert_eq!(ran.lines(), shown.collect::<Vec<_>>());
}
