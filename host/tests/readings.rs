//! Readings for a viewer: by the library, and by `hac readings`. What a number reads is worked
//! out here from 02 and TR's tables.

use crate::damage;
use crate::deposit::{Deposit, ORDERS, VALUED};
use crate::json;
use crate::known::{repository, Known};
use crate::normal::refused;
use crate::room::{hac, run, Room};
use hac::*;

/// A type of data sample that has readings: whose, its number, what it reads.
type Row = (Maker, u16, fn(f64) -> Reading);

/// TR's Tables 4 and 5.
const READ: [Row; 5] = [
    (Maker::Biosonics, 0, Reading::Volts),
    (Maker::Biosonics, 1, Reading::Sv),
    (Maker::Biosonics, 2, Reading::Ts),
    (Maker::Simrad, 2, Reading::Sv),
    (Maker::Simrad, 3, Reading::Ts),
];

/// And what is said of those that have none.
const UNREAD: [(Maker, u16, &str); 5] = [
    (
        Maker::Biosonics,
        3,
        "has offaxis mechanical angles of single targets, not volts, Sv or TS",
    ),
    (
        Maker::Biosonics,
        4,
        "has type of data sample 4, which TR doesn't list",
    ),
    (
        Maker::Simrad,
        0,
        "has electrical phase angle from the split-beam analysis, not volts, Sv or TS",
    ),
    (
        Maker::Simrad,
        1,
        "has power (raw Sv before the TVG), not volts, Sv or TS",
    ),
    (
        Maker::Simrad,
        4,
        "has type of data sample 4, which TR doesn't list",
    ),
];

/// Values that every kind has, and of which none is a double in any unit but 0.
const VALUES: [i32; 4] = [-7001, 0, 3, 4095];
const NUMBERS: [u32; 4] = [0, 2, 3, 70];

/// The number is converted without loss and divided with one rounding, by what the kind has in
/// a volt or a dB; every other number is silent.
#[test]
fn every_kind_and_type() {
    for order in ORDERS {
        for (maker, sample, read) in READ {
            for (kind, volt, decibel) in VALUED {
                let mut deposit = Deposit::of_samples(order, maker, sample);
                // what C-32 has no word for
                let values = match kind {
                    PingKind::C32 => VALUES.map(|value| value * 1000),
                    _ => VALUES,
                };
                let place = deposit.ping_of(kind, &NUMBERS, &values);
                let units = match read(0.0) {
                    Reading::Volts(_) => volt,
                    _ => decibel,
                };
                let mut expected = vec![Reading::Silent; 80];
                for (number, value) in NUMBERS.iter().zip(values) {
                    expected[*number as usize] = read(f64::from(value) / f64::from(units));
                }
                let told = readings(deposit.ended(), place, 0, 80);
                assert_eq!(told.as_ref(), Ok(&expected), "{kind}");
            }
        }
    }
}

/// A window begins anywhere, and past the last number that there is all is silent.
#[test]
fn windows() {
    let mut deposit = Deposit::of_samples(Order::Msb, Maker::Biosonics, 1);
    let place = deposit.ping_of(PingKind::U32, &[3, u32::MAX], &[-5, -6]);
    let silent = deposit.silent_ping(9);
    let file = deposit.ended();
    let [first, last] = [-5, -6].map(|value| Reading::Sv(f64::from(value) / 1e6));
    let at = |from, count| readings(file, place, from, count).expect("readings");
    assert_eq!(at(0, 0), []);
    assert_eq!(at(2, 3), [Reading::Silent, first, Reading::Silent]);
    assert_eq!(at(4, 2), [Reading::Silent; 2]);
    let end = u32::MAX as usize;
    assert_eq!(at(end, 3), [last, Reading::Silent, Reading::Silent]);
    assert_eq!(at(end + 4, 2), [Reading::Silent; 2]);
    assert_eq!(at(usize::MAX - 1, 3), [Reading::Silent; 3]);
    assert_eq!(readings(file, silent, 0, 12), Ok(vec![Reading::Silent; 12]));
}

/// As many readings as the shorter slice has entries, and a longer one's others stay.
#[test]
fn lent_slices() {
    let known = Known::sample("cruise-lsb");
    let counts = check(&known.bytes).expect("accepted");
    for (cases, doubles) in [(3, 3), (2, 5), (5, 2), (0, 4), (4, 0)] {
        let (mut cases, mut doubles) = (vec![9; cases], vec![9.0; doubles]);
        let entries = cases.len().min(doubles.len());
        let told = readings_into(&known.bytes, 780, 848, &mut cases, &mut doubles);
        let filled = Filled {
            tuples: counts.tuples,
            entries,
            compared: counts.compared,
        };
        assert_eq!(told, Ok(filled));
        let expected = [(2, -54.177229), (0, 0.0), (0, 0.0)];
        for (nth, (case, double)) in expected.into_iter().take(entries).enumerate() {
            assert_eq!((cases[nth], doubles[nth]), (case, double));
        }
        assert!(cases[entries..].iter().all(|case| *case == 9));
        assert!(doubles[entries..].iter().all(|double| *double == 9.0));
    }
}

/// 30 at the ping, and why.
fn is_refused(mut deposit: Deposit, place: usize, words: &str) {
    let file = deposit.ended();
    let code = Code::NoReading;
    let (mut cases, mut doubles) = ([9; 4], [9.0; 4]);
    let told = readings_into(file, place, 0, &mut cases, &mut doubles);
    assert_eq!(told, refused(code, place));
    assert_eq!((cases, doubles), ([9; 4], [9.0; 4]));
    let refusal = Refusal { code, place };
    let advice = ping_advice(file, place, refusal).expect("words");
    assert_eq!(advice.words, words);
    assert_eq!(ping_advice(file, place + 4, refusal), None);
}

#[test]
fn no_readings() {
    for order in ORDERS {
        for (maker, sample, words) in UNREAD {
            for (kind, ..) in VALUED {
                let mut deposit = Deposit::of_samples(order, maker, sample);
                let place = deposit.ping_of(kind, &[3], &[5]);
                is_refused(deposit, place, &format!("channel 1 {words}"));
            }
        }
        for (maker, sample, _) in READ {
            let mut deposit = Deposit::of_samples(order, maker, sample);
            let place = deposit.ping_of_angles();
            is_refused(deposit, place, ANGLES);
        }
    }
}

const ANGLES: &str = "ping U-16-angles has angles, not volts, Sv or TS";

/// Before that as asking refuses.
#[test]
fn damaged_copies() {
    for copy in damage::all(&Known::sample("cruise-lsb")) {
        let code = Code::of(copy.code).expect("a code");
        assert_eq!(readings(&copy.bytes, 780, 0, 4), refused(code, copy.place));
    }
    let known = Known::sample("cruise-lsb");
    for place in [0, 4, 784, known.bytes.len()] {
        assert_eq!(
            readings(&known.bytes, place, 0, 4),
            refused(Code::Unfit, place)
        );
    }
}

#[test]
fn words() {
    for (reading, words, value, unit) in [
        (Reading::Silent, "silent", None, None),
        (Reading::Volts(-1.5), "volts -1.5 V", Some(-1.5), Some("V")),
        (
            Reading::Sv(-70.25),
            "Sv -70.25 dB",
            Some(-70.25),
            Some("dB"),
        ),
        (Reading::Ts(0.0), "TS 0 dB", Some(0.0), Some("dB")),
    ] {
        assert_eq!(reading.to_string(), words);
        assert_eq!((reading.value(), reading.unit()), (value, unit));
    }
}

/// What the program prints of a number.
fn line(number: usize, value: &str, unit: &str, name: &str) -> String {
    format!("{number:>10}  {value:>12} {unit:<2}  {name}")
}

#[test]
fn lines() {
    let room = Room::new();
    let mut deposit = Deposit::of_samples(Order::Lsb, Maker::Biosonics, 0);
    let volts = deposit.ping_of(PingKind::Ce16, &[1, 3], &[-5, 12_346]);
    let silent = deposit.silent_ping(2);
    let path = room.put("volts.hac", deposit.ended());
    let silence = |number| line(number, "-", "", "silent");
    let all = [
        silence(0),
        line(1, "-0.0005", "V", "volts"),
        silence(2),
        line(3, "1.2346", "V", "volts"),
    ];
    let of = |place: usize, options: &[&str]| {
        let ran = run(hac(["readings"])
            .arg(&path)
            .arg(place.to_string())
            .args(options));
        assert_eq!((ran.status, ran.err.as_str()), (0, ""));
        ran.lines()
            .into_iter()
            .map(String::from)
            .collect::<Vec<_>>()
    };
    assert_eq!(of(volts, &[]), all);
    assert_eq!(of(volts, &["--from", "2"]), all[2..]);
    assert_eq!(of(volts, &["--from", "4"]), all[4..]);
    assert_eq!(of(volts, &["--count", "2"]), all[..2]);
    assert_eq!(
        of(volts, &["--from", "3", "--count", "2"]),
        [all[3].clone(), silence(4)]
    );
    assert_eq!(of(volts, &["--count", "0"]), all[..0]);
    assert_eq!(of(silent, &[]), [silence(0), silence(1)]);
    let last = of(volts, &["--from", "4294967295", "--count", "2"]);
    assert_eq!(last, [silence(4_294_967_295), silence(4_294_967_296)]);
}

/// More numbers than are asked for at once.
#[test]
fn many_numbers() {
    let known = Known::sample("cruise-lsb");
    let ran = run(hac(["readings", "--json"]).arg(&known.path).arg("940"));
    assert_eq!((ran.status, ran.err.as_str()), (0, ""));
    let objects = json::objects(&ran.out);
    assert_eq!(objects.len(), 140_003);
    let samples = known.pings()[2].samples();
    let mut held = samples.numbers.iter().zip(samples.values).peekable();
    for (number, object) in (0..).zip(&objects) {
        assert_eq!(object.keys(), ["number", "reading", "value", "unit"]);
        assert_eq!(object.number("number"), number);
        let value = held.next_if(|(held, _)| i128::from(**held) == number);
        let name = if value.is_some() { "Sv" } else { "silent" };
        assert_eq!(object.text("reading"), name);
        let told = match object.get("value") {
            json::Value::Decimal(decimal) => decimal.parse().ok(),
            _ => None,
        };
        assert_eq!(told, value.map(|(_, value)| f64::from(value) / 1e6));
    }
    assert_eq!(held.next(), None);
}

/// A refusal is said with what it is about, and no line comes.
#[test]
fn refused_inputs() {
    let encodings = Known::sample("encodings-normal");
    let mut command = hac(["readings"]);
    let ran = run(command.arg(&encodings.path).arg("944"));
    let (name, code) = (encodings.path.display(), Code::NoReading);
    let said = format!("hac: {name}: refused, {code}, at 944: {ANGLES}\n");
    assert_eq!((ran.status, ran.out.as_str(), &ran.err), (1, "", &said));
    let mut command = hac(["readings", "--json", "--count", "0"]);
    let ran = run(command.arg(&encodings.path).arg("944"));
    let object = &json::objects(&ran.out)[0];
    assert_eq!((ran.status, object.number("code")), (1, 30));
    assert_eq!(object.text("advice"), ANGLES);
    let room = Room::new();
    for copy in damage::all(&Known::sample("cruise-lsb")) {
        let path = room.put(copy.name, &copy.bytes);
        let (name, place) = (path.display(), copy.place);
        let code = Code::of(copy.code).expect("a code");
        let said = format!("hac: {name}: refused, {code}, at {place}{}\n", copy.advice);
        let ran = run(hac(["readings"]).arg(&path).arg("780"));
        assert_eq!((ran.status, ran.out.as_str(), &ran.err), (1, "", &said));
    }
}

/// The host's paper shows what the command prints.
#[test]
fn the_paper() {
    let words = "readings samples/cruise-lsb.hac 780 --from 847 --count 3";
    let mut command = hac(words.split(' '));
    let ran = run(command.current_dir(repository("")));
    assert_eq!((ran.status, ran.err.as_str()), (0, ""));
    assert_eq!(ran.lines(), crate::settings::shown(words));
}
