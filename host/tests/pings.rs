//! Pings: their parents, fields and samples, and pings written.

use crate::damage::long_ping;
use crate::json;
use crate::known::{decode, e4, vector, Known, Tuple, COMPARED, NORMAL, SPELLINGS};
use crate::room::{hac, run};
use hac::*;

/// In each spelling each ping has the samples and the length of its normal form.
#[test]
fn samples_of_all_spellings() {
    let normal = Known::sample(NORMAL);
    for name in SPELLINGS {
        let known = Known::sample(name);
        let pings = known.pings();
        assert_eq!(pings.len(), normal.pings().len());
        for (ping, normal) in pings.into_iter().zip(normal.pings()) {
            let expected = normal.samples();
            assert_eq!(samples(&known.bytes, ping.place), Ok(expected.clone()));
            let count = expected.numbers.len();
            let read = read_ping(&known.bytes, ping.place).expect("a ping");
            assert_eq!((read.values, read.length), (count, normal.length()));
            assert_eq!(read.kind == PingKind::C32, ping.kind() == 10010);
        }
    }
    let lengths: Vec<_> = normal.pings().iter().map(|ping| ping.length()).collect();
    let expected = [Some(1905), None, Some(140_003), Some(1905), None, None];
    assert_eq!(lengths, expected);
}

/// Entries past the samples stay; a slice that is too short is 19 at 0, and
/// nothing is written.
#[test]
fn lent_slices() {
    let (file, place) = (e4(), FIRST_PLACE);
    let (mut numbers, mut values) = ([7; 4], [7; 3]);
    assert_eq!(read_samples(&file, place, &mut numbers, &mut values), Ok(2));
    assert_eq!((numbers, values), ([2, 3, 7, 7], [100, -70_000, 7]));
    let refusal = Refusal {
        code: Code::NoRoom,
        place: 0,
    };
    for (few, enough) in [(1, 2), (2, 1), (0, 0)] {
        let (mut numbers, mut values) = (vec![7; few], vec![7; enough]);
        let answer = read_samples(&file, place, &mut numbers, &mut values);
        assert_eq!(answer, Err(refusal));
        assert!(numbers.iter().all(|number| *number == 7));
        assert!(values.iter().all(|value| *value == 7));
    }
}

/// E4's header, from its bytes.
fn e4_header() -> PingHeader {
    PingHeader {
        time_fraction: 0,
        time_cpu: 60,
        software_channel_identifier: SoftwareChannel(1),
        transmitter_mode: 0,
        ping_number: 1,
        detected_bottom_range: 0x7FFF_FFFF,
    }
}

/// E4 as program two prints it.
const E4_PAIRS: &str = "26000000102700003c0000000100000001000000ffffff7f020000006400000003000000\
                        90eefeff0000000030000000";

/// E4: read, and written again in the fewest words and as pairs.
#[test]
fn example_4() {
    let file = e4();
    let ping = read_ping(&file, FIRST_PLACE);
    let expected = Ping {
        header: e4_header(),
        attribute: 0,
        kind: PingKind::C32,
        values: 2,
        length: None,
    };
    assert_eq!(ping, Ok(expected));
    let (numbers, values) = ([2, 3], [100, -70_000]);
    let mut out = [0; 60];
    let written = write_c32(
        &e4_header(),
        0,
        &numbers,
        &values,
        None,
        Order::Lsb,
        &mut out,
    );
    assert_eq!(written, Ok(48));
    assert_eq!(out[..48], file[FIRST_PLACE..]);
    let pairs = decode(E4_PAIRS);
    let written = write_u32(&e4_header(), 0, &numbers, &values, Order::Lsb, &mut out);
    assert_eq!(written, Ok(48));
    assert_eq!(out[..48], pairs[..]);
}

/// E5 to E7, from the vectors that are named after them.
#[test]
fn words() {
    let read = |name: &str| samples(&vector(name), FIRST_PLACE);
    let value = |name: &str| read(name).map(|samples| samples.values);
    assert_eq!(
        value("tuple-e6-least-word-above-runs.txt"),
        Ok(vec![-65_537])
    );
    assert_eq!(value("tuple-e7-most.txt"), Ok(vec![2_147_418_111]));
    assert_eq!(value("tuple-e7-least.txt"), Ok(vec![-2_147_418_112]));
    let refusal = Refusal {
        code: Code::BadWord,
        place: FIRST_PLACE + 28,
    };
    assert_eq!(value("tuple-e7-above.txt"), Err(refusal));
    assert_eq!(value("tuple-e7-below.txt"), Err(refusal));
    let numbers = |name: &str| read(name).expect("samples").numbers;
    let first = |run: u32| numbers(&format!("tuple-e5-run-of-{run}.txt"))[0];
    assert_eq!((first(1), first(65_536)), (1, 65_536));
}

/// A ping writer that is handed no length.
type Writer = fn(&PingHeader, i32, &[u32], &[i32], Order, &mut [u8]) -> Result<usize, Refusal>;

/// The C-32 writer without a length.
const WITHOUT_LENGTH: Writer = |header, attribute, numbers, values, order, out| {
    write_c32(header, attribute, numbers, values, None, order, out)
};

/// Every refusal of the ping writers without a length, in their order, each with its
/// place.
#[test]
fn refused_writers() {
    let refuses = |write: Writer, numbers: &[u32], values: &[i32], code, place| {
        let mut out = [7; 30];
        let answer = write(&e4_header(), 0, numbers, values, Order::Msb, &mut out);
        assert_eq!(answer, Err(Refusal { code, place }));
        assert_eq!(out, [7; 30]);
    };
    let many: Vec<u32> = (0..=VALUE_LIMIT as u32).collect();
    for write in [write_u32 as Writer, WITHOUT_LENGTH] {
        refuses(write, &[5, 4, 3], &[-1, -1], Code::NotRising, 2);
        refuses(write, &[], &[-1], Code::NotRising, 0);
        refuses(write, &many, &vec![0; many.len()], Code::Overfull, 0);
        refuses(write, &[], &[], Code::NoSamples, 0);
        refuses(write, &[5, 6, 6], &[1, 1, 1], Code::NotRising, 2);
        refuses(write, &[5, 5, 4], &[-1, 1, 1], Code::NotRising, 1);
        refuses(write, &[0, 9, 10, 2], &[1; 4], Code::NotRising, 3);
        refuses(write, &[5], &[1], Code::NoRoom, 0);
    }
    refuses(WITHOUT_LENGTH, &[5, 6], &[1, -1], Code::NoWord, 1);
    refuses(WITHOUT_LENGTH, &[5, 6], &[i32::MAX, 1], Code::NoWord, 0);
    // a gap of so many runs that the tuple would be too long
    refuses(WITHOUT_LENGTH, &[u32::MAX], &[1], Code::Overfull, 0);
}

/// A ping of the most values is read; one of more is refused.
#[test]
fn the_most_values() {
    let known = Known::sample("cruise-lsb");
    let like = known.first(10010);
    let alone = |values| [&Order::Lsb.mark()[..], &long_ping(like, values)].concat();
    let read = samples(&alone(VALUE_LIMIT), FIRST_PLACE).expect("samples");
    assert_eq!(read.values, vec![1; VALUE_LIMIT]);
    let refusal = Refusal {
        code: Code::Overfull,
        place: FIRST_PLACE,
    };
    assert_eq!(samples(&alone(VALUE_LIMIT + 1), FIRST_PLACE), Err(refusal));
}

/// The channel of a ping, which both makers number at 6 of their tuples.
fn channel_of<'a>(known: &'a Known, ping: &Tuple) -> &'a Tuple {
    let id = ping.two(12);
    let channel = known.channels().find(|channel| channel.two(6) == id);
    channel.expect("a channel")
}

/// The parents of a ping, found by its identifiers among the tuples before it; the
/// channel's rate and type stand at 12 and 16 of its tuple, and a sounder's identifier
/// at 8, for both makers.
fn parents_of(known: &Known, ping: &Tuple) -> Parents {
    let channel = channel_of(known, ping);
    let document = channel.four(8);
    let mut sounders = known.sounders();
    let sounder = sounders.find(|sounder| sounder.four(8) == document);
    Parents {
        channel: SoftwareChannel(ping.two(12)),
        channel_place: channel.place,
        sampling_rate: channel.four(12),
        type_of_data_sample: channel.two(16),
        sounder: DocumentId(document),
        sounder_place: sounder.expect("a sounder").place,
        tuples: known.tuples.len(),
        compared: COMPARED,
    }
}

#[test]
fn parents() {
    for name in SPELLINGS {
        let known = Known::sample(name);
        for tuple in &known.tuples {
            let expected = match tuple.is_ping() {
                true => Ok(parents_of(&known, tuple)),
                false => Err(Refusal {
                    code: Code::Unfit,
                    place: tuple.place,
                }),
            };
            assert_eq!(ask(&known.bytes, tuple.place), expected);
        }
    }
}

/// The line that `hac parents` prints of a ping's parents.
pub fn printed(parents: &Parents, maker: &str) -> String {
    format!(
        "channel {} at {}, sampling rate {}, type of data sample {}, echosounder {} at {}, \
         maker {maker}\n",
        parents.channel.0,
        parents.channel_place,
        parents.sampling_rate,
        parents.type_of_data_sample,
        parents.sounder.0,
        parents.sounder_place
    )
}

#[test]
fn printed_parents() {
    let known = Known::sample("cruise-msb-cut");
    for ping in known.pings() {
        let parents = parents_of(&known, ping);
        let maker = match channel_of(&known, ping).kind() {
            1000 => "Biosonics",
            _ => "Simrad",
        };
        let place = ping.place.to_string();
        let ran = run(hac(["parents"]).arg(&known.path).arg(&place));
        let line = printed(&parents, maker);
        assert_eq!((ran.status, ran.out, ran.err), (0, line, String::new()));
        let ran = run(hac(["parents", "--json"]).arg(&known.path).arg(&place));
        let object = &json::objects(&ran.out)[0];
        let mut keys = object.keys();
        assert_eq!((keys.pop(), object.text("maker")), (Some("maker"), maker));
        let told: Vec<_> = keys.iter().map(|key| (*key, object.number(key))).collect();
        let expected: [(&str, i128); 6] = [
            ("channel", parents.channel.0.into()),
            ("channel_place", parents.channel_place as i128),
            ("sampling_rate", parents.sampling_rate.into()),
            ("type_of_data_sample", parents.type_of_data_sample.into()),
            ("sounder", parents.sounder.0.into()),
            ("sounder_place", parents.sounder_place as i128),
        ];
        assert_eq!(told, expected);
    }
}

#[test]
fn printed_samples() {
    let normal = Known::sample(NORMAL);
    let known = Known::sample("cruise-lsb-cut");
    for (ping, normal) in known.pings().into_iter().zip(normal.pings()) {
        let Samples { numbers, values } = normal.samples();
        let pairs: Vec<_> = numbers.into_iter().zip(values).collect();
        let length = normal.length();
        let place = ping.place.to_string();
        let ran = run(hac(["samples"]).arg(&known.path).arg(&place));
        let lines = pairs
            .iter()
            .map(|(number, value)| format!("{number:>10}  {value:>11}"));
        let last = length.map(|length| format!("length {length} samples, runs counted"));
        assert_eq!(ran.lines(), lines.chain(last).collect::<Vec<_>>());
        assert_eq!((ran.status, ran.err.as_str()), (0, ""));
        let ran = run(hac(["--json", "samples"]).arg(&known.path).arg(&place));
        let mut objects = json::objects(&ran.out);
        let last = objects.pop().expect("the length");
        assert_eq!(last.keys(), ["length"]);
        assert_eq!(last.number_or_null("length"), length.map(i128::from));
        let told = objects
            .iter()
            .map(|object| (object.number("number"), object.number("value")));
        let pairs = pairs
            .iter()
            .map(|(number, value)| ((*number).into(), (*value).into()));
        assert!(told.eq(pairs));
    }
}

/// Places where no ping starts, and places that are far out.
#[test]
fn refused_places() {
    let known = Known::sample("cruise-lsb");
    let far = usize::MAX;
    for (command, place, code) in [
        ("parents", 4, Code::Unfit),
        ("parents", far, Code::Unfit),
        ("samples", 4, Code::Unfit),
        ("samples", far, Code::CutShort),
    ] {
        let ran = run(hac([command]).arg(&known.path).arg(place.to_string()));
        let refusal = Refusal { code, place };
        let said = format!("hac: {}: refused, {refusal}\n", known.path.display());
        assert_eq!((ran.status, ran.out, ran.err), (1, String::new(), said));
        let ran = run(hac([command, "--json"])
            .arg(&known.path)
            .arg(place.to_string()));
        let object = &json::objects(&ran.out)[0];
        assert_eq!(object.number("code"), code.number().into());
        assert_eq!(object.number("place"), place as i128);
    }
}
