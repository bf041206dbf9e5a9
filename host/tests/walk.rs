//! The walk: by the library, and by `hac walk`.

use crate::json;
use crate::known::{e1, Known, Tuple, NORMAL, SPELLINGS};
use crate::room::{hac, run, Room};
use hac::{Code, Refusal, Step, Walk};

/// The names of the listed types, 01's but for the maker or model of sounders and
/// channels, and what the others are called.
fn name(kind: u16) -> &'static str {
    match kind {
        65535 => "signature",
        100 => "echosounder Biosonics",
        200 => "echosounder EK-500",
        1000 => "channel Biosonics",
        2000 => "channel EK-500",
        20 => "position",
        30 => "navigation",
        40 => "attitude",
        10100 => "threshold",
        10110 => "event marker",
        10000 => "ping U-32",
        10010 => "ping C-32",
        65516 => "start of run",
        65517 => "end of run",
        65534 => "end of file",
        65406..=65515 => "index",
        _ => "unlisted",
    }
}

fn found(tuple: &Tuple) -> hac::Tuple {
    hac::Tuple {
        place: tuple.place,
        length: tuple.bytes.len(),
        kind: tuple.kind(),
    }
}

#[test]
fn both_walks_find_all_tuples() {
    for sample in SPELLINGS.iter().chain([&NORMAL]) {
        let Known { bytes, tuples, .. } = Known::sample(sample);
        let mut expected: Vec<_> = tuples.iter().map(|tuple| Ok(found(tuple))).collect();
        let forwards: Vec<_> = Walk::START.forwards(&bytes).collect();
        assert_eq!(forwards, expected);
        let backwards: Vec<_> = Walk::end(&bytes).backwards(&bytes).collect();
        expected.reverse();
        assert_eq!(backwards, expected);
    }
}

/// A step hands back the walk past its tuple; at the ends it says so.
#[test]
fn steps() {
    let Known { bytes, tuples, .. } = Known::sample("cruise-msb");
    let tuple = found(&tuples[5]);
    let (start, end) = (
        Walk { at: tuple.place },
        Walk {
            at: tuple.place + tuple.length,
        },
    );
    assert_eq!(start.forward(&bytes), Step::Tuple { tuple, next: end });
    assert_eq!(end.backward(&bytes), Step::Tuple { tuple, next: start });
    assert_eq!(Walk::end(&bytes).forward(&bytes), Step::End);
    assert_eq!(Walk::START.backward(&bytes), Step::End);
}

/// A step's refusal carries the step's place, 1 and 2 too.
#[test]
fn refused_steps() {
    let refused = |code, place| Step::Refused(Refusal { code, place });
    let Known { bytes, .. } = Known::sample("cruise-lsb");
    for place in [0, 3, bytes.len() + 1, usize::MAX] {
        assert_eq!(
            Walk { at: place }.forward(&bytes),
            refused(Code::CutShort, place)
        );
        assert_eq!(
            Walk { at: place }.backward(&bytes),
            refused(Code::CutShort, place)
        );
    }
    assert_eq!(Walk { at: 17 }.forward(&[]), refused(Code::NoMark, 17));
    let too_long = vec![0; hac::FILE_LIMIT + 1];
    assert_eq!(
        Walk { at: 9 }.backward(&too_long),
        refused(Code::OverLimit, 9)
    );
}

/// A refusal is the last that a walk yields, and an ended walk stays ended.
#[test]
fn a_refusal_ends_a_walk() {
    let file = &e1()[..20];
    let mut tuples = Walk::START.forwards(file);
    let refusal = Refusal {
        code: Code::CutShort,
        place: 4,
    };
    assert_eq!(tuples.next(), Some(Err(refusal)));
    assert_eq!((tuples.next(), tuples.next()), (None, None));
}

fn line(tuple: &Tuple) -> String {
    let kind = tuple.kind();
    let length = tuple.bytes.len();
    format!(
        "{:>8}  {kind:>5}  {:<21}  {length:>6}",
        tuple.place,
        name(kind)
    )
}

#[test]
fn lines() {
    for sample in SPELLINGS {
        let known = Known::sample(sample);
        let mut expected: Vec<String> = known.tuples.iter().map(line).collect();
        let ran = run(hac(["walk"]).arg(&known.path));
        assert_eq!(ran.lines(), expected);
        assert_eq!((ran.status, ran.err.as_str()), (0, ""));
        let ran = run(hac(["walk", "--back"]).arg(&known.path));
        expected.reverse();
        assert_eq!(ran.lines(), expected);
        assert_eq!((ran.status, ran.err.as_str()), (0, ""));
    }
}

#[test]
fn objects() {
    let known = Known::sample("cruise-msb-cut");
    let ran = run(hac(["walk", "--back", "--json"]).arg(&known.path));
    let objects = json::objects(&ran.out);
    assert_eq!(objects.len(), known.tuples.len());
    for (object, tuple) in objects.iter().zip(known.tuples.iter().rev()) {
        assert_eq!(object.keys(), ["place", "type", "name", "length"]);
        assert_eq!(object.number("place"), tuple.place as i128);
        assert_eq!(object.number("type"), tuple.kind().into());
        assert_eq!(object.text("name"), name(tuple.kind()));
        assert_eq!(object.number("length"), tuple.bytes.len() as i128);
    }
}

/// What comes before a refusal is printed; the refusal is said on standard error,
/// and as an object on standard output too.
#[test]
fn a_refused_walk() {
    let room = Room::new();
    let known = Known::sample("cruise-lsb");
    let last = known.tuples.last().expect("a tuple");
    let path = room.put("cut.hac", &known.bytes[..last.place + 8]);
    let refusal = Refusal {
        code: Code::CutShort,
        place: last.place,
    };
    let ran = run(hac(["walk"]).arg(&path));
    let whole = &known.tuples[..known.tuples.len() - 1];
    assert_eq!(ran.lines(), whole.iter().map(line).collect::<Vec<_>>());
    let said = format!("hac: {}: refused, {refusal}\n", path.display());
    assert_eq!((ran.status, &ran.err), (1, &said));

    let ran = run(hac(["walk", "--json"]).arg(&path));
    let objects = json::objects(&ran.out);
    assert_eq!(objects.len(), whole.len() + 1);
    let object = objects.last().expect("an object");
    assert_eq!(object.text("outcome"), "refused");
    assert_eq!(
        (object.number("code"), object.number("place")),
        (3, last.place as i128)
    );
    assert_eq!((ran.status, ran.err), (1, said));
}
