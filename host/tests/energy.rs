//! Echo energies: by the library, and by `hac energy`. They are worked out here by hand from 02.

use crate::damage;
use crate::deposit::{Deposit, CHANNEL, ORDERS, VALUED};
use crate::json;
use crate::kinds::SPELLINGS as ENCODINGS;
use crate::known::{accepted, repository, Known, COMPARED, SPELLINGS};
use crate::normal::refused;
use crate::room::{hac, run, Room};
use hac::*;
use std::fs;

/// Who has Sv, and by which type of data sample: TR's Tables 4 and 5.
const SV: [(Maker, u16); 2] = [(Maker::Biosonics, 1), (Maker::Simrad, 2)];

/// Types of data sample that aren't Sv, listed and not, and what is said of each.
const NOT_SV: [(Maker, u16, &str); 8] = [
    (Maker::Biosonics, 0, "has volts, not Sv"),
    (
        Maker::Biosonics,
        2,
        "has TS (target strength of single targets in dB), not Sv",
    ),
    (
        Maker::Biosonics,
        3,
        "has offaxis mechanical angles of single targets, not Sv",
    ),
    (
        Maker::Biosonics,
        4,
        "has type of data sample 4, which TR doesn't list",
    ),
    (
        Maker::Simrad,
        0,
        "has electrical phase angle from the split-beam analysis, not Sv",
    ),
    (
        Maker::Simrad,
        1,
        "has power (raw Sv before the TVG), not Sv",
    ),
    (Maker::Simrad, 3, "has TS (target strength), not Sv"),
    (
        Maker::Simrad,
        65535,
        "has type of data sample 65535, which TR doesn't list",
    ),
];

/// Units of 0 dB; and of -3 dB, which is -10 dB and 140 steps, by 02's table: 10 to the power of
/// 6 and 140 / 200, rounded down, is 5011872.
const ZERO_DB: u64 = 100_000_000_000_000;
const THREE_DB_BELOW: u64 = 50_118_720_000_000;

/// What lent slices hold before a call: no place of a ping, no energy and no code here.
const FILLED: u8 = 7;

/// A deposit of Sv, which either maker has, and what its kinds of ping have in 1 dB.
fn each(mut holds: impl FnMut(Deposit, PingKind, i32)) {
    for order in ORDERS {
        for (maker, sample) in SV {
            for (kind, _, decibel) in VALUED {
                holds(Deposit::of_samples(order, maker, sample), kind, decibel);
            }
        }
    }
}

/// The energy of the ping at a place, with the check's counts, is these units.
fn has(mut deposit: Deposit, place: usize, units: u64) {
    let file = deposit.ended();
    let Counts { tuples, compared } = check(file).expect("an accepted file");
    let told = Energy {
        units,
        tuples,
        compared,
    };
    assert_eq!(energy(file, place), Ok(told));
}

/// 0 dB, -3, -10, -140 and -148 dB: the last is less than a unit.
#[test]
fn by_hand() {
    each(|mut deposit, kind, decibel| {
        let values = [0, -3, -10, -140, -148].map(|level| level * decibel);
        let place = deposit.ping_of(kind, &[0, 1, 5, 6, 70], &values);
        has(deposit, place, ZERO_DB + THREE_DB_BELOW + ZERO_DB / 10 + 1);
    });
}

/// A value is stepped down to the next multiple of 0.05 dB, and a multiple stays: -5 dB is -10 dB
/// and 100 steps, -5.05 dB and one more.
#[test]
fn stepped_down() {
    each(|deposit, kind, decibel| {
        let (multiple, step) = (-5 * decibel, decibel / 20);
        for (value, units) in [
            (multiple, 31_622_770_000_000),
            (multiple - 1, 31_260_790_000_000),
            (multiple - step, 31_260_790_000_000),
        ] {
            let mut deposit = deposit.clone();
            let place = deposit.ping_of(kind, &[9], &[value]);
            has(deposit, place, units);
        }
    });
}

/// -150 dB is inside, as 0 dB is; CE-16 has no word for it.
#[test]
fn the_ends() {
    each(|mut deposit, kind, decibel| {
        if kind == PingKind::Ce16 {
            return;
        }
        let mut other = deposit.clone();
        let place = deposit.ping_of(kind, &[9, 10], &[-150 * decibel, 0]);
        has(deposit, place, ZERO_DB);
        let place = other.ping_of(kind, &[9, 10], &[0, -150 * decibel - 1]);
        assert_eq!(
            energy(other.ended(), place),
            refused(Code::OutsideLevels, 1)
        );
    });
}

#[test]
fn silence() {
    for order in ORDERS {
        for (maker, sample) in SV {
            let mut deposit = Deposit::of_samples(order, maker, sample);
            let place = deposit.silent_ping(1905);
            has(deposit, place, 0);
        }
    }
}

/// Refused by the call and among the energies of all, and these words are said of it.
fn is_refused(mut deposit: Deposit, place: usize, code: Code, at: usize, words: &str) {
    let file = deposit.ended();
    let refusal = Refusal { code, place: at };
    assert_eq!(energy(file, place), Err(refusal));
    let pings = energies(file).expect("energies").pings;
    let told = pings.iter().find(|ping| ping.place == place);
    assert_eq!(told.expect("the ping").energy, Err(code));
    let advice = ping_advice(file, place, refusal).expect("words");
    assert_eq!(advice.words, words);
    // another ping's refusal
    let other = Refusal {
        place: at + 4,
        ..refusal
    };
    assert_eq!(ping_advice(file, place, other), None);
}

#[test]
fn other_samples() {
    for order in ORDERS {
        for (maker, sample, words) in NOT_SV {
            for (kind, ..) in VALUED {
                let mut deposit = Deposit::of_samples(order, maker, sample);
                // outside the levels, which is judged later
                let place = deposit.ping_of(kind, &[3], &[5]);
                let words = format!("channel 1 {words}");
                is_refused(deposit, place, Code::NotSv, place, &words);
            }
        }
    }
}

#[test]
fn angles() {
    for order in ORDERS {
        for (maker, sample) in SV {
            let mut deposit = Deposit::of_samples(order, maker, sample);
            let place = deposit.ping_of_angles();
            is_refused(deposit, place, Code::NotSv, place, ANGLES);
        }
    }
}

/// The first value above 0 dB or below -150 dB, at its place in the list, whatever its number.
#[test]
fn outside_the_levels() {
    each(|mut deposit, kind, decibel| {
        let place = deposit.ping_of(kind, &[4, 6, 70], &[-3 * decibel, 2, 3]);
        let above = 2.0 / f64::from(decibel);
        let words = format!("sample 1 of its list, number 6, is {above} dB");
        is_refused(deposit, place, Code::OutsideLevels, 1, &words);
    });
    each(|mut deposit, kind, decibel| {
        let place = deposit.ping_of(kind, &[0, 1, 70], &[0, 0, -160 * decibel]);
        let words = "sample 2 of its list, number 70, is -160 dB";
        is_refused(deposit, place, Code::OutsideLevels, 2, words);
    });
}

/// All samples.
fn samples() -> Vec<Known> {
    let others = ["splitbeam-lsb", "splitbeam-msb"];
    let names = SPELLINGS.iter().chain(&ENCODINGS).chain(&others);
    names.map(|name| Known::sample(name)).collect()
}

/// Told at once, pings have the energies that they have alone; and so has each spelling.
#[test]
fn of_all_pings() {
    for known in samples() {
        let Energies { counts, pings } = energies(&known.bytes).expect("energies");
        assert_eq!(Ok(counts), check(&known.bytes));
        let places: Vec<usize> = pings.iter().map(|ping| ping.place).collect();
        let expected: Vec<usize> = known.pings().iter().map(|ping| ping.place).collect();
        assert_eq!(places, expected);
        for ping in &pings {
            let alone = energy(&known.bytes, ping.place).map(|energy| energy.units);
            assert_eq!(ping.energy, alone.map_err(|refusal| refusal.code));
        }
        let form = normal_form(&known.bytes).expect("a normal form");
        let form = energies(&form).expect("energies").pings;
        let units = |pings: &[PingEnergy]| -> Vec<_> { pings.iter().map(|p| p.energy).collect() };
        assert_eq!(units(&form), units(&pings));
    }
}

/// The call with slices of so many entries, and whether it left them as they were.
fn try_with(file: &[u8], entries: [usize; 3]) -> (Result<Filled, Refusal>, bool) {
    let mut places = vec![FILLED.into(); entries[0]];
    let mut units = vec![FILLED.into(); entries[1]];
    let mut codes = vec![FILLED; entries[2]];
    let told = energies_into(file, &mut places, &mut units, &mut codes);
    let written = told.map_or(0, |filled| filled.entries);
    let left = places[written..]
        .iter()
        .all(|place| *place == FILLED.into())
        && units[written..].iter().all(|units| *units == FILLED.into())
        && codes[written..].iter().all(|code| *code == FILLED);
    (told, left)
}

#[test]
fn lent_slices() {
    let known = Known::sample("cruise-msb");
    let pings = known.pings().len();
    let filled = Filled {
        tuples: known.tuples.len(),
        entries: pings,
        compared: COMPARED,
    };
    for entries in [[pings; 3], [pings + 9, pings, pings + 1]] {
        assert_eq!(try_with(&known.bytes, entries), (Ok(filled), true));
    }
    for entries in [
        [pings - 1, pings, pings],
        [pings, pings - 1, pings],
        [pings, pings, pings - 1],
        [0; 3],
    ] {
        let short = refused(Code::NoRoom, 0);
        assert_eq!(try_with(&known.bytes, entries), (short, true));
    }
}

/// Refusals are the check's, then 9 where no ping starts.
#[test]
fn damaged_copies() {
    for copy in damage::all(&Known::sample("cruise-lsb")) {
        let code = Code::of(copy.code).expect("a code");
        assert_eq!(energies(&copy.bytes), refused(code, copy.place));
        assert_eq!(energy(&copy.bytes, 780), refused(code, copy.place));
        let short = refused(code, copy.place);
        assert_eq!(try_with(&copy.bytes, [0; 3]), (short, true));
    }
    let known = Known::sample("cruise-lsb");
    for place in [0, 4, 784, known.bytes.len()] {
        assert_eq!(energy(&known.bytes, place), refused(Code::Unfit, place));
    }
}

/// One line of each kind: a sum, silence, both refusals.
fn four() -> (Deposit, [usize; 4]) {
    let mut deposit = Deposit::of_samples(Order::Lsb, Maker::Simrad, 2);
    let places = [
        deposit.ping_of(PingKind::U16, &[2, 3], &[-300, -1000]),
        deposit.silent_ping(9),
        deposit.ping_of(PingKind::C32, &[2, 3], &[-300_000, 250_000]),
        deposit.ping_of_angles(),
    ];
    deposit.ended();
    (deposit, places)
}

/// What is told of the first: 6.01 times 10^13 units.
const SUM: u64 = THREE_DB_BELOW + ZERO_DB / 10;
const SUM_IN_DB: &str = "-2.21";

/// What is said of the last two.
const OUTSIDE: &str = "sample 1 of its list, number 3, is 0.25 dB";
const ANGLES: &str = "ping U-16-angles has angles, not Sv";

#[test]
fn lines() {
    let room = Room::new();
    let (deposit, [sum, silent, outside, angles]) = four();
    let path = room.put("four.hac", &deposit.bytes);
    let line = |place: usize, told: &str| format!("{place:>8}  {:>5}  {:>10}  {told}", 1, 0);
    let lines = [
        line(
            sum,
            &format!("{SUM:>19}  {:>10}", format!("{SUM_IN_DB} dB")),
        ),
        line(silent, &format!("{:>19}  {:>10}", 0, "-")),
        line(
            outside,
            &format!("refused, {}: {OUTSIDE}", Code::OutsideLevels),
        ),
        line(angles, &format!("refused, {}: {ANGLES}", Code::NotSv)),
    ];
    let ran = run(hac(["energy"]).arg(&path));
    assert_eq!(ran.lines(), lines);
    assert_eq!((ran.status, ran.err.as_str()), (0, ""));
    // from standard input too, and as one of many behind its verdict
    let mut command = hac(["energy", "-"]);
    let ran = run(command.stdin(fs::File::open(&path).expect("a file")));
    assert_eq!(ran.lines(), lines);
    let ran = run(hac(["energy"]).arg(room.path()));
    let counts = check(&deposit.bytes).expect("accepted");
    let verdict = format!("{}: {}", path.display(), accepted(counts));
    assert_eq!(ran.lines()[0], verdict);
    assert_eq!(ran.lines()[1..], lines);
}

/// The objects of the four.
fn objects_of(places: [usize; 4], deposit: &Deposit) -> Vec<json::Value> {
    let room = Room::new();
    let path = room.put("four.hac", &deposit.bytes);
    let ran = run(hac(["energy", "--json"]).arg(&path));
    assert_eq!((ran.status, ran.err.as_str()), (0, ""));
    let objects = json::objects(&ran.out);
    assert_eq!(objects.len(), places.len());
    let told = [
        "file",
        "place",
        "channel",
        "ping_number",
        "energy",
        "decibels",
    ];
    for (object, place) in objects.iter().zip(places) {
        assert_eq!(object.keys()[..6], told);
        assert_eq!(object.text("file"), path.display().to_string());
        assert_eq!(object.number("place"), place as i128);
        assert_eq!(object.number("channel"), CHANNEL.0.into());
        assert_eq!(object.number("ping_number"), 0);
    }
    objects
}

#[test]
fn objects() {
    let (deposit, places) = four();
    let objects = objects_of(places, &deposit);
    let [sum, silent] = [&objects[0], &objects[1]];
    assert_eq!(sum.number("energy"), SUM.into());
    assert_eq!(sum.get("decibels"), &json::Value::Decimal(SUM_IN_DB.into()));
    assert_eq!(silent.number("energy"), 0);
    assert_eq!(silent.get("decibels"), &json::Value::Null);
    for (object, code, keys, words) in [
        (
            &objects[2],
            29,
            ["sample", "number", "decibels"].as_slice(),
            OUTSIDE,
        ),
        (&objects[3], 28, &["type", "name"], ANGLES),
    ] {
        assert_eq!(object.number_or_null("energy"), None);
        assert_eq!(object.keys()[6..], ["refusal"]);
        let refusal = object.get("refusal");
        assert_eq!(
            refusal.keys(),
            [&["code", "words"], keys, &["advice"]].concat()
        );
        assert_eq!(refusal.number("code"), code);
        assert_eq!(refusal.text("advice"), words);
    }
}

/// Of many files each is told, and the worst counts; a refused one is told as the check does.
#[test]
fn many_files() {
    let room = Room::new();
    let known = Known::sample("cruise-lsb");
    let copies = damage::all(&known);
    let copy = copies.iter().find(|copy| copy.code == 13).expect("a copy");
    let [sound, broken] = [
        room.put("a.hac", &known.bytes),
        room.put("b.hac", &copy.bytes),
    ];
    let ran = run(hac(["energy"]).arg(room.path()));
    let code = Code::of(copy.code).expect("a code");
    let said = format!(
        "{}: refused, {code}, at {}{}",
        broken.display(),
        copy.place,
        copy.advice
    );
    assert_eq!(ran.lines().last(), Some(&said.as_str()));
    assert_eq!((ran.status, ran.err.as_str()), (1, ""));
    let pings = known.pings().len();
    assert_eq!(ran.lines().len(), 1 + pings + 1);
    let ran = run(hac(["energy", "--json"]).args([&sound, &broken]));
    let objects = json::objects(&ran.out);
    assert_eq!(objects.len(), pings + 1);
    assert_eq!(objects[pings].number("code"), 13);
    let ran = run(hac(["energy"]).arg(&sound).arg(room.at("none.hac")));
    assert_eq!((ran.status, ran.lines().len()), (2, 1 + pings));
    assert!(ran.err.starts_with("hac: "));
}

/// The host's paper shows what the command prints.
#[test]
fn the_paper() {
    let shown = crate::settings::shown("energy samples/splitbeam-lsb.hac");
    let mut command = hac(["energy", "samples/splitbeam-lsb.hac"]);
    let ran = run(command.current_dir(repository("")));
    assert_eq!((ran.status, ran.err.as_str()), (0, ""));
    assert_eq!(ran.lines(), shown);
}
