//! Readings for the viewer: against 02's sentences, said once more and slowly, with a
//! division in whole numbers that is rounded once; what must hold of every window; and files
//! made by hand.

mod common;

use common::echoes::{
    asked, channel_of, echo_file, places_to_ask, samples_at, Channel, Echo, ANGLED, VALUED,
};
use common::{count, every_refusal, seed, File};
use second::gen::{energy_case, file_case, viewer_case, Case, Rng, View, ViewerCase};
use second::{check, readings, Answer, Order, Reading};
use std::collections::{BTreeMap, BTreeSet};

/// The number of a case and the bits of its double.
type Entry = (u8, u64);

/// What a viewer is shown where nothing is.
const SILENT: Entry = (0, 0);

/// One channel for each case of each maker, with the case's number.
const DEFINED: [(Channel, u8); 5] = [
    ((1000, 0), 1),
    ((1000, 1), 2),
    ((1000, 2), 3),
    ((2000, 2), 2),
    ((2000, 3), 3),
];

/// The case of a channel's samples, by its maker's table; none where it is 30.
fn case_of(channel: Channel) -> Option<u8> {
    let found = DEFINED.iter().find(|(defined, _)| *defined == channel);
    found.map(|(_, case)| *case)
}

/// What a value is divided by, by TR's tables of the kinds.
fn divisor(code: u16, case: u8) -> u64 {
    match (code, case) {
        (10000 | 10010, _) => 1_000_000,
        (10050, 1) => 10_000,
        (10050, _) => 1_000,
        (_, 1) => 1_000,
        _ => 100,
    }
}

/// The double next to a quotient, in whole numbers: 53 bits of it, the half way to an even
/// last bit.
fn rounded(value: i64, divisor: u64) -> f64 {
    if value == 0 {
        return 0.0;
    }
    let (amount, divisor) = (u128::from(value.unsigned_abs()), u128::from(divisor));
    let mut shift = 0;
    while (amount << shift) / divisor < 1 << 52 {
        shift += 1;
    }
    let (mut quotient, rest) = ((amount << shift) / divisor, (amount << shift) % divisor);
    if 2 * rest > divisor || 2 * rest == divisor && quotient % 2 == 1 {
        quotient += 1;
    }
    // both factors are exact, and so is their product
    let double = quotient as f64 * 0.5f64.powi(shift);
    if value < 0 {
        -double
    } else {
        double
    }
}

/// 02's sentences on one window, number by number.
fn defined(bytes: &[u8], view: View) -> Result<(Answer, Vec<Entry>), Answer> {
    let answer = asked(bytes, view.place)?;
    let file = File::new(bytes).expect("a mark");
    let at = view.place as usize;
    let code = file.number(at + 4, 2) as u16;
    let case = case_of(channel_of(&file, at)).filter(|_| !ANGLED.contains(&code));
    let case = case.ok_or(Answer::refused(30, view.place))?;
    let held: BTreeMap<u128, i64> = samples_at(&file, at)
        .into_iter()
        .map(|(number, value)| (number.into(), value))
        .collect();
    let entries = view.lent[0].min(view.lent[1]);
    let reading = |nth: usize| match held.get(&(u128::from(view.first) + nth as u128)) {
        Some(value) => (case, rounded(*value, divisor(code, case)).to_bits()),
        None => SILENT,
    };
    let length = entries as u64;
    let answer = Answer { length, ..answer };
    Ok((answer, (0..entries).map(reading).collect()))
}

/// Slices that no call would leave by chance.
fn lent([cases, doubles]: [usize; 2]) -> (Vec<u8>, Vec<f64>) {
    let cases = (0..cases).map(|at| (at * 151 + 89) as u8);
    let doubles = (0..doubles).map(|at| -1e300 - 1e290 * at as f64);
    (cases.collect(), doubles.collect())
}

/// What the call tells of a window; entries past it stay, and all with a refusal.
fn told(bytes: &[u8], view: View, name: &str) -> Result<(Answer, Vec<Entry>), Answer> {
    let (mut cases, mut doubles) = lent(view.lent);
    let answer = readings(bytes, view.place, view.first, &mut cases, &mut doubles);
    let n = answer.length as usize;
    let before = lent(view.lent);
    assert_eq!(cases[n..], before.0[n..], "{name}");
    assert_eq!(doubles[n..], before.1[n..], "{name}");
    if !answer.is_accepted() {
        return Err(answer);
    }
    let bits = doubles.iter().map(|double| double.to_bits());
    Ok((answer, cases.into_iter().zip(bits).take(n).collect()))
}

/// Whatever the file and the window, the call is what is defined.
fn judge(bytes: &[u8], view: View, name: &str) -> Answer {
    let told = told(bytes, view, name);
    assert_eq!(told, defined(bytes, view), "{name} {view:?}");
    told.map_or_else(|refusal| refusal, |(answer, _)| answer)
}

/// A window of so many entries at a place.
fn view(place: u64, first: u64, entries: usize) -> View {
    let lent = [entries; 2];
    View { place, first, lent }
}

/// Sample numbers that windows of any file begin with.
const FIRSTS: [u64; 6] = [0, 0, 1, 3, 200, 65_530];

#[test]
fn readings_are_what_02_says() {
    let seed = seed();
    let mut rng = Rng::new(seed);
    for index in 0..count(2000) {
        let ViewerCase { name, bytes, views } = viewer_case(seed, index);
        for view in views {
            judge(&bytes, view, &format!("seed {seed} views {index} {name}"));
        }
    }
    for index in 0..count(2000) {
        let echoes = energy_case(seed, index);
        for Case { name, bytes, .. } in file_case(seed, index).into_iter().chain([echoes]) {
            for place in places_to_ask(&mut rng, &bytes, 5) {
                let name = format!("seed {seed} case {index} {name}");
                let first = FIRSTS[rng.index(FIRSTS.len())];
                judge(&bytes, view(place, first, 40), &name);
            }
        }
    }
}

/// Every refusal of the check is passed on, in both orders, before 9 and 30.
#[test]
fn refusals_of_the_check() {
    let mut rng = Rng::new(seed());
    every_refusal(0x30, 20, |file, name| {
        let places = places_to_ask(&mut rng, file, 5);
        let answers = places
            .iter()
            .map(|place| judge(file, view(*place, 0, 3), name));
        let answers: BTreeSet<(u32, u64)> = answers.map(|it| (it.code, it.place)).collect();
        assert_eq!(answers.len(), 1, "{name}");
        judge(file, view(4, 0, 0), name)
    });
}

/// What a window shows of the one ping of a channel, in both orders.
fn shows(channel: Channel, ping: impl Fn() -> Echo, first: u64, expected: &[Reading]) {
    for order in Order::BOTH {
        let (file, places) = echo_file(order, &[channel], &[ping()]);
        let view = view(places[0], first, expected.len());
        let checked = check(&file);
        assert!(checked.is_accepted(), "{checked:?}");
        let length = expected.len() as u64;
        let entries = expected.iter().map(|reading| {
            let (case, double) = reading.numbers();
            (case, double.to_bits())
        });
        let expected = (Answer { length, ..checked }, entries.collect());
        let name = format!("{order:?} {channel:?} {first}");
        assert_eq!(told(&file, view, &name), Ok(expected), "{name}");
        judge(&file, view, &name);
    }
}

/// Volts, Sv and TS of each maker's table, in each kind; all with their own units.
#[test]
fn cases_and_units() {
    for (code, value, volts, decibels) in [
        (10000, -12_345_678, -12.345678, -12.345678),
        (10010, -12_345_678, -12.345678, -12.345678),
        (10030, -12_345, -12.345, -123.45),
        (10040, -12_345, -12.345, -123.45),
        (10050, -12_344, -1.2344, -12.344),
    ] {
        let ping = || Echo::new(code, &[value]);
        shows((1000, 0), ping, 0, &[Reading::Volts(volts)]);
        shows((1000, 1), ping, 0, &[Reading::Sv(decibels)]);
        shows((1000, 2), ping, 0, &[Reading::Ts(decibels)]);
        shows((2000, 2), ping, 0, &[Reading::Sv(decibels)]);
        shows((2000, 3), ping, 0, &[Reading::Ts(decibels)]);
    }
}

#[test]
fn numbers_of_cases() {
    assert_eq!(Reading::Silent.numbers(), (0, 0.0));
    assert_eq!(Reading::Volts(1.5).numbers(), (1, 1.5));
    assert_eq!(Reading::Sv(-1.5).numbers(), (2, -1.5));
    assert_eq!(Reading::Ts(2.5).numbers(), (3, 2.5));
    assert!(Reading::Silent.numbers().1.is_sign_positive());
}

/// 30 at the ping for every other type of data sample, in each kind, of silent pings too:
/// phase angles and raw power of 2000, mechanical angles of 1000, what isn't defined, and
/// defined numbers with their bytes turned about.
#[test]
fn other_types_of_data_sample() {
    let types = [0, 1, 2, 3, 4, 5, 255, 256, 512, 768, 32_768, 65_535];
    for (maker, sounder) in [(1000, 72), (2000, 80)] {
        for sample_type in types {
            let channel = (maker, sample_type);
            let silent = [10010, 10040, 10050].map(|code| Echo::silent(code, 7));
            let pings: Vec<Echo> = VALUED
                .map(|code| Echo::new(code, &[1, 2]))
                .into_iter()
                .chain(silent)
                .collect();
            for order in Order::BOTH {
                let (file, places) = echo_file(order, &[channel], &pings);
                assert_eq!(places[0], 4 + 24 + sounder + 108 + 36);
                for place in &places {
                    let answer = judge(&file, view(*place, 0, 3), "types");
                    let expected = match case_of(channel) {
                        Some(_) => Answer {
                            length: 3,
                            ..check(&file)
                        },
                        None => Answer::refused(30, *place),
                    };
                    assert_eq!(answer, expected, "{order:?} {channel:?}");
                }
            }
        }
    }
}

/// Angle pings are 30 whatever their channel is, and however little is asked for.
#[test]
fn angle_pings() {
    for (order, (channel, _)) in Order::BOTH
        .map(|order| DEFINED.map(|it| (order, it)))
        .concat()
    {
        let pings = ANGLED.map(|code| Echo::new(code, &[1, 2, 3]));
        let (file, places) = echo_file(order, &[channel], &pings);
        for place in places {
            for entries in [0, 1, 9] {
                let answer = judge(&file, view(place, 0, entries), "angles");
                assert_eq!(answer, Answer::refused(30, place));
            }
        }
    }
}

/// Numbers before the first sample, in gaps, behind the last one and past the length are
/// silent; a stored 0 isn't.
#[test]
fn windows_of_a_ping() {
    use Reading::{Silent, Sv};
    for (code, unit) in [
        (10000, 10_000),
        (10010, 10_000),
        (10030, 1),
        (10040, 1),
        (10050, 10),
    ] {
        let samples = [(2, -300), (3, 0), (6, -500)].map(|(n, value)| (n, value * unit));
        let ping = || Echo {
            silence: 3,
            ..Echo::of(code, &samples)
        };
        let all = [
            Silent,
            Silent,
            Sv(-3.0),
            Sv(0.0),
            Silent,
            Silent,
            Sv(-5.0),
            Silent,
            Silent,
            Silent,
            Silent,
            Silent,
        ];
        for from in 0..=all.len() {
            for to in from..=all.len() {
                shows((2000, 2), ping, from as u64, &all[from..to]);
            }
        }
    }
}

/// Silent pings show nothing but silence, and are no refusal.
#[test]
fn silent_pings() {
    for code in [10010, 10040, 10050] {
        for (channel, _) in DEFINED {
            let ping = || Echo::silent(code, 4);
            shows(channel, ping, 0, &[Reading::Silent; 6]);
            shows(channel, ping, u64::from(u32::MAX), &[Reading::Silent; 2]);
        }
    }
}

/// Numbers about 65,535, which U-16 can't pass and words can.
#[test]
fn numbers_past_two_bytes() {
    use Reading::{Silent, Volts};
    let ping = || Echo::of(10030, &[(0, 1), (65_535, 2)]);
    let shown = [Silent, Volts(0.002), Silent, Silent];
    shows((1000, 0), ping, 65_534, &shown);
    for (code, unit) in [(10010, 1000), (10040, 1), (10050, 10)] {
        let samples = [(0, 1), (65_535, 2), (65_536, 3), (70_000, 4)];
        let ping = || Echo::of(code, &samples.map(|(n, value)| (n, value * unit)));
        let shown = [Silent, Volts(0.002), Volts(0.003), Silent];
        shows((1000, 0), ping, 65_534, &shown);
        shows((1000, 0), ping, 69_999, &[Silent, Volts(0.004), Silent]);
    }
}

/// Up to the last number there is, and past it: these are silent, wherever a window starts.
#[test]
fn the_last_numbers() {
    use Reading::{Silent, Ts};
    let ping = || {
        Echo::of(
            10000,
            &[(0, 7_000_000), (u32::MAX - 1, 8), (u32::MAX, 9_500_000)],
        )
    };
    let last = u64::from(u32::MAX);
    let shown = [Silent, Ts(0.000008), Ts(9.5), Silent, Silent, Silent];
    for at in 0..shown.len() {
        shows((1000, 2), ping, last - 2 + at as u64, &shown[at..]);
    }
    for first in [last + 1, 1 << 33, (1 << 32) + 7, u64::MAX - 1, u64::MAX] {
        shows((1000, 2), ping, first, &[Silent; 4]);
    }
    shows((1000, 2), ping, 0, &[Ts(7.0), Silent]);
}

/// The shorter slice decides how many readings there are; the longer one's others stay.
#[test]
fn slices_of_different_lengths() {
    let ping = Echo::new(10000, &[1_000_000, 2_000_000, 3_000_000]);
    for order in Order::BOTH {
        let (file, places) = echo_file(order, &[(1000, 0)], &[Echo::of(ping.code, &ping.samples)]);
        let mut cases = [9; 5];
        let mut doubles = [7.5; 2];
        let answer = readings(&file, places[0], 1, &mut cases, &mut doubles);
        assert_eq!(
            answer,
            Answer {
                length: 2,
                ..check(&file)
            }
        );
        assert_eq!((cases, doubles), ([1, 1, 9, 9, 9], [2.0, 3.0]));
        let (mut cases, mut doubles) = ([9; 1], [7.5; 3]);
        let answer = readings(&file, places[0], 1, &mut cases, &mut doubles);
        assert_eq!(
            answer,
            Answer {
                length: 1,
                ..check(&file)
            }
        );
        assert_eq!((cases, doubles), ([1], [2.0, 7.5, 7.5]));
        for lent in [[0, 0], [0, 4], [4, 0]] {
            let view = View {
                place: places[0],
                first: 0,
                lent,
            };
            assert_eq!(judge(&file, view, "none"), check(&file));
        }
    }
}

/// The check's refusal, then 9, then 30.
#[test]
fn order_of_refusals() {
    for order in Order::BOTH {
        let pings = [Echo::new(10001, &[1]), Echo::new(10030, &[1]).on(2)];
        let (file, places) = echo_file(order, &[(1000, 1), (2000, 0)], &pings);
        for place in &places {
            let answer = judge(&file, view(*place, 0, 3), "order");
            assert_eq!(answer, Answer::refused(30, *place));
        }
        let length = file.len() as u64;
        for place in [0, 4, 28, places[0] + 4, length, u64::MAX] {
            let answer = judge(&file, view(place, 0, 3), "order");
            assert_eq!(answer, Answer::refused(9, place));
        }
        let cut = &file[..file.len() - 4];
        for place in [0, 4, places[0], places[1], u64::MAX] {
            let answer = judge(cut, view(place, 0, 3), "order");
            assert_eq!(answer, Answer::refused(3, length - 24));
        }
    }
}

/// The file's tuples, the readings, and the identifiers that the check compares.
#[test]
fn the_answer() {
    let pings = [Echo::new(10000, &[5]).on(2), Echo::silent(10040, 3)];
    for order in Order::BOTH {
        let (file, places) = echo_file(order, &[(1000, 0), (2000, 3)], &pings);
        let compared = 1 + 2 + 2 + 1;
        let answer = Answer::checked(1 + 4 + 1 + 2 + 1, 0, compared);
        assert_eq!(check(&file), answer);
        let (mut cases, mut doubles) = ([9; 3], [7.5; 3]);
        let given = readings(&file, places[0], 0, &mut cases, &mut doubles);
        assert_eq!(
            given,
            Answer {
                length: 3,
                ..answer
            }
        );
        assert_eq!((cases, doubles), ([3, 0, 0], [0.000005, 0.0, 0.0]));
        let given = readings(&file, places[1], 0, &mut cases, &mut doubles);
        assert_eq!(
            given,
            Answer {
                length: 3,
                ..answer
            }
        );
        assert_eq!((cases, doubles), ([0; 3], [0.0; 3]));
    }
}

/// A quotient by a power of ten, written in decimals.
fn decimals(value: i64, divisor: u64) -> String {
    let places = divisor.ilog10() as usize;
    let amount = value.unsigned_abs();
    let sign = if value < 0 { "-" } else { "" };
    format!("{sign}{}.{:0places$}", amount / divisor, amount % divisor)
}

/// The readings of all values of a list are the doubles next to them in decimals, in both
/// orders.
fn next_to_decimals(code: u16, values: &[i32]) {
    for ((channel, case), order) in DEFINED.iter().zip(Order::BOTH.into_iter().cycle()) {
        for part in values.chunks(32_764) {
            let (file, places) = echo_file(order, &[*channel], &[Echo::new(code, part)]);
            let (_, shown) = told(&file, view(places[0], 0, part.len()), "all").unwrap();
            for (value, (shown_case, bits)) in part.iter().zip(shown) {
                let divisor = divisor(code, *case);
                let decimals = decimals((*value).into(), divisor);
                let double: f64 = decimals.parse().unwrap();
                assert_eq!((shown_case, bits), (*case, double.to_bits()), "{decimals}");
                assert_eq!(
                    bits,
                    rounded((*value).into(), divisor).to_bits(),
                    "{decimals}"
                );
            }
        }
    }
}

/// Every value of U-16, and counts of CE-16 about 0 and at their limits.
#[test]
fn every_value_of_two_bytes() {
    let all: Vec<i32> = (i16::MIN..=i16::MAX).map(i32::from).collect();
    next_to_decimals(10030, &all);
    let counts: Vec<i32> = (-800..=800)
        .chain([-8191, 8191, 507_840, -507_840])
        .collect();
    next_to_decimals(10050, &counts);
}

/// Values of four bytes: the limits, those next to whole volts and decibels, and any.
#[test]
fn values_of_four_bytes() {
    let mut values = vec![i32::MIN, i32::MIN + 1, i32::MAX, i32::MAX - 1, 1, -1, 0];
    values.extend((-150..=150).flat_map(|whole| [-1, 0, 1].map(|n| whole * 1_000_000 + n)));
    let mut rng = Rng::new(seed());
    values.extend((0..30_000).map(|_| rng.number() as i32));
    next_to_decimals(10000, &values);
    values.retain(|value| {
        (-2_147_418_112..-65_536).contains(value) || (0..2_147_418_112).contains(value)
    });
    next_to_decimals(10010, &values);
}

/// CE-16's second 0, with a sign, is the same as the first: a double without one.
#[test]
fn no_signed_zero() {
    for order in Order::BOTH {
        let (mut file, places) = echo_file(order, &[(1000, 0)], &[Echo::new(10050, &[0, 0])]);
        let at = places[0] as usize + 28;
        file[at..at + 2].copy_from_slice(&order.from_two(0x8000));
        let (_, shown) = told(&file, view(places[0], 0, 3), "zero").unwrap();
        assert_eq!(shown, [(1, 0), (1, 0), SILENT]);
    }
}

/// A window is the windows that it is cut into, one behind another.
#[test]
fn windows_join() {
    let seed = seed();
    let mut joined = 0;
    for index in 0..count(800) {
        let ViewerCase { name, bytes, views } = viewer_case(seed ^ 0x101, index);
        let name = format!("seed {seed} views {index} {name}");
        for View { place, first, lent } in views {
            let Ok((_, whole)) = told(&bytes, View { place, first, lent }, &name) else {
                continue;
            };
            let Some(half) = first.checked_add(whole.len() as u64 / 2) else {
                continue;
            };
            let (before, behind) = whole.split_at(whole.len() / 2);
            let halves = [(first, before), (half, behind)];
            for (first, part) in halves {
                let shown = told(&bytes, view(place, first, part.len()), &name).unwrap();
                assert_eq!(shown.1, part, "{name}");
                joined += 1;
            }
        }
    }
    assert!(joined > count(800), "{joined}");
}

/// What there is to tell of a window that is shown.
fn met(file: &File, view: View, shown: &[Entry]) -> Vec<String> {
    let at = view.place as usize;
    let kind = file.number(at + 4, 2);
    let samples = samples_at(file, at);
    let behind = view.first.saturating_add(shown.len() as u64);
    let inside = |number: u64| (view.first..behind).contains(&number);
    let (maker, sample_type) = channel_of(file, at);
    let mut met = vec![format!("type {sample_type} of {maker}")];
    for (case, bits) in shown {
        met.push(format!("{kind} shows {case}"));
        met.extend((*case > 0 && *bits == 0).then(|| format!("{kind} shows 0 as {case}")));
    }
    let last = samples.last().map(|sample| sample.0);
    for (is_so, what) in [
        (samples.is_empty(), "a silent ping"),
        (view.lent[0] < view.lent[1], "fewer cases"),
        (view.lent[1] < view.lent[0], "fewer doubles"),
        (shown.is_empty(), "no entries"),
        (last.is_some_and(inside), "a last sample"),
        (
            last.is_some_and(|last| last > 65_535 && inside(last)),
            "a number past two bytes",
        ),
        (
            last == Some(u32::MAX.into()) && last.is_some_and(inside),
            "the last number",
        ),
        (behind > 1 << 32, "past the last number"),
        (view.first >= 1 << 32, "no number"),
        (samples.len() == 32_764, "the most values"),
    ] {
        met.extend(is_so.then(|| what.to_string()));
    }
    met
}

/// The generated windows have all of these, in both orders.
#[test]
fn the_generator_has_windows() {
    let mut times: BTreeMap<String, [u64; 2]> = BTreeMap::new();
    for index in 0..1600 {
        let ViewerCase { bytes, views, .. } = viewer_case(1, index);
        let Some(file) = File::new(&bytes) else {
            continue;
        };
        for view in views {
            let what = match told(&bytes, view, "met") {
                Ok((_, shown)) => met(&file, view, &shown),
                Err(refusal) if refusal.code == 30 => {
                    let at = view.place as usize;
                    let (maker, sample_type) = channel_of(&file, at);
                    let kind = file.number(at + 4, 2);
                    vec![
                        format!("{kind} is 30"),
                        format!("type {sample_type} of {maker}"),
                    ]
                }
                Err(refusal) => vec![format!("code {}", refusal.code)],
            };
            for what in what.into_iter().collect::<BTreeSet<_>>() {
                times.entry(what).or_default()[usize::from(file.msb)] += 1;
            }
        }
    }
    let mut wanted: Vec<String> = [
        "a silent ping",
        "fewer cases",
        "fewer doubles",
        "no entries",
        "a last sample",
        "a number past two bytes",
        "the last number",
        "past the last number",
        "no number",
        "the most values",
        "code 9",
    ]
    .map(String::from)
    .to_vec();
    for kind in VALUED {
        wanted.extend((0..=3).map(|case| format!("{kind} shows {case}")));
        wanted.extend((1..=3).map(|case| format!("{kind} shows 0 as {case}")));
    }
    wanted.extend(common::PINGS.map(|kind| format!("{kind} is 30")));
    for sample_type in [0, 1, 2, 3, 4, 256, 512, 65_535] {
        wanted.extend([1000, 2000].map(|maker| format!("type {sample_type} of {maker}")));
    }
    for what in wanted {
        let times = times.get(&what).copied().unwrap_or_default();
        assert!(times.iter().all(|times| *times >= 3), "{what}: {times:?}");
    }
}
