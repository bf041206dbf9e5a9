//! Echo energy per ping: against 02's sentences, said once more and slowly, with a table
//! worked out in decimal digits; what must hold of every file; and files made by hand.

mod common;

use common::echoes::{
    asked, channel_of, echo_file, ping_starts, places_to_ask, samples_at, Channel, Echo, ANGLED,
    VALUED,
};
use common::{count, every_refusal, seed, Bytes, File, PINGS};
use second::gen::{energy_case, file_case, limit, limit_count, Case, Rng};
use second::{check, energies, energy, Answer, Order};
use std::collections::{BTreeMap, BTreeSet};
use std::sync::OnceLock;

/// Sv channels of both makers.
const SV: [Channel; 2] = [(1000, 1), (2000, 2)];

/// The linear value of 0 dB, in units of 10^-14.
const WHOLE: u64 = 100_000_000_000_000;

/// Units in 1 dB, by TR's tables of the kinds.
fn per_db(code: u16) -> i32 {
    match code {
        10000 | 10010 => 1_000_000,
        10030 | 10040 => 100,
        _ => 1_000,
    }
}

/// A number's 200th power in decimal digits.
fn power_200(number: u64) -> String {
    const NINE_DIGITS: u64 = 1_000_000_000;
    let mut parts = vec![1];
    for _ in 0..200 {
        let mut carry = 0;
        for part in &mut parts {
            carry += *part * number;
            *part = carry % NINE_DIGITS;
            carry /= NINE_DIGITS;
        }
        if carry > 0 {
            parts.push(carry);
        }
    }
    let digits: String = parts
        .iter()
        .rev()
        .map(|part| format!("{part:09}"))
        .collect();
    digits.trim_start_matches('0').to_string()
}

/// Whether a number's 200th power is at most 10 to the exponent: it has no more digits than
/// that, or is that itself.
fn is_within(number: u64, exponent: usize) -> bool {
    let power = power_200(number);
    power.len() <= exponent || power == format!("1{}", "0".repeat(exponent))
}

/// 02's table: at each k the largest whole number whose 200th power is at most 10 to the
/// k + 1200. Each is looked for among the seven digits that it has.
fn entries() -> &'static [u64] {
    static ENTRIES: OnceLock<Vec<u64>> = OnceLock::new();
    ENTRIES.get_or_init(|| {
        let largest = |k: usize| {
            let (mut within, mut beyond) = (1_000_000, 10_000_000);
            while beyond - within > 1 {
                let middle = (within + beyond) / 2;
                if is_within(middle, k + 1200) {
                    within = middle;
                } else {
                    beyond = middle;
                }
            }
            within
        };
        (0..200).map(largest).collect()
    })
}

/// Every multiple of 0.05 dB from -150 to 0 dB, in that unit, rising, with its linear value.
fn linears() -> &'static [(i64, u64)] {
    static LINEARS: OnceLock<Vec<(i64, u64)>> = OnceLock::new();
    LINEARS.get_or_init(|| {
        let pairs = (0..=15).flat_map(|m| (0..200).map(move |k| (m, k)));
        let mut all: Vec<(i64, u64)> = pairs
            .map(|(m, k)| {
                let entry = entries()[k];
                let linear = match m {
                    0..=8 => entry * 10u64.pow(8 - m),
                    _ => entry / 10u64.pow(m - 8),
                };
                (k as i64 - 200 * i64::from(m), linear)
            })
            .filter(|(step, _)| *step <= 0)
            .collect();
        all.sort_unstable();
        all
    })
}

/// The linear value of a value: that of the last multiple of 0.05 dB that isn't above it.
fn linear(value: i64, per_db: i64) -> u64 {
    let above = linears().partition_point(|(step, _)| step * per_db <= 20 * value);
    linears()[above - 1].1
}

/// 02's sentences on one ping.
fn defined(bytes: &[u8], place: u64) -> Result<(Answer, u64), Answer> {
    let answer = asked(bytes, place)?;
    let file = File::new(bytes).expect("a mark");
    let at = place as usize;
    let code = file.number(at + 4, 2) as u16;
    if ANGLED.contains(&code) || !SV.contains(&channel_of(&file, at)) {
        return Err(Answer::refused(28, place));
    }
    let per_db = i64::from(per_db(code));
    let values: Vec<i64> = samples_at(&file, at)
        .iter()
        .map(|sample| sample.1)
        .collect();
    let outside = |value: &i64| *value > 0 || *value < -150 * per_db;
    if let Some(nth) = values.iter().position(outside) {
        return Err(Answer::refused(29, nth as u64));
    }
    let sum: u128 = values
        .iter()
        .map(|value| u128::from(linear(*value, per_db)))
        .sum();
    Ok((answer, u64::try_from(sum).expect("no sum passes 64 bits")))
}

/// A ping's place, its energy and its code.
type Row = (u64, u64, u32);

/// The call for one ping says of all listed pings what the one for a file should.
fn rows_one_by_one(bytes: &[u8]) -> Vec<Row> {
    let file = File::new(bytes).expect("a mark");
    let rows = ping_starts(&file).into_iter().map(|at| {
        let place = at as u64;
        match energy(bytes, place) {
            Ok((_, energy)) => (place, energy, 0),
            Err(refusal) => (place, 0, refusal.code),
        }
    });
    rows.collect()
}

/// Slices that no call would leave by chance.
fn lent(entries: [usize; 3]) -> (Vec<u64>, Vec<u64>, Vec<u32>) {
    let wide = |entries: usize| (0..entries as u64).map(|at| u64::MAX - 151 * at);
    let codes = (0..entries[2] as u32).map(|at| u32::MAX - 151 * at);
    (
        wide(entries[0]).collect(),
        wide(entries[1]).collect(),
        codes.collect(),
    )
}

/// The answer of a call that is lent so many entries, and the rows that it fills; all others
/// stay, and all of them with a refusal.
fn called(file: &[u8], entries: [usize; 3], name: &str) -> (Answer, Vec<Row>) {
    let (mut places, mut sums, mut codes) = lent(entries);
    let answer = energies(file, &mut places, &mut sums, &mut codes);
    let n = answer.length as usize;
    let before = lent(entries);
    assert_eq!(places[n..], before.0[n..], "{name}");
    assert_eq!(sums[n..], before.1[n..], "{name}");
    assert_eq!(codes[n..], before.2[n..], "{name}");
    let rows = (0..n).map(|nth| (places[nth], sums[nth], codes[nth]));
    (answer, rows.collect())
}

/// What the call for a file tells of an accepted one. Lent memory is watched: just enough,
/// more than enough, and too little in one slice, in another and in all.
fn told(file: &[u8], name: &str) -> Vec<Row> {
    let room = file.len() / 36; // no ping is shorter
    let (answer, rows) = called(file, [room; 3], name);
    let (n, length) = (rows.len(), answer.length);
    assert_eq!(
        answer,
        Answer {
            length,
            ..check(file)
        },
        "{name}"
    );
    for entries in [[n; 3], [n + 1, n, n + 5], [n, n + 2, n + 1]] {
        let again = called(file, entries, name);
        assert_eq!(again, (answer, rows.clone()), "{name}");
    }
    if let Some(less) = n.checked_sub(1) {
        for entries in [
            [less, n, n],
            [n, less, n],
            [n, n, less],
            [0, n, n],
            [less; 3],
        ] {
            let refused = called(file, entries, name);
            assert_eq!(refused, (Answer::refused(19, 0), vec![]), "{name}");
        }
    }
    rows
}

/// Whatever the file: both calls are what is defined, at some of its places.
fn judge(bytes: &[u8], rng: &mut Rng, name: &str) -> Answer {
    for place in places_to_ask(rng, bytes, 12) {
        assert_eq!(
            energy(bytes, place),
            defined(bytes, place),
            "{name} {place}"
        );
    }
    let checked = check(bytes);
    if checked.is_accepted() {
        assert_eq!(told(bytes, name), rows_one_by_one(bytes), "{name}");
    } else {
        for entries in [[0; 3], [9; 3], [0, 9, 9], [bytes.len().min(999); 3]] {
            assert_eq!(called(bytes, entries, name), (checked, vec![]), "{name}");
        }
    }
    checked
}

#[test]
fn energies_are_what_02_says() {
    let seed = seed();
    let mut rng = Rng::new(seed);
    for index in 0..count(2000) {
        let Case { name, bytes, .. } = energy_case(seed, index);
        let name = format!("seed {seed} file {index} {name}");
        judge(&bytes, &mut rng, &name);
    }
    for index in 0..count(3000) {
        for case in file_case(seed, index) {
            let name = format!("seed {seed} case {index} {}", case.name);
            judge(&case.bytes, &mut rng, &name);
        }
    }
    for case in (0..limit_count()).step_by(7).flat_map(limit) {
        judge(&case.bytes, &mut rng, &case.name);
    }
}

/// Every refusal of the check is passed on, in both orders, before 9, 28 and 19.
#[test]
fn refusals_of_the_check() {
    let mut rng = Rng::new(seed());
    every_refusal(0x28_29, 20, |file, name| judge(file, &mut rng, name));
}

/// What is told of pings of one channel, in both orders and, by its Sv, of both makers: an
/// energy, or a code and its place. 28 has the ping's own.
fn tells(pings: &[Echo], expected: &[Result<u64, (u32, u64)>]) {
    for (order, sv) in Order::BOTH.map(|order| SV.map(|sv| (order, sv))).concat() {
        tells_in(order, sv, pings, expected);
    }
}

fn tells_in(order: Order, channel: Channel, pings: &[Echo], expected: &[Result<u64, (u32, u64)>]) {
    let (file, places) = echo_file(order, &[channel], pings);
    let checked = check(&file);
    assert!(checked.is_accepted(), "{checked:?}");
    let mut rows = Vec::new();
    for (nth, (place, expected)) in places.iter().zip(expected).enumerate() {
        let name = format!("{order:?} {channel:?} {nth}");
        let told = energy(&file, *place);
        assert_eq!(told, defined(&file, *place), "{name}");
        match expected {
            Ok(sum) => assert_eq!(told, Ok((checked, *sum)), "{name}"),
            Err((code, at)) => assert_eq!(told, Err(Answer::refused(*code, *at)), "{name}"),
        }
        let code = expected.map_or_else(|(code, _)| code, |_| 0);
        rows.push((*place, expected.unwrap_or(0), code));
    }
    assert_eq!(places.len(), expected.len());
    assert_eq!(self::told(&file, "by hand"), rows, "{order:?} {channel:?}");
}

/// Each ping has one value of 0.000001 dB.
fn tells_values(values: &[i32], sums: &[u64]) {
    let pings: Vec<Echo> = values
        .iter()
        .map(|value| Echo::new(10000, &[*value]))
        .collect();
    let sums: Vec<_> = sums.iter().map(|sum| Ok(*sum)).collect();
    tells(&pings, &sums);
}

/// From -80 dB on the linear value is the entry itself.
#[test]
fn the_table() {
    let values: Vec<i32> = (0..200).map(|k| -80_000_000 + 50_000 * k).collect();
    tells_values(&values, entries());
    assert!(entries().windows(2).all(|pair| pair[0] < pair[1]));
    for (k, entry) in [
        (0, 1_000_000),
        (1, 1_011_579),
        (20, 1_258_925),
        (60, 1_995_262),
        (100, 3_162_277),
        (140, 5_011_872),
        (199, 9_885_530),
    ] {
        assert_eq!(entries()[k], entry, "{k}");
    }
}

/// 02's rule, over the whole table: the 200th power of an entry is within its bound, that of
/// the next whole number isn't.
#[test]
fn each_entry_is_the_largest() {
    for (k, entry) in entries().iter().enumerate() {
        assert!(is_within(*entry, k + 1200), "{k}");
        assert!(!is_within(entry + 1, k + 1200), "{k}");
    }
    assert_eq!(power_200(1_000_000), format!("1{}", "0".repeat(1200)));
    assert!(is_within(10, 200) && !is_within(10, 199) && !is_within(11, 208));
}

/// m from 0 to 15, with the first and the last k of each, and what is rounded down.
#[test]
fn tens_of_decibels() {
    let tens: Vec<i32> = (0..=15).map(|m| -10_000_000 * m).collect();
    let mut sums: Vec<u64> = (0..=14).map(|m| WHOLE / 10u64.pow(m)).collect();
    sums.push(0);
    tells_values(&tens, &sums);
    let below: Vec<i32> = (0..15).map(|m| -10_000_000 * m - 50_000).collect();
    #[rustfmt::skip]
    let sums = [
        98_855_300_000_000, 9_885_530_000_000, 988_553_000_000, 98_855_300_000, 9_885_530_000,
        988_553_000, 98_855_300, 9_885_530, 988_553, 98_855, 9_885, 988, 98, 9, 0,
    ];
    tells_values(&below, &sums);
    let above: Vec<i32> = (1..=15).map(|m| -10_000_000 * m + 50_000).collect();
    #[rustfmt::skip]
    let sums = [
        10_115_790_000_000, 1_011_579_000_000, 101_157_900_000, 10_115_790_000, 1_011_579_000,
        101_157_900, 10_115_790, 1_011_579, 101_157, 10_115, 1_011, 101, 10, 1, 0,
    ];
    tells_values(&above, &sums);
}

/// A multiple of 0.05 dB stays; all below it, up to the next, are stepped down to that.
#[test]
fn steps() {
    tells_values(
        &[
            -80_000_000,
            -80_000_001,
            -80_049_999,
            -80_050_000,
            -80_050_001,
        ],
        &[1_000_000, 988_553, 988_553, 988_553, 977_237],
    );
    tells_values(
        &[0, -1, -49_999, -50_000],
        &[
            WHOLE,
            98_855_300_000_000,
            98_855_300_000_000,
            98_855_300_000_000,
        ],
    );
    // C-16 has no words from -256 to -1, C-32 none from -65,536 to -1
    for (code, values) in [
        (10010, [-80_000_000, -80_000_001, -80_050_000, -80_050_001]),
        (10030, [-8000, -8001, -8005, -8006]),
        (10040, [-8000, -8001, -8005, -8006]),
        (10050, [-80_000, -80_016, -80_048, -80_064]),
    ] {
        let pings = values.map(|value| Echo::new(code, &[value]));
        tells(
            &pings,
            &[Ok(1_000_000), Ok(988_553), Ok(988_553), Ok(977_237)],
        );
    }
    // CE-16 below 4,096 counts has every one
    let values = [0, -1, -49, -50, -51, -100, -101];
    let sums = [200, 199, 199, 199, 198, 198, 197];
    let sums = sums.map(|k| {
        if k == 200 {
            WHOLE
        } else {
            entries()[k] * 10_000_000
        }
    });
    let pings = values.map(|value| Echo::new(10050, &[value]));
    tells(&pings, &sums.map(Ok));
}

/// -150 and 0 dB are inside, the next values outside. CE-16 has no word for -150 dB: the
/// nearest ones are 0.016 dB beside it.
#[test]
fn limits() {
    for code in VALUED {
        let quietest = -150 * per_db(code);
        let (inside, outside) = match code {
            10050 => (quietest + 16, quietest - 16),
            _ => (quietest, quietest - 1),
        };
        let pings = [0, inside, 1, outside].map(|value| Echo::new(code, &[value]));
        let (high, low) = (Err((29, 0)), Err((29, 0)));
        tells(&pings, &[Ok(WHOLE), Ok(0), high, low]);
    }
    for value in [i32::MIN, i32::MAX, -150_000_001, 1_000_000] {
        tells(&[Echo::new(10000, &[value])], &[Err((29, 0))]);
    }
    for value in [i16::MIN, i16::MAX, -15_100, 100] {
        tells(&[Echo::new(10030, &[value.into()])], &[Err((29, 0))]);
    }
    tells(&[Echo::new(10050, &[507_840])], &[Err((29, 0))]);
    tells(&[Echo::new(10050, &[-507_840])], &[Err((29, 0))]);
}

/// The same echo in each kind's unit; CE-16's is a tenth of that of the other 16-bit kinds.
#[test]
fn each_kind_by_its_own_unit() {
    // -20.48 dB
    for (code, value) in [
        (10000, -20_480_000),
        (10010, -20_480_000),
        (10030, -2048),
        (10040, -2048),
        (10050, -20_480),
    ] {
        let k = 190; // -20.50 dB
        tells(&[Echo::new(code, &[value])], &[Ok(entries()[k] * 100_000)]);
    }
}

/// The largest sum, of every kind with values, and one value outside behind all the others.
#[test]
fn the_most_values() {
    for code in VALUED {
        let mut values = vec![0; 32_764];
        let most = Echo::new(code, &values);
        values[32_763] = 1;
        let last = Echo::new(code, &values);
        tells(
            &[most, last],
            &[Ok(3_276_400_000_000_000_000), Err((29, 32_763))],
        );
    }
}

/// A louder sample never gives less: every value that 16-bit kinds have, and about every
/// step those of 32 bits.
#[test]
fn louder_never_gives_less() {
    let about_steps = (0..3000)
        .rev()
        .flat_map(|below: i32| [-50_000, -49_999, -25_000, -1].map(|more| -50_000 * below + more));
    for (code, values) in [
        (10000, about_steps.chain([0]).collect::<Vec<i32>>()),
        (10030, (-15_000..=0).collect()),
        (10050, (-8_191..=0).collect()),
    ] {
        let pings: Vec<Echo> = values
            .iter()
            .map(|value| Echo::new(code, &[*value]))
            .collect();
        let (file, places) = echo_file(Order::Lsb, &SV[1..], &pings);
        let (_, rows) = called(&file, [places.len(); 3], "louder");
        assert_eq!(rows.len(), values.len());
        assert!(rows.iter().all(|row| row.2 == 0));
        assert!(rows.windows(2).all(|pair| pair[0].1 <= pair[1].1), "{code}");
        let defined = values
            .iter()
            .map(|value| linear((*value).into(), per_db(code).into()));
        assert!(rows.iter().map(|row| row.1).eq(defined), "{code}");
        assert_eq!(rows.last().map(|row| row.1), Some(WHOLE));
    }
}

/// Samples are added up, wherever they stand, and silence adds nothing.
#[test]
fn sums() {
    let quiet = 98_855_300_000_000 / 10;
    let values = [0, -10_050_000, -80_000_000, -150_000_000];
    let sum = WHOLE + quiet + 1_000_000;
    for code in [10000, 10010] {
        let apart = [
            (3, 0),
            (4, -10_050_000),
            (70_000, -80_000_000),
            (140_000, -150_000_000),
        ];
        tells(
            &[Echo::new(code, &values), Echo::of(code, &apart)],
            &[Ok(sum), Ok(sum)],
        );
    }
    for (code, unit) in [(10030, 1), (10040, 1), (10050, 10)] {
        let apart = [(3, 0), (300, -1000 * unit), (65_535, -8000 * unit)];
        let sum = WHOLE + WHOLE / 10 + 1_000_000;
        tells(&[Echo::of(code, &apart)], &[Ok(sum)]);
    }
    for code in [10010, 10040, 10050] {
        let silent = [1, 300, 70_000].map(|length| Echo::silent(code, length));
        tells(&silent, &[Ok(0); 3]);
        let mut ending = Echo::new(code, &[0]);
        ending.silence = 5;
        tells(&[ending], &[Ok(WHOLE)]);
    }
}

/// 29 has the first offender's place in the list: samples below threshold aren't in it, and
/// no later offender is told.
#[test]
fn the_place_of_a_value() {
    for code in VALUED {
        let low = if code == 10050 {
            -150_016
        } else {
            -150 * per_db(code) - 1
        };
        for (values, nth) in [
            ([1, 1, low, 0], 0),
            ([0, low, 1, 0], 1),
            ([0, 0, 1, low], 2),
            ([0, 0, 0, low], 3),
        ] {
            let apart: Vec<(u32, i32)> = [2, 3, 400, 1000].into_iter().zip(values).collect();
            let pings = [Echo::new(code, &values), Echo::of(code, &apart)];
            tells(&pings, &[Err((29, nth)), Err((29, nth))]);
        }
    }
}

/// Sv is 1 of a 1000 channel and 2 of a 2000 channel, and nothing else is: not the other
/// maker's number, nor Sv's with its bytes turned about.
#[test]
fn types_of_data_sample() {
    for (maker, sv) in SV {
        for sample_type in [
            0, 1, 2, 3, 4, 255, 256, 257, 512, 513, 32_769, 65_534, 65_535,
        ] {
            for (order, code) in Order::BOTH
                .map(|order| VALUED.map(|code| (order, code)))
                .concat()
            {
                let pings = [Echo::new(code, &[0]), Echo::new(code, &[1])];
                let place = 4 + 24 + if maker == 1000 { 72 } else { 80 } + 108 + 36;
                let second = place + if code == 10030 { 36 } else { 40 };
                let expected = if sample_type == sv {
                    [Ok(WHOLE), Err((29, 0))]
                } else {
                    [Err((28, place)), Err((28, second))]
                };
                tells_in(order, (maker, sample_type), &pings, &expected);
            }
        }
    }
}

/// Angle pings of Sv channels are 28, whatever they hold, and so are silent pings of others.
#[test]
fn angles_and_silence() {
    for order in Order::BOTH {
        for code in ANGLED {
            for (maker, sounder) in SV.into_iter().zip([72, 80]) {
                let place = 4 + 24 + sounder + 108 + 36;
                let pings = [Echo::new(code, &[0, -5])];
                tells_in(order, maker, &pings, &[Err((28, place))]);
            }
        }
        for code in [10010, 10040, 10050] {
            let place = 4 + 24 + 72 + 108 + 36;
            tells_in(
                order,
                (1000, 0),
                &[Echo::silent(code, 9)],
                &[Err((28, place))],
            );
        }
    }
}

/// Each ping by its own channel, of either maker, in one file; a transceiver's or a
/// sounder's number has nothing to say.
#[test]
fn channels_of_both_makers() {
    let channels = [
        (1000, 1),
        (2000, 1),
        (1000, 2),
        (2000, 2),
        (2000, 3),
        (1000, 0),
    ];
    let pings: Vec<Echo> = (1..=6)
        .rev()
        .map(|id| Echo::new(10030, &[-1000]).on(id))
        .collect();
    for order in Order::BOTH {
        let (file, places) = echo_file(order, &channels, &pings);
        let rows = told(&file, "both makers");
        let tenth = WHOLE / 10;
        let expected = [(0, 28), (0, 28), (tenth, 0), (0, 28), (0, 28), (tenth, 0)];
        let expected = places
            .iter()
            .zip(expected)
            .map(|(place, (sum, code))| (*place, sum, code));
        assert_eq!(rows, expected.collect::<Vec<Row>>());
        assert_eq!(rows, rows_one_by_one(&file));
    }
}

/// The check's refusal, then 9, then 28, then 29; and for a file the check's, then 19.
#[test]
fn order_of_refusals() {
    for order in Order::BOTH {
        let pings = [Echo::new(10000, &[1]), Echo::new(10001, &[1]).on(2)];
        let (file, places) = echo_file(order, &[(1000, 1), (2000, 9)], &pings);
        let refused = |file: &[u8], place| energy(file, place).map_err(|it| (it.code, it.place));
        assert_eq!(refused(&file, places[0]), Err((29, 0)));
        assert_eq!(refused(&file, places[1]), Err((28, places[1])));
        for place in [0, 4, 28, places[0] + 4, file.len() as u64, u64::MAX] {
            assert_eq!(refused(&file, place), Err((9, place)));
        }
        let rows = [(places[0], 0, 29), (places[1], 0, 28)];
        assert_eq!(told(&file, "order"), rows);
        // the file's end is cut off
        let end = file.len() as u64 - 24;
        let cut = &file[..file.len() - 4];
        for place in [0, 4, places[0], places[1], u64::MAX] {
            assert_eq!(refused(cut, place), Err((3, end)));
        }
        assert_eq!(called(cut, [0; 3], "cut").0, Answer::refused(3, end));
        assert_eq!(called(&file, [1; 3], "short").0, Answer::refused(19, 0));
    }
}

/// Unlisted types of the ping class and pings in a text are no listed pings.
#[test]
fn what_is_no_listed_ping() {
    for order in Order::BOTH {
        let (file, places) = echo_file(order, &SV[..1], &[Echo::new(10000, &[0])]);
        let at = places[0] as usize;
        let ping = file[at..at + 40].to_vec();
        let mut with = Bytes::new(order);
        with.bytes = file[..at].to_vec();
        with.tuple(10020, 40, |bytes| bytes.bytes.extend(&ping[6..30]));
        with.tuple(10110, 60, |bytes| {
            bytes.bytes.extend([0; 6]);
            bytes.bytes.extend(&ping);
        });
        with.bytes.extend(&file[at..]);
        let listed = places[0] + 100;
        assert_eq!(told(&with.bytes, "one"), [(listed, WHOLE, 0)]);
        for place in [places[0], places[0] + 40, places[0] + 52] {
            assert_eq!(energy(&with.bytes, place), Err(Answer::refused(9, place)));
        }
        // without the listed one no entries are needed
        with.bytes.drain(listed as usize..listed as usize + 40);
        assert_eq!(told(&with.bytes, "none"), []);
        assert_eq!(called(&with.bytes, [0; 3], "none").0, check(&with.bytes));
    }
}

/// The file's tuples, the pings as length where a whole file is asked for, and the
/// identifiers that the check compares.
#[test]
fn the_answer() {
    let pings = [
        Echo::new(10000, &[0]).on(2),
        Echo::silent(10010, 3),
        Echo::new(10031, &[7]).on(2),
    ];
    for order in Order::BOTH {
        let (file, places) = echo_file(order, &SV, &pings);
        // of channels to their sounders, and of pings to their channels
        let compared = 1 + 2 + 2 + 1 + 2;
        let answer = Answer::checked(1 + 4 + 1 + 3 + 1, 0, compared);
        assert_eq!(check(&file), answer);
        assert_eq!(energy(&file, places[0]), Ok((answer, WHOLE)));
        assert_eq!(energy(&file, places[1]), Ok((answer, 0)));
        let (whole, rows) = called(&file, [3, 4, 5], "answer");
        assert_eq!(
            whole,
            Answer {
                length: 3,
                ..answer
            }
        );
        assert_eq!(
            rows,
            [(places[0], WHOLE, 0), (places[1], 0, 0), (places[2], 0, 28)]
        );
    }
}

/// What there is to tell of a ping and of what is told of it.
fn met(file: &File, (place, sum, code): Row) -> Vec<String> {
    let at = place as usize;
    let kind = file.number(at + 4, 2);
    let (maker, sample_type) = channel_of(file, at);
    let mut met = vec![
        format!("{kind} gives {code}"),
        format!("type {sample_type} of {maker}"),
    ];
    if ANGLED.contains(&(kind as u16)) {
        return met;
    }
    let samples = samples_at(file, at);
    let per_db = i64::from(per_db(kind as u16));
    let silent = if samples.is_empty() { " silent" } else { "" };
    met.push(format!("{kind}{silent} of {maker} gives {code}"));
    if code == 0 {
        for value in samples.iter().map(|sample| sample.1) {
            met.push(format!("m {}", (-value + 10 * per_db - 1) / (10 * per_db)));
            met.extend((value == 0).then(|| format!("{kind} at 0 dB")));
            met.extend((value == -150 * per_db).then(|| format!("{kind} at -150 dB")));
            met.extend((value * 20 % per_db == 0).then(|| format!("{kind} at a step")));
        }
        met.extend((sum > 3_000_000_000_000_000_000).then(|| format!("{kind} most")));
    }
    met
}

/// The generated files have all of these, in both orders.
#[test]
fn the_generator_has_echoes() {
    let mut times: BTreeMap<String, [u64; 2]> = BTreeMap::new();
    for index in 0..1500 {
        let Case {
            bytes, expected, ..
        } = energy_case(1, index);
        if expected != Some((0, 0)) {
            continue;
        }
        let file = File::new(&bytes).expect("a mark");
        let msb = usize::from(file.msb);
        for row in rows_one_by_one(&bytes) {
            for what in met(&file, row).into_iter().collect::<BTreeSet<_>>() {
                times.entry(what).or_default()[msb] += 1;
            }
        }
    }
    let mut wanted: Vec<String> = (0..=15).map(|m| format!("m {m}")).collect();
    for kind in PINGS {
        wanted.push(format!("{kind} gives 28"));
    }
    for kind in VALUED {
        for code in [0, 28, 29] {
            wanted.extend([1000, 2000].map(|maker| format!("{kind} of {maker} gives {code}")));
        }
        wanted.extend(["at 0 dB", "at a step", "most"].map(|what| format!("{kind} {what}")));
        wanted.extend((kind != 10050).then(|| format!("{kind} at -150 dB")));
    }
    for kind in [10010, 10040, 10050] {
        wanted.extend([0, 28].map(|code| format!("{kind} silent of 1000 gives {code}")));
    }
    for sample_type in [0, 1, 2, 3, 4, 256, 512, 65_535] {
        wanted.extend([1000, 2000].map(|maker| format!("type {sample_type} of {maker}")));
    }
    for what in wanted {
        let times = times.get(&what).copied().unwrap_or_default();
        assert!(times.iter().all(|times| *times >= 3), "{what}: {times:?}");
    }
}
