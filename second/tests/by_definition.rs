//! The check once more, slowly: all faults of a tuple are gathered, each by
//! its own rule and with its place, and 01's line on the order picks one; the
//! identifiers compared are counted by searches. Meant for the files whose making
//! doesn't tell the answer.

mod common;

use common::{count, seed, tuple_faults, Faults, File, PINGS};
use second::gen::{
    fault, limit, limit_count, noise, random_damage, sound_case, two_faults, Case, Kind, Rng,
    FAULT_KINDS, LONG_KIND,
};
use second::{check, Answer};
use std::collections::BTreeSet;

/// 01's line on the order, for one tuple, with request c of 02; the two 3s are
/// told apart.
const ORDER: [&str; 15] = [
    "4", "3 short", "5", "3 end", "6", "7", "9", "8", "12", "14", "13", "11", "24", "25", "23",
];

#[derive(Default)]
struct Known {
    tuples: u64,
    /// Type, identifier, stated count and place of each sounder.
    sounders: Vec<(u64, u64, u64, usize)>,
    /// Identifier and parent of each channel.
    channels: Vec<(u64, u64)>,
    codes: Vec<u64>,
    /// The identifiers compared.
    compared: u64,
}

/// Pings, thresholds and attitudes do.
fn names_channel(code: u64) -> bool {
    PINGS.contains(&code) || code == 10100 || code == 40
}

fn link_faults(file: &File, at: usize, code: u64, known: &Known) -> Faults {
    let mut faults = Faults::new();
    let has_channel = |id| known.channels.iter().any(|channel| channel.0 == id);
    let has_sounder = |id| known.sounders.iter().any(|sounder| sounder.1 == id);
    // 1000 names a sounder of 100, 2000 one of 200
    let has_parent = |id| {
        let mut sounders = known.sounders.iter();
        sounders.any(|sounder| (sounder.0 * 10, sounder.1) == (code, id))
    };
    match code {
        100 | 200 => {
            if has_sounder(file.number(at + 8, 4)) {
                faults.insert("12", at);
            }
            if known.sounders.len() >= 64 {
                faults.insert("14", at);
            }
        }
        1000 | 2000 => {
            if has_channel(file.number(at + 6, 2)) {
                faults.insert("12", at);
            }
            if known.channels.len() >= 1024 {
                faults.insert("14", at);
            }
            if !has_parent(file.number(at + 8, 4)) {
                faults.insert("13", at);
            }
        }
        code if names_channel(code) => {
            let id = file.number(at + 12, 2);
            let all = code == 40 && id == 65535;
            if !all && !has_channel(id) {
                faults.insert("13", at);
            }
        }
        _ => {}
    }
    faults
}

/// All faults of the tuple at a place, as far as they can be looked for.
fn faults(file: &File, at: usize, known: &Known) -> Faults {
    let mut all = tuple_faults(file, at);
    let code = file.number(at + 4, 2);
    if (known.tuples == 0) != (code == 65535) {
        all.insert("7", at);
    }
    all.extend(link_faults(file, at, code, known));
    all
}

/// The identifiers that a search compares: those in the order of their
/// declaration, up to its match.
fn searched(declared: impl Iterator<Item = u64>, wanted: u64) -> u64 {
    let mut compared = 0;
    for id in declared {
        compared += 1;
        if id == wanted {
            break;
        }
    }
    compared
}

/// The identifiers compared to link the tuple at a place: request m of 02.
fn comparisons(file: &File, at: usize, code: u64, known: &Known) -> u64 {
    let sounders = known.sounders.iter().map(|sounder| sounder.1);
    let channels = known.channels.iter().map(|channel| channel.0);
    match code {
        1000 | 2000 => searched(sounders, file.number(at + 8, 4)),
        40 if file.number(at + 12, 2) == 65535 => 0,
        code if names_channel(code) => searched(channels, file.number(at + 12, 2)),
        _ => 0,
    }
}

impl Known {
    /// A tuple without a fault.
    fn note(&mut self, file: &File, at: usize) {
        let code = file.number(at + 4, 2);
        self.compared += comparisons(file, at, code, self);
        let (two, four) = (file.number(at + 6, 2), file.number(at + 8, 4));
        match code {
            100 | 200 => self.sounders.push((code, four, two, at)),
            1000 | 2000 => self.channels.push((two, four)),
            _ => {}
        }
        self.tuples += 1;
        self.codes.push(code);
    }

    /// Code and place of what is wrong once the end of file is seen, which ends
    /// at a place of a file of some length.
    fn late_fault(&self, end: usize, length: usize) -> Option<(u64, u64)> {
        if end != length {
            return Some((15, end as u64));
        }
        for range in [20..30, 100..1000, 1000..10000, 10000..10100] {
            if !self.codes.iter().any(|code| range.contains(code)) {
                return Some((16, end as u64));
            }
        }
        let wrong = self.sounders.iter().find(|(_, id, stated, _)| {
            let named = self.channels.iter().filter(|channel| channel.1 == *id);
            named.count() as u64 != *stated
        });
        wrong.map(|(.., place)| (17, *place as u64))
    }
}

/// The check's answer by definition.
fn defined(bytes: &[u8]) -> Answer {
    let refused = |code: u64, place: u64| Answer::refused(code as u32, place);
    if bytes.len() > 16_777_216 {
        return refused(1, 0);
    }
    let Some(file) = File::new(bytes) else {
        return refused(2, 0);
    };
    let mut known = Known::default();
    let mut at = 4;
    loop {
        let found = faults(&file, at, &known);
        if let Some(first) = ORDER.iter().find(|code| found.contains_key(*code)) {
            let digits = first.split(' ').next().unwrap();
            return refused(digits.parse().unwrap(), found[first] as u64);
        }
        known.note(&file, at);
        let code = file.number(at + 4, 2);
        at += file.number(at, 4) as usize + 10;
        if code == 65534 {
            break;
        }
    }
    match known.late_fault(at, bytes.len()) {
        Some((code, place)) => refused(code, place),
        None => Answer::checked(known.tuples, 0, known.compared),
    }
}

#[test]
fn check_does_what_the_definition_says() {
    let seed = seed();
    let makers: [fn(&mut Rng) -> Case; 7] = [
        random_damage,
        noise,
        two_faults,
        random_damage,
        sound_case,
        |rng| fault(rng, Kind::Identifier),
        |rng| {
            let kind = FAULT_KINDS[rng.index(FAULT_KINDS.len())];
            fault(rng, kind)
        },
    ];
    let mut seen = BTreeSet::new();
    for index in 0..count(20_000) {
        let mut rng = Rng::of_case(seed ^ 0x6465_6669, index);
        let case = makers[index as usize % makers.len()](&mut rng);
        let answer = check(&case.bytes);
        let name = &case.name;
        assert_eq!(
            answer,
            defined(&case.bytes),
            "seed {seed} file {index} {name}"
        );
        seen.insert(answer.code);
    }
    // all that a check can give but 1, whose files are too long
    let others = [1, 10, 18, 19, 20, 21, 22];
    assert_eq!(
        seen,
        (0..=25).filter(|code| !others.contains(code)).collect()
    );
}

/// The limit cases, full tables of sounders and channels among them, and files
/// with a channel too many.
#[test]
fn check_does_what_the_definition_says_of_limits() {
    let seed = seed();
    let long = (0..20).map(|index| {
        let mut rng = Rng::of_case(seed ^ 0x6C6F_6E67, index);
        fault(&mut rng, LONG_KIND)
    });
    let mut most = 0;
    for case in (0..limit_count()).flat_map(limit).chain(long) {
        let answer = check(&case.bytes);
        let name = &case.name;
        assert_eq!(answer, defined(&case.bytes), "seed {seed} {name}");
        assert!(answer.compared <= 1024 * answer.tuples, "{name}");
        most = most.max(answer.compared);
    }
    assert!(most > 1_000_000, "{most}");
}
