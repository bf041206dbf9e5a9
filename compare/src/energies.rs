//! What is compared of echo energies: those of all pings of a file, lent just enough entries,
//! more, one too few of each slice, and none; that of the ping at a place, and of none there;
//! and what was met, so that nothing that can be is never there.

use crate::answers::{five, reply_numbers};
use crate::batch::{Batch, File, FILLED, LONG_FILLED};
use crate::echoes::{asked, echo_at, samples_at, spot, Echo, SPOTS, SV, TYPES};
use crate::exports::export;
use crate::files::compare_echoes;
use crate::slices::{Lent, Slices, Tries};
use crate::tally::{in_both_orders, Chapter, Given};
use second::gen::energy_case;
use second::kinds::{Kind, KINDS};
use second::{energies, energy, Answer, Maker, PingKind};
use std::collections::BTreeSet;
use std::io;

/// What the exports compared here can give: what a check can, and of their own. An energy needs
/// a ping, its channel and that one's sounder.
pub const GIVEN: [Given; 2] = [
    Given::checking("energy", &[28, 29]).comparing(2),
    Given::checking("energies", &[19]).comparing(0),
];

/// So many of the generator's files of echoes come with each case that is compared in full.
const FILES: u64 = 3;

/// The codes of a place where no ping starts, of a ping without an energy and of a value
/// outside the limits.
const OTHER_TYPE: u32 = 9;
const NOT_SV: u32 = 28;
const OUTSIDE: u32 = 29;

/// The lower limit, in dB; the upper one is 0.
const QUIETEST: i32 = -150;

/// The slices, as the header calls them.
const SLICES: Slices = Slices {
    chapter: Chapter::Energies,
    names: ["places", "energies", "codes"],
};

/// The files of echoes of a case, and their readings.
pub fn compare_energy_files(batch: &mut Batch, seed: u64, index: u64) -> io::Result<()> {
    for number in FILES * index..FILES * (index + 1) {
        let case = energy_case(seed, number);
        let about = format!("seed {seed}, echoes {number}, {}", case.name);
        batch.start(about, &case.bytes);
        compare_echoes(batch, &mut File::new(&case.bytes), Tries::All)?;
        batch.run()?;
    }
    Ok(())
}

/// The energies of all pings of a file, and of some one by one.
pub fn compare_energies(
    batch: &mut Batch,
    file: &mut File,
    echoes: &[Echo],
    tries: Tries,
) -> io::Result<()> {
    let mut codes = Vec::new();
    let into = |batch: &mut Batch, file: &mut File, lent| {
        let (answer, told) = energies_into(batch, file, lent);
        if answer.is_accepted() {
            codes = told;
        }
        answer
    };
    let answer = SLICES.compare(batch, file, echoes.len(), tries, into)?;
    if answer.is_accepted() {
        note_all(batch, file.bytes, echoes, &codes);
    }
    for place in asked(file.bytes, echoes, tries) {
        let answer = energy_at(batch, file, place);
        note(batch, file.bytes, echo_at(echoes, place), place, answer);
        batch.rest()?;
    }
    Ok(())
}

/// The energies of all pings. Gives the codes, too.
fn energies_into(batch: &mut Batch, file: &mut File, lent: Lent) -> (Answer, Vec<u32>) {
    let [mut places, mut units] = [lent[0], lent[1]].map(|entries| vec![LONG_FILLED; entries]);
    let mut codes = vec![FILLED; lent[2]];
    let answer = energies(file.bytes, &mut places, &mut units, &mut codes);
    // a code has a byte, and so has what was there before
    let told: Vec<u8> = codes.iter().map(|code| *code as u8).collect();
    let arguments = [
        batch.file(file).into(),
        batch.lend_longs(&places),
        batch.lend_longs(&units),
        batch.lend_bytes(&told),
    ];
    batch.call(export("energies"), &arguments, &five(answer));
    (answer, codes)
}

/// The energy of the ping at a place.
fn energy_at(batch: &mut Batch, file: &mut File, place: u64) -> Answer {
    let told = energy(file.bytes, place);
    let arguments = [batch.file(file).into(), place.into()];
    let numbers = reply_numbers(told, |units| vec![units]);
    batch.call(export("energy"), &arguments, &numbers);
    told.map_or_else(|refusal| refusal, |(answer, _)| answer)
}

/// Notes what the energies of all pings of an accepted file met, each thing once.
fn note_all(batch: &mut Batch, file: &[u8], echoes: &[Echo], codes: &[u32]) {
    let pings = echoes.iter().zip(codes);
    let mut whats: BTreeSet<String> = pings.map(|(echo, code)| told_of(echo, *code)).collect();
    if echoes.is_empty() {
        whats.insert(NO_PING.to_string());
    }
    for what in whats {
        met(batch, file, &among_all(&what));
    }
}

/// Notes what asking at a place met, in a file that is accepted.
fn note(batch: &mut Batch, file: &[u8], echo: Option<&Echo>, place: u64, answer: Answer) {
    match (answer.code, echo) {
        (OTHER_TYPE, None) if answer.place == place => met(batch, file, spot(file, place)),
        (0 | NOT_SV | OUTSIDE, Some(echo)) => {
            met(batch, file, &told_of(echo, answer.code));
            let sum = Sum::of(file, echo, answer);
            let sights = SIGHTS.iter().filter(|sight| (sight.is_seen)(&sum));
            for sight in sights {
                met(batch, file, &sight.of(echo.kind.row()));
            }
        }
        _ => {}
    }
}

fn met(batch: &mut Batch, file: &[u8], what: &str) {
    batch.met_in_order(Chapter::Energies, file, what);
}

/// What can be seen of all pings of a file together.
const NO_PING: &str = "no listed ping";

/// What is seen where the energies of all pings are told.
fn among_all(what: &str) -> String {
    format!("{what}, among all")
}

/// What is told of a ping.
fn told_of(echo: &Echo, code: u32) -> String {
    let kind = echo.kind.row();
    match code {
        0 => energy_of(kind, echo.of.maker),
        NOT_SV => no_energy_of(&echo.cause()),
        _ => outside_of(kind),
    }
}

fn energy_of(kind: &Kind, maker: Maker) -> String {
    format!("an energy of a {} of {maker:?}", kind.name)
}

fn no_energy_of(cause: &str) -> String {
    format!("{NOT_SV} by {cause}")
}

fn outside_of(kind: &Kind) -> String {
    format!("{OUTSIDE} of a {}", kind.name)
}

/// All that can be told of a ping.
fn all_told() -> Vec<String> {
    let angled = KINDS.iter().filter(|kind| kind.has_angles());
    let mut told: Vec<String> = angled.map(|kind| no_energy_of(kind.name)).collect();
    let others = TYPES.iter().filter(|row| row.samples != SV);
    told.extend(others.map(|row| no_energy_of(&row.name())));
    for kind in KINDS.iter().filter(|kind| !kind.has_angles()) {
        told.extend([Maker::Biosonics, Maker::Simrad].map(|maker| energy_of(kind, maker)));
        told.push(outside_of(kind));
    }
    told
}

/// What is added up of a ping: its values, their units in 1 dB, and what was answered.
struct Sum {
    values: Vec<i32>,
    per_db: i32,
    answer: Answer,
}

impl Sum {
    fn of(file: &[u8], echo: &Echo, answer: Answer) -> Sum {
        Sum {
            values: samples_at(file, echo.place).1,
            per_db: echo.kind.row().family.per_db().unwrap_or_default(),
            answer,
        }
    }

    /// The ping has an energy, and a value of so many dB.
    fn has(&self, db: i32) -> bool {
        self.answer.is_accepted() && self.values.contains(&(db * self.per_db))
    }

    /// The first value outside the limits, in the order of the list, and whether it is the
    /// list's first.
    fn outside(&self) -> Option<(i32, bool)> {
        let nth = (self.answer.code == OUTSIDE).then_some(self.answer.place as usize)?;
        Some((*self.values.get(nth)?, nth == 0))
    }
}

/// What can be seen of a ping's values.
struct Sight {
    what: &'static str,
    is_seen: fn(&Sum) -> bool,
    /// Of which kinds with values.
    can_be: fn(&Kind) -> bool,
}

const SIGHTS: [Sight; 7] = [
    Sight {
        what: "no sample",
        is_seen: |sum| sum.answer.is_accepted() && sum.values.is_empty(),
        can_be: |kind| kind.is_packed(),
    },
    Sight::new("0 dB", |sum| sum.has(0)),
    Sight {
        what: "-150 dB",
        is_seen: |sum| sum.has(QUIETEST),
        // which no word of CE-16 stands for
        can_be: |kind| kind.kind != PingKind::Ce16,
    },
    Sight::new("the first value above 0 dB", |sum| {
        sum.outside()
            .is_some_and(|(value, first)| value > 0 && first)
    }),
    Sight::new("a later value above 0 dB", |sum| {
        sum.outside()
            .is_some_and(|(value, first)| value > 0 && !first)
    }),
    Sight::new("the first value below -150 dB", |sum| {
        sum.outside()
            .is_some_and(|(value, first)| value < 0 && first)
    }),
    Sight::new("a later value below -150 dB", |sum| {
        sum.outside()
            .is_some_and(|(value, first)| value < 0 && !first)
    }),
];

impl Sight {
    const fn new(what: &'static str, is_seen: fn(&Sum) -> bool) -> Sight {
        Sight {
            what,
            is_seen,
            can_be: |_| true,
        }
    }

    fn of(&self, kind: &Kind) -> String {
        format!("{} in a {}", self.what, kind.name)
    }
}

/// All that energies have to meet.
pub fn wanted() -> Vec<String> {
    let mut wanted = SLICES.wanted();
    wanted.push(among_all(NO_PING));
    wanted.extend(SPOTS.map(String::from));
    for told in all_told() {
        wanted.push(among_all(&told));
        wanted.push(told);
    }
    for kind in KINDS.iter().filter(|kind| !kind.has_angles()) {
        let sights = SIGHTS.iter().filter(|sight| (sight.can_be)(kind));
        wanted.extend(sights.map(|sight| sight.of(kind)));
    }
    in_both_orders(&wanted)
}
