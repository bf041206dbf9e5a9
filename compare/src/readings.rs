//! What is compared of readings: windows of a ping about its first sample and its last, in its
//! runs, past its samples and past all numbers, of none and with slices of two lengths, the
//! doubles by their bits; and what was met, so that nothing that can be is never there.

use crate::answers::five;
use crate::batch::{Batch, File, FILL, LONG_FILLED};
use crate::echoes::{asked, echo_at, echoes, samples_at, spot, Echo, SampleType};
use crate::echoes::{SPOTS, SV, TS, TYPES, VOLTS};
use crate::energies::compare_energies;
use crate::exports::export;
use crate::slices::{turn, Tries};
use crate::tally::{in_both_orders, Chapter, Given};
use second::gen::{viewer_case, View};
use second::kinds::{Kind, KINDS};
use second::{readings, Answer};
use std::io;

/// What the export compared here can give: what a check can, and 30. A reading needs a ping,
/// its channel and that one's sounder.
pub const GIVEN: [Given; 1] = [Given::checking("readings", &[30]).comparing(2)];

/// So many of the generator's files for a viewer come with each case that is compared in full.
const FILES: u64 = 2;

/// The most bytes of a file of which all windows of a ping are asked for.
const SMALL: usize = 4096;

/// The most numbers of a window of a whole ping.
const WHOLE: u64 = 300;

/// One past the last sample number.
const NUMBERS: u64 = 1 << 32;

/// The codes of a place where no ping starts and of a ping without readings.
const OTHER_TYPE: u32 = 9;
const NO_READING: u32 = 30;

/// The case of a number that the ping doesn't hold.
const SILENT: u8 = 0;

/// The files for a viewer of a case, each with its own windows.
pub fn compare_views(batch: &mut Batch, seed: u64, index: u64) -> io::Result<()> {
    for number in FILES * index..FILES * (index + 1) {
        let case = viewer_case(seed, number);
        let about = format!("seed {seed}, views {number}, {}", case.name);
        batch.start(about, &case.bytes);
        let mut file = File::new(&case.bytes);
        let echoes = echoes(file.bytes);
        compare_energies(batch, &mut file, &echoes, Tries::One)?;
        for view in &case.views {
            show(batch, &mut file, &echoes, view);
            batch.rest()?;
        }
        batch.run()?;
    }
    Ok(())
}

/// Windows of the pings of a file, and where it has none: of each all of a short file, and else
/// one, in turn.
pub fn compare_readings(
    batch: &mut Batch,
    file: &mut File,
    echoes: &[Echo],
    tries: Tries,
) -> io::Result<()> {
    for (nth, place) in asked(file.bytes, echoes, tries).into_iter().enumerate() {
        let tries = match echo_at(echoes, place) {
            Some(_) if file.bytes.len() <= SMALL => tries,
            _ => Tries::One,
        };
        let views = views_of(file.bytes, place);
        for view in tries.of_turn(views, turn(file.bytes) + nth) {
            show(batch, file, echoes, &view);
            batch.rest()?;
        }
    }
    Ok(())
}

/// The windows of a ping that are worth asking for.
pub fn views_of(file: &[u8], place: u64) -> Vec<View> {
    let (numbers, _) = samples_at(file, place);
    let first = numbers.first().map_or(0, |number| u64::from(*number));
    let last = numbers.last().map_or(0, |number| u64::from(*number));
    let gap = numbers.windows(2).find(|pair| pair[1] - pair[0] > 1);
    let run = gap.map_or(last, |pair| u64::from(pair[0])) + 1;
    let whole = (last + 2).min(WHOLE) as usize;
    let views = [
        (0, [5, 5]),
        (first.saturating_sub(2), [5, 5]),
        (first, [1, 1]),
        (run, [1, 1]),
        (run - 1, [4, 4]),
        (last.saturating_sub(2), [6, 6]),
        (last + 1, [3, 3]),
        (0, [whole, whole]),
        (first, [3, 7]),
        (first, [7, 3]),
        (first, [0, 0]),
        (first, [0, 2]),
        (first, [2, 0]),
        (NUMBERS - 2, [5, 5]),
        (NUMBERS, [2, 2]),
        (u64::MAX - 1, [4, 4]),
    ];
    let view = |(first, lent)| View { place, first, lent };
    views.map(view).to_vec()
}

/// A window's readings.
fn show(batch: &mut Batch, file: &mut File, echoes: &[Echo], view: &View) {
    let mut cases = vec![FILL; view.lent[0]];
    let mut doubles = vec![f64::from_bits(LONG_FILLED); view.lent[1]];
    let answer = readings(file.bytes, view.place, view.first, &mut cases, &mut doubles);
    let bits: Vec<u64> = doubles.iter().map(|double| double.to_bits()).collect();
    let arguments = [
        batch.file(file).into(),
        view.place.into(),
        view.first.into(),
        batch.lend_bytes(&cases),
        batch.lend_longs(&bits),
    ];
    batch.call(export("readings"), &arguments, &five(answer));
    let shown = Shown {
        view,
        cases: &cases,
        doubles: &doubles,
    };
    let echo = echo_at(echoes, view.place);
    note(batch, file.bytes, echo, &shown, answer);
}

/// Notes what a window met, in a file that is accepted.
fn note(batch: &mut Batch, file: &[u8], echo: Option<&Echo>, shown: &Shown, answer: Answer) {
    let place = shown.view.place;
    match (answer.code, echo) {
        (OTHER_TYPE, None) if answer.place == place => met(batch, file, spot(file, place)),
        (NO_READING, Some(echo)) => met(batch, file, &no_reading_of(&echo.cause())),
        (0, Some(echo)) => {
            if shown.held().is_some() {
                met(batch, file, &reading_of(echo.kind.row(), echo.of));
            } else if samples_at(file, place).0.is_empty() {
                met(batch, file, SILENT_PING);
            }
            let sights = SIGHTS.iter().filter(|(_, is_seen)| is_seen(shown));
            for (what, _) in sights {
                met(batch, file, what);
            }
        }
        _ => {}
    }
}

fn met(batch: &mut Batch, file: &[u8], what: &str) {
    batch.met_in_order(Chapter::Readings, file, what);
}

fn reading_of(kind: &Kind, of: &SampleType) -> String {
    format!("a {} in {}", kind.name, of.name())
}

fn no_reading_of(cause: &str) -> String {
    format!("{NO_READING} by {cause}")
}

/// A window and what was put into it.
struct Shown<'a> {
    view: &'a View,
    cases: &'a [u8],
    doubles: &'a [f64],
}

impl Shown<'_> {
    /// How many readings there are.
    fn count(&self) -> usize {
        self.cases.len().min(self.doubles.len())
    }

    /// The readings' cases.
    fn cases(&self) -> &[u8] {
        &self.cases[..self.count()]
    }

    /// The first and the last entry that isn't silent.
    fn held(&self) -> Option<(usize, usize)> {
        let is_held = |case: &u8| *case != SILENT;
        let first = self.cases().iter().position(is_held)?;
        Some((first, self.cases().iter().rposition(is_held)?))
    }

    /// The first and the last sample in the window are such.
    fn holds(&self, which: fn(&Self, usize, usize) -> bool) -> bool {
        self.held()
            .is_some_and(|(first, last)| which(self, first, last))
    }

    /// One of the doubles that aren't silent is such.
    fn reads(&self, which: fn(f64) -> bool) -> bool {
        let readings = self.cases().iter().zip(self.doubles);
        readings
            .filter(|(case, _)| **case != SILENT)
            .any(|(_, double)| which(*double))
    }

    /// The entry of the last number that there is.
    fn last_number(&self) -> Option<usize> {
        let nth = (NUMBERS - 1).checked_sub(self.view.first)? as usize;
        (nth < self.count()).then_some(nth)
    }
}

/// What is seen of a ping that has no sample.
const SILENT_PING: &str = "a ping without samples";

/// What can be seen of a window.
type Sight = (&'static str, fn(&Shown) -> bool);

const SIGHTS: [Sight; 13] = [
    ("silence before a sample", |shown| {
        shown.holds(|_, first, _| first > 0)
    }),
    ("a run between samples", |shown| {
        shown.holds(|shown, first, last| shown.cases[first..last].contains(&SILENT))
    }),
    ("silence behind a sample", |shown| {
        shown.holds(|shown, _, last| last + 1 < shown.count())
    }),
    ("silence alone", |shown| {
        shown.count() > 0 && shown.held().is_none()
    }),
    ("a window of none", |shown| {
        shown.cases.is_empty() && shown.doubles.is_empty()
    }),
    ("fewer cases than doubles", |shown| {
        shown.cases.len() < shown.doubles.len()
    }),
    ("fewer doubles than cases", |shown| {
        shown.doubles.len() < shown.cases.len()
    }),
    ("a window up to past the last number", |shown| {
        shown
            .last_number()
            .is_some_and(|nth| nth + 1 < shown.count())
    }),
    ("a window past the last number", |shown| {
        shown.count() > 0 && shown.view.first >= NUMBERS
    }),
    ("a sample of the last number", |shown| {
        shown
            .last_number()
            .is_some_and(|nth| shown.cases[nth] != SILENT)
    }),
    ("a reading of 0", |shown| {
        shown.reads(|double| double == 0.0)
    }),
    ("a reading below 0", |shown| {
        shown.reads(|double| double < 0.0)
    }),
    ("a reading above 0", |shown| {
        shown.reads(|double| double > 0.0)
    }),
];

/// All that readings have to meet.
pub fn wanted() -> Vec<String> {
    let mut wanted: Vec<String> = SIGHTS.map(|(what, _)| what.to_string()).to_vec();
    wanted.push(SILENT_PING.to_string());
    wanted.extend(SPOTS.map(String::from));
    let (shown, others): (Vec<_>, Vec<_>) = TYPES
        .iter()
        .partition(|row| [VOLTS, SV, TS].contains(&row.samples));
    wanted.extend(others.iter().map(|row| no_reading_of(&row.name())));
    for kind in &KINDS {
        match kind.has_angles() {
            true => wanted.push(no_reading_of(kind.name)),
            false => wanted.extend(shown.iter().map(|row| reading_of(kind, row))),
        }
    }
    in_both_orders(&wanted)
}
