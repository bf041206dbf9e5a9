//! Request j of 02: readings for the viewer.

use crate::answer::Answer;
use crate::check::survey;
use crate::parents::{asked_ping, LinkedPing};
use crate::quantity::Quantity;

/// What a viewer is shown for one sample number.
#[derive(Clone, Copy, PartialEq, Debug)]
pub enum Reading {
    /// The ping has no such sample.
    Silent,
    Volts(f64),
    Sv(f64),
    Ts(f64),
}

impl Reading {
    /// The case's number and its double, which is 0.0 where there is none.
    pub const fn numbers(self) -> (u8, f64) {
        match self {
            Reading::Silent => (0, 0.0),
            Reading::Volts(double) => (1, double),
            Reading::Sv(double) => (2, double),
            Reading::Ts(double) => (3, double),
        }
    }
}

/// What makes a reading of a ping's value.
struct Scale {
    quantity: Quantity,
    units: f64,
}

impl Scale {
    /// By the channel and the kind of the ping: 30 at the ping.
    fn of(ping: &LinkedPing) -> Result<Scale, Answer> {
        let family = ping.kind.row().family;
        let scale = Quantity::of(ping.channel).and_then(|quantity| {
            let units = quantity.units(family)?.into();
            Some(Scale { quantity, units })
        });
        scale.ok_or(Answer::refused(30, ping.place))
    }

    /// Every value of 32 bits is a double, so that the division alone rounds.
    fn reading(&self, value: i32) -> Reading {
        let double = f64::from(value) / self.units;
        match self.quantity {
            Quantity::Volts => Reading::Volts(double),
            Quantity::Sv => Reading::Sv(double),
            Quantity::Ts => Reading::Ts(double),
        }
    }
}

/// The part of a window that a viewer is lent.
struct Window<'a> {
    first: u64,
    cases: &'a mut [u8],
    doubles: &'a mut [f64],
}

impl<'a> Window<'a> {
    /// As many numbers as both slices have entries for; a longer one's others stay.
    fn new(first: u64, cases: &'a mut [u8], doubles: &'a mut [f64]) -> Window<'a> {
        let entries = cases.len().min(doubles.len());
        Window {
            first,
            cases: &mut cases[..entries],
            doubles: &mut doubles[..entries],
        }
    }

    fn put(&mut self, nth: usize, reading: Reading) {
        (self.cases[nth], self.doubles[nth]) = reading.numbers();
    }

    /// The entry of a sample number, if it has one.
    fn entry(&self, number: u32) -> Option<usize> {
        let nth = u64::from(number).checked_sub(self.first)?;
        usize::try_from(nth)
            .ok()
            .filter(|nth| *nth < self.cases.len())
    }

    /// Fills every entry: silence, and then what the ping holds.
    fn fill(&mut self, ping: &LinkedPing, scale: &Scale) {
        for nth in 0..self.cases.len() {
            self.put(nth, Reading::Silent);
        }
        let (numbers, values) = ping.samples();
        for (number, value) in numbers.into_iter().zip(values) {
            if let Some(nth) = self.entry(number) {
                self.put(nth, scale.reading(value));
            }
        }
    }
}

fn try_readings(file: &[u8], place: u64, mut window: Window) -> Result<Answer, Answer> {
    let survey = survey(file)?;
    let ping = asked_ping(&survey, file, place)?;
    let scale = Scale::of(&ping)?;
    window.fill(&ping, &scale);
    Ok(survey.accepted(window.cases.len() as u64))
}

/// The readings of the ping at a place, one for each sample number from the first one on,
/// as many as both slices have entries: `cases` gets 0 for silent, 1 for volts, 2 for Sv
/// and 3 for TS, `doubles` the value in volts or dB. Numbers that the ping doesn't hold,
/// those past 32 bits among them, are silent with 0.0.
///
/// Accepts with the file's number of tuples, the number of readings as length and the
/// check's comparisons. Refuses as asking for the ping's channel does; then by 30 at the
/// ping, of angles or of a channel whose samples are neither volts nor Sv nor TS. A refusal
/// alters nothing, and success nothing past the shorter slice's length.
pub fn readings(
    file: &[u8],
    place: u64,
    first: u64,
    cases: &mut [u8],
    doubles: &mut [f64],
) -> Answer {
    let window = Window::new(first, cases, doubles);
    try_readings(file, place, window).unwrap_or_else(|refusal| refusal)
}
