//! Readings for a viewer: one for each sample number, in volts or in decibels.

use crate::answer::Refusal;
use crate::call;
use crate::file::Filled;
use std::fmt;

/// What a sample number reads. Volts and decibels never mix: the channel's type of data
/// sample decides which of them a ping's readings are.
#[derive(Clone, Copy, Debug, PartialEq)]
pub enum Reading {
    /// The ping doesn't hold the number.
    Silent,
    /// Volts.
    Volts(f64),
    /// Volume scattering strength, in decibels.
    Sv(f64),
    /// Target strength, in decibels.
    Ts(f64),
}

impl Reading {
    /// The reading of the archive's number of its case, and of its double.
    fn of(case: u8, double: f64) -> Reading {
        match case.into() {
            call::HAC_READING_SILENT => Reading::Silent,
            call::HAC_READING_VOLTS => Reading::Volts(double),
            call::HAC_READING_SV => Reading::Sv(double),
            call::HAC_READING_TS => Reading::Ts(double),
            _ => unreachable!("the archive tells the four cases alone"),
        }
    }

    /// What it is called.
    pub const fn name(self) -> &'static str {
        match self {
            Reading::Silent => "silent",
            Reading::Volts(_) => "volts",
            Reading::Sv(_) => "Sv",
            Reading::Ts(_) => "TS",
        }
    }

    /// Its double, in its unit; none of silence.
    pub const fn value(self) -> Option<f64> {
        match self {
            Reading::Silent => None,
            Reading::Volts(value) | Reading::Sv(value) | Reading::Ts(value) => Some(value),
        }
    }

    /// The unit of its double; none of silence.
    pub const fn unit(self) -> Option<&'static str> {
        match self {
            Reading::Silent => None,
            Reading::Volts(_) => Some("V"),
            Reading::Sv(_) | Reading::Ts(_) => Some("dB"),
        }
    }
}

impl fmt::Display for Reading {
    fn fmt(&self, to: &mut fmt::Formatter<'_>) -> fmt::Result {
        to.write_str(self.name())?;
        match (self.value(), self.unit()) {
            (Some(value), Some(unit)) => write!(to, " {value} {unit}"),
            _ => Ok(()),
        }
    }
}

/// Tells the readings of the ping at a place, from a sample number on, an entry of both
/// lent slices for each, as many as the shorter has: 0 for silent, 1 for volts, 2 for Sv, 3
/// for TS; and the double, which is the stored whole number divided with one rounding, 0 of
/// silence. Numbers past 4,294,967,295 are silent.
///
/// Refuses as [`crate::ask`] does; then by 30 at the ping where it has angles, or its
/// channel's samples are none of these.
pub fn readings_into(
    file: &[u8],
    place: usize,
    first: usize,
    cases: &mut [u8],
    doubles: &mut [f64],
) -> Result<Filled, Refusal> {
    let answer = call::readings(file, place, first, cases, doubles)?;
    Ok(Filled::of(answer))
}

/// The readings of the ping at a place, so many from a sample number on, in new memory.
/// Refuses as [`readings_into`] does; [`crate::ping_advice`] tells more of it.
///
/// ```
/// use hac::Reading;
///
/// // The sample cruise: a ping of channel 1, whose samples are Sv.
/// let file = std::fs::read("../samples/cruise-lsb.hac")?;
/// let readings = hac::readings(&file, 780, 848, 2)?;
/// assert_eq!(readings, [Reading::Sv(-54.177229), Reading::Silent]);
/// # Ok::<(), Box<dyn std::error::Error>>(())
/// ```
pub fn readings(
    file: &[u8],
    place: usize,
    first: usize,
    count: usize,
) -> Result<Vec<Reading>, Refusal> {
    let (mut cases, mut doubles) = (vec![0; count], vec![0.0; count]);
    readings_into(file, place, first, &mut cases, &mut doubles)?;
    let both = cases.into_iter().zip(doubles);
    Ok(both
        .map(|(case, double)| Reading::of(case, double))
        .collect())
}
