//! `hac readings`: what each sample number of a ping reads, a line each.

use crate::json::Object;
use crate::output::{Broken, Output};
use crate::stop::Stop;
use hac::{Reading, Refusal};

/// So many readings are asked for at once.
const PAGE: usize = 65_536;

/// Sample numbers from one on, so many; as many as the ping has left where it isn't said.
pub struct Window {
    pub from: u32,
    pub count: Option<u32>,
}

pub fn run(file: &[u8], place: usize, window: &Window, output: &mut Output) -> Result<(), Stop> {
    // judged before anything is printed, and where nothing is
    hac::readings(file, place, 0, 0)?;
    let first = u64::from(window.from);
    let behind = match window.count {
        Some(count) => first + u64::from(count),
        None => numbers(file, place)?,
    };
    for start in (first..behind).step_by(PAGE) {
        let count = PAGE.min((behind - start) as usize);
        let readings = hac::readings(file, place, start as usize, count)?;
        for (number, reading) in (start..).zip(readings) {
            tell(number, reading, output)?;
        }
    }
    Ok(())
}

/// How many sample numbers the ping of values at a place has: its length, or all up to its last
/// value.
pub fn numbers(file: &[u8], place: usize) -> Result<u64, Refusal> {
    if let Some(length) = hac::read_ping(file, place)?.length {
        return Ok(length.into());
    }
    let numbers = hac::samples(file, place)?.numbers;
    Ok(numbers.last().map_or(0, |last| u64::from(*last) + 1))
}

fn tell(number: u64, reading: Reading, output: &mut Output) -> Result<(), Broken> {
    let (name, value, unit) = (reading.name(), reading.value(), reading.unit());
    let spelled = value.map_or("-".into(), |value| value.to_string());
    let unit_or_none = unit.unwrap_or_default();
    output.tell(
        format_args!("{number:>10}  {spelled:>12} {unit_or_none:<2}  {name}"),
        || {
            Object::default()
                .number("number", number)
                .text("reading", name)
                .number_or_null("value", value)
                .text_or_null("unit", unit)
        },
    )
}
