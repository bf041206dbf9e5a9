//! `hac samples`: a ping's samples, a line each, and behind them its length.

use crate::json::Object;
use crate::output::Output;
use crate::stop::Stop;
use hac::{Angles, Samples};

pub fn run(file: &[u8], place: usize, output: &mut Output) -> Result<(), Stop> {
    let ping = hac::read_ping(file, place)?;
    if ping.kind.has_angles() {
        tell_angles(hac::angles(file, place)?, output)?;
    } else {
        tell_samples(hac::samples(file, place)?, output)?;
    }
    tell_length(ping.length, output)
}

fn tell_samples(Samples { numbers, values }: Samples, output: &mut Output) -> Result<(), Stop> {
    for (number, value) in numbers.into_iter().zip(values) {
        output.tell(format_args!("{number:>10}  {value:>11}"), || {
            Object::default()
                .number("number", number)
                .number("value", value)
        })?;
    }
    Ok(())
}

fn tell_angles(angles: Angles, output: &mut Output) -> Result<(), Stop> {
    let both = angles.alongship.into_iter().zip(angles.athwartship);
    for (number, (alongship, athwartship)) in angles.numbers.into_iter().zip(both) {
        output.tell(
            format_args!("{number:>10}  {alongship:>6}  {athwartship:>6}"),
            || {
                Object::default()
                    .number("number", number)
                    .number("alongship", alongship)
                    .number("athwartship", athwartship)
            },
        )?;
    }
    Ok(())
}

/// A line for a ping that has a length; an object for every ping, so that the last one
/// of all is never a sample.
fn tell_length(length: Option<u32>, output: &mut Output) -> Result<(), Stop> {
    if output.json {
        output.line(Object::default().number_or_null("length", length))?;
    } else if let Some(length) = length {
        output.line(format_args!("length {length} samples, runs counted"))?;
    }
    Ok(())
}
