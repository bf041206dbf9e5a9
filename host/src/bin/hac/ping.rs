//! `hac ping`: the ping of a channel and a number, of the corrections beside a deposit or of
//! the deposit itself: where it stands and what it says, and, where that is asked for, its
//! samples and its own bytes.

use crate::arguments::Wanted;
use crate::input::Input;
use crate::json::Object;
use crate::output::Output;
use crate::shown::shown;
use crate::stop::Stop;
use crate::verdict::Verdict;
use crate::{out, samples};
use hac::{Corrected, NotFound, Ping, Source};
use std::path::Path;

pub fn run(
    input: &Input,
    deposit: &[u8],
    beside: Option<&[u8]>,
    wanted: &Wanted,
    output: &mut Output,
) -> Result<(), Stop> {
    let corrections = beside.unwrap_or(hac::NO_CORRECTIONS);
    let found = hac::corrected(deposit, corrections, wanted.channel, wanted.number)
        .map_err(|not_found| stopped(not_found, corrections))?;
    let (name, file) = match (found.from, &wanted.corrections) {
        (Source::Corrections, Some(name)) => (name, corrections),
        _ => (input, deposit),
    };
    if let Some(out) = &wanted.out {
        out::write(out, found.bytes)?;
    }
    let ping = hac::read_ping(file, found.place)?;
    tell(name, &found, &ping, wanted.out.as_deref(), output)?;
    if wanted.samples {
        samples::run(file, found.place, output)?;
    }
    Ok(())
}

/// A refusal is told of the file that it is about; that neither holds the ping, of the
/// deposit.
fn stopped(NotFound { whose, refusal }: NotFound, corrections: &[u8]) -> Stop {
    match whose {
        Some(Source::Corrections) => Stop::Beside(Verdict::refused(corrections, refusal)),
        Some(Source::Deposit) | None => Stop::Refused(refusal),
    }
}

/// Where the ping stands, and its fields.
fn tell(
    name: &Input,
    found: &Corrected,
    ping: &Ping,
    out: Option<&Path>,
    output: &mut Output,
) -> Result<(), Stop> {
    if output.json {
        output.line(object(name, found, ping, out))?;
        return Ok(());
    }
    let written = out.map_or(String::new(), |out| {
        format!(" written to {}", shown(out.as_os_str()))
    });
    output.line(format_args!(
        "{}: {}, ping {} at {}, {} bytes{written}",
        shown(name.name()),
        found.from,
        ping.kind,
        found.place,
        found.bytes.len()
    ))?;
    output.line(fields(ping))?;
    Ok(())
}

fn fields(ping: &Ping) -> String {
    let header = ping.header;
    let length = ping.length.map_or(String::new(), |length| {
        format!(", length {length} samples, runs counted")
    });
    format!(
        "time fraction {}, time cpu {}, channel {}, transmitter mode {}, ping number {}, \
         detected bottom range {}, attribute {}, values {}{length}",
        header.time_fraction,
        header.time_cpu,
        header.software_channel_identifier.0,
        header.transmitter_mode,
        header.ping_number,
        header.detected_bottom_range,
        ping.attribute,
        ping.values
    )
}

fn object(name: &Input, found: &Corrected, ping: &Ping, out: Option<&Path>) -> Object {
    let header = ping.header;
    let object = Object::default()
        .name("file", name.name())
        .text("from", found.from.name())
        .number("place", found.place)
        .number("type", ping.kind.code())
        .text("name", hac::types::name(ping.kind.code()))
        .number("length", found.bytes.len())
        .number("time_fraction", header.time_fraction)
        .number("time_cpu", header.time_cpu)
        .number("channel", header.software_channel_identifier.0)
        .number("transmitter_mode", header.transmitter_mode)
        .number("ping_number", header.ping_number)
        .number("detected_bottom_range", header.detected_bottom_range)
        .number("attribute", ping.attribute)
        .number("values", ping.values)
        .number_or_null("ping_length", ping.length);
    match out {
        Some(out) => object.name("out", out.as_os_str()),
        None => object,
    }
}
