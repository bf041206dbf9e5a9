//! `hac energy`: the echo energy of each ping, a line each.

use crate::excerpt::Excerpt;
use crate::files::{self, Entry};
use crate::input::Input;
use crate::json::{Number, Object};
use crate::output::{Broken, Output};
use crate::progress::Progress;
use crate::report::Report;
use crate::shown::shown;
use crate::spread::Spread;
use crate::verdict::{with_advice, Verdict};
use hac::{Advice, Code, PingEnergy, Refusal};
use std::fmt;
use std::sync::Arc;

/// The unit that energies are counted in, 10^-14, in decibels.
const UNIT: f64 = -140.0;

/// Of many files each begins with its verdict; of one, its pings stand alone.
pub fn run(inputs: Vec<Input>, output: &mut Output) -> Result<(), Broken> {
    let list = files::list(inputs);
    let entries = Arc::new(list.entries);
    let mut report = Report::new(Progress::over(entries.len(), "added up"), output);
    let shared = entries.clone();
    let found = Spread::over(entries.len(), move |at, bytes| look_at(&shared[at], bytes));
    report.follow(&entries, found, |report, input, found| {
        tell(report, input, found, list.many)
    })
}

/// What came of a file, and what an accepted one's pings have.
struct Found {
    verdict: Verdict,
    pings: Vec<Told>,
}

/// What is told of a ping.
struct Told {
    place: usize,
    channel: u16,
    number: u32,
    energy: Result<u64, Refused>,
}

/// Why a ping has no energy.
struct Refused {
    code: Code,
    advice: Option<Advice>,
}

fn look_at(entry: &Entry, bytes: &mut Vec<u8>) -> Found {
    let found = entry.read(bytes).and_then(|()| {
        let found = look(bytes);
        found.map_err(|refusal| Verdict::refused(bytes, refusal))
    });
    found.unwrap_or_else(|verdict| Found {
        verdict,
        pings: Vec::new(),
    })
}

fn look(file: &[u8]) -> Result<Found, Refusal> {
    let energies = hac::energies(file)?;
    let mut excerpt = Excerpt::of(file)?;
    let pings = energies.pings.into_iter();
    let pings = pings.map(|ping| Told::of(file, ping, &mut excerpt));
    Ok(Found {
        verdict: Verdict::Accepted(energies.counts),
        pings: pings.collect::<Result<_, _>>()?,
    })
}

impl Told {
    fn of(file: &[u8], ping: PingEnergy, excerpt: &mut Excerpt) -> Result<Told, Refusal> {
        let header = hac::read_ping(file, ping.place)?.header;
        Ok(Told {
            place: ping.place,
            channel: header.software_channel_identifier.0,
            number: header.ping_number,
            energy: ping.energy.map_err(|code| Refused {
                code,
                advice: advice(ping.place, excerpt),
            }),
        })
    }

    fn object(&self, input: &Input) -> Object {
        let units = self.energy.as_ref().ok().copied();
        let object = Object::default()
            .name("file", input.name())
            .number("place", self.place)
            .number("channel", self.channel)
            .number("ping_number", self.number)
            .number_or_null("energy", units)
            .number_or_null("decibels", units.and_then(Decibels::of));
        match &self.energy {
            Ok(_) => object,
            Err(refused) => object.object("refusal", refused.object()),
        }
    }
}

/// What the refusal of the ping at a place is about. It is asked for by itself, for the
/// energies of all tell no more than the code.
fn advice(place: usize, excerpt: &mut Excerpt) -> Option<Advice> {
    let at = excerpt.place;
    let file = excerpt.around(place).ok()?;
    let refusal = hac::energy(file, at).err()?;
    hac::ping_advice(file, at, refusal)
}

fn tell(report: &mut Report, input: &Input, found: Found, many: bool) -> Result<(), Broken> {
    let Found { verdict, pings } = found;
    report.output.worsen(verdict.status());
    match verdict {
        Verdict::Accepted(_) if many && !report.output.json => {
            report
                .output
                .line(format_args!("{}: {verdict}", shown(input.name())))?;
        }
        Verdict::Accepted(_) => {}
        _ => return report.verdict(input, &verdict),
    }
    for ping in pings {
        report.line(&ping, || ping.object(input))?;
    }
    Ok(())
}

impl fmt::Display for Told {
    fn fmt(&self, to: &mut fmt::Formatter<'_>) -> fmt::Result {
        let (place, channel, number) = (self.place, self.channel, self.number);
        write!(to, "{place:>8}  {channel:>5}  {number:>10}  ")?;
        match &self.energy {
            Ok(units) => {
                let decibels = Decibels::of(*units);
                let decibels = decibels.map_or("-".into(), |decibels| format!("{decibels} dB"));
                write!(to, "{units:>19}  {decibels:>10}")
            }
            Err(refused) => refused.fmt(to),
        }
    }
}

impl Refused {
    fn object(&self) -> Object {
        let object = Object::default()
            .number("code", self.code.number())
            .text("words", self.code.words());
        match &self.advice {
            Some(advice) => with_advice(object, advice),
            None => object,
        }
    }
}

impl fmt::Display for Refused {
    fn fmt(&self, to: &mut fmt::Formatter<'_>) -> fmt::Result {
        write!(to, "refused, {}", self.code)?;
        match &self.advice {
            Some(advice) => write!(to, ": {advice}"),
            None => Ok(()),
        }
    }
}

/// An energy in decibels, with two decimal places: for people, for the units are exact.
struct Decibels(f64);

impl Decibels {
    /// Silence has none.
    fn of(units: u64) -> Option<Decibels> {
        (units > 0).then(|| Decibels(10.0 * (units as f64).log10() + UNIT))
    }
}

impl Number for Decibels {}

impl fmt::Display for Decibels {
    fn fmt(&self, to: &mut fmt::Formatter<'_>) -> fmt::Result {
        write!(to, "{:.2}", self.0)
    }
}
