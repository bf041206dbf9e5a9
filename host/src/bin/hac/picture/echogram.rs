//! An echogram: what the pings of a channel read, pings across and sample numbers down.

use crate::excerpt::Excerpt;
use crate::readings;
use crate::stop::Stop;
use crate::verdict::Verdict;
use hac::{types, PingKind, Reading, Refusal, Samples, SoftwareChannel, Walk};

/// The most cells across and down, and about how many pixels fewer ones fill.
const COLUMNS: usize = 1200;
const COLUMNS_FILL: usize = 720;
const ROWS: usize = 720;
const ROWS_FILL: usize = 540;

/// So many sample numbers are asked for at once.
const PAGE: u32 = 65_536;

/// A side: so many pings or sample numbers, in cells of one size. Where there are too many of
/// them a cell covers several.
pub struct Side {
    pub units: u64,
    pub cells: usize,
    /// Those of a cell.
    pub pixels: usize,
}

impl Side {
    fn of(units: u64, most: usize, fill: usize) -> Side {
        let cells = units.min(most as u64) as usize;
        let pixels = ((fill + cells / 2) / cells).max(1);
        Side {
            units,
            cells,
            pixels,
        }
    }

    /// The cell that covers a unit.
    pub fn cell(&self, unit: u64) -> usize {
        (unit * self.cells as u64 / self.units) as usize
    }

    /// How many pixels it has.
    pub fn length(&self) -> usize {
        self.cells * self.pixels
    }

    /// The pixel in the middle of a unit's cell.
    pub fn middle(&self, unit: u64) -> usize {
        self.cell(unit) * self.pixels + self.pixels / 2
    }
}

/// A ping of the channel.
struct Ping {
    place: usize,
    number: u32,
}

pub struct Echogram {
    /// What the channel's samples are, in TR's words.
    pub samples: &'static str,
    /// The ping numbers, in file order.
    pub numbers: Vec<u32>,
    pub across: Side,
    pub down: Side,
    /// The loudest reading of what each cell covers, line by line.
    pub cells: Vec<Reading>,
}

impl Echogram {
    /// Of a channel of a file that the check accepts; none where it has no ping of it.
    pub fn of(file: &[u8], channel: SoftwareChannel) -> Result<Option<Echogram>, Stop> {
        let pings = pings_of(file, channel)?;
        let mut excerpt = Excerpt::of(file)?;
        let mut extent = 0;
        for ping in &pings {
            must_read(ping.place, &mut excerpt)?;
            extent = extent.max(readings::numbers(file, ping.place)?);
        }
        let Some(first) = pings.first() else {
            return Ok(None);
        };
        let across = Side::of(pings.len() as u64, COLUMNS, COLUMNS_FILL);
        let down = Side::of(extent, ROWS, ROWS_FILL);
        let mut echogram = Echogram {
            samples: samples_of(first.place, &mut excerpt)?,
            numbers: pings.iter().map(|ping| ping.number).collect(),
            cells: vec![Reading::Silent; across.cells * down.cells],
            across,
            down,
        };
        for (nth, ping) in pings.iter().enumerate() {
            let column = echogram.across.cell(nth as u64);
            let samples = hac::samples(file, ping.place)?;
            echogram.take(column, &samples, ping.place, &mut excerpt)?;
        }
        Ok(Some(echogram))
    }

    /// Takes a ping's readings in: of each line that of its loudest sample, for the largest
    /// value is also the loudest.
    fn take(
        &mut self,
        column: usize,
        samples: &Samples,
        place: usize,
        excerpt: &mut Excerpt,
    ) -> Result<(), Refusal> {
        let loudest = self.loudest(samples);
        let at = excerpt.place;
        let file = excerpt.around(place)?;
        let mut rest = &loudest[..];
        while let Some(first) = rest.first().copied() {
            let (page, behind) = rest.split_at(rest.partition_point(|n| n - first < PAGE));
            let count = page.last().map_or(0, |last| last - first + 1);
            let readings = hac::readings(file, at, first as usize, count as usize)?;
            for number in page {
                self.put(column, *number, readings[(number - first) as usize]);
            }
            rest = behind;
        }
        Ok(())
    }

    /// The number of the loudest sample of each line, ascending.
    fn loudest(&self, samples: &Samples) -> Vec<u32> {
        let samples = samples.numbers.iter().zip(&samples.values);
        let samples: Vec<(&u32, &i32)> = samples.collect();
        let row = |number: &u32| self.down.cell((*number).into());
        let lines = samples.chunk_by(|(one, _), (other, _)| row(one) == row(other));
        let loudest = lines.filter_map(|line| line.iter().max_by_key(|(_, value)| *value));
        loudest.map(|(number, _)| **number).collect()
    }

    /// A cell that covers several keeps the loudest.
    fn put(&mut self, column: usize, number: u32, reading: Reading) {
        let row = self.down.cell(number.into());
        let cell = &mut self.cells[row * self.across.cells + column];
        if cell.value() < reading.value() {
            *cell = reading;
        }
    }

    /// The least and the most reading; none where all are silent.
    pub fn span(&self) -> Option<(Reading, Reading)> {
        let heard = || {
            self.cells
                .iter()
                .filter(|reading| reading.value().is_some())
        };
        let order = |one: &&Reading, other: &&Reading| {
            let both = one.value().partial_cmp(&other.value());
            both.expect("readings are numbers")
        };
        Some((*heard().min_by(order)?, *heard().max_by(order)?))
    }
}

/// The pings of a channel, in file order.
fn pings_of(file: &[u8], channel: SoftwareChannel) -> Result<Vec<Ping>, Refusal> {
    let mut pings = Vec::new();
    for tuple in Walk::START.forwards(file) {
        let tuple = tuple?;
        if PingKind::of_type(tuple.kind).is_none() {
            continue;
        }
        let header = hac::read_ping(file, tuple.place)?.header;
        if header.software_channel_identifier == channel {
            pings.push(Ping {
                place: tuple.place,
                number: header.ping_number,
            });
        }
    }
    Ok(pings)
}

/// Sees to it that a ping has readings, silent or not; else it is refused by 30, at its place
/// in the whole file.
fn must_read(place: usize, excerpt: &mut Excerpt) -> Result<(), Stop> {
    let at = excerpt.place;
    let file = excerpt.around(place)?;
    match hac::readings(file, at, 0, 0) {
        Ok(_) => Ok(()),
        Err(refusal) => {
            let advice = hac::ping_advice(file, at, refusal);
            let refusal = Refusal { place, ..refusal };
            Err(Stop::Judged(Verdict::Refused(refusal, advice)))
        }
    }
}

/// What the samples of a ping's channel are, in TR's words.
fn samples_of(place: usize, excerpt: &mut Excerpt) -> Result<&'static str, Refusal> {
    let at = excerpt.place;
    let file = excerpt.around(place)?;
    let parents = hac::ask(file, at)?;
    let maker = hac::maker_at(file, parents.channel_place);
    let words = maker.and_then(|maker| types::data_sample(maker, parents.type_of_data_sample));
    Ok(words.expect("a channel that has readings is of a listed type"))
}
