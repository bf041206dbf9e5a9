//! The sheet that an echogram is drawn on, with its sides and the scale of its colours.

use super::canvas::{width_of, Area, Canvas, LINE, MIDDLE};
use super::echogram::{Echogram, Side};
use super::png::{self, Colour};
use super::scale::{round_step, Scale};
use hac::Reading;

/// What colours are numbered by: the sheet, what is written on it, silence; those of readings
/// follow, from the least to the most.
const PAPER: u8 = 0;
const INK: u8 = 1;
const SILENCE: u8 = 2;
const QUIETEST: u8 = 3;
const LEVELS: u8 = 128;

/// The first three, and what the others run through. Volts have a run of their own, so that
/// nobody takes them for decibels.
const PLAIN: [Colour; QUIETEST as usize] = [[255, 255, 255], [24, 24, 32], [224, 226, 232]];
const OF_DECIBELS: [Colour; 7] = [
    [28, 24, 96],
    [24, 84, 200],
    [20, 170, 220],
    [48, 176, 80],
    [244, 220, 60],
    [240, 120, 32],
    [168, 16, 40],
];
const OF_VOLTS: [Colour; 5] = [
    [214, 196, 72],
    [120, 176, 72],
    [32, 136, 116],
    [48, 76, 136],
    [72, 8, 96],
];

/// In pixels: what is left blank at the edges and between parts, the marks at the sides, the
/// scale's width, what stands below it for silence, and what two numbers at a side are apart at
/// the least.
const MARGIN: usize = 16;
const MARK: usize = 6;
const BAR: usize = 22;
const BELOW: usize = 3 * LINE;
const APART: usize = 48;

const SAMPLES: &str = "sample number";
const PINGS: &str = "ping number";
const SILENT: &str = "silence";

/// The colours from the least reading to the most.
fn run_of(reading: Option<Reading>) -> &'static [Colour] {
    match reading {
        Some(Reading::Volts(_)) => &OF_VOLTS,
        _ => &OF_DECIBELS,
    }
}

/// The colour at a share of a run, between two that it has.
fn between(run: &[Colour], share: f64) -> Colour {
    let at = share * (run.len() - 1) as f64;
    let nth = (at as usize).min(run.len() - 2);
    let part = at - nth as f64;
    let mixed = |one: u8, other: u8| f64::from(one) * (1.0 - part) + f64::from(other) * part;
    [0, 1, 2].map(|hue| mixed(run[nth][hue], run[nth + 1][hue]).round() as u8)
}

fn colours(reading: Option<Reading>) -> Vec<Colour> {
    let run = run_of(reading);
    let levels = (0..LEVELS).map(|level| between(run, f64::from(level) / f64::from(LEVELS - 1)));
    PLAIN.into_iter().chain(levels).collect()
}

/// The number of the colour at a share of the scale.
fn level(share: f64) -> u8 {
    QUIETEST + (share * f64::from(LEVELS - 1)).round() as u8
}

/// The picture of an echogram, as a PNG file.
pub fn draw(echogram: &Echogram, title: &str) -> Vec<u8> {
    let span = echogram.span();
    let scale = span.and_then(|(least, most)| Some(Scale::over(least.value()?, most.value()?)));
    let mut sheet = Sheet::of(echogram, title, scale.as_ref());
    sheet.canvas.write(MARGIN, MARGIN, title, INK);
    sheet.cells(echogram, scale.as_ref());
    sheet.samples(&echogram.down);
    sheet.pings(echogram);
    if let (Some(scale), Some((least, _))) = (&scale, span) {
        sheet.scale(scale, least);
    }
    sheet.silence();
    let Canvas { width, pixels } = sheet.canvas;
    png::encode(width, &pixels, &colours(span.map(|(least, _)| least)))
}

struct Sheet {
    canvas: Canvas,
    /// Where the cells are, and the scale beside them.
    plot: Area,
    bar: Area,
}

impl Sheet {
    fn of(echogram: &Echogram, title: &str, scale: Option<&Scale>) -> Sheet {
        let largest = (echogram.down.units - 1).to_string();
        let plot = Area {
            left: MARGIN + width_of(&largest) + MARGIN,
            top: 2 * (MARGIN + LINE) + MARGIN,
            width: echogram.across.length(),
            height: echogram.down.length(),
        };
        let bar = Area {
            left: plot.right() + 2 * MARGIN,
            top: plot.top,
            width: BAR,
            height: plot.height - BELOW,
        };
        let marks = scale.into_iter().flat_map(Scale::marks);
        let beside = marks.map(|(mark, _)| width_of(&mark)).max().unwrap_or(0);
        let beside = beside.max(width_of(SILENT));
        let width = (bar.right() + 2 * MARK + beside).max(MARGIN + width_of(title));
        let height = plot.bottom() + 2 * (MARGIN / 2 + LINE);
        Sheet {
            canvas: Canvas::new(width + MARGIN, height + MARGIN, PAPER),
            plot,
            bar,
        }
    }

    fn cells(&mut self, echogram: &Echogram, scale: Option<&Scale>) {
        self.canvas.fill(self.plot.grown(1), INK);
        let Echogram { across, down, .. } = echogram;
        for (nth, reading) in echogram.cells.iter().enumerate() {
            let share = reading
                .value()
                .zip(scale)
                .map(|(value, scale)| scale.share(value));
            let cell = Area {
                left: self.plot.left + nth % across.cells * across.pixels,
                top: self.plot.top + nth / across.cells * down.pixels,
                width: across.pixels,
                height: down.pixels,
            };
            self.canvas.fill(cell, share.map_or(SILENCE, level));
        }
    }

    /// Sample numbers at the left, at round ones.
    fn samples(&mut self, down: &Side) {
        let top = self.plot.top - LINE - MARGIN;
        self.canvas.write(MARGIN, top, SAMPLES, INK);
        for number in rounds(down, APART) {
            let y = self.plot.top + down.middle(number);
            let label = number.to_string();
            let left = self.plot.left - MARGIN / 2 - MARK - width_of(&label);
            self.mark(self.plot.left - MARK, y, MARK, 1);
            self.canvas.write(left, y - MIDDLE, &label, INK);
        }
    }

    /// The numbers of some pings below, by where they stand.
    fn pings(&mut self, echogram: &Echogram) {
        let widest = echogram.numbers.iter().max().map(u32::to_string);
        let apart = width_of(&widest.unwrap_or_default()) + APART / 2;
        let bottom = self.plot.bottom();
        for nth in rounds(&echogram.across, apart) {
            let x = self.plot.left + echogram.across.middle(nth);
            let label = echogram.numbers[nth as usize].to_string();
            self.mark(x, bottom, 1, MARK);
            let left = x.saturating_sub(width_of(&label) / 2);
            self.canvas.write(left, bottom + MARGIN / 2, &label, INK);
        }
        let top = bottom + MARGIN + LINE;
        self.canvas.write(self.plot.left, top, PINGS, INK);
    }

    /// The colours of readings, with round numbers beside them and their unit above.
    fn scale(&mut self, scale: &Scale, reading: Reading) {
        let unit = reading.unit().unwrap_or_default();
        let name = match reading {
            Reading::Volts(_) => unit.into(),
            _ => format!("{} {unit}", reading.name()),
        };
        let bar = self.bar;
        self.canvas
            .write(bar.left, bar.top - LINE - MARGIN, &name, INK);
        self.canvas.fill(bar.grown(1), INK);
        let last = (bar.height - 1) as f64;
        for down in 0..bar.height {
            let line = Area {
                top: bar.top + down,
                height: 1,
                ..bar
            };
            self.canvas.fill(line, level(1.0 - down as f64 / last));
        }
        for (mark, share) in scale.marks() {
            let y = bar.top + ((1.0 - share) * last).round() as usize;
            self.mark(bar.right(), y, MARK, 1);
            self.canvas
                .write(bar.right() + 2 * MARK, y - MIDDLE, &mark, INK);
        }
    }

    /// The colour of silence, below the others.
    fn silence(&mut self) {
        let swatch = Area {
            top: self.plot.bottom() - LINE,
            height: LINE,
            ..self.bar
        };
        self.canvas.fill(swatch.grown(1), INK);
        self.canvas.fill(swatch, SILENCE);
        let top = swatch.top + LINE / 2 - MIDDLE;
        self.canvas
            .write(swatch.right() + 2 * MARK, top, SILENT, INK);
    }

    fn mark(&mut self, left: usize, top: usize, width: usize, height: usize) {
        let mark = Area {
            left,
            top,
            width,
            height,
        };
        self.canvas.fill(mark, INK);
    }
}

/// Round numbers along a side, so many pixels apart at the least.
fn rounds(side: &Side, apart: usize) -> impl Iterator<Item = u64> {
    let most = (side.length() / apart).max(1);
    let step = round_step(side.units as f64, most).max(1.0) as u64;
    (0..side.units).step_by(step as usize)
}
