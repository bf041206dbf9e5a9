//! A sheet of pixels, each the number of its colour, and what is drawn on it.

use super::font;

/// The pixels of a dot of a letter, either way.
const DOT: usize = 2;

/// The height of a line of text, what reaches lower too; and how far down the middle of its
/// figures is.
pub const LINE: usize = font::HEIGHT * DOT;
pub const MIDDLE: usize = font::FIGURE * DOT / 2;

/// How wide a text is.
pub fn width_of(text: &str) -> usize {
    text.chars().count() * (font::WIDTH + font::GAP) * DOT
}

/// A part of a sheet.
#[derive(Clone, Copy)]
pub struct Area {
    pub left: usize,
    pub top: usize,
    pub width: usize,
    pub height: usize,
}

impl Area {
    pub fn right(self) -> usize {
        self.left + self.width
    }

    pub fn bottom(self) -> usize {
        self.top + self.height
    }

    /// The same with a border around it.
    pub fn grown(self, border: usize) -> Area {
        Area {
            left: self.left - border,
            top: self.top - border,
            width: self.width + 2 * border,
            height: self.height + 2 * border,
        }
    }
}

pub struct Canvas {
    pub width: usize,
    pub pixels: Vec<u8>,
}

impl Canvas {
    /// A sheet all of one colour.
    pub fn new(width: usize, height: usize, colour: u8) -> Canvas {
        Canvas {
            width,
            pixels: vec![colour; width * height],
        }
    }

    /// Fills an area, as far as it lies on the sheet.
    pub fn fill(&mut self, area: Area, colour: u8) {
        let lines = self.pixels.chunks_mut(self.width);
        for line in lines.skip(area.top).take(area.height) {
            let right = area.right().min(line.len());
            line[area.left.min(right)..right].fill(colour);
        }
    }

    /// A line of text; a letter that isn't drawn leaves a blank.
    pub fn write(&mut self, left: usize, top: usize, text: &str, colour: u8) {
        for (nth, letter) in text.chars().enumerate() {
            let left = left + nth * (font::WIDTH + font::GAP) * DOT;
            for (across, down) in font::dots(letter).into_iter().flatten() {
                let dot = Area {
                    left: left + across * DOT,
                    top: top + down * DOT,
                    width: DOT,
                    height: DOT,
                };
                self.fill(dot, colour);
            }
        }
    }
}
