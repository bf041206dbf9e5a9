//! `hac picture`: an echogram of a channel, as a PNG file.

mod canvas;
mod deflate;
mod echogram;
mod font;
mod png;
mod scale;
mod sheet;

use crate::input::Input;
use crate::out;
use crate::output::Output;
use crate::stop::Stop;
use crate::written;
use echogram::Echogram;
use hac::SoftwareChannel;
use std::path::Path;

pub fn run(
    input: &Input,
    file: &[u8],
    channel: SoftwareChannel,
    out: Option<&Path>,
    output: &mut Output,
) -> Result<(), Stop> {
    hac::check(file)?;
    let SoftwareChannel(number) = channel;
    let Some(echogram) = Echogram::of(file, channel)? else {
        let why = format!("no ping of channel {number}");
        return Err(Stop::Fault(out::fault(Path::new(input.name()), why)));
    };
    let title = format!("channel {number}: {}", echogram.samples);
    let picture = sheet::draw(&echogram, &title);
    written::write(input, "picture", &picture, out, output)
}
