//! A file that is made of an input: written to another file, or to standard output.

use crate::input::Input;
use crate::json::Object;
use crate::out;
use crate::output::Output;
use crate::shown::shown;
use crate::stop::Stop;
use std::fmt;
use std::path::Path;

/// Writes what is made of an input, and tells it; on standard output it stands alone.
pub fn write(
    input: &Input,
    what: &'static str,
    made: &[u8],
    out: Option<&Path>,
    output: &mut Output,
) -> Result<(), Stop> {
    let Some(out) = out else {
        return Ok(output.bytes(made)?);
    };
    out::write(out, made)?;
    let written = Written {
        input,
        what,
        out,
        length: made.len(),
    };
    Ok(output.tell(&written, || written.object())?)
}

/// What was made of an input and written to a file.
pub struct Written<'a> {
    pub input: &'a Input,
    pub what: &'static str,
    pub out: &'a Path,
    pub length: usize,
}

impl fmt::Display for Written<'_> {
    fn fmt(&self, to: &mut fmt::Formatter<'_>) -> fmt::Result {
        write!(
            to,
            "{}: accepted, {} of {} bytes written to {}",
            shown(self.input.name()),
            self.what,
            self.length,
            shown(self.out.as_os_str())
        )
    }
}

impl Written<'_> {
    pub fn object(&self) -> Object {
        Object::default()
            .name("file", self.input.name())
            .text("outcome", "accepted")
            .name("out", self.out.as_os_str())
            .number("length", self.length)
    }
}
