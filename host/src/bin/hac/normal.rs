//! `hac normal`: a file's normal form, written to another file or to standard output.

use crate::input::Input;
use crate::output::Output;
use crate::stop::Stop;
use crate::written;
use std::path::Path;

/// What is written of a file.
pub const FORM: &str = "normal form";

/// The form is made before anything of it is written.
pub fn run(
    input: &Input,
    file: &[u8],
    out: Option<&Path>,
    output: &mut Output,
) -> Result<(), Stop> {
    let normal = hac::normal_form(file)?;
    written::write(input, FORM, &normal, out, output)
}
