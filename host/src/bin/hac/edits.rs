//! `hac index`, `hac append` and `hac remove`: a file with its index worked out afresh,
//! written to another file or to standard output.

use crate::arguments::Change;
use crate::input::Input;
use crate::output::Output;
use crate::stop::Stop;
use crate::verdict::Verdict;
use crate::written;
use hac::{Edit, Judged, Refusal};
use std::path::Path;

/// What is written of a file.
const INDEXED: &str = "indexed file";

/// What is asked for; tuples to append stand beside the file.
pub fn edit_of<'a>(change: &Change, beside: Option<&'a [u8]>) -> Edit<'a> {
    match change {
        Change::Index => Edit::Index,
        Change::Append { .. } => Edit::Append(beside.unwrap_or_default()),
        Change::Remove { place } => Edit::Remove(*place),
    }
}

pub fn run(
    input: &Input,
    file: &[u8],
    edit: Edit,
    out: Option<&Path>,
    output: &mut Output,
) -> Result<(), Stop> {
    let edited = edit.edit(file);
    let edited = edited.map_err(|refusal| stopped(file, edit, refusal))?;
    written::write(input, INDEXED, &edited, out, output)
}

/// A refusal is told of the input that it is of; where the file as it would be is refused,
/// of the file.
fn stopped(file: &[u8], edit: Edit, refusal: Refusal) -> Stop {
    match hac::edit_refused(file, edit, refusal) {
        (Judged::File, advice) => Stop::Judged(Verdict::Refused(refusal, advice)),
        (Judged::WouldBe, advice) => Stop::Judged(Verdict::WouldBe(refusal, advice)),
        (Judged::Tuples, advice) => Stop::Beside(Verdict::Refused(refusal, advice)),
    }
}
