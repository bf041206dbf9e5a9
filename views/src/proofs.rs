//! crates/*/proofs: what the checker's search leaves open of a record's contracts, each under its name. It finds by itself what the
//! constants, the record of the numbers and the numbers of the record come to, with the list of types opened.

mod read;
mod told;
mod write;

use crate::table::Record;
use crate::template::{Values, WIDTH};
use crate::words::wrap;
use crate::File;

pub fn files(records: &[Record]) -> Vec<File> {
    let mut files = Vec::new();
    for record in records {
        let proofs = [read::proof(record), write::proof(record)];
        files.extend(proofs.map(|proof| file(record, proof)));
        files.extend(told::files(record));
    }
    files
}

/// A proof: what stands in it besides what stands in all.
struct Proof {
    /// The function that it is about.
    function: &'static str,
    /// What it comes to.
    what: &'static str,
    /// Where its names come from.
    uses: String,
    /// The answers.
    answers: String,
}

const ANSWERS: &str = "\
-- $made$
$about$
$uses$use Rattle.$module$.proofs.$Name$.$function$.Goals as goal

$answers$";

fn file(record: &Record, proof: Proof) -> File {
    let (module, name, function) = (&record.module, &record.name, proof.function);
    let about = format!(
        "`{module}::{name}::{function}` meets its contract: {}. Assumes nothing.",
        proof.what
    );
    let text = Values::of(record)
        .with("function", function)
        .with("about", wrap(&about, WIDTH, "-- ", "-- "))
        .with("uses", proof.uses)
        .with("answers", proof.answers);
    let path = format!("crates/{module}/proofs/{name}/{function}/Answers.antt");
    (path, text.fill(ANSWERS))
}
