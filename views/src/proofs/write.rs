//! `write`: the row of a record's numbers, with characters that are handed over, or zeros, or none.

use super::Proof;
use crate::specs::zero_list;
use crate::table::Record;
use crate::template::Values;

const WRITE_USES: &str = "\
use Rattle.std.proofs.Common.{refl, $lists$}
use Rattle.layout.specs.Types.{listings, among, listing_of}
use Rattle.tuples.specs.Readers.{row_of}
use Rattle.rows.specs.Integers.{patterns}
use Rattle.rows.proofs.Views.{only-room}
use Rattle.$module$.specs.$Name$.{$module$_integers}
";

const WRITE: &str = "\
pub returns : goal.returns
unfolding listing_of among listings
returns c =
    let a = c.args in
    only-room $code$ a.msb (patterns (row_of $code$ 0) ($module$_integers a.self)) $characters$ refl refl refl refl
    (rw c.numbers.ensures at c.write_row.ensures)
";

const WRITE_BESIDE: &str = "\
pub returns : goal.returns
returns c = rw c.numbers.ensures at c.write_row.ensures
";

pub fn proof(record: &Record) -> Proof {
    let (lists, characters) = match record.zeros() {
        Some(zeros) => ("[], ◌∷◌", zero_list(zeros)),
        None => ("[]", "[]".into()),
    };
    let values = Values::of(record)
        .with("lists", lists)
        .with("characters", characters);
    let (uses, answers) = match record.handed() {
        Some(_) => ("", WRITE_BESIDE),
        None => (WRITE_USES, WRITE),
    };
    Proof {
        function: "write",
        what: "the numbers of the record, written",
        uses: values.fill(uses),
        answers: values.fill(answers),
    }
}
