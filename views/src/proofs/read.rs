//! `read`: the record at a place of a file, and the place of its characters where it has some.

use super::Proof;
use crate::table::Record;
use crate::template::Values;

const READ_USES: &str = "\
use Rattle.std.proofs.Common.{refl, ap, ◌∙◌}
use Rattle.std.proofs.lemmas.Result.{err_from_is_err_and}
use Rattle.order.proofs.Laws.{bytes_of_lem}
use Rattle.layout.specs.Answer.{Answer}
use Rattle.layout.specs.Answers.{tells}
use Rattle.layout.specs.Types.{listings, among, listing_of}
$part_uses$use Rattle.rows.specs.Integers.{row_integers}
use Rattle.rows.proofs.Views.{$views$}
use Rattle.$module$.specs.$Name$Read.{Read}
use Rattle.$module$.specs.$Name$.{$module$_of, answered}
";

const PART_USES: &str = "\
use Rattle.rows.specs.Readers.{row_text}
";

const READ: &str = "\
pub returns-in_err-$row$ : goal.returns-in_err-$row$
unfolding listing_of among listings
returns-in_err-$row$ c =
    let a = c.args in
    let there = $module$_of (row_integers $code$ a.file.now a.place) in
$stands$    let p = err_from_is_err_and c.from_residual.result c.from_residual.ensures.1 in
    let e = view_refused $code$ refl refl (rw c.in_err-$row$.was at c.read_row.ensures) in
    rw (p.1, p.2) (record { answer = tells e; outcome = ap (λ (x : Answer). answered x $outcome$) e })

pub returns : goal.returns
unfolding listing_of among listings
returns c =
    let a = c.args in
    let there = $module$_of (row_integers $code$ a.file.now a.place) in
$stands$    let r = rw c.in_ok-$row$.was at c.read_row.ensures in
    let e = view_accepted $code$ refl refl r in
    let bytes = bytes_of_lem a.file.now (λ i. (c.type_inv.file i).fits) in
    let fields = c.of.ensures ∙ ap $module$_of (view_integers $code$ refl refl r bytes) in
    record { answer = tells e; outcome = $made_of$ ∙ ap (λ (x : Answer). answered x $outcome$) e }
";

const STANDS: &str = "    \
let stands = row_text $code$ a.file.now a.place in
";

pub fn proof(record: &Record) -> Proof {
    let values = Values::of(record);
    let values = match record.text() {
        Some(text) => values
            .with("row", &text.name)
            .with("part_uses", PART_USES)
            .with(
                "views",
                "read-text, view_refused, view_accepted, view_integers",
            )
            .with("stands", STANDS)
            .with("outcome", "there stands")
            .with("made_of", "(λ i. Read (fields i) (read-text r i))"),
        None => values
            .with("row", "read_row")
            .with("part_uses", "")
            .with("views", "view_refused, view_accepted, view_integers")
            .with("stands", "")
            .with("outcome", "there")
            .with("made_of", "ap Read fields"),
    };
    Proof {
        function: "read",
        what: "the reader's refusal, or the record of the numbers that were read",
        uses: values.fill(READ_USES),
        answers: values.fill(READ),
    }
}
