//! What reading and writing hand back: the view of it settles it, and so each promise does.

use crate::table::Record;
use crate::template::{law, Values};
use crate::File;

const LIB: &str = "\
-- $made$
pub mod Told
";

const TOLD: &str = "\
-- $made$
-- What reading hands back is settled by what the view says of it, and so by the promises of reading and writing. Assumes nothing.
use mathlib.Core.Path.{◌≡◌, refl, ap}
use mathlib.Core.Bool.{Bool}
use mathlib.Core.List.{List}
use Prim.Native.Nat.{ℕ}
use Rattle.std.specs.Prelude.{Result, Ok, Err}
use Rattle.layout.specs.declared.Counts.{Counts}
use Rattle.layout.specs.declared.Refusal.{Refusal}
use Rattle.layout.specs.Views.{as_answer}
use Rattle.layout.proofs.Told.{refusal_by, refusal_back, same_seen}
$part_uses$use Rattle.tuples.proofs.Told.{written_told}
use Rattle.$module$.specs.declared.$Name$.{$Name$}
use Rattle.$module$.specs.$Name$Read.{$Name$Read, Read, Refused}
use Rattle.$module$.specs.$Name$.{as_read, $Name$At, $settled$, $Name$Written}

abbrev read_by : $Name$Read → Result $gives$ Refusal
read_by (Read $read$) = Ok $held$
read_by (Refused c p) = Err (refusal_by c p)

read_back : (r : Result $gives$ Refusal) → read_by (as_read r) ≡ r
read_back (Ok r) = refl
read_back (Err r) = ap Err (refusal_back r)

pub same_read : (r s : Result $gives$ Refusal) → as_read r ≡ as_read s → r ≡ s
same_read = same_seen as_read read_by read_back

-- ---- two outcomes that a promise allows are one, with the memory that it leaves
pub $told$ : {f : List ℕ} {p : ℕ} (r t : Result $gives$ Refusal) → $Name$At f p (as_read r)
    → $Name$At f p (as_read t) → r ≡ t
$told$ r t a b = same_read r t ($settled$ a b)

pub $written_told$ : (o : Bool) (x : $Name$)$t$ (out : List ℕ) (r s : Result Counts Refusal)
    {left kept : List ℕ} → $Name$Written o x$by$ out (as_answer r) left
    → $Name$Written o x$by$ out (as_answer s) kept → (r ≡ s) × (left ≡ kept)
$written_told$ o x$by$ out r s a b = written_told r s a b
";

const PART_USES: &str = "\
use Rattle.tuples.specs.declared.Part.{Part}
";

pub fn files(record: &Record) -> [File; 2] {
    let (gives, read, held, part_uses) = match record.text() {
        Some(_) => ("($Name$ × Part)", "r t", "(r, t)", PART_USES),
        None => ("$Name$", "r", "r", ""),
    };
    let (t, by) = match record.handed() {
        Some(_) => (" (t : List ℕ)", " t"),
        None => ("", ""),
    };
    let values = Values::of(record)
        .with("told", law(record, "told"))
        .with("written_told", law(record, "written_told"))
        .with("part_uses", part_uses)
        .with("gives", gives)
        .with("read", read)
        .with("held", held)
        .with("t", t)
        .with("by", by);
    let folder = format!("crates/{}/proofs", record.module);
    [
        (format!("{folder}/Lib.antt"), values.fill(LIB)),
        (format!("{folder}/Told.antt"), values.fill(TOLD)),
    ]
}
