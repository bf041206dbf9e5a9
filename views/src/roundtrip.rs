//! crates/roundtrip/proofs/Records.antt: each record is read back as it was written, by the law over its row.

use crate::specs::zero_list;
use crate::table::Record;
use crate::template::{law as named, Values, MADE};
use crate::File;

pub fn files(records: &[Record]) -> Vec<File> {
    let mut text = format!("-- {MADE}\n{TOP}");
    for record in records {
        text.push_str(&values(record).fill(USES));
    }
    for record in records {
        text.push('\n');
        text.push_str(&values(record).fill(law(record)));
        text.push('\n');
        text.push_str(&values(record).fill(given(record)));
    }
    vec![("crates/roundtrip/proofs/Records.antt".into(), text)]
}

const TOP: &str = "\
-- The records: where a file holds what the writer wrote of one, in either byte order, every outcome that the reader's promise allows is
-- that record, and where its characters are said to stand stand those written: in the words of the specs, and of what the code hands
-- back. Assumes nothing.
use mathlib.Core.Path.{◌≡◌, refl, ap, ap₂, ◌∙◌}
use mathlib.Core.Bool.{Bool}
use mathlib.Core.List.{List, [], ◌∷◌}
use Prim.Native.Nat.{ℕ}
use lib.Dec.{lit<}
use lib.ListN.{take}
use Rattle.std.specs.Prelude.{Result, Ok}
use Rattle.order.specs.Order.{Bytes}
use Rattle.layout.specs.declared.Counts.{Counts}
use Rattle.layout.specs.declared.Refusal.{Refusal}
use Rattle.layout.specs.Answer.{Answer, Accepted}
use Rattle.layout.specs.Types.{listings, among, listing_of}
use Rattle.tuples.specs.declared.Part.{Part}
use Rattle.rows.specs.Readers.{row_text, characters_at}
use Rattle.roundtrip.specs.Held.{Holds}
use Rattle.roundtrip.proofs.Handed.{again-row, again-plain}
";

const USES: &str = "\
use Rattle.$module$.specs.declared.$Name$.{$Name$}
use Rattle.$module$.specs.$Name$Read.{$Name$Read}
use Rattle.$module$.specs.$Name$Read as $camel$
use Rattle.$module$.specs.$Name$.{$module$_of, $module$_integers, $inverse$}
use Rattle.$module$.specs.$Name$.{$Name$Typed, $Name$At, $Name$Written}
use Rattle.$module$.specs.$Name$ as $camel$s
use Rattle.$module$.proofs.Told as $camel$_told
";

/// A record without characters.
const ALONE: &str = "\
pub $again$ : (r : $Name$) → $Name$Typed r → {o : Bool} {out left f : List ℕ} {p : ℕ} {n : Counts} {x : $Name$Read}
    → $Name$Written o r out (Accepted n) left → Holds f p o (take n.written left) → $Name$At f p x → x ≡ $camel$.Read r
unfolding listing_of among listings
$again$ r g {o = o} w h a =
    let v = again-plain $code$ ($module$_integers r) [] (lit< tt) g tt refl refl refl o w h in
    a.outcome ∙ ap₂ $camel$s.answered v.answer (ap $module$_of v.integers ∙ $inverse$ r)
";

/// One whose writer is handed its characters.
const HANDED: &str = "\
pub $again$ : (r : $Name$) (t : List ℕ) → $Name$Typed r → Bytes t
    → {o : Bool} {out left f : List ℕ} {p : ℕ} {n : Counts} {x : $Name$Read}
    → $Name$Written o r t out (Accepted n) left → Holds f p o (take n.written left) → $Name$At f p x
    → (x ≡ $camel$.Read r (row_text $code$ f p)) × (characters_at f (row_text $code$ f p) ≡ t)
$again$ r t g b {o = o} {f = f} {p = p} w h a =
    let v = again-row $code$ ($module$_integers r) t (lit< tt) g b o w h in
    let fields = ap $module$_of v.integers ∙ $inverse$ r in
    let read = ap₂ (λ (y : Answer) (z : $Name$). $camel$s.answered y z (row_text $code$ f p)) v.answer fields in
    (a.outcome ∙ read, v.characters)
";

/// One whose writer writes zeros for them.
const ZEROS: &str = "\
pub $again$ : (r : $Name$) → $Name$Typed r → {o : Bool} {out left f : List ℕ} {p : ℕ} {n : Counts} {x : $Name$Read}
    → $Name$Written o r out (Accepted n) left → Holds f p o (take n.written left) → $Name$At f p x
    → (x ≡ $camel$.Read r (row_text $code$ f p)) × (characters_at f (row_text $code$ f p) ≡ $zeros$)
unfolding listing_of among listings
$again$ r g {o = o} {f = f} {p = p} w h a =
    let v = again-plain $code$ ($module$_integers r) $zeros$ (lit< tt) g $bytes$ refl refl refl o w h in
    let fields = ap $module$_of v.integers ∙ $inverse$ r in
    let read = ap₂ (λ (y : Answer) (z : $Name$). $camel$s.answered y z (row_text $code$ f p)) v.answer fields in
    (a.outcome ∙ read, v.characters)
";

/// Of what the code hands back: a record without characters.
const GIVEN: &str = "\
pub $given$ : (r : $Name$) → $Name$Typed r
    → {o : Bool} {out left f : List ℕ} {p : ℕ} {n : Counts} (x : Result $Name$ Refusal)
    → $Name$Written o r out (Accepted n) left → Holds f p o (take n.written left) → $Name$At f p ($camel$s.as_read x)
    → x ≡ Ok r
$given$ r g x w h a = $camel$_told.same_read x (Ok r) ($again$ r g w h a)
";

/// One whose writer is handed its characters.
const GIVEN_HANDED: &str = "\
pub $given$ : (r : $Name$) (t : List ℕ) → $Name$Typed r → Bytes t
    → {o : Bool} {out left f : List ℕ} {p : ℕ} {n : Counts} (x : Result ($Name$ × Part) Refusal)
    → $Name$Written o r t out (Accepted n) left → Holds f p o (take n.written left) → $Name$At f p ($camel$s.as_read x)
    → (x ≡ Ok (r, row_text $code$ f p)) × (characters_at f (row_text $code$ f p) ≡ t)
$given$ r t g b {f = f} {p = p} x w h a =
    let e = $again$ r t g b w h a in
    ($camel$_told.same_read x (Ok (r, row_text $code$ f p)) e.0, e.1)
";

/// One whose writer writes zeros for them.
const GIVEN_ZEROS: &str = "\
pub $given$ : (r : $Name$) → $Name$Typed r
    → {o : Bool} {out left f : List ℕ} {p : ℕ} {n : Counts} (x : Result ($Name$ × Part) Refusal)
    → $Name$Written o r out (Accepted n) left → Holds f p o (take n.written left) → $Name$At f p ($camel$s.as_read x)
    → (x ≡ Ok (r, row_text $code$ f p)) × (characters_at f (row_text $code$ f p) ≡ $zeros$)
$given$ r g {f = f} {p = p} x w h a =
    let e = $again$ r g w h a in
    ($camel$_told.same_read x (Ok (r, row_text $code$ f p)) e.0, e.1)
";

fn given(record: &Record) -> &'static str {
    match (record.handed(), record.zeros()) {
        (Some(_), _) => GIVEN_HANDED,
        (None, Some(_)) => GIVEN_ZEROS,
        (None, None) => GIVEN,
    }
}

fn law(record: &Record) -> &'static str {
    match (record.handed(), record.zeros()) {
        (Some(_), _) => HANDED,
        (None, Some(_)) => ZEROS,
        (None, None) => ALONE,
    }
}

/// Besides what every template may name, the zeros that are written, and that they are bytes.
fn values(record: &Record) -> Values {
    let zeros = record.zeros().unwrap_or(0);
    let bytes = format!("{}tt{}", "(lit< tt, ".repeat(zeros), ")".repeat(zeros));
    Values::of(record)
        .with("given", named(record, "given"))
        .with("zeros", zero_list(zeros))
        .with("bytes", bytes)
}
