//! crates/*/specs: what each record's calls promise, in the words of its fields.

use crate::table::{Field, Placed, Record};
use crate::template::{about, lines, Values};
use crate::File;

pub fn files(records: &[Record]) -> Vec<File> {
    let mut files = Vec::new();
    for record in records {
        let folder = format!("crates/{}/specs", record.module);
        files.push((format!("{folder}/Lib.antt"), Values::of(record).fill(LIB)));
        files.push((format!("{folder}/{}Read.antt", record.name), given(record)));
        files.push((format!("{folder}/{}.antt", record.name), specs(record)));
    }
    files
}

const LIB: &str = "\
-- $made$
pub mod $Name$Read
pub mod $Name$
";

const GIVEN: &str = "\
-- $made$
-- What reading gives: the record$with$, or a refusal. Assumes nothing.
use Rattle.std.specs.Prelude.{ℕ}
$uses$use Rattle.$module$.specs.declared.$Name$.{$Name$}

pub data $Name$Read : Type 0 where
  Read : $Name$$part$ → $Name$Read
  Refused : ℕ → ℕ → $Name$Read
";

fn given(record: &Record) -> String {
    let (uses, part) = match record.text() {
        Some(_) => (PART, " → Part"),
        None => ("", ""),
    };
    Values::of(record)
        .with("uses", uses)
        .with("with", beside_said(record))
        .with("part", part)
        .fill(GIVEN)
}

const PART: &str = "use Rattle.tuples.specs.declared.Part.{Part}\n";

const SPECS: &str = "\
-- $made$
$about$
use Rattle.std.specs.Prelude.{◌≡◌, refl, Bool, List, [], ◌∷◌, ℕ, ℤ, pos, Result, Ok, Err}
use Rattle.std.proofs.Common.{sym, ◌∙◌}
use Rattle.layout.specs.declared.Refusal.{Refusal}
use Rattle.layout.specs.Code.{number}
use Rattle.layout.specs.Answer.{Answer, Accepted}
use Rattle.layout.specs.Answer as answer
use Rattle.layout.specs.Answers.{numbers, Tells, accepting}
use Rattle.tuples.specs.Readers.{only, read_answer, row_of}
$uses$
use Rattle.$module$.specs.declared.$Name$.{$Name$}
use Rattle.$module$.specs.$Name$Read.{$Name$Read, Read, Refused}

-- the integers of the row under the fields' names
abbrev pub $module$_of : List ℤ → $Name$
$module$_of zs =
    record {
$named$
    }

-- and the fields as the integers of the row
abbrev pub $module$_integers : $Name$ → List ℤ
$module$_integers r =
$listed$
    ∷ []

-- the fields of these integers are those that they were taken from
pub $inverse$ : (r : $Name$) → $module$_of ($module$_integers r) ≡ r
$inverse$ r = refl

-- each field is in the range of its width and sign, as the fields of every value of the struct are
abbrev pub $Name$Typed : $Name$ → Type 0
$Name$Typed r = Typed (row_of $code$ 0) ($module$_integers r)

-- ---- reading: what the code gives, in these words
abbrev pub as_read : Result $gives$ Refusal → $Name$Read
as_read (Ok r) = Read $read$
as_read (Err r) = Refused (number r.code) r.place

-- 01's answer in each case
abbrev pub answer_of : $Name$Read → Answer
answer_of (Read r$t$) = accepting 1 0
answer_of (Refused c p) = answer.Refused c p

-- what is given for an answer: the record$with$, or the refusal
abbrev pub answered : Answer → $Name$$part$ → $Name$Read
answered (Accepted n) r$t$ = Read r$t$
answered (answer.Refused c p) r$t$ = Refused c p

-- the promise: 01's answer, and what is given for it
pub record $Name$At (f : List ℕ) (p : ℕ) (r : $Name$Read) : Type 0 where
  pub answer : Tells numbers (answer_of r) (read_answer (only $code$) f p)
  pub outcome : r ≡ answered (read_answer (only $code$) f p) ($module$_of (row_integers $code$ f p))$stands$

-- which settles what is given
pub $settled$ : {f : List ℕ} {p : ℕ} {r t : $Name$Read} → $Name$At f p r → $Name$At f p t → r ≡ t
$settled$ a b = a.outcome ∙ sym b.outcome

$written$
";

fn specs(record: &Record) -> String {
    let beside = record.text().is_some();
    let stands = if beside { " (row_text $code$ f p)" } else { "" };
    Values::of(record)
        .with("about", about(record, "-- ", "Assumes nothing."))
        .with("uses", uses(record))
        .with("named", named(record))
        .with("listed", listed(record))
        .with("with", beside_said(record))
        .with("t", if beside { " t" } else { "" })
        .with("part", if beside { " → Part" } else { "" })
        .with("stands", stands)
        .with("gives", if beside { "($Name$ × Part)" } else { "$Name$" })
        .with("read", if beside { "r.0 r.1" } else { "r" })
        .with("written", written(record))
        .fill(SPECS)
}

fn beside_said(record: &Record) -> String {
    let said = |text: Placed| format!(" and the place of its {}", text.name);
    record.text().map_or(String::new(), said)
}

/// What the specs take from the rows, by what the record has.
fn uses(record: &Record) -> String {
    let mut uses = Vec::new();
    if record.handed().is_none() {
        uses.push("use Rattle.tuples.specs.Writers.{Written, plain_bytes}");
    }
    if record.text().is_some() {
        uses.push("use Rattle.tuples.specs.declared.Part.{Part}");
        uses.push("use Rattle.rows.specs.Readers.{row_text}");
    }
    uses.push(match record.handed() {
        Some(_) => "use Rattle.rows.specs.Writers.{RowWritten}",
        None => "use Rattle.rows.specs.Writers.{row_values}",
    });
    uses.push(
        "use Rattle.rows.specs.Integers.{signed_at, unsigned_at, patterns, row_integers, Typed}",
    );
    uses.join("\n")
}

/// Each field by an integer.
fn named(record: &Record) -> String {
    let numbers: Vec<_> = record.numbers().into_iter().enumerate().collect();
    lines(&numbers, |(place, field)| {
        let integer = if field.is_signed() {
            "signed_at"
        } else {
            "unsigned_at"
        };
        let value = wrapped(field, format!("{integer} zs {place}"));
        format!("      {} = {value};", field.name)
    })
}

/// The field of a number; that of a kind of identifier is a struct around it.
pub fn wrapped(field: &Field, number: String) -> String {
    match field.kind {
        Some(_) => format!("record {{ 0 = {number} }}"),
        None => number,
    }
}

/// Each field as an integer.
fn listed(record: &Record) -> String {
    let numbers: Vec<_> = record.numbers().into_iter().enumerate().collect();
    lines(&numbers, |(place, field)| {
        let cons = if *place == 0 { "    " } else { "    ∷ " };
        let inner = if field.kind.is_some() { ".0" } else { "" };
        match field.is_signed() {
            true => format!("{cons}r.{}", field.name),
            false => format!("{cons}pos r.{}{inner}", field.name),
        }
    })
}

const WRITTEN: &str = "\
-- ---- writing: $what$
abbrev pub $Name$Written : Bool → $Name$ → List ℕ → Answer → List ℕ → Type 0
$Name$Written o r out a left =
    Written [] (plain_bytes o $code$ (row_values $code$ (patterns (row_of $code$ 0) ($module$_integers r)) $characters$)) out a left";

const WRITTEN_BESIDE: &str = "\
-- ---- writing: the row of the fields and the characters t, by the rules of rows
abbrev pub $Name$Written : Bool → $Name$ → List ℕ → List ℕ → Answer → List ℕ → Type 0
$Name$Written o r t out a left = RowWritten $code$ (patterns (row_of $code$ 0) ($module$_integers r)) t o out a left";

/// The promise of the writer.
fn written(record: &Record) -> String {
    let values = Values::of(record);
    if record.handed().is_some() {
        return values.fill(WRITTEN_BESIDE);
    }
    let (what, characters) = match record.zeros() {
        Some(zeros) => (
            "no rule but for room, and the row of the fields, with zeros behind them",
            zero_list(zeros),
        ),
        None => (
            "no rule but for room, and the row of the fields",
            "[]".into(),
        ),
    };
    let values = values.with("what", what).with("characters", characters);
    values.fill(WRITTEN)
}

/// So many zeros as a list.
pub fn zero_list(zeros: usize) -> String {
    format!("({}[])", "0 ∷ ".repeat(zeros))
}
