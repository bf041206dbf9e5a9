//! crates/*/src/lib.rt: of each record its struct, its constants, and how it is read and written by the row of its type.

use crate::table::{Placed, Record, Shape, STEP};
use crate::template::{about, conversion, is_plain, lines, Values};
use crate::words::capitals;
use crate::File;

pub fn files(records: &[Record]) -> Vec<File> {
    let file = |record: &Record| {
        let path = format!("crates/{}/src/lib.rt", record.module);
        (path, source(record))
    };
    records.iter().map(file).collect()
}

const SOURCE: &str = "\
// $made$
$about$
#![tactic(auto, unfolding(layout::specs::Types::listings, layout::specs::Types::among, layout::specs::Types::listing_of))]

ghost use Rattle.std.specs.Prelude.{◌≡◌};
ghost use Rattle.tuples.specs.Readers.{row_of};
ghost use Rattle.rows.specs.Integers.{integers_from, patterns};
ghost use Rattle.rows.specs.Places.{places_of};
ghost use Rattle.layout.specs.Views.{as_answer};
ghost use Rattle.$module$.specs.$Name$.{$module$_of, $module$_integers, $Name$At, $Name$Written, as_read};

$uses$

#[derive(Clone, Copy)]
pub struct $Name$ {
$fields$
}

$gives$
impl $Name$ {
    pub const CODE: u16 = types::$TYPE$;

$lengths$

    // Where its fields stand, in bytes from the tuple's first.
$constants$

    // The record of these fields.
$new$
        ensures { result ≡ record {
$said$
        } }
    {
        $Name$ {
$names$
        }
    }

    // The places of its fields in the row's order, $lengths_said$.
    pub fn places() -> [usize; $places_count$]
        ensures { result ≡ places_of $code$ }
    {
        [
$places$
        ]
    }

    // The record of a row's numbers, each by the lower bytes of its width.
    pub fn of(numbers: [u32; $count$]) -> $Name$
        ensures { result ≡ $module$_of (integers_from (row_of $code$ 0) numbers 0) }
    {
        $Name$ {
$taken$
        }
    }

    // The numbers of the row, in its order, the attribute last; a signed one as its pattern.
    pub fn numbers(self) -> [u32; $count$]
        ensures { result ≡ patterns (row_of $code$ 0) ($module$_integers self) }
    {
        [
$given$
        ]
    }

    // Reads the tuple at a place of a file.
    pub fn read(file: &[u8], place: usize) -> $Name$Read
        ensures { $Name$At file.now place (as_read result) }
    {
        let mut numbers = [0u32; $count$];
$read$
    }

$write$
}
";

fn source(record: &Record) -> String {
    let places = places(record);
    Values::of(record)
        .with("TYPE", &record.constant)
        .with("about", about(record, "// ", ""))
        .with("uses", uses(record))
        .with("fields", fields(record, "    pub "))
        .with("gives", gives(record))
        .with("lengths", lengths(record))
        .with("constants", places_named(record))
        .with("new", new(record))
        .with("said", said(record))
        .with("names", names(record))
        .with("lengths_said", lengths_said(record))
        .with("places_count", places.len().to_string())
        .with("places", lines(&places, |p| format!("            {p},")))
        .with("taken", taken(record))
        .with("given", given(record))
        .with("read", read(record))
        .with("write", write(record))
        .fill(SOURCE)
}

/// What the source takes from other crates: the kinds of its identifiers stand before the module of types.
fn uses(record: &Record) -> String {
    let numbers = record.numbers();
    let mut kinds: Vec<&str> = numbers.iter().filter_map(|f| f.kind.as_deref()).collect();
    kinds.push("Refusal");
    kinds.sort_unstable();
    let layout = [vec!["Answer"], kinds, vec!["types"]].concat().join(", ");
    let mut used = format!("use layout::{{{layout}}};");
    if record.text().is_some() {
        used.push_str("\nuse tuples::Part;");
    }
    used
}

/// The numbers, each with its type.
fn fields(record: &Record, before: &str) -> String {
    lines(&record.numbers(), |field| {
        format!("{before}{}: {},", field.name, field.rust_type())
    })
}

const GIVES: &str = "\
// What reading gives: the record, or a refusal.
pub type $Name$Read = Result<$Name$, Refusal>;
";

const GIVES_BESIDE: &str = "\
// What reading gives: the record and the place of its $text$, or a refusal.
pub type $Name$Read = Result<($Name$, Part), Refusal>;
";

/// The type of what reading gives.
fn gives(record: &Record) -> String {
    let values = Values::of(record);
    match record.text() {
        Some(text) => values.with("text", &text.name).fill(GIVES_BESIDE),
        None => values.fill(GIVES),
    }
}

/// The fields that have a place of their own: all but spaces; of a type that has longer tuples all but the attribute, whose
/// place goes by the tuple's length.
fn constants(record: &Record) -> Vec<Placed<'_>> {
    let mut named = record.placed();
    named.retain(|field| field.shape != Shape::Space);
    if record.step().is_some() {
        named.pop();
    }
    named
}

const LENGTH: &str = "    \
// The bytes of its tuple.
    pub const LENGTH: usize = $length$;";

const LENGTHS: &str = "    \
// The bytes of its shortest tuple, and by how many another is longer, once or more.
    pub const LEAST: usize = $length$;

    pub const STEP: usize = $step$;";

/// The constants of the tuple's length.
fn lengths(record: &Record) -> String {
    let values = Values::of(record).with("length", record.length().to_string());
    match record.step() {
        None => values.fill(LENGTH),
        Some(step) => values.with("step", step.to_string()).fill(LENGTHS),
    }
}

/// What stands behind the fields in `places`.
fn lengths_said(record: &Record) -> &str {
    match record.step() {
        None => "then its length, and 0: it has no other",
        Some(_) => "in its shortest tuple, then the length of that, and the step to longer ones",
    }
}

/// The constants of the fields' places.
fn places_named(record: &Record) -> String {
    let constant = |field: &Placed| {
        let name = capitals(&field.name);
        format!("    pub const {name}: usize = {};", field.place)
    };
    let constants: Vec<String> = constants(record).iter().map(constant).collect();
    constants.join("\n\n")
}

/// So wide are the signature and a call before they are laid out in lines.
const LINE: usize = 100;

/// The head of `new`.
fn new(record: &Record) -> String {
    let one = |field: &Placed| format!("{}: {}", field.name, field.rust_type());
    let parameters: Vec<String> = record.numbers().iter().map(one).collect();
    let short = format!(
        "    pub fn new({}) -> {}",
        parameters.join(", "),
        record.name
    );
    if short.chars().count() <= LINE {
        return short;
    }
    let fields = fields(record, "        ");
    format!("    pub fn new(\n{fields}\n    ) -> {}", record.name)
}

/// So wide is a field in the clause of `new` before its value goes to a line of its own.
const SAID: usize = 135;

/// What `new` promises of each field.
fn said(record: &Record) -> String {
    lines(&record.numbers(), |field| {
        let name = &field.name;
        let line = format!("          {name} = {name};");
        match line.chars().count() <= SAID {
            true => line,
            false => format!("          {name} =\n              {name};"),
        }
    })
}

/// The fields of `new`.
fn names(record: &Record) -> String {
    lines(&record.numbers(), |field| {
        format!("            {},", field.name)
    })
}

/// The attribute's place in a tuple of any length: so far before its end.
const TAIL: &str = "frame::TAIL";

/// The entries of `places`: each constant of a place, then the length and the step.
fn places(record: &Record) -> Vec<String> {
    let name = &record.name;
    let entry = |field: &Placed| format!("{name}::{}", capitals(&field.name));
    let mut entries: Vec<String> = constants(record).iter().map(entry).collect();
    match record.step() {
        None => entries.extend([format!("{name}::LENGTH"), "0".into()]),
        Some(_) => entries.extend([
            format!("{name}::LEAST - {TAIL}"),
            format!("{name}::LEAST"),
            format!("{name}::STEP"),
        ]),
    }
    entries
}

/// The fields of `of`: each from its number.
fn taken(record: &Record) -> String {
    let numbers: Vec<_> = record.numbers().into_iter().enumerate().collect();
    lines(&numbers, |(place, field)| {
        let line = format!("            {},", take(field, *place));
        match line.chars().count() <= LINE {
            true => line,
            // the call's argument goes to a line of its own
            false => line
                .replace("(numbers", "(\n                numbers")
                .replace("]),", "],\n            ),"),
        }
    })
}

/// A field from the number at a place.
pub fn take(field: &Placed, place: usize) -> String {
    let number = format!("rows::{}(numbers[{place}])", conversion(field));
    match &field.kind {
        Some(kind) => format!("{}: {kind}({number})", field.name),
        None => format!("{}: {number}", field.name),
    }
}

/// The entries of `numbers`: each from its field.
fn given(record: &Record) -> String {
    lines(&record.numbers(), |field| {
        format!("            {},", give(field))
    })
}

/// A field as a number of the row.
pub fn give(field: &Placed) -> String {
    let inner = if field.kind.is_some() { ".0" } else { "" };
    let value = format!("self.{}{inner}", field.name);
    match is_plain(field) {
        true => value,
        false => format!("rows::of_{}({value})", conversion(field)),
    }
}

const READ: &str = "        \
rows::read_row(file, place, $Name$::CODE, &mut numbers)?;
        Ok($Name$::of(numbers))";

const READ_BESIDE: &str = "        \
let $text$ = rows::read_row(file, place, $Name$::CODE, &mut numbers)?;
        Ok(($Name$::of(numbers), $text$))";

/// The lines of `read` behind the numbers' space.
fn read(record: &Record) -> String {
    let values = Values::of(record);
    match record.text() {
        Some(text) => values.with("text", &text.name).fill(READ_BESIDE),
        None => values.fill(READ),
    }
}

const WRITE: &str = "    \
// Writes the tuple$how$.
    pub fn write(self, msb: bool, out: &mut [u8]) -> Answer
        ensures { $Name$Written msb self out.old (as_answer result) out.new }
    {
        rows::write_row($Name$::CODE, &self.numbers(), $characters$, msb, out)
    }";

const WRITE_BESIDE: &str = "    \
// Writes the tuple; $how$, then 19.
    pub fn write(self, $text$: &[u8], msb: bool, out: &mut [u8]) -> Answer
        ensures { $Name$Written msb self $text$.now out.old (as_answer result) out.new }
    {
        rows::write_row($Name$::CODE, &self.numbers(), $text$, msb, out)
    }";

fn write(record: &Record) -> String {
    let values = Values::of(record);
    if let Some(text) = record.handed() {
        return values
            .with("how", how(&text))
            .with("text", &text.name)
            .fill(WRITE_BESIDE);
    }
    let (how, characters) = match record.zeros() {
        Some(zeros) => (
            format!(" with {zeros} zeros behind its fields; 19 alone refuses it"),
            format!("&[0u8; {zeros}]"),
        ),
        None => ("; 19 alone refuses it".into(), "&[]".into()),
    };
    values
        .with("how", how)
        .with("characters", characters)
        .fill(WRITE)
}

/// What is refused of the characters that are handed over.
fn how(text: &Placed) -> String {
    let (name, bytes) = (&text.name, text.bytes);
    match text.shape {
        Shape::Remarks => format!("9 unless there are {bytes} characters of {name}"),
        _ => {
            let more = format!("or more by steps of {STEP}, 11 where the tuple is too long");
            format!("9 unless there are {bytes} characters of {name} {more}")
        }
    }
}
