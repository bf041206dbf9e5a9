//! The table of the records: what is read, and what is said of it.

use std::ops::Deref;

/// The bytes before a tuple's fields, which are its length and its type, and the backlink behind its attribute.
pub const HEAD: usize = 6;
pub const BACKLINK: usize = 4;

/// Characters behind the fields come in steps of so many.
pub const STEP: usize = 4;

/// The last field of every record.
const ATTRIBUTE: &str = "tuple_attribute";

/// The name of a space.
const NAMELESS: &str = "-";

/// The kinds of identifiers.
const KINDS: [&str; 3] = ["DocumentId", "SoftwareChannel", "Transceiver"];

/// A record: a tuple that is no ping.
#[derive(Clone, Debug, PartialEq, Eq)]
pub struct Record {
    /// Its name as a type has it: `RunStart`.
    pub name: String,
    /// Its module: `run_start`.
    pub module: String,
    /// Its type code.
    pub code: u16,
    /// The name of that code: `RUN_START`.
    pub constant: String,
    /// Its table in TR.
    pub table: u32,
    /// Sentences about it.
    pub about: Vec<String>,
    /// Its fields in the row's order, spaces and characters among them, the attribute last.
    pub fields: Vec<Field>,
}

/// A field of a row.
#[derive(Clone, Debug, PartialEq, Eq)]
pub struct Field {
    /// Its name; that of a space is `-`.
    pub name: String,
    /// What its bytes are.
    pub shape: Shape,
    /// How many they are; of characters behind the fields the least.
    pub bytes: usize,
    /// The kind of identifier that it is, where it is one.
    pub kind: Option<String>,
}

/// What the bytes of a field are.
#[derive(Clone, Copy, Debug, PartialEq, Eq)]
pub enum Shape {
    /// A number from 0 on.
    Unsigned,
    /// A number with a sign.
    Signed,
    /// Nothing; written as 0.
    Space,
    /// The signature's identifier.
    Identifier,
    /// Characters, just so many as the field has bytes.
    Remarks,
    /// Characters behind the fields, in steps of four.
    Behind {
        /// The typed writer writes the least of them, all 0.
        zeros: bool,
    },
}

impl Field {
    /// Whether it is one of the record's numbers.
    pub fn is_number(&self) -> bool {
        matches!(self.shape, Shape::Unsigned | Shape::Signed)
    }

    pub fn is_signed(&self) -> bool {
        self.shape == Shape::Signed
    }

    /// Whether it has characters.
    pub fn is_text(&self) -> bool {
        matches!(self.shape, Shape::Remarks | Shape::Behind { .. })
    }

    /// The type of its number in Rust, whatever kind of identifier it is: `i16`.
    pub fn number_type(&self) -> String {
        let sign = if self.is_signed() { 'i' } else { 'u' };
        format!("{sign}{}", 8 * self.bytes)
    }

    /// The type of the field in Rust: its kind, or that of its number.
    pub fn rust_type(&self) -> String {
        self.kind.clone().unwrap_or_else(|| self.number_type())
    }
}

/// A field and where it stands, in bytes from the tuple's first. What stands behind characters in steps of four stands so where
/// these are the least.
#[derive(Clone, Copy, Debug)]
pub struct Placed<'a> {
    pub field: &'a Field,
    pub place: usize,
}

impl Deref for Placed<'_> {
    type Target = Field;

    fn deref(&self) -> &Field {
        self.field
    }
}

impl Record {
    /// All fields, each with its place.
    pub fn placed(&self) -> Vec<Placed<'_>> {
        let mut place = HEAD;
        let placed = self.fields.iter().map(|field| {
            let at = place;
            place += field.bytes;
            Placed { field, place: at }
        });
        placed.collect()
    }

    /// Its numbers, in the order in which they are handed over: its fields but spaces, identifier and characters.
    pub fn numbers(&self) -> Vec<Placed<'_>> {
        self.placed()
            .into_iter()
            .filter(|field| field.is_number())
            .collect()
    }

    /// Its characters, where it has some.
    pub fn text(&self) -> Option<Placed<'_>> {
        self.placed().into_iter().find(|field| field.is_text())
    }

    /// The characters that its typed writer takes: all but those that it writes as 0.
    pub fn handed(&self) -> Option<Placed<'_>> {
        self.text()
            .filter(|text| text.shape != Shape::Behind { zeros: true })
    }

    /// The zeros that its typed writer writes for characters.
    pub fn zeros(&self) -> Option<usize> {
        self.text()
            .filter(|text| text.shape == Shape::Behind { zeros: true })
            .map(|text| text.bytes)
    }

    /// The bytes of its tuple, the least where `step` is there.
    pub fn length(&self) -> usize {
        HEAD + self.fields.iter().map(|field| field.bytes).sum::<usize>() + BACKLINK
    }

    /// By how many bytes its tuple may be longer, once or more.
    pub fn step(&self) -> Option<usize> {
        let behind = self.text().is_some_and(|text| text.shape != Shape::Remarks);
        behind.then_some(STEP)
    }

    /// The first words about it: its type and where TR has it; then the table's sentences.
    pub fn sentences(&self) -> String {
        let mut said = format!(
            "{}, type {}: TR Table {}.",
            self.name, self.code, self.table
        );
        for sentence in &self.about {
            said.push(' ');
            said.push_str(sentence);
        }
        said
    }
}

/// The records of a table's text, or the line that can't be read and why.
pub fn parse(text: &str) -> Result<Vec<Record>, String> {
    let mut records: Vec<Record> = Vec::new();
    let mut last = 0;
    for (nth, line) in text.lines().enumerate() {
        last = nth + 1;
        take(line, &mut records).map_err(|why| format!("line {last}: {why}"))?;
    }
    finish(&records).map_err(|why| format!("line {last}: {why}"))?;
    match records.is_empty() {
        true => Err("no record".into()),
        false => Ok(records),
    }
}

/// Takes a line in.
fn take(line: &str, records: &mut Vec<Record>) -> Result<(), String> {
    if line.trim().is_empty() || line.starts_with('#') {
        return Ok(());
    }
    let Some(inner) = line.strip_prefix("  ") else {
        finish(records)?;
        let record = record(line)?;
        let twice = |other: &Record| {
            other.name == record.name || other.module == record.module || other.code == record.code
        };
        if records.iter().any(twice) {
            return Err(format!(
                "{} has a name, a module or a code that another record has",
                record.name
            ));
        }
        records.push(record);
        return Ok(());
    };
    let Some(record) = records.last_mut() else {
        return Err("a field before all records".into());
    };
    if let Some(sentence) = inner.strip_prefix(": ") {
        if !record.fields.is_empty() {
            return Err("a sentence behind a field".into());
        }
        record.about.push(sentence.trim().into());
        return Ok(());
    }
    let field = field(inner)?;
    let named = |other: &Field| other.name == field.name && field.name != NAMELESS;
    if record.fields.iter().any(named) {
        return Err(format!("{} has two fields {}", record.name, field.name));
    }
    if field.is_text() && record.text().is_some() {
        return Err(format!("{} has characters twice", record.name));
    }
    record.fields.push(field);
    Ok(())
}

/// Whether the record read last is whole.
fn finish(records: &[Record]) -> Result<(), String> {
    let Some(record) = records.last() else {
        return Ok(());
    };
    let name = &record.name;
    match record.fields.last() {
        Some(field)
            if field.name == ATTRIBUTE && field.shape == Shape::Signed && field.bytes == 4 => {}
        _ => {
            return Err(format!(
                "the record before, {name}, doesn't end with {ATTRIBUTE} s4"
            ))
        }
    }
    if !record.length().is_multiple_of(4) {
        return Err(format!(
            "the record before, {name}, has {} bytes, no multiple of 4",
            record.length()
        ));
    }
    Ok(())
}

fn record(line: &str) -> Result<Record, String> {
    let words: Vec<&str> = line.split_whitespace().collect();
    let [name, module, code, constant, table] = words[..] else {
        return Err(format!(
            "a record has a name, a module, a code, a constant and a table: {line}"
        ));
    };
    Ok(Record {
        name: name.into(),
        module: module.into(),
        code: code
            .parse()
            .map_err(|_| format!("{code} is no type code"))?,
        constant: constant.into(),
        table: table
            .parse()
            .map_err(|_| format!("{table} is no table's number"))?,
        about: Vec::new(),
        fields: Vec::new(),
    })
}

fn field(line: &str) -> Result<Field, String> {
    let words: Vec<&str> = line.split_whitespace().collect();
    let (name, width, kind) = match words[..] {
        [name, width] => (name, width, None),
        [name, width, kind] => (name, width, Some(kind)),
        _ => {
            return Err(format!(
                "a field has a name, a width and sometimes a kind: {line}"
            ))
        }
    };
    let (shape, bytes) = width_of(width)?;
    if (name == NAMELESS) != (shape == Shape::Space) {
        return Err(format!(
            "{NAMELESS} is the name of a space, and of nothing else"
        ));
    }
    if let Some(kind) = kind {
        if !KINDS.contains(&kind) || shape != Shape::Unsigned {
            return Err(format!(
                "{kind} is no kind of {width}: {} are, of numbers without a sign",
                KINDS.join(", ")
            ));
        }
    }
    Ok(Field {
        name: name.into(),
        shape,
        bytes,
        kind: kind.map(Into::into),
    })
}

/// A width as document 01 writes it.
fn width_of(width: &str) -> Result<(Shape, usize), String> {
    let unknown = || format!("{width} is no width");
    let (shape, bytes) = match width.split_at_checked(1).ok_or_else(unknown)? {
        ("s", bytes) => (Shape::Signed, bytes),
        ("z", bytes) => (Shape::Space, bytes),
        ("i", bytes) => (Shape::Identifier, bytes),
        ("c", bytes) => (Shape::Remarks, bytes),
        ("+", bytes) => match bytes.strip_suffix("=0") {
            Some(bytes) => (Shape::Behind { zeros: true }, bytes),
            None => (Shape::Behind { zeros: false }, bytes),
        },
        _ => (Shape::Unsigned, width),
    };
    let bytes: usize = bytes.parse().map_err(|_| unknown())?;
    let number = matches!(shape, Shape::Unsigned | Shape::Signed);
    if bytes == 0 || number && bytes != 2 && bytes != 4 {
        return Err(unknown());
    }
    Ok((shape, bytes))
}

#[cfg(test)]
mod tests {
    use super::*;

    const TEXT: &str = include_str!("../records.txt");

    fn named(name: &str) -> Record {
        let records = parse(TEXT).unwrap();
        records
            .into_iter()
            .find(|record| record.name == name)
            .unwrap()
    }

    #[test]
    fn records_of_the_table() {
        let records = parse(TEXT).unwrap();
        let names: Vec<&str> = records.iter().map(|record| record.name.as_str()).collect();
        let names = names.join(" ");
        assert_eq!(names, "Signature Sounder Ek500Sounder Channel Ek500Channel Threshold Position Navigation Attitude Event RunStart RunEnd FileEnd");
        assert_eq!(
            records
                .iter()
                .map(|record| record.numbers().len())
                .sum::<usize>(),
            131
        );
    }

    /// TR Table 9, Table 4, Table 11, Table 17.
    #[test]
    fn places_and_lengths() {
        let navigation = named("Navigation");
        let places: Vec<usize> = navigation
            .numbers()
            .iter()
            .map(|field| field.place)
            .collect();
        assert_eq!(places, [6, 8, 12, 14, 16, 20]);
        assert_eq!((navigation.length(), navigation.step()), (28, None));
        assert_eq!(named("Channel").numbers().len(), 25);
        assert_eq!(
            named("Sounder").text().map(|text| (text.place, text.bytes)),
            Some((32, 30))
        );
        let event = named("Event");
        assert_eq!(
            (event.length(), event.step(), event.zeros()),
            (24, Some(4), None)
        );
        let end = named("FileEnd");
        assert_eq!(
            (end.length(), end.step(), end.zeros()),
            (24, Some(4), Some(2))
        );
        assert_eq!(end.handed().map(|text| text.name.clone()), None);
    }

    #[test]
    fn what_is_wrong_is_told_with_its_line() {
        let whole = "A a 1 A 1\n  tuple_attribute s4\n  - z2\n";
        for (text, why) in [
            ("", "no record"),
            ("A a 1 A", "line 1: a record has"),
            ("  b 2", "line 1: a field before"),
            ("A a x A 1", "line 1: x is no type code"),
            ("A a 1 A 1\n  b 3", "line 2: 3 is no width"),
            ("A a 1 A 1\n  b x2", "line 2: x2 is no width"),
            ("A a 1 A 1\n  - 2", "line 2: - is the name of a space"),
            ("A a 1 A 1\n  b 2 Depth", "line 2: Depth is no kind"),
            ("A a 1 A 1\n  b 2\n  b 2", "line 3: A has two fields b"),
            (
                "A a 1 A 1\n  b c2\n  d c2",
                "line 3: A has characters twice",
            ),
            (
                "A a 1 A 1\n  b 2\n  : Late.",
                "line 3: a sentence behind a field",
            ),
            (
                "A a 1 A 1\n  b 2\nB b 2 B 2",
                "line 3: the record before, A, doesn't end",
            ),
            (whole, "line 3: the record before, A, doesn't end"),
            (
                "A a 1 A 1\n  tuple_attribute s4",
                "line 2: the record before, A, has 14 bytes",
            ),
            (
                "A a 1 A 1\n  b 2\n  tuple_attribute s4\nB b 1 B 1",
                "line 4: B has a name",
            ),
        ] {
            let said = parse(text).unwrap_err();
            assert!(said.starts_with(why), "{text:?}: {said}");
        }
    }
}
