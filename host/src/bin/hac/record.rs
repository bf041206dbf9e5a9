//! `hac record`: every field of the tuple at a place, a line each, under TR's name and in
//! TR's unit where it has one.

use crate::json::Object;
use crate::output::Output;
use crate::shown::shown;
use crate::stop::Stop;
use crate::units::{self, Unit};
use hac::{types, PingKind, RecordFields, Refusal, Tuple};
use std::ffi::OsStr;
use std::os::unix::ffi::OsStrExt;

pub fn run(file: &[u8], place: usize, output: &mut Output) -> Result<(), Stop> {
    let tuple = hac::tuple_at(file, place)?;
    let told = Told::of(file, tuple)?;
    if output.json {
        output.line(told.object())?;
        return Ok(());
    }
    output.line(format_args!(
        "{} at {}, type {}, {} bytes",
        types::name(tuple.kind),
        tuple.place,
        tuple.kind,
        tuple.length
    ))?;
    for line in told.lines() {
        output.line(line)?;
    }
    Ok(())
}

/// A field that is a number.
struct Field {
    name: &'static str,
    number: i64,
    unit: Option<Unit>,
}

/// What stands beside the numbers of a tuple.
enum Beside<'a> {
    Nothing,
    /// A record's characters, under their name.
    Text(&'static str, &'a [u8]),
    /// How a ping's samples are stored, how many there are, and the ping's length.
    Samples(PingKind, usize, Option<u32>),
    /// So many bytes that nobody interprets.
    Raw(usize),
}

/// A tuple in its fields.
struct Told<'a> {
    tuple: Tuple,
    fields: Vec<Field>,
    beside: Beside<'a>,
}

/// The bytes of a tuple beside its data, TR's data size: this size, the type and the
/// backlink.
const FRAME: usize = 4 + 2 + 4;

impl<'a> Told<'a> {
    fn of(file: &'a [u8], tuple: Tuple) -> Result<Told<'a>, Refusal> {
        if let Some(fields) = hac::record_fields(tuple.kind) {
            return Told::of_record(file, tuple, fields);
        }
        if PingKind::of_type(tuple.kind).is_some() {
            return Told::of_ping(file, tuple);
        }
        Ok(Told {
            tuple,
            fields: Vec::new(),
            beside: Beside::Raw(tuple.length - FRAME),
        })
    }

    fn of_record(file: &'a [u8], tuple: Tuple, fields: RecordFields) -> Result<Told<'a>, Refusal> {
        let mut numbers = vec![0; fields.numbers.len()];
        let text = hac::read_record(file, tuple.place, tuple.kind, &mut numbers)?;
        let numbers = fields.numbers.iter().zip(numbers);
        let numbers = numbers.map(|(field, pattern)| (field.name, (field.number)(pattern)));
        Ok(Told {
            tuple,
            fields: with_units(tuple.kind, numbers.collect()),
            beside: fields
                .text
                .map_or(Beside::Nothing, |name| Beside::Text(name, text)),
        })
    }

    fn of_ping(file: &'a [u8], tuple: Tuple) -> Result<Told<'a>, Refusal> {
        let ping = hac::read_ping(file, tuple.place)?;
        let header = ping.header;
        let numbers = vec![
            ("time_fraction", header.time_fraction.into()),
            ("time_cpu", header.time_cpu.into()),
            (
                "software_channel_identifier",
                header.software_channel_identifier.into(),
            ),
            ("transmitter_mode", header.transmitter_mode.into()),
            ("ping_number", header.ping_number.into()),
            ("detected_bottom_range", header.detected_bottom_range.into()),
            ("tuple_attribute", ping.attribute.into()),
        ];
        Ok(Told {
            tuple,
            fields: with_units(tuple.kind, numbers),
            beside: Beside::Samples(ping.kind, ping.values, ping.length),
        })
    }

    /// The longest name, so that the numbers stand below each other.
    fn width(&self) -> usize {
        let names = self.fields.iter().map(|field| field.name.len());
        names.max().unwrap_or_default()
    }

    fn lines(&self) -> Vec<String> {
        let width = self.width();
        let fields = self.fields.iter().map(|field| field.line(width));
        fields.chain(self.beside.lines(width)).collect()
    }

    fn object(&self) -> Object {
        let object = Object::default()
            .number("place", self.tuple.place)
            .number("type", self.tuple.kind)
            .text("name", types::name(self.tuple.kind))
            .number("length", self.tuple.length);
        let fields = self.fields.iter();
        let object = fields.fold(object, |object, field| {
            object.number(field.name, field.number)
        });
        let object = self.beside.told(object);
        object.object("in_units", self.in_units())
    }

    /// The fields that have a unit, each with its value in it.
    fn in_units(&self) -> Object {
        let with_units = self.fields.iter();
        let with_units = with_units.filter_map(|field| Some((field, field.unit?)));
        with_units.fold(Object::default(), |object, (field, unit)| {
            let value = Object::default().number("value", unit.value(field.number));
            object.object(field.name, value.text("unit", unit.name))
        })
    }
}

/// The fields of a type's tuple.
fn with_units(code: u16, numbers: Vec<(&'static str, i64)>) -> Vec<Field> {
    let kind_of_sample = numbers
        .iter()
        .find(|(name, _)| *name == "type_of_data_sample")
        .map(|(_, number)| *number);
    let unit = |name| match (code, kind_of_sample) {
        (types::CHANNEL, Some(kind)) if name == units::BOTTOM_LEVEL => units::bottom_level(kind),
        _ => units::of(code, name),
    };
    let fields = numbers.into_iter().map(|(name, number)| Field {
        name,
        number,
        unit: unit(name),
    });
    fields.collect()
}

/// A name in plain words.
fn words(name: &str) -> String {
    name.replace('_', " ")
}

impl Field {
    fn line(&self, width: usize) -> String {
        let (name, number) = (words(self.name), self.number);
        let line = format!("{name:<width$}  {number:>11}");
        match self.unit {
            Some(unit) => format!("{line}  {} {}", unit.value(number), unit.name)
                .trim_end()
                .into(),
            None => line,
        }
    }
}

impl Beside<'_> {
    fn lines(&self, width: usize) -> Vec<String> {
        match self {
            Beside::Nothing => Vec::new(),
            Beside::Text(name, text) => {
                vec![format!(
                    "{name:<width$}  \"{}\"",
                    shown(OsStr::from_bytes(text))
                )]
            }
            Beside::Samples(kind, values, length) => {
                let kind = format!("{:<width$}  {:>11}", "kind", kind.name());
                let values = format!("{:<width$}  {values:>11}", "values");
                let length = length.map(|length| {
                    format!("{:<width$}  {length:>11}  samples, runs counted", "length")
                });
                [kind, values].into_iter().chain(length).collect()
            }
            Beside::Raw(bytes) => vec![format!("raw bytes  {bytes}")],
        }
    }

    /// An object that also tells it.
    fn told(&self, object: Object) -> Object {
        match self {
            Beside::Nothing => object,
            Beside::Text(name, text) => object.name(name, OsStr::from_bytes(text)),
            Beside::Samples(kind, values, length) => object
                .text("kind", kind.name())
                .number("values", *values)
                .number_or_null("ping_length", *length),
            Beside::Raw(bytes) => object.number("raw_bytes", *bytes),
        }
    }
}
