//! include/hac_records.h: of each record its type, its length, and the places of its fields in `numbers`.

use crate::table::{Record, Shape};
use crate::words::{capitals, wrap};
use crate::File;

pub fn files(records: &[Record]) -> Vec<File> {
    let mut text = String::from(TOP);
    let most = records.iter().map(|record| record.numbers().len()).max();
    text.push_str("/* the most numbers that a record has */\n");
    text.push_str(&format!(
        "enum {{ HAC_NUMBERS_MOST = {} }};\n",
        most.unwrap_or(0)
    ));
    for record in records {
        text.push('\n');
        text.push_str(&one(record));
    }
    text.push_str("\n#endif\n");
    vec![("include/hac_records.h".into(), text)]
}

const TOP: &str = "\
/* The records: of each its type, its length, and the place of each field in `numbers`, for hac_read_record and hac_write_record.
   Part of hac.h, which says the two calls. int16_t and int32_t beside a field: it is signed.

   .._NUMBERS: how many numbers the record has, its attribute last. .._LENGTH: the bytes of its tuple; where that isn't fixed
   .._LEAST, the least of them, and .._STEP, by which they grow. .._OFFSET: where its characters stand, in bytes from the tuple's
   first.

   Made from views/records.txt by views/make. */
#ifndef HAC_RECORDS_H
#define HAC_RECORDS_H

";

/// The widest line of a comment.
const WIDTH: usize = 127;

/// So many names of an enum may stand on one line.
const SHORT: usize = 2;

/// A line of an enum: its name, its number, and what stands beside it.
struct Line(String, usize, Option<&'static str>);

fn one(record: &Record) -> String {
    let own = capitals(&record.name);
    let mut about = record.sentences();
    if record.zeros().is_some() {
        about.push_str(" They are handed over when it is written; to write none or others is refused by 9 at 0.");
    }
    let about = wrap(&format!("{about} */"), WIDTH, "/* ", "   ");
    format!(
        "{about}\n{}\n{}",
        enumeration(&measures(record, &own)),
        enumeration(&places(record, &own))
    )
}

/// The type and the length, and where the characters stand.
fn measures(record: &Record, own: &str) -> Vec<Line> {
    let mut lines = vec![Line(
        format!("HAC_TYPE_{}", record.constant),
        record.code.into(),
        None,
    )];
    match record.step() {
        None => lines.push(Line(format!("HAC_{own}_LENGTH"), record.length(), None)),
        Some(step) => {
            lines.push(Line(format!("HAC_{own}_LEAST"), record.length(), None));
            lines.push(Line(format!("HAC_{own}_STEP"), step, None));
        }
    }
    if let Some(text) = record.text() {
        let name = capitals(&text.name);
        lines.push(Line(format!("HAC_{own}_{name}_OFFSET"), text.place, None));
        let (end, about) = match text.shape {
            Shape::Remarks => ("LENGTH", "so many characters"),
            _ => ("LEAST", "so many characters, or more by steps"),
        };
        lines.push(Line(
            format!("HAC_{own}_{name}_{end}"),
            text.bytes,
            Some(about),
        ));
    }
    lines
}

/// The places of its numbers, and how many they are.
fn places(record: &Record, own: &str) -> Vec<Line> {
    let numbers = record.numbers();
    let mut lines = Vec::new();
    for (place, field) in numbers.iter().enumerate() {
        let sign = match (field.is_signed(), field.bytes) {
            (false, _) => None,
            (true, 2) => Some("int16_t"),
            (true, _) => Some("int32_t"),
        };
        lines.push(Line(
            format!("HAC_{own}_{}", capitals(&field.name)),
            place,
            sign,
        ));
    }
    lines.push(Line(format!("HAC_{own}_NUMBERS"), numbers.len(), None));
    lines
}

/// An enum: on one line where nothing stands beside it and it is short; else a line each, with
/// what stands beside them in one column.
fn enumeration(lines: &[Line]) -> String {
    let last = lines.len() - 1;
    let code = |(nth, Line(name, number, _)): (usize, &Line)| {
        let comma = if nth < last { "," } else { "" };
        format!("{name} = {number}{comma}")
    };
    let codes: Vec<String> = lines.iter().enumerate().map(code).collect();
    let bare = lines.iter().all(|line| line.2.is_none());
    if bare && lines.len() <= SHORT {
        return format!("enum {{ {} }};\n", codes.join(" "));
    }
    let column = codes.iter().map(String::len).max().unwrap_or(0);
    let mut text = String::from("enum {\n");
    for (code, Line(_, _, about)) in codes.iter().zip(lines) {
        match about {
            Some(about) => text.push_str(&format!("    {code:column$} /* {about} */\n")),
            None => text.push_str(&format!("    {code}\n")),
        }
    }
    text.push_str("};\n");
    text
}
