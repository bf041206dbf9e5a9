//! Templates: texts of a record's crate, with places for what differs from record to record.

use crate::table::{Field, Record};
use crate::words::wrap;

/// The first line of every file that is made, behind its sign of a comment.
pub const MADE: &str = "Made from views/records.txt by views/make.";

/// The widest line of a comment.
pub const WIDTH: usize = 130;

/// What stands at a template's places: values, each under its name.
#[derive(Clone)]
pub struct Values(Vec<(&'static str, String)>);

impl Values {
    /// What every template may name: of the record `RunStart` its `Name`, its `module`, the same as a `camel` name, its `code`, how
    /// many numbers it has, its `count`, and the names of the laws about it.
    pub fn of(record: &Record) -> Values {
        let (first, rest) = record.name.split_at(1);
        Values(Vec::new())
            .with("made", MADE)
            .with("Name", &record.name)
            .with("module", &record.module)
            .with("camel", first.to_lowercase() + rest)
            .with("code", record.code.to_string())
            .with("count", record.numbers().len().to_string())
            .with("inverse", law(record, "inverse"))
            .with("settled", law(record, "settled"))
            .with("again", law(record, "again"))
    }

    pub fn with(mut self, name: &'static str, value: impl Into<String>) -> Values {
        self.0.push((name, value.into()));
        self
    }

    /// A template with each `$name$` replaced by the value of that name. A value that is itself a template comes after those
    /// that it names.
    pub fn fill(&self, template: &str) -> String {
        let mut text = String::from(template);
        for (name, value) in self.0.iter().rev() {
            text = text.replace(&format!("${name}$"), value);
        }
        assert!(!text.contains('$'), "a place without a value: {text}");
        text
    }
}

/// The sentences about a record as a comment, and one that stands behind them.
pub fn about(record: &Record, comment: &str, last: &str) -> String {
    let mut about = record.sentences();
    if let Some(zeros) = record.zeros() {
        let zeros = format!(" It is written with {zeros} bytes of them, all 0.");
        about.push_str(&zeros);
    }
    about.push(' ');
    about.push_str(last);
    wrap(&about, WIDTH, comment, comment)
}

/// A line for each, with no end behind the last.
pub fn lines<T>(each: &[T], line: impl Fn(&T) -> String) -> String {
    let lines: Vec<String> = each.iter().map(line).collect();
    lines.join("\n")
}

/// Words that definitions of the crates have for their name.
const NAMES: [&str; 12] = [
    "again",
    "attitude",
    "channel",
    "end",
    "file",
    "position",
    "run",
    "settled",
    "signature",
    "sounder",
    "start",
    "threshold",
];

/// The name of a law about a record: `event_settled`, `run-start-settled`. A dash stands between two names alone, as tools/snake.py
/// spells all that the crates declare.
pub fn law(record: &Record, what: &str) -> String {
    let words = record.module.split('_').chain([what]);
    let mut law = String::new();
    let mut named = false;
    for word in words {
        let name = NAMES.contains(&word);
        if !law.is_empty() {
            law.push(if named && name { '-' } else { '_' });
        }
        law.push_str(word);
        named = name;
    }
    law
}

/// The conversion of a number of the row to the field, by its sign and width: `signed2`. The one back is `of_signed2`.
pub fn conversion(field: &Field) -> String {
    let sign = if field.is_signed() {
        "signed"
    } else {
        "unsigned"
    };
    format!("{sign}{}", field.bytes)
}

/// Whether the field is a number of the row as it stands, so that there is no conversion back.
pub fn is_plain(field: &Field) -> bool {
    !field.is_signed() && field.bytes == 4
}

#[cfg(test)]
mod tests {
    use super::*;
    use crate::table::parse;

    fn values() -> Values {
        let text = include_str!("../records.txt");
        let records = parse(text).unwrap();
        let run_start = records.iter().find(|record| record.name == "RunStart");
        Values::of(run_start.unwrap())
    }

    #[test]
    fn names_and_values_in_values() {
        let values = values().with("text", "$camel$ $module$");
        assert_eq!(
            values.fill("$Name$: $text$"),
            "RunStart: runStart run_start"
        );
    }

    #[test]
    fn laws_have_a_dash_between_names() {
        assert_eq!(
            values().fill("$settled$ $inverse$"),
            "run-start-settled run-start_inverse"
        );
    }

    #[test]
    #[should_panic(expected = "a place without a value")]
    fn no_place_is_forgotten() {
        values().fill("$none$");
    }
}
