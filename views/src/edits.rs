//! crates/*/must-fail: edits of each record that a fact must refuse. Each leaves the code's shape as it is, so that what fails is
//! what is promised, and not a name or a place of a proof.

use crate::source::{give, take};
use crate::table::{Placed, Record};
use crate::template::{is_plain, MADE};
use crate::words::capitals;
use crate::File;

pub fn files(records: &[Record]) -> Vec<File> {
    let mut files = Vec::new();
    for (nth, record) in records.iter().enumerate() {
        let another = &records[(nth + 1) % records.len()];
        files.extend([
            for_another(record, another),
            wrong_place(record),
            wrong_sign(record),
            field_twice(record),
        ]);
        if is_first_of_shape(records, nth) {
            files.push(wrong_constant(record));
        }
    }
    files
}

/// Whether no record before it has characters as it has them. The constants, which all records of a shape have from their template
/// alone, are tried on the first of each: every edit proves a whole crate again.
fn is_first_of_shape(records: &[Record], nth: usize) -> bool {
    let shape = |record: &Record| record.text().map(|text| text.shape);
    let earlier = &records[..nth];
    !earlier
        .iter()
        .any(|record| shape(record) == shape(&records[nth]))
}

const SOURCE: &str = "src/lib.rt";

/// An edit of a line, which stands in its file just once.
struct Edit<'a> {
    label: &'a str,
    about: String,
    file: &'a str,
    old: String,
    new: String,
}

fn file(record: &Record, edit: Edit) -> File {
    let Edit {
        label,
        about,
        file,
        old,
        new,
    } = edit;
    let path = format!("crates/{}/must-fail/{label}.edit", record.module);
    let text = format!("# {MADE}\n# {about}\nfile: {file}\nold: {old}\nnew: {new}\n");
    (path, text)
}

fn for_another(record: &Record, another: &Record) -> File {
    let code = |record: &Record| format!("    pub const CODE: u16 = types::{};", record.constant);
    let edit = Edit {
        label: "for_another",
        about: "Another type asked for, and written.".into(),
        file: SOURCE,
        old: code(record),
        new: code(another),
    };
    file(record, edit)
}

/// A field with its place among the numbers: the first signed one that isn't the attribute, or else the second of all.
fn chosen(record: &Record) -> (usize, Placed<'_>) {
    let numbers = record.numbers();
    let others = &numbers[..numbers.len() - 1];
    let place = others.iter().position(|field| field.is_signed());
    let place = place.unwrap_or(1);
    (place, numbers[place])
}

fn wrong_place(record: &Record) -> File {
    let (place, field) = chosen(record);
    let next = record.numbers()[place + 1];
    let taken = |place: usize| format!("            {},", take(&field, place));
    let edit = Edit {
        label: "wrong_place",
        about: format!("`{}` taken for `{}`.", next.name, field.name),
        file: SOURCE,
        old: taken(place),
        new: taken(place + 1),
    };
    file(record, edit)
}

fn wrong_sign(record: &Record) -> File {
    let numbers = record.numbers();
    let signed = numbers.iter().position(|field| field.is_signed());
    let place = signed.unwrap_or(numbers.len() - 1);
    let field = numbers[place];
    let said = |integer: &str| format!("      {} = {integer};", field.name);
    let edit = Edit {
        label: "wrong_sign",
        about: format!("`{}` said to have no sign.", field.name),
        file: &format!("specs/{}.antt", record.name),
        old: said(&format!("signed_at zs {place}")),
        new: said(&format!("pos (unsigned_at zs {place})")),
    };
    file(record, edit)
}

/// One field written for the next of its type; where no two are of one type, 0 for one that is a number of the row as it stands.
fn field_twice(record: &Record) -> File {
    let line = |given: &str| format!("            {given},");
    let (about, old, new) = match of_one_type(record) {
        Some((field, other)) => (
            format!("`{}` written for `{}`.", field.name, other.name),
            line(&give(&other)),
            line(&give(&field)),
        ),
        None => {
            let numbers = record.numbers();
            let plain = numbers.iter().find(|field| is_plain(field));
            let field = plain.unwrap_or(&numbers[0]);
            let about = format!("0 written for `{}`.", field.name);
            (about, line(&give(field)), line("0"))
        }
    };
    let edit = Edit {
        label: "field_twice",
        about,
        file: SOURCE,
        old,
        new,
    };
    file(record, edit)
}

/// The first two fields of one type.
fn of_one_type(record: &Record) -> Option<(Placed<'_>, Placed<'_>)> {
    let numbers = record.numbers();
    for (nth, field) in numbers.iter().enumerate() {
        let mut behind = numbers[nth + 1..].iter();
        if let Some(other) = behind.find(|other| other.rust_type() == field.rust_type()) {
            return Some((*field, *other));
        }
    }
    None
}

fn wrong_constant(record: &Record) -> File {
    let (_, field) = chosen(record);
    let constant =
        |place: usize| format!("    pub const {}: usize = {place};", capitals(&field.name));
    let edit = Edit {
        label: "wrong_constant",
        about: format!("A place two bytes behind that of `{}`.", field.name),
        file: SOURCE,
        old: constant(field.place),
        new: constant(field.place + 2),
    };
    file(record, edit)
}

#[cfg(test)]
mod tests {
    use super::*;
    use crate::{source, specs, table};

    #[test]
    fn each_edits_one_line() {
        let records = table::parse(include_str!("../records.txt")).unwrap();
        let made = [source::files(&records), specs::files(&records)].concat();
        for (path, edit) in files(&records) {
            let mut parts = edit.lines().skip(2);
            let mut part = |name: &str| parts.next().unwrap().strip_prefix(name).unwrap();
            let (file, old, new) = (part("file: "), part("old: "), part("new: "));
            let folder = path.split("must-fail").next().unwrap();
            let edited = format!("{folder}{file}");
            let (_, text) = made.iter().find(|(path, _)| *path == edited).unwrap();
            let lines = text.lines().filter(|line| *line == old).count();
            let found = (lines, text.matches(old).count());
            assert_eq!((found, old == new), ((1, 1), false), "{path}");
        }
    }
}
