//! host/src/table.rs: the records as a table that the host's macros take.

use crate::table::Record;
use crate::words::wrap;
use crate::File;

pub fn files(records: &[Record]) -> Vec<File> {
    let mut text = String::from(TOP);
    for record in records {
        text.push_str(&row(record));
    }
    text.push_str(END);
    vec![("host/src/table.rs".into(), text)]
}

const TOP: &str = "\
//! The records. Made from views/records.txt by views/make.

/// Hands the table of records to a macro. A row: the record and its type; behind
/// `=>` the characters that stand beside what is read; behind `<=` those that the
/// writer takes, or how many zeros it writes in their place; then the fields in the
/// order of the record's numbers.
macro_rules! records {
    ($then:ident) => {
        $then! {
";

const END: &str = "        }
    };
}
";

/// The widest line of a comment.
const WIDTH: usize = 96;

/// What stands before a line of a row.
const ROW: &str = "            ";

fn row(record: &Record) -> String {
    let mut about = record.sentences();
    if let Some(zeros) = record.zeros() {
        about.push_str(&format!(
            " It is written with {zeros} bytes of them, all 0."
        ));
    }
    let about = about.replace("Software channel 65535", "[`SoftwareChannel::ALL`]");
    let comment = format!("{ROW}/// ");
    let mut text = wrap(&about, WIDTH, &comment, &comment);
    let beside = record
        .text()
        .map_or(String::new(), |text| text.name.clone());
    let taken = match (record.handed(), record.zeros()) {
        (Some(text), _) => format!("({})", text.name),
        (None, Some(zeros)) => format!("[{zeros}]"),
        (None, None) => "[0]".into(),
    };
    text.push_str(&format!(
        "\n{ROW}{} = {} => ({beside}) <= {taken} {{\n",
        record.name, record.constant
    ));
    for field in record.numbers() {
        text.push_str(&format!(
            "{ROW}    {}: {},\n",
            field.name,
            field.rust_type()
        ));
    }
    text.push_str(&format!("{ROW}}}\n"));
    text
}
