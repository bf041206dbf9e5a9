//! Holds include/hac.h and include/hac_records.h to the tables of this crate: codes,
//! types, limits, records. Its calls, and the places of what they tell, need no such
//! test: they are made from it.

#[allow(dead_code)]
#[path = "../../include/calls.rs"]
mod calls;

use crate::{types, Code, PingKind, CHANNEL_LIMIT, FILE_LIMIT, FIRST_PLACE, INDEX_ROOM, REMARK};
use crate::{SOUNDER_LIMIT, TUPLE_LEAST, TUPLE_LIMIT, VALUE_LIMIT};
use calls::Header;

const CALLS: &str = include_str!("../../include/hac.h");
const RECORDS: &str = include_str!("../../include/hac_records.h");

fn header() -> Header {
    Header::of(&[CALLS, RECORDS].concat()).expect("both headers can be read")
}

/// Holds the headers to a number.
fn holds(header: &Header, name: &str, number: usize) {
    let name = format!("HAC_{name}");
    let said = header.constants.get(&name).copied();
    assert_eq!(said, Some(number as u64), "{name}");
}

/// One record, as the table has it.
struct Row {
    kind: &'static str,
    code: u16,
    numbers: usize,
    fields: Vec<&'static str>,
}

macro_rules! rows {
    ($(
        $(#[$about:meta])*
        $record:ident = $type:ident
            => ($($beside:ident)?)
            <= $(($characters:ident))? $([$zeros:literal])?
        { $($field:ident: $kind:ty,)* }
    )*) => {
        vec![$(Row {
            kind: stringify!($type),
            code: crate::$record::CODE,
            numbers: crate::$record::NUMBERS,
            fields: vec![$(stringify!($field)),*],
        }),*]
    };
}

#[test]
fn records() {
    let rows: Vec<Row> = records!(rows);
    let header = header();
    assert_eq!(rows.len(), 13);
    for row in &rows {
        holds(&header, &format!("TYPE_{}", row.kind), row.code.into());
        holds(&header, &format!("{}_NUMBERS", row.kind), row.numbers);
        for (nth, field) in row.fields.iter().enumerate() {
            let name = format!("{}_{}", row.kind, field.to_uppercase());
            holds(&header, &name, nth);
        }
    }
    let most = rows.iter().map(|row| row.numbers).max();
    holds(&header, "NUMBERS_MOST", most.expect("a record"));
}

#[test]
fn limits_and_pings() {
    let header = header();
    for (name, number) in [
        ("FILE_LIMIT", FILE_LIMIT),
        ("TUPLE_LEAST", TUPLE_LEAST),
        ("TUPLE_LIMIT", TUPLE_LIMIT),
        ("VALUE_LIMIT", VALUE_LIMIT),
        ("SOUNDER_LIMIT", SOUNDER_LIMIT),
        ("CHANNEL_LIMIT", CHANNEL_LIMIT),
        ("REMARK", REMARK),
        ("FIRST_PLACE", FIRST_PLACE),
        ("INDEX_ROOM", INDEX_ROOM),
        ("TYPE_INDEX", types::INDEX_1.into()),
    ] {
        holds(&header, name, number);
    }
    for (name, kind) in [
        ("U", PingKind::U32),
        ("C", PingKind::C32),
        ("U32_16_ANGLES", PingKind::U32_16Angles),
        ("U16", PingKind::U16),
        ("U16_ANGLES", PingKind::U16Angles),
        ("C16", PingKind::C16),
        ("CE16", PingKind::Ce16),
    ] {
        holds(&header, &format!("TYPE_PING_{name}"), kind.code().into());
        assert_eq!(types::name(kind.code()), format!("ping {kind}"));
    }
}

/// A name in capitals: `NoParent` is `NO_PARENT`.
fn capitals(name: &str) -> String {
    let mut capitals = String::new();
    for c in name.chars() {
        if c.is_uppercase() && !capitals.is_empty() {
            capitals.push('_');
        }
        capitals.extend(c.to_uppercase());
    }
    capitals
}

/// Each code has its name and its words.
#[test]
fn codes() {
    let words: Vec<&str> = CALLS.split_whitespace().collect();
    let text = words.join(" ");
    let holds = |line: &str| assert!(text.contains(line), "include/hac.h lacks: {line}");
    holds("HAC_ACCEPTED = 0,");
    let last = Code::ALL.last();
    for code in Code::ALL {
        let name = capitals(&format!("{code:?}"));
        let (number, words) = (code.number(), code.words());
        let comma = if Some(code) == last { "" } else { "," };
        holds(&format!("HAC_{name} = {number}{comma} /* {words} */"));
    }
    // a number that C programs may still name
    holds("HAC_BROKEN_SAMPLES = 10, /* no longer given: ");
}

/// Each call, with the entries of its answer; a declaration that can't be read is
/// named.
#[test]
fn declarations() {
    let header = header();
    let entries = |name: &str| {
        let call = header.calls.iter().find(|call| call.name == name);
        call.map(|call| call.entries)
    };
    assert_eq!(entries("check"), Some(5));
    assert_eq!(entries("settings"), Some(5));
    assert_eq!(entries("energy"), Some(6));
    assert_eq!(entries("energies"), Some(5));
    assert_eq!(entries("readings"), Some(5));
    assert_eq!(entries("find_ping"), Some(7));
    assert_eq!(entries("index"), Some(5));
    assert_eq!(entries("append"), Some(5));
    assert_eq!(entries("remove"), Some(5));
    assert_eq!(entries("salvage"), Some(7));
    assert_eq!(entries("read_ping"), Some(16));
    assert_eq!(entries("read_record"), Some(7));
    assert_eq!(entries("write_record"), Some(5));
    assert_eq!(entries("read_navigation"), None);
    let answer = "uint64_t *answer, size_t entries";
    for (text, why) in [
        (
            format!("uint8_t hac_new({answer});"),
            "there is no HAC_NEW_ENTRIES",
        ),
        (format!("int hac_new({answer});"), "a call is declared as"),
        (
            "uint8_t hac_new(size_t place);".into(),
            "it isn't lent answer last",
        ),
        (
            format!("uint8_t hac_new(float depth, {answer});"),
            "float is no type",
        ),
        (
            format!("uint8_t hac_new(uint8_t *out, {answer});"),
            "behind out there is no",
        ),
        (
            format!("uint8_t hac_new(char, {answer});"),
            "char is no parameter",
        ),
        ("enum { HAC_NEW };".into(), "HAC_NEW has no number"),
        ("enum { HAC_NEW = x };".into(), "x is no number"),
        (
            "enum { HAC_NEW = 1, HAC_NEW = 2 };".into(),
            "HAC_NEW stands twice",
        ),
    ] {
        let said = Header::of(&text).expect_err("no declaration");
        assert!(said.contains("new") || said.contains("NEW"), "{said}");
        assert!(said.contains(why), "{said}");
    }
}
