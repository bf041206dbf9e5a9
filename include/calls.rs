//! What hac.h declares, read for all who need it: the host's build makes its calls from it, the
//! comparison its list of exports, the tests a program in C.

use std::collections::BTreeMap;

/// What a header declares.
#[derive(Debug)]
pub struct Header {
    /// Its calls, in its order.
    pub calls: Vec<Call>,
    /// The numbers that its enums name.
    pub constants: BTreeMap<String, u64>,
}

/// A call: `uint8_t hac_check(const uint8_t *file, size_t length, uint64_t *answer, size_t entries)`.
#[derive(Debug)]
pub struct Call {
    /// Its name, without the prefix that all have: `check`.
    pub name: String,
    /// What it is handed, but for the answer, which all are lent last.
    pub parameters: Vec<Parameter>,
    /// The least number of entries that its answer has to have.
    pub entries: usize,
}

/// What a call is handed.
#[derive(Debug)]
pub struct Parameter {
    pub name: String,
    pub shape: Shape,
}

#[derive(Debug, Clone, Copy, PartialEq, Eq)]
pub enum Shape {
    Number(Number),
    /// Yes or no.
    Flag,
    /// A pointer, and behind it how many elements there are.
    Slice {
        element: Number,
        /// It is lent to be written.
        lent: bool,
    },
}

/// A type of number, as C and as Rust have it.
#[derive(Debug, PartialEq, Eq, Clone, Copy)]
pub struct Number {
    pub c: &'static str,
    pub rust: &'static str,
}

const NUMBERS: [Number; 8] = [
    Number::new("uint8_t", "u8"),
    Number::new("uint16_t", "u16"),
    Number::new("uint32_t", "u32"),
    Number::new("uint64_t", "u64"),
    Number::new("int16_t", "i16"),
    Number::new("int32_t", "i32"),
    Number::new("size_t", "usize"),
    Number::new("double", "f64"),
];

/// The prefixes of all calls and of all numbers.
const CALL: &str = "hac_";
const CONSTANT: &str = "HAC_";

/// What every call is lent last, and which number says how long that is.
const ANSWER: (&str, &str, &str) = ("answer", "uint64_t", "entries");

impl Number {
    const fn new(c: &'static str, rust: &'static str) -> Number {
        Number { c, rust }
    }

    fn of(c: &str) -> Result<Number, String> {
        let found = NUMBERS.into_iter().find(|number| number.c == c);
        found.ok_or_else(|| format!("{c} is no type of number"))
    }
}

impl Header {
    /// What the text of a header declares, or the declaration that can't be read and why.
    pub fn of(text: &str) -> Result<Header, String> {
        let mut header = Header {
            calls: Vec::new(),
            constants: BTreeMap::new(),
        };
        let text = plain(text)?;
        let mut declared = Vec::new();
        for statement in text
            .split(';')
            .map(str::trim)
            .filter(|part| !part.is_empty())
        {
            let words: Vec<&str> = statement.split_whitespace().collect();
            let statement = words.join(" ");
            let taken = match words[0] {
                "enum" => header.take_enum(&statement),
                _ => declaration(&statement).map(|(name, told)| declared.push((name, told))),
            };
            taken.map_err(|why| unreadable(&statement, &why))?;
        }
        for (name, parameters) in declared {
            let entries = header.entries_of(&name)?;
            header.calls.push(Call {
                name,
                parameters,
                entries,
            });
        }
        Ok(header)
    }

    /// Takes the numbers of an enum in.
    fn take_enum(&mut self, statement: &str) -> Result<(), String> {
        let inside = statement
            .strip_prefix("enum {")
            .and_then(|rest| rest.strip_suffix('}'))
            .ok_or("an enum has a list in braces")?;
        for line in inside.split(',') {
            let (name, number) = line
                .split_once(" = ")
                .ok_or_else(|| format!("{} has no number", line.trim()))?;
            let (name, number) = (name.trim(), number.trim());
            let number = number
                .parse()
                .map_err(|_| format!("{number} is no number"))?;
            if !name.starts_with(CONSTANT) || self.constants.insert(name.into(), number).is_some() {
                return Err(format!("{name} stands twice, or isn't called {CONSTANT}.."));
            }
        }
        Ok(())
    }

    /// The number that a call's answer has to have entries: its own, or that of all writers.
    fn entries_of(&self, call: &str) -> Result<usize, String> {
        let own = format!("{CONSTANT}{}_ENTRIES", call.to_uppercase());
        let all = format!("{CONSTANT}WRITE_ENTRIES");
        let writes = call.starts_with("write_");
        let found = self.constants.get(&own);
        let found = found.or_else(|| self.constants.get(&all).filter(|_| writes));
        let found = found.ok_or_else(|| unreadable(call, &format!("there is no {own}")))?;
        usize::try_from(*found).map_err(|error| unreadable(call, &error.to_string()))
    }
}

fn unreadable(declaration: &str, why: &str) -> String {
    format!("a header declares what can't be read, {declaration}: {why}")
}

/// The text without comments, lines for the preprocessor, and what these keep for C++.
fn plain(text: &str) -> Result<String, String> {
    let mut plain = String::new();
    let mut rest = text;
    while let Some((before, behind)) = rest.split_once("/*") {
        plain.push_str(before);
        let (_, behind) = behind.split_once("*/").ok_or("a comment has no end")?;
        rest = behind;
    }
    plain.push_str(rest);
    let mut kept = String::new();
    let mut only_cpp = false;
    for line in plain.lines() {
        match line.trim_start().strip_prefix('#').map(str::trim) {
            Some("ifdef __cplusplus") => only_cpp = true,
            Some("else" | "endif") => only_cpp = false,
            Some(_) => {}
            None if only_cpp => {}
            None => {
                kept.push_str(line);
                kept.push('\n');
            }
        }
    }
    Ok(kept)
}

/// The name of a call and what it is handed.
fn declaration(statement: &str) -> Result<(String, Vec<Parameter>), String> {
    let call = statement.strip_prefix("uint8_t ");
    let call = call.and_then(|call| call.strip_prefix(CALL));
    let call = call.and_then(|call| call.strip_suffix(')'));
    let (name, list) = call
        .and_then(|call| call.split_once('('))
        .ok_or("a call is declared as `uint8_t hac_..(..)`")?;
    let mut list = list.split(',');
    let mut parameters = Vec::new();
    while let Some(part) = list.next() {
        parameters.push(parameter(part, &mut list)?);
    }
    match parameters.pop() {
        Some(last) if last.name == ANSWER.0 => Ok((name.into(), parameters)),
        _ => Err(format!("it isn't lent {} last", ANSWER.0)),
    }
}

/// A parameter; the number behind a pointer is taken from the list.
fn parameter<'a>(
    part: &str,
    list: &mut impl Iterator<Item = &'a str>,
) -> Result<Parameter, String> {
    let part = part.replace('*', " * ");
    let words: Vec<&str> = part.split_whitespace().collect();
    let (name, shape) = match words[..] {
        ["bool", name] => (name, Shape::Flag),
        [number, name] => (name, Shape::Number(Number::of(number)?)),
        ["const", element, "*", name] => (name, slice(name, element, false, list)?),
        [element, "*", name] => (name, slice(name, element, true, list)?),
        _ => return Err(format!("{} is no parameter", part.trim())),
    };
    Ok(Parameter {
        name: name.into(),
        shape,
    })
}

/// A slice of elements, and that its length stands behind it.
fn slice<'a>(
    name: &str,
    element: &str,
    lent: bool,
    list: &mut impl Iterator<Item = &'a str>,
) -> Result<Shape, String> {
    let own = format!("{name}_length");
    let length = match name {
        "file" => "length",
        _ if name == ANSWER.0 => ANSWER.2,
        _ => &own,
    };
    if list.next().map(str::trim) != Some(&format!("size_t {length}")) {
        return Err(format!("behind {name} there is no size_t {length}"));
    }
    if name == ANSWER.0 && (element, lent) != (ANSWER.1, true) {
        return Err(format!("{name} isn't lent entries of {}", ANSWER.1));
    }
    Ok(Shape::Slice {
        element: Number::of(element)?,
        lent,
    })
}
