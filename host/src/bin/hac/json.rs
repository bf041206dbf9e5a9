//! Objects of JSON, each on one line.

use crate::shown::is_hidden;
use std::ffi::OsStr;
use std::fmt::{self, Display, Write};
use std::os::unix::ffi::OsStrExt;

/// An object: its members so far.
#[derive(Default)]
pub struct Object(String);

/// What JSON writes as a number.
pub trait Number: Display {}

impl Number for u8 {}
impl Number for u16 {}
impl Number for i16 {}
impl Number for u32 {}
impl Number for i32 {}
impl Number for i64 {}
impl Number for u64 {}
impl Number for usize {}
/// Those of readings, which are finite.
impl Number for f64 {}

impl Object {
    fn member(mut self, key: &str, value: impl Display) -> Object {
        let comma = if self.0.is_empty() { "" } else { "," };
        write!(self.0, "{comma}{}:{value}", Text(key)).expect("a string takes all");
        self
    }

    pub fn number(self, key: &str, value: impl Number) -> Object {
        self.member(key, value)
    }

    /// A number, or null where there is none.
    pub fn number_or_null(self, key: &str, value: Option<impl Number>) -> Object {
        match value {
            Some(value) => self.number(key, value),
            None => self.member(key, "null"),
        }
    }

    pub fn text(self, key: &str, value: &str) -> Object {
        self.member(key, Text(value))
    }

    /// A text, or null where there is none.
    pub fn text_or_null(self, key: &str, value: Option<&str>) -> Object {
        match value {
            Some(value) => self.text(key, value),
            None => self.member(key, "null"),
        }
    }

    pub fn object(self, key: &str, value: Object) -> Object {
        self.member(key, value)
    }

    /// A list of objects.
    pub fn list(self, key: &str, values: impl Iterator<Item = Object>) -> Object {
        self.values(key, values.map(|value| value.to_string()))
    }

    /// A list of values that are spelled already.
    fn values(self, key: &str, values: impl Iterator<Item = String>) -> Object {
        let values: Vec<String> = values.collect();
        self.member(key, format_args!("[{}]", values.join(",")))
    }

    /// The name of a file. One that is no UTF-8 is told as near as can be, and
    /// exactly beside it, in hexadecimal.
    pub fn name(self, key: &str, name: &OsStr) -> Object {
        match name.to_str() {
            Some(name) => self.text(key, name),
            None => self
                .text(key, &name.to_string_lossy())
                .text(&format!("{key}_bytes"), &digits(name)),
        }
    }

    /// A list of names. Where one is no UTF-8 another list stands beside it, with those
    /// that are exact in hexadecimal and null for the others.
    pub fn names(self, key: &str, names: &[&OsStr]) -> Object {
        let near = names.iter().map(|name| quoted(&name.to_string_lossy()));
        let object = self.values(key, near);
        if names.iter().all(|name| name.to_str().is_some()) {
            return object;
        }
        let exact = names.iter().map(|name| match name.to_str() {
            Some(_) => "null".into(),
            None => quoted(&digits(name)),
        });
        object.values(&format!("{key}_bytes"), exact)
    }
}

fn quoted(text: &str) -> String {
    Text(text).to_string()
}

/// The bytes of a name, in hexadecimal.
fn digits(name: &OsStr) -> String {
    let bytes = name.as_bytes().iter();
    bytes.map(|byte| format!("{byte:02x}")).collect()
}

impl Display for Object {
    fn fmt(&self, to: &mut fmt::Formatter<'_>) -> fmt::Result {
        write!(to, "{{{}}}", self.0)
    }
}

/// A string, escaped so that it can't steer a terminal either.
struct Text<'a>(&'a str);

impl Display for Text<'_> {
    fn fmt(&self, to: &mut fmt::Formatter<'_>) -> fmt::Result {
        to.write_char('"')?;
        for c in self.0.chars() {
            match c {
                '"' | '\\' => write!(to, "\\{c}")?,
                c if is_hidden(c) => {
                    for unit in c.encode_utf16(&mut [0; 2]) {
                        write!(to, "\\u{unit:04x}")?;
                    }
                }
                c => to.write_char(c)?,
            }
        }
        to.write_char('"')
    }
}

#[cfg(test)]
mod tests {
    use super::*;

    #[test]
    fn objects() {
        assert_eq!(Object::default().to_string(), "{}");
        let inner = Object::default().number("13", 2_usize);
        let object = Object::default()
            .text("a\"b\\", "\u{1b}[2J\n\u{202e}\u{e9}")
            .number("n", -5)
            .number_or_null("p", Some(5))
            .number_or_null("q", None::<u32>)
            .text_or_null("t", Some("u"))
            .text_or_null("v", None)
            .object("o", inner)
            .list("e", [].into_iter())
            .list(
                "l",
                [0, 1].into_iter().map(|n| Object::default().number("m", n)),
            )
            .name("file", OsStr::from_bytes(b"x\xff"))
            .names("plain", &["y", "\"z"].map(OsStr::new))
            .names("s", &[&b"y"[..], b"x\xff"].map(OsStr::from_bytes));
        let line =
            "{\"a\\\"b\\\\\":\"\\u001b[2J\\u000a\\u202e\u{e9}\",\"n\":-5,\"p\":5,\"q\":null,\
                    \"t\":\"u\",\"v\":null,\
                    \"o\":{\"13\":2},\"e\":[],\"l\":[{\"m\":0},{\"m\":1}],\"file\":\"x\u{fffd}\",\"file_bytes\":\"78ff\",\
                    \"plain\":[\"y\",\"\\\"z\"],\"s\":[\"y\",\"x\u{fffd}\"],\"s_bytes\":[null,\"78ff\"]}";
        assert_eq!(object.to_string(), line);
    }
}
