//! Names and texts that others chose, shown so that they can't steer a terminal.

use std::ffi::OsStr;
use std::fmt::Write;
use std::ops::RangeInclusive;
use std::os::unix::ffi::OsStrExt;

/// Characters that are no control characters but steer how a line is laid out, or
/// can't be seen: directions, joiners, separators of lines.
const STEERING: [RangeInclusive<char>; 5] = [
    '\u{61c}'..='\u{61c}',
    '\u{200b}'..='\u{200f}',
    '\u{2028}'..='\u{202e}',
    '\u{2060}'..='\u{206f}',
    '\u{feff}'..='\u{feff}',
];

/// Whether a character must not be printed as it is.
pub fn is_hidden(c: char) -> bool {
    c.is_control() || STEERING.iter().any(|range| range.contains(&c))
}

/// A name for a line of text. What can't be printed is escaped, and so is the
/// backslash: no two names are shown alike.
pub fn shown(name: &OsStr) -> String {
    let mut line = String::new();
    for chunk in name.as_bytes().utf8_chunks() {
        for c in chunk.valid().chars() {
            match c {
                '\\' => line.push_str("\\\\"),
                c if is_hidden(c) => line.extend(c.escape_unicode()),
                c => line.push(c),
            }
        }
        for byte in chunk.invalid() {
            write!(line, "\\x{byte:02x}").expect("a string takes all");
        }
    }
    line
}

#[cfg(test)]
mod tests {
    use super::*;

    #[test]
    fn names() {
        for (name, line) in [
            (&b"cruise 4.hac"[..], "cruise 4.hac"),
            ("d\u{e9}p\u{f4}t.hac".as_bytes(), "d\u{e9}p\u{f4}t.hac"),
            (b"a\x1b[2Jb\nc\x7f", "a\\u{1b}[2Jb\\u{a}c\\u{7f}"),
            ("\u{9b}\u{202e}cah".as_bytes(), "\\u{9b}\\u{202e}cah"),
            (b"bad\xff\xc3.hac", "bad\\xff\\xc3.hac"),
            (b"\\xff", "\\\\xff"),
        ] {
            assert_eq!(shown(OsStr::from_bytes(name)), line);
        }
    }
}
