//! A small check of JSON: a line is one value, read strictly.

use std::iter::Peekable;
use std::str::Chars;

#[derive(Clone, Debug, PartialEq)]
pub enum Value {
    Null,
    Number(i128),
    /// A number with a point, as it is spelled.
    Decimal(String),
    Text(String),
    List(Vec<Value>),
    Object(Vec<(String, Value)>),
}

impl Value {
    /// A member of an object.
    pub fn get(&self, key: &str) -> &Value {
        let Value::Object(members) = self else {
            panic!("no object: {self:?}");
        };
        let member = members.iter().find(|(name, _)| name == key);
        &member.unwrap_or_else(|| panic!("no {key} in {self:?}")).1
    }

    pub fn text(&self, key: &str) -> &str {
        match self.get(key) {
            Value::Text(text) => text,
            other => panic!("no text: {other:?}"),
        }
    }

    pub fn number(&self, key: &str) -> i128 {
        match self.get(key) {
            Value::Number(number) => *number,
            other => panic!("no number: {other:?}"),
        }
    }

    /// A number, or none where there is null.
    pub fn number_or_null(&self, key: &str) -> Option<i128> {
        match self.get(key) {
            Value::Null => None,
            _ => Some(self.number(key)),
        }
    }

    pub fn list(&self, key: &str) -> &[Value] {
        match self.get(key) {
            Value::List(values) => values,
            other => panic!("no list: {other:?}"),
        }
    }

    /// The names of an object's members, in their order.
    pub fn keys(&self) -> Vec<&str> {
        match self {
            Value::Object(members) => members.iter().map(|(name, _)| name.as_str()).collect(),
            other => panic!("no object: {other:?}"),
        }
    }
}

/// The objects of some lines, one a line.
pub fn objects(lines: &str) -> Vec<Value> {
    let objects = lines.lines().map(|line| {
        let mut rest = line.chars().peekable();
        let value = value(&mut rest);
        assert_eq!(rest.next(), None, "something behind the object: {line}");
        assert!(matches!(value, Value::Object(_)), "no object: {line}");
        value
    });
    objects.collect()
}

type Rest<'a> = Peekable<Chars<'a>>;

fn expect(rest: &mut Rest, wanted: char) {
    assert_eq!(rest.next(), Some(wanted));
}

fn value(rest: &mut Rest) -> Value {
    match rest.peek() {
        Some('"') => Value::Text(text(rest)),
        Some('{') => object(rest),
        Some('[') => list(rest),
        Some('n') => null(rest),
        _ => number(rest),
    }
}

fn null(rest: &mut Rest) -> Value {
    "null".chars().for_each(|c| expect(rest, c));
    Value::Null
}

fn list(rest: &mut Rest) -> Value {
    expect(rest, '[');
    let mut values = Vec::new();
    while rest.peek() != Some(&']') {
        if !values.is_empty() {
            expect(rest, ',');
        }
        values.push(value(rest));
    }
    expect(rest, ']');
    Value::List(values)
}

fn object(rest: &mut Rest) -> Value {
    expect(rest, '{');
    let mut members: Vec<(String, Value)> = Vec::new();
    while rest.peek() != Some(&'}') {
        if !members.is_empty() {
            expect(rest, ',');
        }
        let key = text(rest);
        assert!(members.iter().all(|(name, _)| *name != key), "{key} twice");
        expect(rest, ':');
        members.push((key, value(rest)));
    }
    expect(rest, '}');
    Value::Object(members)
}

fn number(rest: &mut Rest) -> Value {
    let mut digits = String::new();
    while let Some(c) = rest.next_if(|c| c.is_ascii_digit() || "-.".contains(*c)) {
        digits.push(c);
    }
    if let Some((whole, decimals)) = digits.split_once('.') {
        let whole = whole.strip_prefix('-').unwrap_or(whole);
        let both = [whole, decimals].map(|part| part.parse::<u32>().is_ok());
        assert_eq!(both, [true, true], "digits on both sides of a point");
        return Value::Decimal(digits);
    }
    let number: i128 = digits.parse().expect("a number");
    assert_eq!(number.to_string(), digits, "a number has one spelling");
    Value::Number(number)
}

fn text(rest: &mut Rest) -> String {
    expect(rest, '"');
    let mut units = Vec::new();
    loop {
        match rest.next().expect("the end of a text") {
            '"' => return String::from_utf16(&units).expect("characters"),
            '\\' => units.push(escaped(rest)),
            c => {
                assert!(!c.is_control(), "a control character as it is");
                units.extend(c.encode_utf16(&mut [0; 2]).iter());
            }
        }
    }
}

fn escaped(rest: &mut Rest) -> u16 {
    match rest.next() {
        Some(c @ ('"' | '\\')) => c as u16,
        Some('u') => {
            let digits: String = rest.by_ref().take(4).collect();
            assert_eq!(digits.len(), 4, "four digits");
            u16::from_str_radix(&digits, 16).expect("hexadecimal")
        }
        other => panic!("no escape: {other:?}"),
    }
}
