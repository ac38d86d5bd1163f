//! A reader for the JSON objects that the program prints: flat ones, of strings, whole numbers, lists of bytes or of strings,
//! and null.

use std::collections::BTreeMap;
use std::iter::Peekable;
use std::str::Chars;

#[derive(Clone, Debug, PartialEq, Eq)]
pub enum Value {
    Null,
    Number(u64),
    Text(String),
    /// A name that is not UTF-8.
    Bytes(Vec<u8>),
    /// The lines of an order; there may be none.
    Lines(Vec<String>),
}

pub type Object = BTreeMap<String, Value>;

/// The keys that every object has.
pub const KEYS: [&str; 18] = [
    "form",
    "batch",
    "state",
    "verdict",
    "line",
    "text",
    "bytes",
    "requests",
    "operations",
    "blocks",
    "rest",
    "open",
    "order",
    "sentence",
    "time",
    "version",
    "library",
    "kit",
];

pub fn text(value: &str) -> Value {
    Value::Text(value.to_string())
}

/// The objects of what was printed, one a line, each with all keys and no other, in the form that has this number.
#[track_caller]
pub fn objects(printed: &[u8]) -> Vec<Object> {
    objects_with(printed, &KEYS)
}

/// The same of objects without their orders.
#[track_caller]
pub fn brief_objects(printed: &[u8]) -> Vec<Object> {
    let mut keys = KEYS.to_vec();
    keys.retain(|key| *key != "order");
    objects_with(printed, &keys)
}

/// An object without the time at which it was found.
pub fn timeless(mut object: Object) -> Object {
    object.remove("time");
    object
}

#[track_caller]
fn objects_with(printed: &[u8], keys: &[&str]) -> Vec<Object> {
    let printed = std::str::from_utf8(printed).expect("JSON is UTF-8");
    assert!(
        printed.is_empty() || printed.ends_with('\n'),
        "whole lines: {printed:?}"
    );
    let read =
        |line: &str| object(line).unwrap_or_else(|| panic!("not an object of JSON: {line:?}"));
    let objects: Vec<Object> = printed.split_terminator('\n').map(read).collect();
    for object in &objects {
        let mut keys: Vec<&str> = keys.to_vec();
        keys.sort_unstable();
        assert!(object.keys().eq(keys), "the keys of {object:?}");
        assert_eq!(object["form"], Value::Number(1), "{object:?}");
    }
    objects
}

/// The one object that was printed.
#[track_caller]
pub fn only_object(printed: &[u8]) -> Object {
    let mut objects = objects(printed);
    assert_eq!(objects.len(), 1, "one object");
    objects.remove(0)
}

fn object(line: &str) -> Option<Object> {
    let mut rest = line.chars().peekable();
    let mut object = Object::new();
    take(&mut rest, '{')?;
    loop {
        let key = string(&mut rest)?;
        take(&mut rest, ':')?;
        if object.insert(key, value(&mut rest)?).is_some() {
            return None;
        }
        blanks(&mut rest);
        match rest.next()? {
            ',' => {}
            '}' => break,
            _ => return None,
        }
    }
    blanks(&mut rest);
    rest.next().is_none().then_some(object)
}

fn blanks(rest: &mut Peekable<Chars>) {
    while rest.next_if(|c| matches!(c, ' ' | '\t')).is_some() {}
}

fn take(rest: &mut Peekable<Chars>, wanted: char) -> Option<()> {
    blanks(rest);
    rest.next_if_eq(&wanted).map(|_| ())
}

fn value(rest: &mut Peekable<Chars>) -> Option<Value> {
    blanks(rest);
    if rest.peek() == Some(&'"') {
        return string(rest).map(Value::Text);
    }
    if rest.next_if_eq(&'[').is_some() {
        return list(rest);
    }
    let mut word = String::new();
    while let Some(c) = rest.next_if(char::is_ascii_alphanumeric) {
        word.push(c);
    }
    if word == "null" {
        return Some(Value::Null);
    }
    let plain = word == "0" || !word.starts_with('0');
    word.parse().ok().filter(|_| plain).map(Value::Number)
}

/// A list that was begun: of bytes, at least one, or of strings.
fn list(rest: &mut Peekable<Chars>) -> Option<Value> {
    let mut values = Vec::new();
    if take(rest, ']').is_some() {
        return Some(Value::Lines(Vec::new()));
    }
    loop {
        values.push(value(rest)?);
        blanks(rest);
        match rest.next()? {
            ',' => {}
            ']' => break,
            _ => return None,
        }
    }
    let byte = |value: &Value| match value {
        Value::Number(byte) => u8::try_from(*byte).ok(),
        _ => None,
    };
    let line = |value: &Value| match value {
        Value::Text(line) => Some(line.clone()),
        _ => None,
    };
    let bytes: Option<Vec<u8>> = values.iter().map(byte).collect();
    let lines: Option<Vec<String>> = values.iter().map(line).collect();
    bytes.map(Value::Bytes).or(lines.map(Value::Lines))
}

fn string(rest: &mut Peekable<Chars>) -> Option<String> {
    take(rest, '"')?;
    let mut string = String::new();
    loop {
        match rest.next()? {
            '"' => return Some(string),
            '\\' => string.push(escaped(rest)?),
            c if c < ' ' => return None,
            c => string.push(c),
        }
    }
}

fn escaped(rest: &mut Peekable<Chars>) -> Option<char> {
    Some(match rest.next()? {
        c @ ('"' | '\\' | '/') => c,
        'b' => '\u{8}',
        'f' => '\u{c}',
        'n' => '\n',
        'r' => '\r',
        't' => '\t',
        'u' => return unit(rest),
        _ => return None,
    })
}

/// The character of \uNNNN, or of two that are halves of one.
fn unit(rest: &mut Peekable<Chars>) -> Option<char> {
    let first = digits(rest)?;
    if !(0xd800..0xdc00).contains(&first) {
        return char::from_u32(first);
    }
    (rest.next()? == '\\' && rest.next()? == 'u').then_some(())?;
    let second = digits(rest)?
        .checked_sub(0xdc00)
        .filter(|low| *low < 0x400)?;
    char::from_u32(0x10000 + ((first - 0xd800) << 10) + second)
}

fn digits(rest: &mut Peekable<Chars>) -> Option<u32> {
    let mut number = 0;
    for _ in 0..4 {
        number = number * 16 + rest.next()?.to_digit(16)?;
    }
    Some(number)
}
