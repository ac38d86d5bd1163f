//! JSON as RFC 8259 has it, one object a line.

use std::ffi::OsStr;
use std::os::unix::ffi::OsStrExt;

/// A value, already written.
pub struct Value(String);

pub fn string(text: &str) -> Value {
    let mut written = String::from("\"");
    for letter in text.chars() {
        match letter {
            '"' => written.push_str("\\\""),
            '\\' => written.push_str("\\\\"),
            // A control character, and the two that end a line for JavaScript.
            _ if letter.is_control() || matches!(letter, '\u{2028}' | '\u{2029}') => {
                written.push_str(&format!("\\u{:04x}", u32::from(letter)));
            }
            _ => written.push(letter),
        }
    }
    written.push('"');
    Value(written)
}

pub fn number(number: Option<u64>) -> Value {
    optional(number.map(|number| Value(number.to_string())))
}

/// Bytes, each as the character of its number, without the line feed at their end.
pub fn bytes(bytes: &[u8]) -> Value {
    let body = bytes.strip_suffix(b"\n").unwrap_or(bytes);
    let letters: String = body.iter().map(|byte| char::from(*byte)).collect();
    string(&letters)
}

/// A name as a string, or as a list of its bytes where it is not UTF-8.
pub fn name(name: &OsStr) -> Value {
    match name.to_str() {
        Some(name) => string(name),
        None => Value(format!("{:?}", name.as_bytes()).replace(' ', "")),
    }
}

pub fn list(values: impl Iterator<Item = Value>) -> Value {
    let values: Vec<String> = values.map(|Value(value)| value).collect();
    Value(format!("[{}]", values.join(",")))
}

pub fn optional(value: Option<Value>) -> Value {
    value.unwrap_or_else(|| Value("null".to_owned()))
}

pub struct Object(String);

impl Object {
    pub fn new() -> Object {
        Object(String::new())
    }

    pub fn add(&mut self, key: &str, Value(value): Value) {
        let separator = if self.0.is_empty() { "" } else { "," };
        let Value(key) = string(key);
        self.0.push_str(&format!("{separator}{key}:{value}"));
    }

    pub fn line(self) -> String {
        format!("{{{}}}\n", self.0)
    }
}

#[cfg(test)]
mod tests {
    use super::*;

    #[test]
    fn strings_are_escaped() {
        let Value(written) = string("a\"b\\c\n\u{7f}ä");
        assert_eq!(written, "\"a\\\"b\\\\c\\u000a\\u007fä\"");
        let Value(written) = bytes(b"\xff\x00x\n");
        assert_eq!(written, "\"ÿ\\u0000x\"");
        let Value(written) = name(OsStr::from_bytes(b"a\xff\""));
        assert_eq!(written, "[97,255,34]");
    }

    #[test]
    fn an_object_is_one_line() {
        let mut object = Object::new();
        object.add("a", number(Some(1)));
        object.add("b", number(None));
        object.add("c", list(["x", "y"].into_iter().map(string)));
        object.add("d", list([].into_iter()));
        let line = "{\"a\":1,\"b\":null,\"c\":[\"x\",\"y\"],\"d\":[]}\n";
        assert_eq!(object.line(), line);
    }
}
