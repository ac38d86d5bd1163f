//! CSV as RFC 4180 has it: written, and read again.

use std::iter::Peekable;
use std::str::Chars;

/// A record, with its line end.
pub fn record<'a>(fields: impl IntoIterator<Item = &'a str>) -> String {
    let fields: Vec<String> = fields.into_iter().map(quoted).collect();
    fields.join(",") + "\r\n"
}

/// A field, between quotes where it has to be.
fn quoted(field: &str) -> String {
    match field.contains(['"', ',', '\r', '\n']) {
        true => format!("\"{}\"", field.replace('"', "\"\"")),
        false => field.to_owned(),
    }
}

/// The records of a text; none where it is not as the RFC has it.
pub fn records(text: &str) -> Option<Vec<Vec<String>>> {
    let mut rest = text.chars().peekable();
    let mut records = Vec::new();
    while rest.peek().is_some() {
        records.push(next_record(&mut rest)?);
    }
    Some(records)
}

fn next_record(rest: &mut Peekable<Chars>) -> Option<Vec<String>> {
    let mut fields = Vec::new();
    loop {
        fields.push(match rest.next_if_eq(&'"') {
            Some(_) => rest_of_quoted(rest)?,
            None => plain(rest),
        });
        match rest.next()? {
            ',' => {}
            '\r' => return rest.next_if_eq(&'\n').map(|_| fields),
            _ => return None,
        }
    }
}

fn plain(rest: &mut Peekable<Chars>) -> String {
    std::iter::from_fn(|| rest.next_if(|letter| !"\",\r\n".contains(*letter))).collect()
}

/// A field whose first quote was taken: a quote ends it, and two stand for one.
fn rest_of_quoted(rest: &mut Peekable<Chars>) -> Option<String> {
    let mut field = String::new();
    loop {
        match rest.next()? {
            '"' if rest.next_if_eq(&'"').is_none() => return Some(field),
            letter => field.push(letter),
        }
    }
}

#[cfg(test)]
mod tests {
    use super::*;

    #[test]
    fn what_was_written_is_read_again() {
        let wanted = [
            ["a", "", "b c"],
            ["x,y", "say \"x\"", "\r\n"],
            ["\"", "", ""],
        ];
        let text: String = wanted.into_iter().map(record).collect();
        assert_eq!(records(&text).unwrap(), wanted);
        assert!(text.starts_with("a,,b c\r\n\"x,y\",\"say \"\"x\"\"\","));
        assert_eq!(records("").unwrap().len(), 0);
    }

    #[test]
    fn nothing_else_is_read() {
        for text in [
            "a",
            "a\n",
            "a\rb\r\n",
            "\"a\r\n",
            "\"a\"b\r\n",
            "a\"b\r\n",
            "a,b",
        ] {
            assert_eq!(records(text), None, "{text:?}");
        }
    }
}
