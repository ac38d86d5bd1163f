//! A reader for CSV as RFC 4180 has it, which takes nothing else.

use std::iter::Peekable;
use std::str::Chars;

/// The records of a file; panics where it is not as the RFC says: each line ended by CR and LF, quotes doubled within quotes, and
/// none elsewhere.
#[track_caller]
pub fn records(bytes: &[u8]) -> Vec<Vec<String>> {
    let text = std::str::from_utf8(bytes).expect("the table is UTF-8");
    let mut rest = text.chars().peekable();
    let mut records = Vec::new();
    while rest.peek().is_some() {
        let record = record(&mut rest);
        records.push(record.unwrap_or_else(|| panic!("not RFC 4180: {text:?}")));
    }
    let width = records.first().map_or(0, Vec::len);
    assert!(
        records.iter().all(|r| r.len() == width),
        "rows of one length: {text:?}"
    );
    records
}

fn record(rest: &mut Peekable<Chars>) -> Option<Vec<String>> {
    let mut fields = Vec::new();
    loop {
        fields.push(if rest.next_if_eq(&'"').is_some() {
            quoted(rest)?
        } else {
            plain(rest)?
        });
        match rest.next()? {
            ',' => {}
            '\r' => break,
            _ => return None,
        }
    }
    rest.next_if_eq(&'\n').map(|_| fields)
}

fn quoted(rest: &mut Peekable<Chars>) -> Option<String> {
    let mut field = String::new();
    loop {
        match rest.next()? {
            '"' if rest.next_if_eq(&'"').is_none() => return Some(field),
            c => field.push(c),
        }
    }
}

fn plain(rest: &mut Peekable<Chars>) -> Option<String> {
    let mut field = String::new();
    while let Some(c) = rest.next_if(|c| !matches!(c, ',' | '\r' | '\n')) {
        if c == '"' {
            return None;
        }
        field.push(c);
    }
    Some(field)
}
