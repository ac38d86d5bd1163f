//! Names and bytes as a person may see them: on one line, and harmless to a terminal.

use std::ffi::{OsStr, OsString};
use std::os::unix::ffi::{OsStrExt, OsStringExt};

/// How many bytes of a line are shown.
const SHOWN: usize = 100;

/// A name as it is where it is printable UTF-8; a backslash is doubled, and every other byte is written \xNN, so that no two
/// names look alike.
pub fn name(name: &OsStr) -> String {
    let mut shown = String::new();
    for chunk in name.as_bytes().utf8_chunks() {
        for letter in chunk.valid().chars() {
            push_letter(&mut shown, letter);
        }
        push_bytes(&mut shown, chunk.invalid());
    }
    shown
}

/// The same for a cell of a spreadsheet, which takes what begins with one of these for a formula.
pub fn cell(name: &OsStr) -> String {
    let shown = self::name(name);
    match shown.as_bytes() {
        [first @ (b'=' | b'+' | b'-' | b'@'), ..] => format!("\\x{first:02x}{}", &shown[1..]),
        _ => shown,
    }
}

/// The name that is shown so, in a cell or elsewhere; none where no name is.
pub fn name_shown_as(shown: &str) -> Option<OsString> {
    let mut name = Vec::new();
    let mut rest = shown.as_bytes();
    while let [first, behind @ ..] = rest {
        (rest, _) = match (first, behind) {
            (b'\\', [b'\\', behind @ ..]) => (behind, name.push(b'\\')),
            (b'\\', [b'x', high, low, behind @ ..]) => {
                let digits = [char::from(*high), char::from(*low)].map(|digit| digit.to_digit(16));
                let [Some(high), Some(low)] = digits else {
                    return None;
                };
                (behind, name.push((high * 16 + low) as u8))
            }
            (b'\\', _) => return None,
            _ => (behind, name.push(*first)),
        };
    }
    Some(OsString::from_vec(name))
}

fn push_letter(shown: &mut String, letter: char) {
    match letter {
        '\\' => shown.push_str("\\\\"),
        _ if is_plain(letter) => shown.push(letter),
        _ => push_bytes(shown, letter.encode_utf8(&mut [0; 4]).as_bytes()),
    }
}

fn push_bytes(shown: &mut String, bytes: &[u8]) {
    for byte in bytes {
        shown.push_str(&format!("\\x{byte:02x}"));
    }
}

/// Whether a text is harmless as it is.
pub fn is_harmless(text: &str) -> bool {
    text.chars().all(is_plain)
}

/// Neither a control character nor one that breaks a line or turns the direction of writing.
fn is_plain(letter: char) -> bool {
    let turns = matches!(letter, '\u{200e}' | '\u{200f}' | '\u{2028}'..='\u{202e}' | '\u{2066}'..='\u{2069}');
    !letter.is_control() && !turns
}

/// The first bytes of a line between quotes, with what is not printable as a backslash and a letter or three octal digits, and
/// whether there are more.
pub fn line(bytes: &[u8]) -> String {
    let body = bytes.strip_suffix(b"\n").unwrap_or(bytes);
    let front = &body[..body.len().min(SHOWN)];
    let mut shown: String = front.iter().map(|byte| octal(*byte)).collect();
    shown = format!("\"{shown}\"");
    if body.len() > SHOWN {
        shown.push_str(" and more");
    }
    if body.len() == bytes.len() {
        shown.push_str(", without a line feed");
    }
    shown
}

fn octal(byte: u8) -> String {
    match byte {
        b'\\' => "\\\\".to_owned(),
        b' '..=b'~' => char::from(byte).to_string(),
        7 => "\\a".to_owned(),
        8 => "\\b".to_owned(),
        9 => "\\t".to_owned(),
        11 => "\\v".to_owned(),
        12 => "\\f".to_owned(),
        13 => "\\r".to_owned(),
        _ => format!("\\{byte:03o}"),
    }
}

#[cfg(test)]
mod tests {
    use super::*;

    #[test]
    fn names_are_told_apart() {
        let shown = |bytes: &[u8]| name(OsStr::from_bytes(bytes));
        assert_eq!(shown("Käse 日本".as_bytes()), "Käse 日本");
        assert_eq!(shown(b"a\xff"), "a\\xff");
        assert_eq!(shown(b"a\\xff"), "a\\\\xff");
        assert_eq!(shown(b"tab\tfeed\n\x1b"), "tab\\x09feed\\x0a\\x1b");
        assert_eq!(shown("a\u{202e}b".as_bytes()), "a\\xe2\\x80\\xaeb");
    }

    #[test]
    fn what_a_terminal_would_heed_is_not_harmless() {
        for text in ["", "accepted: 2 requests", "Käse \\x1b", "日本"] {
            assert!(is_harmless(text), "{text:?}");
        }
        for text in ["\x1b[31m", "a\tb", "a\n", "a\u{202e}b", "\u{85}"] {
            assert!(!is_harmless(text), "{text:?}");
        }
    }

    #[test]
    fn no_cell_is_a_formula() {
        for (bytes, wanted) in [
            (&b"=1+1"[..], "\\x3d1+1"),
            (b"+1", "\\x2b1"),
            (b"-dash", "\\x2ddash"),
            (b"@sum", "\\x40sum"),
            (b"a=1", "a=1"),
            (b"\\x3d", "\\\\x3d"),
        ] {
            assert_eq!(cell(OsStr::from_bytes(bytes)), wanted);
        }
    }

    #[test]
    fn a_name_is_found_by_how_it_is_shown() {
        for bytes in [
            "Käse 日本".as_bytes(),
            b"a\xff\\xff\n",
            b"=1",
            b"-",
            b"",
            b"\\",
        ] {
            let own = OsStr::from_bytes(bytes);
            for shown in [name(own), cell(own)] {
                assert_eq!(name_shown_as(&shown).as_deref(), Some(own), "{shown}");
            }
        }
        for shown in ["\\", "\\y", "\\x", "\\x1", "\\x1g", "a\\"] {
            assert_eq!(name_shown_as(shown), None, "{shown}");
        }
    }

    #[test]
    fn lines_are_shown_in_short() {
        assert_eq!(line(b"of=1\r\n"), "\"of=1\\r\"");
        assert_eq!(line(b"\0\x7f\\"), "\"\\000\\177\\\\\", without a line feed");
        let hundred = [b'x'; 100];
        assert!(line(&[&hundred[..], b"\n"].concat()).ends_with("x\""));
        assert!(line(&[&hundred[..], b"y\n"].concat()).ends_with("x\" and more"));
    }
}
