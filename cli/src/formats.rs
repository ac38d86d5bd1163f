//! The line formats of the four texts, for the wording of a refusal and of an order. Nothing is decided here: verdict, line and
//! order are the proved library's, and this only says what stands in a line, or what is wrong with it.

use crate::texts::Text;

const MOST_BYTES: usize = 65_535;

/// A number of a line, and its range.
struct Field {
    name: &'static str,
    smallest: u64,
    largest: u64,
}

/// A kind of line: the word, `=`, and a number for each field.
struct Kind {
    word: &'static str,
    fields: &'static [Field],
    /// How many lines of this kind there may be.
    most: usize,
    place: Place,
}

/// Where a line of a kind may stand.
enum Place {
    Anywhere,
    /// Only below a line with this word; `most` then counts anew at each of these.
    Below(&'static str),
    /// Never below a line with this word.
    Above(&'static str),
}

const fn field(name: &'static str, smallest: u64, largest: u64) -> Field {
    Field {
        name,
        smallest,
        largest,
    }
}

const fn any(name: &'static str) -> Field {
    field(name, 0, u64::MAX)
}

const RID: Field = field("rid", 0, 65_535);

/// As many as the text has room for.
const NO_LIMIT: usize = usize::MAX;

const PROGRAMS: &[Kind] = &[
    Kind {
        word: "program",
        fields: &[any("n")],
        most: 16,
        place: Place::Anywhere,
    },
    Kind {
        word: "do",
        fields: &[any("code"), any("a"), any("b"), any("c")],
        most: 64,
        place: Place::Below("program"),
    },
];

const TRACE: &[Kind] = &[
    Kind {
        word: "request",
        fields: &[RID, any("prog"), any("a"), any("b")],
        most: 64,
        place: Place::Anywhere,
    },
    Kind {
        word: "response",
        fields: &[RID, field("status", 0, 1), any("value")],
        most: 64,
        place: Place::Anywhere,
    },
];

const REPORT: &[Kind] = &[
    Kind {
        word: "of",
        fields: &[RID, field("group", 0, 63), field("count", 0, 256)],
        most: 64,
        place: Place::Above("log"),
    },
    Kind {
        word: "log",
        fields: &[
            field("object", 0, 15),
            RID,
            field("num", 0, 256),
            field("kind", 6, 10),
            any("key"),
            any("value"),
        ],
        most: 1_024,
        place: Place::Anywhere,
    },
];

const SCHEDULE: &[Kind] = &[
    Kind {
        word: "arrive",
        fields: &[RID, any("prog"), any("a"), any("b")],
        most: 64,
        place: Place::Anywhere,
    },
    Kind {
        word: "turn",
        fields: &[RID],
        most: NO_LIMIT,
        place: Place::Anywhere,
    },
];

fn kinds(text: Text) -> &'static [Kind] {
    match text {
        Text::Programs => PROGRAMS,
        Text::Trace => TRACE,
        Text::Report => REPORT,
        Text::Schedule => SCHEDULE,
    }
}

/// A line that has the form of its kind, with its number in the text, counted from 1.
#[derive(Debug, PartialEq, Eq)]
pub struct Record {
    pub line: u64,
    pub word: &'static str,
    pub numbers: Vec<u64>,
}

/// The lines that have their form; the others are passed over.
pub fn records(text: Text, bytes: &[u8]) -> Vec<Record> {
    let read = lines(bytes).filter_map(|line| read(text, &line).ok());
    read.map(|(_, record)| record).collect()
}

/// What is wrong with a line of a text, line 0 being the text as a whole; none where nothing is found.
pub fn fault(text: Text, bytes: &[u8], number: u64) -> Option<String> {
    if number == 0 {
        let overlong = bytes.len() > MOST_BYTES;
        return overlong.then(|| format!("it has more than {} bytes", grouped(MOST_BYTES as u64)));
    }
    let line = lines(bytes).find(|line| line.number == number)?;
    let readable = read(text, &line).and_then(|(kind, _)| {
        let above = records(text, &bytes[..line.start]);
        check_place(kind, &above)
    });
    readable.err()
}

struct Line<'a> {
    number: u64,
    /// Where it begins in its text.
    start: usize,
    /// With its line feed, which the last line may lack.
    bytes: &'a [u8],
}

fn lines(text: &[u8]) -> impl Iterator<Item = Line<'_>> {
    let pieces = text.split_inclusive(|byte| *byte == b'\n');
    let mut end = 0;
    (1..).zip(pieces).map(move |(number, bytes)| {
        let start = end;
        end += bytes.len();
        Line {
            number,
            start,
            bytes,
        }
    })
}

/// Reads a line by its own form; what stands above it is not looked at.
fn read(text: Text, line: &Line) -> Result<(&'static Kind, Record), String> {
    let body = body(line)?;
    let (kind, list) = kind_of(text, body)?;
    if body.iter().any(u8::is_ascii_whitespace) {
        return Err("white space in the line".into());
    }
    let record = Record {
        line: line.number,
        word: kind.word,
        numbers: read_fields(kind.fields, list)?,
    };
    Ok((kind, record))
}

/// The line without its line feed. What editors and other systems put at the ends comes first: it is the cause of
/// all that would be found behind it.
fn body<'a>(line: &Line<'a>) -> Result<&'a [u8], &'static str> {
    let marks: [&[u8]; 3] = [b"\xEF\xBB\xBF", b"\xFF\xFE", b"\xFE\xFF"];
    if line.number == 1 && marks.iter().any(|mark| line.bytes.starts_with(mark)) {
        return Err("a byte order mark at its start");
    }
    let body = line.bytes.strip_suffix(b"\n");
    match body.ok_or("no line feed at its end")? {
        [.., b'\r'] => Err("a carriage return at its end, as in Windows line ends"),
        [] => Err("an empty line"),
        body if body.trim_ascii().is_empty() => Err("white space in the line"),
        body => Ok(body),
    }
}

/// The kind of a line, and its list of numbers. White space around the word is let pass, so that it is found as what
/// it is and not as an unknown word.
fn kind_of(text: Text, body: &[u8]) -> Result<(&'static Kind, &[u8]), String> {
    let equals = body.iter().position(|byte| *byte == b'=');
    let found = equals.and_then(|equals| {
        let word = body[..equals].trim_ascii();
        let kind = kinds(text)
            .iter()
            .find(|kind| kind.word.as_bytes() == word)?;
        Some((kind, &body[equals + 1..]))
    });
    found.ok_or_else(|| {
        let starts: Vec<String> = kinds(text)
            .iter()
            .map(|kind| format!("{}=", kind.word))
            .collect();
        format!("it does not begin with {}", starts.join(" or "))
    })
}

fn read_fields(fields: &[Field], list: &[u8]) -> Result<Vec<u64>, String> {
    let parts: Vec<&[u8]> = list.split(|byte| *byte == b',').collect();
    if parts.len() != fields.len() {
        let names: Vec<&str> = fields.iter().map(|field| field.name).collect();
        let noun = if parts.len() == 1 { "field" } else { "fields" };
        let (found, due) = (parts.len(), fields.len());
        return Err(format!(
            "{found} {noun} in place of {due}: {}",
            names.join(", ")
        ));
    }
    let both = fields.iter().zip(parts);
    both.map(|(field, part)| read_number(field, part)).collect()
}

fn read_number(field: &Field, part: &[u8]) -> Result<u64, String> {
    let what = match part {
        [] => Some("is empty"),
        [b'+' | b'-', ..] => Some("has a sign"),
        _ if !part.iter().all(u8::is_ascii_digit) => Some("has a byte that is no digit"),
        [b'0', _, ..] => Some("has a leading zero"),
        _ => None,
    };
    if let Some(what) = what {
        return Err(format!("the field {} {what}", field.name));
    }
    let digits = std::str::from_utf8(part).unwrap_or_default();
    let number = digits.parse().ok();
    let range = field.smallest..=field.largest;
    number
        .filter(|number| range.contains(number))
        .ok_or_else(|| out_of_range(field))
}

fn out_of_range(field: &Field) -> String {
    let name = field.name;
    if field.largest == u64::MAX {
        return format!("the field {name} is above 2^64 - 1");
    }
    let (smallest, largest) = (grouped(field.smallest), grouped(field.largest));
    format!("the field {name} is not in its range, {smallest} to {largest}")
}

/// Whether a line of this kind may stand below these, and is not one too many.
fn check_place(kind: &Kind, above: &[Record]) -> Result<(), String> {
    let word = kind.word;
    let last = |word| above.iter().rposition(|record| record.word == word);
    let (start, part) = match kind.place {
        Place::Above(other) if last(other).is_some() => {
            return Err(format!("a {other} line above this {word} line"));
        }
        Place::Below(other) => {
            let above =
                last(other).ok_or_else(|| format!("no {other} line above this {word} line"));
            (above?, format!(" of one {other}"))
        }
        Place::Anywhere | Place::Above(_) => (0, String::new()),
    };
    let before = above[start..].iter().filter(|record| record.word == word);
    if before.count() < kind.most {
        return Ok(());
    }
    Err(format!(
        "more than {} {word} lines{part}",
        grouped(kind.most as u64)
    ))
}

/// A number with a comma before each three digits, as in 65,535.
fn grouped(number: u64) -> String {
    if number < 1_000 {
        return number.to_string();
    }
    format!("{},{:03}", grouped(number / 1_000), number % 1_000)
}

#[cfg(test)]
mod tests {
    use super::*;

    fn at(text: Text, bytes: &[u8], line: u64) -> String {
        fault(text, bytes, line).unwrap_or_default()
    }

    #[test]
    fn a_readable_text_has_no_fault() {
        let report = b"of=65535,63,256\nlog=15,0,256,9,18446744073709551615,0\nlog=0,0,0,6,0,0\n";
        let faults = (0..6).filter_map(|line| fault(Text::Report, report, line));
        assert_eq!(faults.collect::<Vec<_>>(), Vec::<String>::new());
        let words: Vec<&str> = records(Text::Report, report)
            .iter()
            .map(|record| record.word)
            .collect();
        assert_eq!(words, ["of", "log", "log"]);
    }

    #[test]
    fn a_record_has_its_line_and_numbers() {
        let record = Record {
            line: 2,
            word: "response",
            numbers: vec![7, 1, u64::MAX],
        };
        let trace = b"response=7,2,0\nresponse=7,1,18446744073709551615\n";
        assert_eq!(records(Text::Trace, trace), [record]);
    }

    #[test]
    fn what_editors_leave_is_named() {
        let of = |line: &[u8]| at(Text::Trace, line, 1);
        let mark = "a byte order mark at its start";
        assert_eq!(of(b"\xEF\xBB\xBFresponse=1,0,0\r\n"), mark);
        assert_eq!(of(b"\xFF\xFEr\0\n"), mark);
        assert_eq!(of(b"response=1,0,0"), "no line feed at its end");
        let windows = "a carriage return at its end, as in Windows line ends";
        assert_eq!(of(b"response=1,0,0\r\n"), windows);
        assert_eq!(of(b"\r\n"), windows);
        assert_eq!(of(b"\n"), "an empty line");
        for blank in [
            "  ",
            "response=1, 0,0",
            " response=1,0,0",
            "response\t=1,0,0",
            "response=1,0,0 ",
        ] {
            assert_eq!(
                of(format!("{blank}\n").as_bytes()),
                "white space in the line"
            );
        }
    }

    #[test]
    fn an_unknown_word_is_told_what_words_there_are() {
        for line in [
            "# a note",
            "Request=1,0,0,0",
            "request",
            "=1",
            "of=1,0,0",
            "\u{a0}",
            "requests=1,0,0,0",
        ] {
            let text = format!("{line}\n");
            let words = "it does not begin with request= or response=";
            assert_eq!(at(Text::Trace, text.as_bytes(), 1), words);
        }
        assert_eq!(
            at(Text::Programs, b"x\n", 1),
            "it does not begin with program= or do="
        );
        assert_eq!(
            at(Text::Report, b"x\n", 1),
            "it does not begin with of= or log="
        );
        assert_eq!(
            at(Text::Schedule, b"x\n", 1),
            "it does not begin with arrive= or turn="
        );
    }

    #[test]
    fn fields_are_counted() {
        let of = |line: &[u8]| at(Text::Trace, line, 1);
        assert_eq!(of(b"request=\n"), "1 field in place of 4: rid, prog, a, b");
        assert_eq!(
            of(b"request=1,0,0\n"),
            "3 fields in place of 4: rid, prog, a, b"
        );
        assert_eq!(
            of(b"response=1,0,0,\n"),
            "4 fields in place of 3: rid, status, value"
        );
        assert_eq!(
            at(Text::Schedule, b"turn=1,\n", 1),
            "2 fields in place of 1: rid"
        );
    }

    #[test]
    fn a_field_is_named_with_its_fault() {
        let of = |value: &str| at(Text::Trace, format!("response=1,0,{value}\n").as_bytes(), 1);
        assert_eq!(of(""), "the field value is empty");
        assert_eq!(of("00"), "the field value has a leading zero");
        assert_eq!(of("+1"), "the field value has a sign");
        assert_eq!(of("-"), "the field value has a sign");
        assert_eq!(of("0x1"), "the field value has a byte that is no digit");
        assert_eq!(
            of("\u{0661}"),
            "the field value has a byte that is no digit"
        );
        assert_eq!(of("=1"), "the field value has a byte that is no digit");
        assert_eq!(
            of("18446744073709551616"),
            "the field value is above 2^64 - 1"
        );
        assert_eq!(of(&"9".repeat(60_000)), "the field value is above 2^64 - 1");
        assert_eq!(of("18446744073709551615"), "");
    }

    #[test]
    fn a_field_out_of_range_is_named_with_its_range() {
        let of = |line: &str| at(Text::Report, format!("{line}\n").as_bytes(), 1);
        let is = |name: &str, range: &str| format!("the field {name} is not in its range, {range}");
        assert_eq!(of("of=65536,0,0"), is("rid", "0 to 65,535"));
        assert_eq!(of("of=18446744073709551616,0,0"), is("rid", "0 to 65,535"));
        assert_eq!(of("of=1,64,0"), is("group", "0 to 63"));
        assert_eq!(of("of=1,0,257"), is("count", "0 to 256"));
        assert_eq!(of("log=16,1,1,7,0,0"), is("object", "0 to 15"));
        assert_eq!(of("log=0,1,257,7,0,0"), is("num", "0 to 256"));
        assert_eq!(of("log=0,1,1,5,0,0"), is("kind", "6 to 10"));
        assert_eq!(of("log=0,1,1,11,0,0"), is("kind", "6 to 10"));
        // Readable on any object; whether it fits the object is no matter of the form.
        assert_eq!(of("log=0,1,1,10,0,0"), "");
        assert_eq!(
            at(Text::Trace, b"response=1,2,0\n", 1),
            is("status", "0 to 1")
        );
    }

    #[test]
    fn a_line_in_the_wrong_place_is_named() {
        assert_eq!(
            at(Text::Programs, b"do=0,0,0,0\n", 1),
            "no program line above this do line"
        );
        let report = b"log=0,1,1,7,0,0\nof=1,0,0\n";
        assert_eq!(at(Text::Report, report, 2), "a log line above this of line");
    }

    #[test]
    fn a_line_over_its_count_is_named() {
        let over = |text: Text, line: &str, most: usize| {
            let bytes = format!("{line}\n").repeat(most + 1);
            assert_eq!(fault(text, bytes.as_bytes(), most as u64), None);
            at(text, bytes.as_bytes(), most as u64 + 1)
        };
        assert_eq!(
            over(Text::Programs, "program=0", 16),
            "more than 16 program lines"
        );
        assert_eq!(
            over(Text::Trace, "request=1,0,0,0", 64),
            "more than 64 request lines"
        );
        assert_eq!(
            over(Text::Trace, "response=1,0,0", 64),
            "more than 64 response lines"
        );
        assert_eq!(over(Text::Report, "of=1,0,0", 64), "more than 64 of lines");
        assert_eq!(
            over(Text::Report, "log=0,1,1,7,0,0", 1_024),
            "more than 1,024 log lines"
        );
        assert_eq!(
            over(Text::Schedule, "arrive=1,0,0,0", 64),
            "more than 64 arrive lines"
        );
        assert_eq!(over(Text::Schedule, "turn=1", 9_000), "");
    }

    #[test]
    fn instructions_are_counted_in_each_program() {
        let program = |instructions| format!("program=0\n{}", "do=0,0,0,0\n".repeat(instructions));
        let text = program(64) + &program(65);
        assert_eq!(fault(Text::Programs, text.as_bytes(), 130), None);
        assert_eq!(
            at(Text::Programs, text.as_bytes(), 131),
            "more than 64 do lines of one program"
        );
    }

    #[test]
    fn an_overlong_text_is_line_0() {
        assert_eq!(fault(Text::Trace, &[b'\n'; 65_535], 0), None);
        assert_eq!(
            at(Text::Trace, &[b'\n'; 65_536], 0),
            "it has more than 65,535 bytes"
        );
    }

    #[test]
    fn a_line_that_is_not_there_has_no_fault() {
        assert_eq!(fault(Text::Trace, b"", 1), None);
        assert_eq!(fault(Text::Trace, b"x\n", 2), None);
        assert_eq!(fault(Text::Trace, b"x\n", u64::MAX), None);
    }
}
