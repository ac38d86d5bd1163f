//! The table of results: what a run of `audit-all` found of each batch, in CSV, for staff and for `results`.

use crate::csv;
use crate::findings::{Finding, Program, State};
use crate::shown;
use crate::time;
use std::ffi::{CStr, OsStr};

/// The file that it stands in.
pub const FILE: &CStr = c"table.csv";

/// New columns stand at the end, so that whoever reads by places finds the others where they were.
const HEADING: [&str; 13] = [
    "batch",
    "state",
    "verdict",
    "line",
    "requests",
    "operations",
    "blocks",
    "rest",
    "time",
    "sentence",
    "open",
    "version",
    "library",
];

/// A heading, and a row for each.
pub fn text<'a>(findings: impl Iterator<Item = &'a Finding>) -> String {
    csv::record(HEADING) + &findings.map(row).collect::<String>()
}

fn row(finding: &Finding) -> String {
    let number = |number: Option<u64>| number.map_or(String::new(), |number| number.to_string());
    let audited = finding.audited;
    let fields: [String; HEADING.len()] = [
        shown::cell(&finding.batch),
        finding.state.word().to_owned(),
        number(audited.map(|audited| audited.verdict)),
        number(audited.map(|audited| audited.line)),
        number(audited.map(|audited| audited.requests)),
        number(audited.map(|audited| audited.operations)),
        number(audited.map(|audited| audited.bill.blocks)),
        number(audited.map(|audited| audited.bill.rest)),
        finding.time.clone(),
        finding.sentence.clone(),
        number(finding.open),
        shown::cell(OsStr::new(&finding.program.version)),
        shown::cell(OsStr::new(&finding.program.library)),
    ];
    csv::record(fields.iter().map(String::as_str))
}

/// The findings of a table, without what a verdict has; none where it is no table. Columns are found by their words: what a version
/// without a column left out is empty.
pub fn findings(table: &[u8]) -> Option<Vec<Finding>> {
    let mut records = csv::records(std::str::from_utf8(table).ok()?)?.into_iter();
    let heading = records.next()?;
    let finding = |fields: Vec<String>| {
        let field = |word: &str| {
            let place = heading.iter().position(|column| column == word);
            let field = place.and_then(|place| fields.get(place))?;
            // It is shown to people, and anything may have been written there.
            shown::is_harmless(field).then(|| field.clone())
        };
        let batch = shown::name_shown_as(&field("batch")?)?;
        let state = State::named(OsStr::new(&field("state")?))?;
        let program = Program {
            version: field("version").unwrap_or_default(),
            library: field("library").unwrap_or_default(),
            kit: String::new(),
        };
        Some(Finding {
            program,
            // Rows without a verdict had none before each row had one.
            time: field("time").filter(|time| time.is_empty() || time::is_time(time))?,
            ..Finding::none(batch, state, field("sentence")?)
        })
    };
    records.map(finding).collect()
}

#[cfg(test)]
mod tests {
    use super::*;

    #[test]
    fn rows_are_read_as_they_were_written() {
        let found =
            |name: &str, state| Finding::none(name.into(), state, format!("why, of \"{name}\""));
        let findings = [found("=1", State::Changed), found("a\\b,c", State::Failed)];
        let table = text(findings.iter());
        let read = super::findings(table.as_bytes()).unwrap();
        assert_eq!(read.len(), 2);
        for (read, wanted) in read.into_iter().zip(findings) {
            assert_eq!((&read.batch, read.state), (&wanted.batch, wanted.state));
            assert_eq!(
                (&read.time, &read.sentence),
                (&wanted.time, &wanted.sentence)
            );
            assert_eq!(read.program.library, wanted.program.library);
        }
    }

    #[test]
    fn a_table_of_fewer_columns_is_read_too() {
        let table = b"batch,state,verdict,time,sentence\r\na,waiting,,,stopped\r\n";
        let row = findings(table).unwrap().remove(0);
        assert_eq!((row.state, &*row.program.version), (State::Waiting, ""));
    }

    #[test]
    fn nothing_else_is_a_table() {
        for table in [
            &b""[..],
            b"batch,state\r\na,waiting\r\n",
            b"batch,state,time,sentence\r\na,unheard,,\r\n",
            b"batch,state,time,sentence\r\n\\,waiting,,\r\n",
            b"batch,state,time,sentence\r\na,waiting\r\n",
            b"batch,state,time,sentence\r\na,waiting,,\x1b[2J\r\n",
            b"batch,state,time,sentence\r\na,waiting,yesterday,stopped\r\n",
            b"\xff\r\n",
        ] {
            assert!(findings(table).is_none(), "{table:?}");
        }
    }
}
