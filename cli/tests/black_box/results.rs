//! What `audit-all` keeps, looked at from outside: the kept results, and the table.

use crate::csv;
use crate::identity::about;
use crate::room::{left_open, names, names_in, read, tree, TEXTS};
use crate::run::audit_all;
use std::collections::BTreeMap;
use std::ffi::{OsStr, OsString};
use std::os::unix::ffi::OsStrExt;
use std::path::{Path, PathBuf};
use std::process::Child;
use std::thread;
use std::time::Duration;

/// A row of the table.
#[derive(Clone, Debug, PartialEq, Eq)]
pub struct Row {
    pub batch: String,
    pub state: String,
    pub verdict: String,
    pub line: String,
    pub requests: String,
    pub operations: String,
    pub blocks: String,
    pub rest: String,
    pub time: String,
    pub sentence: String,
    pub open: String,
    pub version: String,
    pub library: String,
}

pub const HEADING: [&str; 13] = [
    "batch",
    "state",
    "verdict",
    "line",
    "requests",
    "operations",
    "blocks",
    "rest",
    "time",
    "sentence",
    "open",
    "version",
    "library",
];

/// The rows of the table below its heading.
#[track_caller]
pub fn rows(results: &Path) -> Vec<Row> {
    let mut records = csv::records(&read(results.join("table.csv"))).into_iter();
    assert_eq!(records.next().expect("a heading"), HEADING);
    let row = |record: Vec<String>| {
        let [batch, state, verdict, line, requests, operations, blocks, rest, time, sentence, open, version, library] =
            record.try_into().unwrap();
        Row {
            batch,
            state,
            verdict,
            line,
            requests,
            operations,
            blocks,
            rest,
            time,
            sentence,
            open,
            version,
            library,
        }
    };
    let rows: Vec<Row> = records.map(row).collect();
    for row in &rows {
        check_row(row);
    }
    rows
}

/// A row has a verdict, a bill and a number of open requests only where it was audited, and always a time and a library.
#[track_caller]
fn check_row(row: &Row) {
    assert!(is_time(&row.time), "{row:?}");
    assert_eq!(row.library.len(), 64, "{row:?}");
    match row.state.as_str() {
        "accepted" | "empty" | "open" => {
            assert_eq!((&*row.verdict, &*row.line), ("0", "0"), "{row:?}");
            assert_eq!(row.requests == "0", row.state == "empty", "{row:?}");
        }
        "refused" => assert!(!matches!(&*row.verdict, "" | "0"), "{row:?}"),
        "changed" | "outdated" | "damaged" | "failed" | "waiting" => {
            let numbers = [&row.verdict, &row.blocks, &row.rest, &row.open];
            assert_eq!(numbers, ["", "", "", ""], "{row:?}");
        }
        _ => panic!("no such state: {row:?}"),
    }
}

/// The row of a batch.
#[track_caller]
pub fn row(results: &Path, batch: &str) -> Row {
    let mut found = rows(results);
    found.retain(|row| row.batch == batch);
    assert_eq!(found.len(), 1, "one row for {batch}");
    found.remove(0)
}

/// The states of the batches, for those whose names are shown as they are.
#[track_caller]
pub fn states(results: &Path) -> BTreeMap<String, String> {
    rows(results)
        .into_iter()
        .map(|row| (row.batch, row.state))
        .collect()
}

/// A name as table and list show it.
pub fn shown(name: &OsStr) -> String {
    let hidden = |bytes: &[u8]| {
        bytes
            .iter()
            .map(|byte| format!("\\x{byte:02x}"))
            .collect::<String>()
    };
    let mut shown = String::new();
    for chunk in name.as_bytes().utf8_chunks() {
        for c in chunk.valid().chars() {
            match c {
                '\\' => shown.push_str("\\\\"),
                // A control character, or one that turns the direction of writing.
                c if c.is_control() || c == '\u{202e}' => {
                    shown.push_str(&hidden(c.to_string().as_bytes()))
                }
                c => shown.push(c),
            }
        }
        shown.push_str(&hidden(chunk.invalid()));
    }
    shown
}

/// The names of the batches in a spool.
pub fn batches(spool: &Path) -> Vec<OsString> {
    let mut names: Vec<OsString> = names_in(spool).into_iter().collect();
    names.retain(|name| !name.as_bytes().starts_with(b"."));
    names
}

/// A time in UTC, such as 2026-11-15T22:50:00Z.
fn is_time(time: &str) -> bool {
    let shape = |byte: u8| if byte.is_ascii_digit() { b'0' } else { byte };
    time.bytes().map(shape).eq("0000-00-00T00:00:00Z".bytes()) && time >= "2024"
}

/// The same in a cell of the table, which is no formula.
pub fn cell(name: &OsStr) -> String {
    let shown = shown(name);
    match shown.starts_with(['=', '+', '-', '@']) {
        true => format!("\\x{:02x}{}", shown.as_bytes()[0], &shown[1..]),
        false => shown,
    }
}

/// A kept result is whole, and is of the batch: what was audited, and what the file `expected` beside it says.
#[track_caller]
pub fn check_kept(spool: &Path, results: &Path, name: &OsStr) {
    let (batch, kept) = (spool.join(name), results.join("batches").join(name));
    let held = names(["programs.txt", "trace.txt", "report.txt", "output", "about"]);
    assert_eq!(names_in(&kept), held, "{kept:?}");
    for text in TEXTS {
        assert!(
            read(kept.join(text)) == read(batch.join(text)),
            "{text} of {kept:?}"
        );
    }
    let expected = read(batch.join("expected"));
    assert_eq!(read(kept.join("output")), expected, "{kept:?}");
    let lines = String::from_utf8(read(kept.join("about"))).unwrap();
    let keys: Vec<&str> = lines
        .lines()
        .filter_map(|line| line.split_once('='))
        .map(|(key, _)| key)
        .collect();
    assert_eq!(
        keys,
        ["time", "version", "library", "kit", "sentence"],
        "{lines}"
    );
    assert!(is_time(&about(lines.as_bytes(), "time")), "{lines}");
    let word = if expected.starts_with(b"verdict=0\n") {
        "accepted"
    } else {
        "refused, verdict "
    };
    assert!(
        about(lines.as_bytes(), "sentence").starts_with(word),
        "{lines}"
    );
}

/// Every kept result is whole.
#[track_caller]
pub fn check_kept_whole(spool: &Path, results: &Path) {
    for name in names_in(&results.join("batches")) {
        check_kept(spool, results, &name);
    }
}

/// Every batch has its result and its row, and nothing else is left in RESULTS.
#[track_caller]
pub fn check_all_kept(spool: &Path, results: &Path) {
    let batches = batches(spool);
    assert!(
        names_in(&results.join("batches")).iter().eq(&batches),
        "a result for each batch"
    );
    check_kept_whole(spool, results);
    assert_eq!(
        names_in(results),
        names([".teaselshears", "batches", "table.csv"])
    );
    let rows = rows(results);
    assert_eq!(rows.len(), batches.len(), "a row for each batch");
    for name in batches {
        check_row_of(results, &name, &rows);
    }
}

/// The row of a kept result says what the result says.
#[track_caller]
fn check_row_of(results: &Path, name: &OsStr, rows: &[Row]) {
    let kept = results.join("batches").join(name);
    // Hexadecimal digits may be of either case.
    let mut found = rows
        .iter()
        .filter(|row| row.batch.eq_ignore_ascii_case(&cell(name)));
    let row = found
        .next()
        .unwrap_or_else(|| panic!("no row for {name:?}: {rows:?}"));
    assert!(found.next().is_none(), "one row for {name:?}");
    let said = format!(
        "verdict={}\nline={}\nrequests={}\noperations={}\nblocks={}\nrest={}\n",
        row.verdict, row.line, row.requests, row.operations, row.blocks, row.rest
    );
    let output = String::from_utf8(read(kept.join("output"))).unwrap();
    let behind = output.strip_prefix(&said);
    // Behind the numbers stands the order, which the table does not have.
    assert!(
        behind.is_some_and(|order| row.verdict == "0" || order.is_empty()),
        "{row:?}: {output}"
    );
    let open = match &*row.verdict {
        "0" => left_open(&kept),
        _ => 0,
    };
    assert_eq!(row.open, open.to_string(), "{row:?}");
    let lines = read(kept.join("about"));
    for (field, key) in [
        (&row.time, "time"),
        (&row.sentence, "sentence"),
        (&row.version, "version"),
        (&row.library, "library"),
    ] {
        assert_eq!(field, &about(&lines, key), "{key}");
    }
}

/// The kept results with their inodes and times, by which one that was made again is seen.
pub fn kept(results: &Path) -> BTreeMap<PathBuf, String> {
    tree(&results.join("batches"))
}

/// What was kept before is there as it was: nothing was audited again.
#[track_caller]
pub fn check_stays(before: &BTreeMap<PathBuf, String>, results: &Path) {
    let after = kept(results);
    let lost = before
        .iter()
        .find(|(path, held)| after.get(*path) != Some(*held));
    assert!(lost.is_none(), "{lost:?} does not stay");
}

/// No half result is there; the next run keeps those that are, and completes the rest.
#[track_caller]
pub fn check_goes_on(spool: &Path, results: &Path) {
    check_kept_whole(spool, results);
    let before = kept(results);
    audit_all(spool, results).is(0);
    check_all_kept(spool, results);
    check_stays(&before, results);
}

/// Waits until a run has kept so many results, or has ended.
pub fn until_kept(child: &mut Child, results: &Path, number: usize) {
    while names_in(&results.join("batches")).len() < number && child.try_wait().unwrap().is_none() {
        thread::sleep(Duration::from_micros(500));
    }
}
