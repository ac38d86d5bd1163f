//! Names of every sort in a spool: each batch is kept under its own, and table, list and JSON say which it is.

use crate::csv;
use crate::harness::{tests, Done, Skipped};
use crate::json::{objects, text, Value};
use crate::results::{batches, check_all_kept, rows, shown, HEADING};
use crate::room::{copy_folder, example, names_in, read, Room};
use crate::run::{audit_all, needs, program, Ended, Run};
use std::collections::BTreeSet;
use std::ffi::{OsStr, OsString};
use std::os::unix::ffi::{OsStrExt, OsStringExt};
use std::path::{Path, PathBuf};
use std::process::Command;

tests![
    names_are_kept_and_shown,
    names_as_promised,
    no_cell_is_a_formula,
    names_in_lists,
    names_in_json,
    the_table_as_python_reads_it,
    json_as_python_reads_it,
];

/// Names that a shell, a terminal or a reader of the table could take for something else.
const NAMES: [&[u8]; 31] = [
    b"-dash",
    b"--jobs",
    b"--",
    b"-0",
    b"two words",
    b" blank ",
    b"tab\tname",
    b"line\nfeed",
    b"carriage\rreturn",
    b"\\back",
    b"\\x41",
    b"\\",
    b"*",
    b"?[a]",
    b"escape\x1b[31m",
    b"bell\x07",
    b"delete\x7f",
    b"$HOME",
    b"it's",
    b"say \"x\"",
    b"\"",
    b"a,b",
    b",",
    b"=1+1",
    b"#",
    b"~",
    "K\u{e4}se".as_bytes(),
    "\u{65e5}\u{672c}".as_bytes(),
    "next\u{85}line".as_bytes(),
    "turned\u{202e}txt".as_bytes(),
    b"not \xff utf-8 \xc3",
];

/// A spool of one refused batch under each of the names, and under one that is as long as a name may be.
fn spool_of_names(room: &Room) -> PathBuf {
    let spool = room.folder("spool");
    let longest = [b'n'; 255];
    for name in NAMES.into_iter().chain([&longest[..]]) {
        copy_folder(&example("case-b"), &spool.join(OsStr::from_bytes(name)));
    }
    assert_eq!(batches(&spool).len(), 32);
    spool
}

fn names_are_kept_and_shown(room: &Room) -> Done {
    let (spool, results) = (spool_of_names(room), room.path("results"));
    for run in 0..2 {
        let ended = audit_all(&spool, &results);
        ended
            .is(1)
            .said_part("of 32 in the spool: 0 accepted, 32 refused, 0 changed, 0 failed");
        check_all_kept(&spool, &results);
        let said = ended.said();
        assert_eq!(said.len(), 33, "run {run}: a line for each and the counts");
        for name in batches(&spool) {
            let line = format!(
                "{}: refused, verdict 9 (the order returns to itself)",
                shown(&name)
            );
            assert!(
                said.iter().any(|l| l.eq_ignore_ascii_case(&line)),
                "{line}; {ended}"
            );
        }
        let harmless = |c: char| c == '\n' || !c.is_control();
        assert!(
            String::from_utf8(ended.stderr)
                .unwrap()
                .chars()
                .all(harmless),
            "nothing for a terminal"
        );
    }
    Ok(())
}

/// Some of the names to the letter, so that `shown` is not taken at its word.
fn names_as_promised(room: &Room) -> Done {
    let (spool, results) = (spool_of_names(room), room.path("results"));
    audit_all(&spool, &results).is(1);
    let names: BTreeSet<String> = rows(&results).into_iter().map(|row| row.batch).collect();
    for name in [
        "\\x2ddash",
        "\\x3d1+1",
        "two words",
        "K\u{e4}se",
        "\u{65e5}\u{672c}",
        "say \"x\"",
        "a,b",
        "it's",
        "$HOME",
        "tab\\x09name",
        "\\\\back",
        "\\\\x41",
        "escape\\x1b[31m",
        "next\\xc2\\x85line",
        "turned\\xe2\\x80\\xaetxt",
        "not \\xff utf-8 \\xc3",
    ] {
        let found = names.iter().any(|shown| shown.eq_ignore_ascii_case(name));
        assert!(found, "{name} is in {names:?}");
    }
    Ok(())
}

/// A spreadsheet takes what begins with one of four characters for a formula, between quotes too.
fn no_cell_is_a_formula(room: &Room) -> Done {
    let (spool, results) = (spool_of_names(room), room.path("results"));
    for name in ["+1", "@SUM(1)", "=cmd|'-C calc'!A0", "-2+3,4", "=\"1\""] {
        copy_folder(&example("case-b"), &spool.join(name));
    }
    audit_all(&spool, &results).is(1);
    let table = csv::records(&read(results.join("table.csv")));
    assert_eq!(table.len(), 38);
    for field in table.iter().flatten() {
        assert!(!field.starts_with(['=', '+', '-', '@']), "{field}");
    }
    let names: BTreeSet<&str> = table.iter().map(|record| &*record[0]).collect();
    assert_eq!(names.len(), 38, "no two look alike");
    Ok(())
}

/// What --list refused prints, with this option or none.
fn list(option: Option<&str>, spool: &Path, results: &Path) -> Vec<u8> {
    let mut program = program("audit-all");
    program
        .args(["--list", "refused"])
        .args(option)
        .arg(spool)
        .arg(results);
    program.end().is(1).stdout.clone()
}

fn names_in_lists(room: &Room) -> Done {
    let (spool, results) = (spool_of_names(room), room.path("results"));
    let ended_by_zero = list(Some("-0"), &spool, &results);
    let name = |bytes: &[u8]| OsString::from_vec(bytes.to_vec());
    let names: BTreeSet<OsString> = ended_by_zero
        .split(|b| *b == 0)
        .map(name)
        .filter(|n| !n.is_empty())
        .collect();
    assert_eq!(names, names_in(&spool), "as they are");
    assert_eq!(ended_by_zero.iter().filter(|b| **b == 0).count(), 32);
    let lines = String::from_utf8(list(None, &spool, &results)).expect("UTF-8");
    let lines: BTreeSet<String> = lines
        .split_terminator('\n')
        .map(str::to_ascii_lowercase)
        .collect();
    let wanted = batches(&spool)
        .iter()
        .map(|name| shown(name).to_ascii_lowercase())
        .collect();
    assert_eq!(lines, wanted, "each as it is shown");
    Ok(())
}

/// A name in JSON: as it is, or a list of its bytes where it is not UTF-8.
fn in_json(name: &OsStr) -> Value {
    let bytes = Value::Bytes(name.as_bytes().to_vec());
    name.to_str().map_or(bytes, text)
}

/// The spool of names, and a run over it that prints objects.
fn names_as_objects(room: &Room) -> (PathBuf, Ended) {
    let (spool, results) = (spool_of_names(room), room.path("results"));
    let mut program = program("audit-all");
    let ended = program.arg("--json").arg(&spool).arg(&results).end();
    (spool, ended)
}

fn names_in_json(room: &Room) -> Done {
    let (spool, ended) = names_as_objects(room);
    let objects = objects(&ended.is(1).stdout);
    assert_eq!(objects.len(), 32);
    for name in batches(&spool) {
        let mut found = objects
            .iter()
            .filter(|object| object["batch"] == in_json(&name));
        let object = found
            .next()
            .unwrap_or_else(|| panic!("no object for {name:?}; {ended}"));
        assert_eq!(object["verdict"], Value::Number(9));
        assert!(found.next().is_none(), "one object for {name:?}");
    }
    Ok(())
}

/// What a script of Python prints, which is given a file.
fn python(script: &str, file: &Path) -> Result<String, Skipped> {
    needs("python3")?;
    let ended = Command::new("python3")
        .args(["-c", script])
        .arg(file)
        .env("PYTHONUTF8", "1")
        .end();
    Ok(ended.is(0).text())
}

/// Python's default reader finds the same fields; they are written back with a tab and a zero byte, which no field has.
fn the_table_as_python_reads_it(room: &Room) -> Done {
    let (spool, results) = (spool_of_names(room), room.path("results"));
    audit_all(&spool, &results).is(1);
    let script = "import csv, sys\n\
        for row in csv.reader(open(sys.argv[1], newline='')):\n\
        \x20   print('\\t'.join(row), end='\\0')";
    let read = python(script, &results.join("table.csv"))?;
    let mut records = read
        .split_terminator('\0')
        .map(|row| row.split('\t').collect::<Vec<_>>());
    assert_eq!(records.next().unwrap(), HEADING);
    let own = rows(&results);
    let firsts: Vec<[&str; 3]> = records.map(|r| [r[0], r[1], r[9]]).collect();
    let wanted: Vec<[&str; 3]> = own
        .iter()
        .map(|r| [&*r.batch, &*r.state, &*r.sentence])
        .collect();
    assert_eq!(firsts, wanted);
    Ok(())
}

fn json_as_python_reads_it(room: &Room) -> Done {
    let (spool, ended) = names_as_objects(room);
    let file = room.file("objects", &ended.is(1).stdout);
    let script = "import json, sys\n\
        for line in open(sys.argv[1], encoding='utf-8', newline='\\n'):\n\
        \x20   name = json.loads(line)['batch']\n\
        \x20   print(bytes(name if type(name) is list else name.encode()).hex())";
    let read = python(script, &file)?;
    let hex = |name: OsString| name.as_bytes().iter().map(|b| format!("{b:02x}")).collect();
    let wanted: BTreeSet<String> = batches(&spool).into_iter().map(hex).collect();
    let found: BTreeSet<String> = read.lines().map(String::from).collect();
    assert_eq!(found, wanted);
    Ok(())
}
