//! Answers of the library that are no verdict with its bill and its order: the program says so, and never ends in status 0 or 1.
//!
//! The library is one that answers whatever the report says, so that the program over it is given every answer by its batch.

use crate::bill::WRONG_BILLS;
use crate::harness::{tests, Done, Skipped};
use crate::json::{only_object, text, Value};
use crate::room::{expected, names_in, root, Room};
use crate::run::{needs, Ended, Run};
use std::fs;
use std::path::{Path, PathBuf};
use std::process::Command;

tests![answers_that_are_not_understood];

/// The functions that the program calls, in C: what an audit prints is the report.
const LIBRARY: &str = "
#include <string.h>
size_t teaselshears_audit_text(const char *p, size_t pn, const char *t, size_t tn, const char *r, size_t rn, char *out, size_t n) {
  (void)p; (void)pn; (void)t; (void)tn;
  if (rn > n) return 0;
  memcpy(out, r, rn);
  return rn;
}
size_t teaselshears_record_text(const char *p, size_t pn, const char *s, size_t sn, char *out, size_t n) {
  (void)p; (void)pn; (void)s; (void)sn; (void)out; (void)n;
  return 0;
}
";

/// An answer that is one, of a refused batch.
const REFUSED: &str = "verdict=9\nline=0\nrequests=0\noperations=0\nblocks=0\nrest=0\n";

/// The program over that library.
fn built(room: &Room) -> Result<PathBuf, Skipped> {
    needs("cc")?;
    needs("ar")?;
    needs("rustc")?;
    let source = room.file("library.c", LIBRARY);
    let (object, program) = (room.path("library.o"), room.path("program"));
    let mut cc = Command::new("cc");
    cc.arg("-c").arg(source).arg("-o").arg(&object).end().is(0);
    let mut ar = Command::new("ar");
    ar.arg("rcs")
        .arg(room.path("libexport.a"))
        .arg(object)
        .end()
        .is(0);
    let mut rustc = Command::new("rustc");
    rustc.args([
        "--edition",
        "2021",
        "-C",
        "panic=abort",
        "-l",
        "static=export",
    ]);
    rustc.arg("-L").arg(room.path("")).arg("-o").arg(&program);
    for name in ["CARGO_PKG_VERSION", "LIBRARY_SUM", "LIBRARY_KIT"] {
        rustc.env(name, "none");
    }
    rustc.arg(root().join("cli/src/main.rs")).end().is(0);
    Ok(program)
}

/// A batch of case C whose report is an answer.
fn batch(room: &Room, answer: &str) -> PathBuf {
    let batch = room.batch("spool/batch", "case-c");
    fs::write(batch.join("report.txt"), answer).unwrap();
    batch
}

fn run(program: &Path, words: &[&str], folder: &Path) -> Ended {
    Command::new(program).args(words).arg(folder).end()
}

/// Every command says so of this answer, prints nothing and keeps nothing.
#[track_caller]
fn not_understood(room: &Room, program: &Path, answer: &str) {
    let folder = batch(room, answer);
    let words = "could not be run: the library's answer ";
    for command in ["audit", "order"] {
        let ended = run(program, &[command], &folder);
        assert_eq!(ended.status.code(), Some(2), "{answer:?}; {ended}");
        assert!(ended.printed("").sentence().starts_with(words), "{ended}");
    }
    let ended = run(program, &["audit", "--json"], &folder);
    let object = only_object(&ended.is(2).stdout);
    assert_eq!(object["state"], text("failed"), "{answer:?}");
    for key in ["verdict", "blocks", "rest", "order"] {
        assert_eq!(object[key], Value::Null, "{key} of {answer:?}");
    }
    let mut all = Command::new(program);
    all.arg("audit-all").arg(room.path("spool"));
    all.arg(room.path("results")).end().is(2);
    let kept = names_in(&room.path("results/batches"));
    assert!(kept.is_empty(), "{answer:?} is not kept");
}

/// Answers that have no verdict, or another order than there is.
fn wrong_orders(whole: &str) -> Vec<String> {
    vec![
        "".to_string(),
        "verdict=0\n".to_string(),
        "verdict=0\nline=0\nrequests=2\noperations=4\n".to_string(),
        "verdict=0\nline=0\nrequests=2\noperations=4\nblocks=0\nrest=4\n".to_string(),
        format!("{whole}garbage"),
        format!("{whole}garbage\n"),
        format!("{whole}\n"),
        format!("{whole}event=5\n"),
        whole.replace("event=4\n", ""),
        whole.replace("event=4\n", "event=4"),
        whole.replace("event=4\n", "event=04\n"),
        whole.replace("event=3\nevent=4\n", "event=4\nevent=3\n"),
        whole.replace("op=2,1\n", "op=2,1,0\n"),
        whole.replace("op=2,1\n", "reply=2,1\n"),
        whole.replace("op=2,1\n", ""),
        whole.replace("verdict=0\n", "verdict=9\n"),
        format!("{REFUSED}event=1\n"),
        format!("{REFUSED}\n"),
    ]
}

/// Answers whose bill is missing, is not whole or does not add up.
fn wrong_bills(whole: &str) -> Vec<String> {
    let bill = |lines: &str| whole.replace("blocks=0\nrest=4\n", lines);
    let others = [
        bill(""),
        // A hundred times 2^62 is 0 modulo 2^64.
        bill("blocks=4611686018427387904\nrest=4\n"),
        bill("blocks=18446744073709551615\nrest=18446744073709551615\n"),
        REFUSED.replace("blocks=0\nrest=0\n", ""),
        REFUSED.replace("rest=0\n", ""),
        REFUSED.replace("rest=0\n", "rest=4\n"),
        REFUSED.replace("blocks=0\n", "blocks=1\n"),
        REFUSED
            .replace("operations=0\n", "operations=4\n")
            .replace("rest=0\n", "rest=4\n"),
    ];
    WRONG_BILLS.map(bill).into_iter().chain(others).collect()
}

/// One test, since the program is built for it.
fn answers_that_are_not_understood(room: &Room) -> Done {
    let program = built(room)?;
    let whole = String::from_utf8(expected("case-c")).unwrap();
    // An answer that is one goes through.
    let ended = run(&program, &["audit"], &batch(room, &whole));
    ended.is(0).printed(&whole);
    let ended = run(&program, &["audit"], &batch(room, REFUSED));
    ended.is(1).printed(REFUSED);
    for answer in [wrong_orders(&whole), wrong_bills(&whole)].concat() {
        not_understood(room, &program, &answer);
    }
    // The report has no log line, so no operation can be told.
    let ended = run(&program, &["order"], &batch(room, &whole));
    ended.could_not("the library's order names an operation that has no log line");
    Ok(())
}
