//! `teaselshears explain`: a verdict in words.

use crate::arguments::Given;
use crate::commands::Command;
use crate::help;
use crate::outcome::{print, NotRun, Status};
use crate::shown;
use crate::verdicts::{self, Verdict};
use std::os::unix::ffi::OsStrExt;

pub const COMMAND: Command = Command {
    name: "explain",
    flags: &[],
    help: help::EXPLAIN,
    run,
};

/// How wide a line of the explanation is.
const WIDTH: usize = 78;

fn run(given: &Given) -> Result<Status, NotRun> {
    let [word] = given.exactly("one verdict is")?;
    let found = verdicts::number(word.as_bytes()).and_then(verdicts::verdict);
    let verdict = found.ok_or_else(|| {
        let word = shown::name(word);
        NotRun(format!(
            "there is no verdict '{word}' ('--help' says which there are)"
        ))
    })?;
    print(explained(verdict).as_bytes())?;
    Ok(Status::Success)
}

fn explained(verdict: &Verdict) -> String {
    let line = match verdict.text {
        Some(text) => format!("Its line is one of {}.", text.file()),
        None => "It names no line.".to_owned(),
    };
    let parts = [
        format!("Verdict {}: {}.", verdict.number, verdict.rule),
        line,
        format!("Example: {}.", verdict.example),
        format!("What to do: {}", verdict.next),
    ];
    parts.map(|part| wrapped(&part)).concat()
}

/// A paragraph in lines of bounded width.
fn wrapped(text: &str) -> String {
    let mut lines = String::new();
    let mut width = 0;
    for word in text.split(' ') {
        let needed = word.chars().count();
        if width > 0 && width + 1 + needed > WIDTH {
            lines.push('\n');
            width = 0;
        } else if width > 0 {
            lines.push(' ');
            width += 1;
        }
        lines.push_str(word);
        width += needed;
    }
    lines.push('\n');
    lines
}
