//! How a command ends, and what it says to a person and prints for a program.

use crate::system;
use std::fs::File;
use std::io::{self, Write};
use std::os::fd::AsFd;
use std::process::ExitCode;

/// The exit status; of several batches the last in this order counts.
#[derive(Clone, Copy, Debug, PartialEq, Eq, PartialOrd, Ord)]
pub enum Status {
    Success,
    /// Accepted, but with nothing in it, or with requests left open where that was asked about.
    Incomplete,
    Refused,
    NotRun,
}

impl From<Status> for ExitCode {
    fn from(status: Status) -> ExitCode {
        ExitCode::from(match status {
            Status::Success => 0,
            Status::Refused => 1,
            Status::NotRun => 2,
            Status::Incomplete => 3,
        })
    }
}

/// Why something could not be run.
#[derive(Debug)]
pub struct NotRun(pub String);

impl NotRun {
    pub fn new(why: &str) -> NotRun {
        NotRun(why.to_owned())
    }

    pub fn sentence(&self) -> String {
        format!("could not be run: {}", self.0)
    }
}

/// One line on standard error. A person may not be listening, so it may fail.
pub fn say(sentence: &str) {
    let _ = io::stderr().write_all(format!("teaselshears: {sentence}\n").as_bytes());
}

/// Standard output as a file, which does not pass over a write that failed as the standard library's own does.
pub fn standard_output() -> Result<File, NotRun> {
    if system::output_was_closed() {
        return Err(not_written(&"it is closed"));
    }
    let copy = io::stdout().as_fd().try_clone_to_owned();
    copy.map(File::from).map_err(|why| not_written(&why))
}

pub fn print_to(output: &mut impl Write, bytes: &[u8]) -> Result<(), NotRun> {
    output.write_all(bytes).map_err(|why| not_written(&why))
}

pub fn print(bytes: &[u8]) -> Result<(), NotRun> {
    print_to(&mut standard_output()?, bytes)
}

fn not_written(why: &dyn std::fmt::Display) -> NotRun {
    NotRun(format!("standard output cannot be written: {why}"))
}

/// A number with its noun.
pub fn count(number: u64, noun: &str) -> String {
    match number {
        1 => format!("1 {noun}"),
        _ => format!("{number} {noun}s"),
    }
}
